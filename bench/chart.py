"""The chart of docs/SPEED.md: what a tag costs by the length of the body, and products and inverses beside the libraries."""
import math

WIDTH, HEIGHT = 760, 330
STYLE = """
  text { font: 12px sans-serif; fill: #333; }
  .axis { stroke: #888; stroke-width: 1; }
  .grid { stroke: #888; stroke-width: 0.5; opacity: 0.35; }
  .s0 { stroke: #1f78c8; fill: #1f78c8; } .s1 { stroke: #c8611f; fill: #c8611f; }
  .s2 { stroke: #3f9142; fill: #3f9142; } .s3 { stroke: #9a5fc0; fill: #9a5fc0; }
  polyline { stroke-width: 2; fill: none !important; }
  @media (prefers-color-scheme: dark) { text { fill: #ddd; } }
"""
# Of the left part: the class of the line, its row and side, its name.
LINES = [("s0", "poly-4093", "engine", "engine, polynomial basis"), ("s1", "long-4093", "engine", "engine, long tower"),
         ("s2", "poly-4093", "rust", "plain Rust, polynomial basis"), ("s3", "poly-4093", "hmac", "HMAC-SHA256")]
BARS = [("s0", "engine", "engine"), ("s2", "rust", "plain Rust"), ("s1", "flint", "FLINT"), ("s3", "ntl", "NTL")]


def text(x, y, words, anchor="start"):
    return f'<text x="{x:.0f}" y="{y:.0f}" text-anchor="{anchor}">{words}</text>'


def line(kind, x1, y1, x2, y2):
    return f'<line class="{kind}" x1="{x1:.0f}" y1="{y1:.0f}" x2="{x2:.0f}" y2="{y2:.0f}"/>'


def powers_of_ten(values):
    return range(math.floor(math.log10(min(values))), math.ceil(math.log10(max(values))) + 1)


def tags(figures, lengths):
    """Lines over the length of the body; each step up is ten times the time."""
    left, right, top, bottom = 60, 360, 40, 230
    values = {entry: [figures.time(f"tag-{length} {entry[1]}", entry[2]) for length in lengths] for entry in LINES}
    values = {entry: row for entry, row in values.items() if None not in row}
    decades = powers_of_ten([value for row in values.values() for value in row])
    x = lambda length: left + (right - left) * length / max(lengths)
    y = lambda value: bottom - (bottom - top) * (math.log10(value) - decades[0]) / (decades[-1] - decades[0])
    parts = [text(left, 20, "A tag, ns, by bytes of the body (4093)")]
    for decade in decades:
        parts += [line("grid", left, y(10 ** decade), right, y(10 ** decade)),
                  text(left - 6, y(10 ** decade) + 4, f"{10 ** decade:g}", "end")]
    for length in (0, 110, 220, 330, 440):
        parts.append(text(x(length), bottom + 18, str(length), "middle"))
    parts += [line("axis", left, bottom, right, bottom), line("axis", left, top, left, bottom)]
    for number, ((kind, _, _, name), row) in enumerate(values.items()):
        points = " ".join(f"{x(length):.1f},{y(value):.1f}" for length, value in zip(lengths, row))
        place = bottom + 38 + 16 * number
        parts += [f'<polyline class="{kind}" points="{points}"/>',
                  f'<rect class="{kind}" x="{left}" y="{place - 6}" width="14" height="3"/>', text(left + 22, place, name)]
    return parts


def fields(figures):
    """Bars of products and inverses; the scale is by powers of ten."""
    left, right, top = 480, 700, 40
    rows = [(what, *bar) for what in ("product", "inverse") for bar in BARS]
    rows = [row for row in rows if figures.time(f"{row[0]} poly-4093", row[2])]
    time = lambda what, side: figures.time(f"{what} poly-4093", side)
    decades = powers_of_ten([1] + [time(what, side) for what, _, side, _ in rows])
    x = lambda value: left + (right - left) * (math.log10(value) - decades[0]) / (decades[-1] - decades[0])
    parts, place, before = [text(left - 70, 20, "Polynomial basis at 4093, ns")], top, ""
    for what, kind, side, name in rows:
        if what != before:
            place += 18
            parts.append(text(left - 70, place, what))
            place, before = place + 8, what
        value = time(what, side)
        parts += [f'<rect class="{kind}" x="{left}" y="{place}" width="{x(value) - left:.1f}" height="13"/>',
                  text(left - 6, place + 11, name, "end"), text(x(value) + 6, place + 11, f"{value:.0f}")]
        place += 19
    parts.append(line("axis", left, top, left, place))
    for decade in decades:
        parts += [line("grid", x(10 ** decade), top, x(10 ** decade), place),
                  text(x(10 ** decade), place + 16, f"{10 ** decade:g}", "middle")]
    return parts


def svg(figures, lengths):
    body = "\n".join(tags(figures, lengths) + fields(figures))
    return (f'<svg xmlns="http://www.w3.org/2000/svg" viewBox="0 0 {WIDTH} {HEIGHT}" width="{WIDTH}" height="{HEIGHT}" '
            f'role="img" aria-label="Speed of the engine">\n<style>{STYLE}</style>\n{body}\n</svg>\n')
