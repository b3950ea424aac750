#!/usr/bin/env python3
"""Writes what was measured: a table to the terminal, bench/results.txt, docs/speed.svg and the figures of docs/SPEED.md.

    report.py FIGURES.json      once more from figures that measure.py has written

A ratio is the other side's time by the engine's: above 1 the engine is faster.
"""
import json
import re
import sys
from pathlib import Path

import chart

ROOT = Path(__file__).resolve().parent.parent

FORMS = {"poly": "polynomial basis", "long": "long tower", "short": "short tower"}
WHATS = {
    "product": "product",
    "product-side-by-side": "product, four side by side",
    "square": "square",
    "inverse": "inverse",
    "encode": "encode, values may overlap",
    "decode": "decode",
    "check-64": "check of a ticket, body of 64 bytes",
    "shift": "whole shift of 49152 bytes",
}
SIDES = {"rust": "plain Rust", "flint": "FLINT", "ntl": "NTL", "hmac": "HMAC", "hmac-one-call": "HMAC, one call"}
LENGTHS = [2, 22, 44, 88, 132, 176, 220, 264, 308, 352, 396, 440]
ALLOWED_OVER_RUST = 1.2


class Figures:
    def __init__(self, raw):
        self.about, self.versions = raw["about"], raw["versions"]
        self.times = {tuple(key.split("\t")): value for key, value in raw["times"].items()}
        self.counts = {tuple(key.split("\t")): value for key, value in raw["counts"].items()}

    def time(self, row, side="engine"):
        """The nanoseconds of a side; the libraries have rows of the field, and OpenSSL rows of the bytes."""
        what, form = row.split(" ")
        if side in ("flint", "ntl"):
            row = f"{what} {re.sub('poly|long', 'field', form)}"
        elif side.startswith("hmac"):
            row = f"{what} bytes"
        return self.times.get((row, side))

    def ratio(self, row, side):
        other = self.time(row, side)
        return other / self.time(row) if other else None

    def rows(self):
        return [row for row, side in self.times if side == "engine"]

    def main_rows(self):
        """Those of the large table: the eight-coefficient forms, three lengths of tags, the check and the shift."""
        shown = re.compile(r"(product|product-side-by-side|square|inverse|encode|decode|tag-(2|64|440)|check-64|shift) (poly|long)-")
        return [row for row in self.rows() if shown.match(row)]


def title(row):
    what, form = row.split(" ")
    kind, modulus = form.split("-")
    tag = re.match(r"tag-(\d+)$", what)
    name = f"tag of {tag[1]} bytes" if tag else WHATS[what]
    return name, f"{FORMS[kind]} {modulus}"


def shown(nanoseconds):
    if nanoseconds is None:
        return "–"
    if nanoseconds < 100:
        return f"{nanoseconds:.1f}"
    return f"{nanoseconds:,.0f}".replace(",", " ")


def shown_count(count):
    return "–" if count is None else f"{round(count):,}".replace(",", " ")


def shown_ratio(ratio):
    return "–" if ratio is None else f"{ratio:.2f}" if ratio < 10 else f"{ratio:.1f}"


def main_table(figures):
    head = ["operation", "form", "engine ns", "instructions", *SIDES.values()]
    body = []
    for row in figures.main_rows():
        ratios = [shown_ratio(figures.ratio(row, side)) for side in SIDES]
        body.append([*title(row), shown(figures.time(row)), shown_count(figures.counts.get((row, "engine"))), *ratios])
    return [head, *body]


def targets(figures):
    """Each target: what is wanted, the ratio that was measured, and whether it is met; None where it was not measured."""
    product, inverse, tag = "product poly-4093", "inverse poly-4093", "tag-440 poly-4093"
    in_products = figures.time(inverse) / figures.time(product)
    slow = {row: 1 / figures.ratio(row, "rust") for row in figures.rows()}
    worst = max(slow, key=slow.get)
    at_least = lambda ratio, wanted: None if ratio is None else ratio >= wanted
    return [
        ("product at 4093 at least 7 times as fast as FLINT's", figures.ratio(product, "flint"),
         at_least(figures.ratio(product, "flint"), 7)),
        ("inverse at 4093 at least 8 times as fast as FLINT's", figures.ratio(inverse, "flint"),
         at_least(figures.ratio(inverse, "flint"), 8)),
        ("inverse at 4093 in the time of at most 10 products", in_products, in_products <= 10),
        ("tag of 440 bytes at 4093 in no more time than HMAC-SHA256, its key set before", figures.ratio(tag, "hmac"),
         at_least(figures.ratio(tag, "hmac"), 1)),
        ("nowhere over 1.2 times the time of plain Rust; the worst is " + ", ".join(title_of_any(worst)), slow[worst],
         slow[worst] <= ALLOWED_OVER_RUST),
    ]


def title_of_any(row):
    """Also of rows that are not in the large table."""
    what, form = row.split(" ")
    if form.startswith("height"):
        return what, f"tower of height {form[6]} {form.split('-')[1]}"
    return title(row)


def target_table(figures):
    verdict = {True: "yes", False: "no", None: "not measured"}
    return [["target", "ratio", "met"], *([what, shown_ratio(ratio), verdict[met]] for what, ratio, met in targets(figures))]


def over_rust(figures):
    """The rows that take over 1.2 times the time of plain Rust; of tags, three lengths stand for all."""
    told = [row for row in figures.rows() if not row.startswith("tag") or re.match("tag-(2|64|440) ", row)]
    rows = [(1 / figures.ratio(row, "rust"), row) for row in told]
    slow = sorted((pair for pair in rows if pair[0] > ALLOWED_OVER_RUST), reverse=True)
    return [["operation", "form", "engine by plain Rust"], *([*title_of_any(row), shown_ratio(ratio)] for ratio, row in slow)]


def length_table(figures):
    sides = [("poly-4093", "engine"), ("long-4093", "engine"), ("short-4093", "engine"), ("poly-4093", "rust"),
             ("poly-4093", "hmac")]
    head = ["bytes of the body", "polynomial basis", "long tower", "short tower", "plain Rust, polynomial", "HMAC"]
    return [head, *([str(length), *(shown(figures.time(f"tag-{length} {form}", side)) for form, side in sides)]
                    for length in LENGTHS)]


def height_table(figures):
    forms = {"height 0, a coefficient": "height0-4093", "height 1, short tower": "short-4093", "height 2": "height2-4093",
             "height 3, long tower": "long-4093", "polynomial basis": "poly-4093"}
    head = ["field at 4093", "coefficients", "product ns", "instructions", "inverse ns", "instructions", "inverse by product"]
    body = []
    for (name, form), coefficients in zip(forms.items(), (1, 2, 4, 8, 8)):
        product, inverse = figures.time(f"product {form}"), figures.time(f"inverse {form}")
        counts = [shown_count(figures.counts.get((f"{what} {form}", "engine"))) for what in ("product", "inverse")]
        body.append([name, str(coefficients), shown(product), counts[0], shown(inverse), counts[1],
                     shown_ratio(inverse / product)])
    return [head, *body]


def line_through(points):
    """Fixed cost and cost of each step, by least squares."""
    n = len(points)
    mx, my = sum(x for x, _ in points) / n, sum(y for _, y in points) / n
    slope = sum((x - mx) * (y - my) for x, y in points) / sum((x - mx) ** 2 for x, _ in points)
    return my - slope * mx, slope


def growth(figures):
    """How a tag's cost grows, in words."""
    words = []
    for form, size in (("poly-4093", 11), ("long-4093", 11), ("short-4093", 2)):
        blocks = [(-(-length // size) + 1, figures.time(f"tag-{length} {form}")) for length in LENGTHS]
        fixed, step = line_through(blocks)
        words.append(f"{FORMS[form.split('-')[0]]}: {shown(step)} ns for each block of {size} bytes, "
                     f"the length block too, and {shown(fixed)} ns besides")
    return words


def about_table(figures):
    return [["", ""], *([key, value] for key, value in {**figures.about, **figures.versions}.items())]


def plain(table):
    """A table for the terminal."""
    widths = [max(len(line[k]) for line in table) for k in range(len(table[0]))]
    numbers = [all(re.fullmatch("[0-9 .–]*", line[k]) for line in table[1:]) for k in range(len(widths))]
    cell = lambda text, k: text.rjust(widths[k]) if numbers[k] else text.ljust(widths[k])
    return "\n".join("  ".join(cell(text, k) for k, text in enumerate(line)).rstrip() for line in table)


def markdown(table):
    head, *body = table
    return "\n".join(["| " + " | ".join(line) + " |" for line in [head]] + ["|" + "---|" * len(head)]
                     + ["| " + " | ".join(line) + " |" for line in body])


def text(figures):
    """All of it, for the terminal and results.txt."""
    note = ("A ratio is the other side's time by the engine's: above 1 the engine is faster. "
            "FLINT and NTL compute in the same field, whatever the form.")
    parts = [plain(about_table(figures)[1:]), note, plain(main_table(figures)), "Targets\n\n" + plain(target_table(figures))]
    if len(over_rust(figures)) > 1:
        parts.append("Over 1.2 times the time of plain Rust\n\n" + plain(over_rust(figures)))
    parts += ["Tags by length, in ns\n\n" + plain(length_table(figures)), "\n".join(growth(figures)),
              "Fields by height\n\n" + plain(height_table(figures))]
    return "\n\n".join(parts) + "\n"


def all_figures(figures):
    table = [["row", "side", "ns", "instructions"]]
    for (row, side), nanoseconds in figures.times.items():
        count = figures.counts.get((row, side))
        table.append([row, side, f"{nanoseconds:.2f}", "" if count is None else f"{count:.1f}"])
    return "All figures\n\n" + plain(table) + "\n"


def put(document, name, part):
    """The document with another text between the marks of a name."""
    pattern = re.compile(rf"(<!-- {name} -->\n).*?(<!-- end -->)", re.S)
    if not pattern.search(document):
        sys.exit(f"bench: docs/SPEED.md has no marks for {name}")
    return pattern.sub(lambda found: f"{found[1]}\n{part}\n\n{found[2]}", document)


def write_document(figures):
    path = ROOT / "docs/SPEED.md"
    slow = over_rust(figures)
    parts = {
        "about": markdown(about_table(figures)),
        "targets": markdown(target_table(figures)),
        "over": markdown(slow) if len(slow) > 1 else "None.",
        "table": markdown(main_table(figures)),
        "lengths": markdown(length_table(figures)),
        "growth": "\n".join("- " + words for words in growth(figures)),
        "heights": markdown(height_table(figures)),
    }
    document = path.read_text()
    for name, part in parts.items():
        document = put(document, name, part)
    path.write_text(document)


def write(raw):
    figures = Figures(raw)
    print(text(figures))
    (ROOT / "bench/results.txt").write_text(text(figures) + "\n" + all_figures(figures))
    (ROOT / "docs/speed.svg").write_text(chart.svg(figures, LENGTHS))
    write_document(figures)


if __name__ == "__main__":
    write(json.loads(Path(sys.argv[1]).read_text()))
