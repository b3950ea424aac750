#!/usr/bin/env python3
"""Lists runs of lines that stand twice under crates/, in sources, definitions and proofs.

A line counts without its indent; blank lines, comments, imports and lines of brackets alone are passed over.
Usage: tools/repeats.py [LINES], run at the top of the repository; a run has LINES lines or more, 6 if none are given.
"""
import pathlib
import re
import sys

THIN = re.compile(r"[\[\](){},;|]*$")


def lines_of(path):
    kept = []
    for number, line in enumerate(path.read_text().splitlines(), 1):
        text = line.strip()
        if THIN.match(text) or text.startswith(("//", "--", "use ", "ghost use ", "pub use ", "mod ")):
            continue
        kept.append((number, text))
    return kept


def runs(files, least):
    places = {}
    for name, lines in files.items():
        for start in range(len(lines) - least + 1):
            key = tuple(text for _, text in lines[start : start + least])
            places.setdefault(key, []).append((name, start))
    seen = set()
    for here in sorted(places.values()):
        for i, (a, x) in enumerate(here):
            for b, y in here[i + 1 :]:
                if (a, x, b, y) in seen or (a == b and y - x < least):
                    continue
                length = 0
                while (
                    x + length < len(files[a])
                    and y + length < len(files[b])
                    and files[a][x + length][1] == files[b][y + length][1]
                ):
                    seen.add((a, x + length, b, y + length))
                    length += 1
                yield length, a, files[a][x][0], files[a][x + length - 1][0], b, files[b][y][0], files[b][y + length - 1][0]


def main():
    least = int(sys.argv[1]) if len(sys.argv) > 1 else 6
    found = sorted(p for end in ("rt", "antt") for p in pathlib.Path("crates").glob(f"*/[sp]*/**/*.{end}"))
    files = {str(p): lines_of(p) for p in found if p.name != "tables.rt"}
    rows = sorted(runs(files, least), reverse=True)
    for length, a, a1, a2, b, b1, b2 in rows:
        print(f"{length} lines: {a}:{a1}-{a2} ~ {b}:{b1}-{b2}")
    print(f"{len(rows)} runs of {least} lines or more, in {len(files)} files")


main()
