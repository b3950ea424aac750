#!/usr/bin/env python3
"""Runs the programs that bench/run has built, in turn and several times, and keeps the best time of each figure.

    measure.py FOLDER ROUNDS

Then it counts instructions with callgrind, where that is installed, and hands the figures to report.py.
"""
import json
import os
import re
import shutil
import subprocess
import sys
import tempfile
import time
from pathlib import Path

import report

PROGRAMS = {"rust": ["rust", "time"], "flint": ["flint"], "ntl": ["ntl"], "openssl": ["openssl"]}


def lines_of(folder, words):
    done = subprocess.run([folder / words[0], *words[1:]], capture_output=True, text=True)
    if done.returncode != 0:
        sys.exit(f"bench: {words[0]} ended with status {done.returncode}: {done.stderr.strip()}")
    return [line.split("\t") for line in done.stdout.splitlines()]


def measure(folder, rounds):
    """The best nanoseconds of each (row, side), the results of each, and the versions of the rivals."""
    times, results, versions = {}, {}, {}
    for number in range(rounds):
        print(f"bench: round {number + 1} of {rounds}", file=sys.stderr)
        for name, words in PROGRAMS.items():
            if not (folder / name).exists():
                continue
            for words_of_line in lines_of(folder, words):
                if words_of_line[0] == "version":
                    versions[words_of_line[1]] = words_of_line[2]
                    continue
                row, side, nanoseconds, result = words_of_line
                times[row, side] = min(float(nanoseconds), times.get((row, side), float("inf")))
                results[row, side] = result
    return times, results, versions


def compare(results):
    """Every rival must have computed what the engine computed."""
    for (row, side), result in results.items():
        what, form = row.split(" ")
        if not form.startswith("field-"):
            continue
        for ours in ("poly", "long"):
            expected = results.get((f"{what} {form.replace('field', ours)}", "engine"))
            if expected is not None and expected != result:
                sys.exit(f"bench: {row}: {side} computed something else than the engine")


def total(path):
    found = re.search(r"^(?:totals|summary): (\d+)", path.read_text(), re.M)
    return int(found[1]) if found else 0


def count(folder):
    """The instructions of one operation for each (row, side) of the engine and the plain Rust, or nothing without callgrind.

    Callgrind writes a file at each return from the function `counted`, which is called twice for a row and a side:
    with few turns and with more. The difference is that of the turns alone."""
    if not shutil.which("valgrind"):
        return {}
    print("bench: counting instructions", file=sys.stderr)
    with tempfile.TemporaryDirectory() as place:
        out = Path(place) / "count"
        words = ["valgrind", "--tool=callgrind", "--toggle-collect=counted", "--dump-after=counted",
                 f"--callgrind-out-file={out}", folder / "rust", "count"]
        done = subprocess.run(words, capture_output=True, text=True)
        if done.returncode != 0:
            print(f"bench: callgrind failed: {done.stderr.strip()[-300:]}", file=sys.stderr)
            return {}
        counts = {}
        for number, line in enumerate(done.stdout.splitlines()):
            row, side, operations = line.split("\t")
            few, more = (total(Path(f"{out}.{2 * number + k}")) for k in (1, 2))
            counts[row, side] = (more - few) / int(operations)
        return counts


def first_line(*words):
    try:
        return subprocess.run(words, capture_output=True, text=True).stdout.split("\n")[0].strip()
    except FileNotFoundError:
        return ""


def machine():
    text = Path("/proc/cpuinfo").read_text()
    field = lambda name: (re.search(rf"^{name}\s*: (.*)$", text, re.M) or ["", "unknown"])[1]
    flags = field("flags").split()
    return {
        "processor": f"{field('model name')}, family {field('cpu family')} model {field('model')}, {os.cpu_count()} cores",
        "instructions for SHA-256": "yes" if "sha_ni" in flags else "no",
        "system": " ".join((os.uname().sysname, os.uname().release, os.uname().machine)),
    }


def main():
    folder, rounds = Path(sys.argv[1]), int(sys.argv[2])
    load = os.getloadavg()[0]
    times, results, versions = measure(folder, rounds)
    compare(results)
    counts = count(folder)
    versions = {"kit": first_line("rt", "version"), "rustc": first_line("rustc", "--version"), **versions}
    about = {
        "date": time.strftime("%Y-%m-%d %H:%M UTC", time.gmtime()),
        **machine(),
        "load at the start and the end": f"{load:.1f} and {os.getloadavg()[0]:.1f}",
        "rounds": f"{rounds}, in each the best of 40 runs of 0.15 ms or more",
    }
    flat = lambda figures: {"\t".join(key): value for key, value in figures.items()}
    figures = {"about": about, "versions": versions, "times": flat(times), "counts": flat(counts)}
    (folder / "figures.json").write_text(json.dumps(figures, indent=1) + "\n")
    report.write(figures)


if __name__ == "__main__":
    main()
