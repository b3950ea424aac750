#!/usr/bin/env python3
"""Respells the names that specs/ and proofs/ of this repository define: once, after the kit's own port.

Words get underscores (`block-size` becomes `block_size`), types and facts camel case (`Just-one-inverse` becomes
`JustOneInverse`), a prime is an apostrophe. Functions of src/, strings, goals and names of libraries stay.
It goes by words: a step of a proof, or a word of a comment, that is spelled like a definition is respelled too, and was
mended by hand.

usage: python3 tools/respell.py [--try]     at the top of the repository; --try only lists what would be renamed
"""

import os
import re
import sys

LETTER = r"A-Za-z0-9_'′\-₀-₉ₐ-ₜ⁰-⁹ͰͲ-Ͽℕℤ"
TOKEN = re.compile(rf"[{LETTER}]+")
MARKS = r"(?:pub |abbrev |unfoldable |record |data )*"
# `NAME NAME .. (ARGUMENTS) : TYPE`, at the beginning of a line or after `let`
SIGNATURE = re.compile(rf"^\s*(?:let )?{MARKS}((?:[{LETTER}]+ )+)(?:[({{].*?)?: (.*)$")
USE = re.compile(r"^\s*(?:ghost |pub )*use ([^{};]+?)\.?\{(.*?)\};?\s*$", re.M)

# Respelled alike, these would have the name of a function of their crate.
OTHERWISE = {
    "at-1021": "over_1021",
    "at-4093": "over_4093",
    "bit-reversed": "bit_reversal_of",
    "block-size": "block_size_of",
    "encoded-size": "encoded_size_of",
    "in-hand": "is_in_hand",
    "next-mark": "next_mark_of",
    "ticket-number": "ticket_number_of",
}


def sources():
    for folder, dirs, files in os.walk("crates"):
        dirs[:] = sorted(d for d in dirs if d != "out")
        for name in sorted(files):
            if name.endswith((".rt", ".antt")):
                yield os.path.join(folder, name)


def own(module):
    parts = module.strip().split(".")
    return len(parts) > 1 and parts[0] == "Rattle" and os.path.isdir(os.path.join("crates", parts[1]))


def respelled(name):
    if name in OTHERWISE:
        return OTHERWISE[name]
    name = name.replace("′", "'")
    if name[0].isupper():
        return "".join(part[:1].upper() + part[1:] for part in name.split("-"))
    return name.replace("-", "_")


def defined(texts):
    """The names with a dash or an old prime that specs/ and proofs/ define, fields, constructors and aliases too."""
    names = set()
    for path, text in texts.items():
        if path.endswith(".antt"):
            for line in text.splitlines():
                found = SIGNATURE.match(line.split("-- ")[0])
                if found and not found.group(2).startswith("goal."):
                    names.update(found.group(1).split())
        for module, items in USE.findall(text):
            if own(module):
                names.update(re.findall(rf" as ([{LETTER}]+)", items))
    return {n for n in names if ("-" in n or "′" in n) and not n.startswith("-") and re.match(r"[^\W\d_]", n)}


def borrowed(text):
    """The names that a file imports from elsewhere than this repository."""
    names = set()
    for module, items in USE.findall(text):
        if not own(module):
            for item in items.split(","):
                names.add(item.split(" as ")[-1].strip())
    return names


def turned(path, text, names):
    mine = names - borrowed(text)

    def piece(found):
        word = found.group(0)
        return respelled(word) if word in mine else word

    if path.endswith(".antt"):
        return TOKEN.sub(piece, text)
    # in a source: all but strings
    parts = re.split(r'("(?:[^"\\\n]|\\.)*")', text)
    return "".join(p if p.startswith('"') else TOKEN.sub(piece, p) for p in parts)


def main():
    texts = {}
    for path in sources():
        with open(path, encoding="utf-8") as f:
            texts[path] = f.read()
    names = defined(texts)
    words = {path: set(TOKEN.findall(text)) for path, text in texts.items()}
    everywhere = set().union(*words.values())
    goals = {n for text in texts.values() for n in re.findall(rf"\bgoal\.([{LETTER}]+)", text)}
    for name in sorted(names & goals):
        print("also a goal, left:", name)
    names -= goals
    for name in sorted(names):
        new = respelled(name)
        if new in everywhere:
            crates = sorted({p.split(os.sep)[1] for p, w in words.items() if name in w})
            also = sorted(p for p, w in words.items() if new in w and p.split(os.sep)[1] in crates)
            print("falls together:", name, "->", new, also[:4])
    if "--try" in sys.argv:
        for name in sorted(names):
            print(name, "->", respelled(name))
        return
    for path, text in texts.items():
        new = turned(path, text, names)
        if new != text:
            with open(path, "w", encoding="utf-8") as f:
                f.write(new)


if __name__ == "__main__":
    main()
