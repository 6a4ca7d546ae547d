#!/usr/bin/env python3
"""Spells the definitions and lemmas of this repository as Rattle's library spells its own.

usage: tools/respell.py [--list]     at the top of the repository; --list prints the names and changes nothing

A definition of specs/ is a snake case word, a type a camel case one. A lemma's name joins two names by a dash
(length-bits_of) and other words by an underscore (bits_of_cat). Names from src/, labels that the check makes and names
of the library stay. A name that would meet another one has a spelling of its own below.
"""

import collections
import glob
import re
import sys

NAME = r'[^\s(){}.;,@"«»]+'
DECLARED = re.compile(rf"(?m)^( *)(?:(?:abbrev|unfoldable|pub) +)*({NAME}) (?:\{{[^{{}}\n]*\}} )*:(?!:)")
TYPE = re.compile(rf"(?m)^ *(?:pub )?(?:record|data) ({NAME})")
ALIAS = re.compile(rf" as ({NAME}-{NAME})")
ANSWER = re.compile(r": goal\.")
QUOTED = re.compile(r'"(?:[^"\\\n]|\\.)*"')

# Functions of the library that lemmas are named after.
LIBRARY = "length take drop replicate reverse append map get_or".split()

# Spellings that the rule would let fall together with another name, and older names of the library inside ours.
OWN = {"Laid_out": "LaidOut", "Muted-marks": "IsMutedMarks", "bit-xor": "bit_xor-mod", "block-total": "block_total_fits", "frame-total": "frame_total_fits"}


def files():
    for kind in ("antt", "rt"):
        yield from sorted(p for p in glob.glob(f"crates/**/*.{kind}", recursive=True) if "/out/" not in p)


def declared():
    """Each name of ours with the places that declare it: 'specs', 'proofs' or 'field'."""
    names = collections.defaultdict(set)
    for path in files():
        with open(path, encoding="utf-8") as f:
            text = f.read()
        for m in ALIAS.finditer(text):
            names[m[1]].add("alias")
        if not path.endswith(".antt"):
            continue
        place = "specs" if "/specs/" in path else "proofs"
        for m in TYPE.finditer(text):
            names[m[1]].add(place)
        for m in DECLARED.finditer(text):
            line = text[m.start() : text.find("\n", m.start())]
            if not ANSWER.search(line):
                names[m[2]].update([place] + ["field"] * bool(m[1]))
    return names


def snake(name):
    return name.replace("-", "_")


def camel(name):
    return "".join(w[:1].upper() + w[1:] for w in name.split("-"))


def parts(name, known):
    """The words of a lemma's name, with those that make a known name together as one."""
    words, out = name.split("-"), []
    while words:
        n = next((n for n in range(len(words), 1, -1) if "-".join(words[:n]) in known), 1)
        out.append("-".join(words[:n]))
        words = words[n:]
    return out


def lemma(name, known):
    out = ""
    pieces = parts(name.replace("getD", "get_or"), known)
    for i, piece in enumerate(pieces):
        if i:
            out += "-" if piece in known and pieces[i - 1] in known else "_"
        out += snake(piece)
    return out


def spellings():
    names = declared()
    definitions = {n for n, where in names.items() if "specs" in where}
    known = definitions | set(LIBRARY)
    # A definition that another step spelled already is known by its words too.
    known |= {n.replace("_", "-") for n in definitions}
    table = {}
    for name, where in names.items():
        if name in OWN:
            new = OWN[name]
        elif name[:1].isupper():
            new = camel(name)
        elif "specs" in where:
            new = snake(name)
        else:
            new = lemma(name, known)
        if new != name:
            table[name] = new
    fields = {n for n, where in names.items() if "field" in where}
    return table, fields, set(names)


def turned(text, table, fields):
    """The text with each of our names respelled, but for quoted text and for labels behind a dot."""

    def word(m):
        if m[0].startswith('"') or m[0] not in table or text[m.start() - 1 : m.start()] == "." and m[0] not in fields:
            return m[0]
        return table[m[0]]

    return re.sub(rf"{QUOTED.pattern}|{NAME}", word, text)


def main():
    table, fields, names = spellings()
    if "--list" in sys.argv:
        for old, new in sorted(table.items()):
            print(old, new)
    meeting = collections.defaultdict(set)
    for n in names:
        meeting[table.get(n, n)].add(n)
    for new, olds in sorted(meeting.items()):
        if len(olds) > 1:
            print("meet:", new, *sorted(olds))
    for path in files():
        with open(path, encoding="utf-8") as f:
            text = f.read()
        words = set(re.findall(NAME, QUOTED.sub(" ", text)))
        for old in sorted(words & set(table)):
            if table[old] in words:
                print(f"meet: {path}: {old} would be {table[old]}, which stands there")
        if "--list" not in sys.argv:
            new = turned(text, table, fields)
            if new != text:
                with open(path, "w", encoding="utf-8") as f:
                    f.write(new)


if __name__ == "__main__":
    main()
