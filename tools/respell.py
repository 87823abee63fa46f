#!/usr/bin/env python3
"""Brings the repository's own definitions and lemmas to the spelling of the newer Rattle, once, right after the kit's port.py.

usage: tools/respell.py [TOP]

A name of specs/ or proofs/ that begins with a small letter is turned to snake case, a constructor's and a field's too; a dash stays where it joins the names of two
functions, as in take-note, and becomes an underscore elsewhere. A lemma that
would have a function's name gets _lem. Goals that Rattle names, types and names of src/ stay.
"""
import os
import re
import sys

TOP = sys.argv[1] if len(sys.argv) > 1 else "."
STD = {"append", "drop", "get_or", "length", "map", "replicate", "reverse", "set", "sum", "take"}
STOP = r"\s(){}.,;:\"«»`"
TOKEN = re.compile(rf"[^{STOP}]+")
HEAD = re.compile(rf"(?:(abbrev|unfoldable)\s+)?(?:pub\s+)?(data\s+|record\s+|ruleset\s+)?([^{STOP}]+)\s*:\s+(.*)")
PART = re.compile(rf"  (?:pub\s+)?([^{STOP}]+)\s*:\s+.*")
COMMENT = {".antt": r"((?:^|(?<=\s))--\s.*)", ".rt": r"(//.*)"}
# Names that the kit's script turned, since its library had the same spelling; documents still have the old ones.
TURNED = "bytesOf cellAt cellOf cellsOf classAt countFor endAt groupsOf headerAt itemsOf keyOf labelOf lastOf nameOf noteOf putAt rowAt rowOf rowsAt rowsOf shapeOf totalOf valueOf allRows andThen".split()


def files(ending):
    for folder, dirs, names in os.walk(os.path.join(TOP, "crates")):
        dirs[:] = sorted(d for d in dirs if d not in ("out", ".git"))
        yield from (os.path.join(folder, n) for n in sorted(names) if n.endswith(ending))


def read(path):
    with open(path, encoding="utf-8") as f:
        return f.read()


def heads(path):
    """The names that a file declares, each with whether it is a function that other names are made of."""
    parts = False
    for line in read(path).splitlines():
        m = None if line.startswith((" ", "use ", "--")) else HEAD.fullmatch(line)
        if line.strip() and not line.startswith(" "):
            parts = bool(m and m[2])
        elif parts and PART.fullmatch(line):
            yield PART.fullmatch(line)[1], True
        if m and not m[2] and not re.match(r"(goal|need)\.", m[4]):
            yield m[3], bool(m[1])


def snake(word):
    return re.sub(r"(?<=[a-z0-9])([A-Z])", r"_\1", word).lower()


def spelled(name, known):
    parts = [snake(p.replace("getD", "get_or")) for p in name.split("-")]
    out = parts[0]
    for left, right in zip(parts, parts[1:]):
        out += ("-" if left in known and right in known else "_") + right
    return out


def mapping():
    own, functions = set(), set()
    for path in files(".antt"):
        for name, function in heads(path):
            if name[0].islower():
                own.add(name)
                if function:
                    functions.add(name)
    known = STD | {snake(n) for n in functions}
    new = {n: spelled(n, known) for n in own}
    taken = {new[n] for n in functions}
    new = {n: m + "_lem" if m in taken and n not in functions else m for n, m in new.items()}
    return {n: m for n, m in new.items() if n != m}


def together(names):
    """Names of one file that would fall together."""
    for path in files(".antt"):
        seen = {}
        for word in set(TOKEN.findall(read(path))):
            seen.setdefault(names.get(word, word), set()).add(word)
        for new, olds in sorted(seen.items()):
            if len(olds) > 1:
                print(f"together: {path}: {new} of {sorted(olds)}")


def turn(text, names):
    return TOKEN.sub(lambda m: names.get(m[0], m[0]), text)


def code(text, names, ending):
    """Turns what is neither a string nor a comment."""
    parts = re.split(r'("(?:[^"\\\n]|\\.)*")|' + COMMENT[ending], text, flags=re.M)
    return "".join(p or "" if i % 3 else turn(p, names) for i, p in enumerate(parts))


def write(path, old, new):
    if new != old:
        with open(path, "w", encoding="utf-8") as f:
            f.write(new)


def main():
    names = mapping()
    together(names)
    for ending in (".antt", ".rt"):
        for path in files(ending):
            text = read(path)
            write(path, text, code(text, names, ending))
    docs = os.path.join(TOP, "docs")
    said = names | {n: snake(n) for n in TURNED}
    for name in sorted(os.listdir(docs)):
        path = os.path.join(docs, name)
        if name.endswith(".md"):
            text = read(path)
            write(path, text, re.sub(r"`[^`\n]*`", lambda m: turn(m[0], said), text))
    print(f"{len(names)} names turned")


main()
