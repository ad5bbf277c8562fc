#!/usr/bin/env python3
"""Spells the repository's own definitions and lemmas as today's Rattle does. Run it once, at the top, right behind the kit's port.py.

    firstFault, columnStarts      ->  first_fault, column_starts         definitions and fields: words in snake case
    fault-later, in-column-on     ->  fault_later, in_column_on          lemmas: plain words joined by _
    isIn-append, length-upFrom    ->  is_in-append, length-up_from       a dash stays between two words that are names of definitions

A name turns where it is declared, cited, shown in a comment, in a page or in a must-fail edit. Types and modules stay, and so does what Rattle makes
itself (the goals of a function, behind a dot). Where a lemma would get a definition's name, it gets `_lem` behind it. It prints the table that it used.
usage: respell.py [--check]
"""

import os
import re
import sys

WRITE = "--check" not in sys.argv
NAME = r"[^\s(){}.;,@\"«»\[\]`|\\]+"
DECLARED = re.compile(r"(?m)^ *(?:(?:abbrev|unfoldable|pub|opaque) )*(" + NAME + r")(?: \{[^{}\n]*\}| \([^\n]*?\))* :(?= |\n)")
# Words of the library that lemmas are named after, and what became of their older spelling.
WORDS = set("append length take drop map flatten reverse set replicate get_or keep every exists head_d get_last_or reverse_onto below part_of index_of up_from occurrences without segment written total same falls ascending".split())
OLDER = {"getD": "get_or", "headD": "head_d", "getLastD": "get_last_or", "reverseAux": "reverse_onto", "indexOf": "index_of", "upFrom": "up_from"}


def files(top, *ends):
    for folder, inside, names in os.walk(top):
        inside[:] = sorted(d for d in inside if d not in ("out", ".git", "target"))
        for name in sorted(names):
            if name.endswith(ends):
                yield os.path.join(folder, name)


def read(path):
    with open(path, encoding="utf-8") as f:
        return f.read()


def declared(text):
    return DECLARED.findall(re.sub(r"--[^\n]*", "", text))


def is_function(path):
    """Whether a file is of one function's proof, and so declares no name for others."""
    return "/proofs/" in path and "/" in path.split("/proofs/", 1)[1]


def snake(part):
    if part in OLDER:
        return OLDER[part]
    if not re.match(r"[a-z]", part):
        return part
    return re.sub(r"(?<=[a-z0-9])([A-Z]+)", lambda m: "_" + m[1].lower(), part)


def spelled(name, definitions):
    parts = [snake(p) for p in name.split("-")]
    out = parts[0]
    for before, part in zip(parts, parts[1:]):
        out += ("-" if before in definitions and part in definitions else "_") + part
    return out


def main():
    names, definitions, fields = set(), set(WORDS), set()
    for path in files("crates", ".antt"):
        here = declared(read(path))
        if is_function(path):
            names.update(n for n in here if "-" not in n)
            continue
        names.update(here)
        fields.update(n for n in re.findall(r"(?m)^ +(?:pub )?(" + NAME + r") :(?= )", re.sub(r"--[^\n]*", "", read(path))) if "-" in n)
        if "/specs/" in path:
            definitions.update(snake(n) for n in here if "-" not in n)
    table = {n: spelled(n, definitions) for n in sorted(names) if re.match(r"[a-z]", n)}
    table = {n: to for n, to in table.items() if n != to}
    # Definitions come first, then lemmas that have their spelling already, then the others.
    taken = {}
    for n in sorted(names, key=lambda n: (snake(n) not in definitions or "-" in n or "_" in n, "-" in n, n in table, n)):
        to = table.get(n, n)
        while to in taken:
            print("falls together:", n, "and", taken[to])
            to += "_lem"
        taken[to] = n
        if to != n:
            table[n] = to
    for n, to in table.items():
        print(n, "->", to)
    word = re.compile(NAME)

    def turn(text, own):
        def one(m):
            n = m[0]
            bare = n.rstrip("'")
            if n not in table or n in own:
                return n
            if "-" in n and n not in fields and text[: m.start()].endswith("."):
                return n
            return table[n]

        return word.sub(one, text)

    for path in files("crates", ".antt"):
        text = read(path)
        own = {n for n in declared(text) if "-" in n} if is_function(path) else set()
        put(path, text, turn(text, own))
    same = {n for n in table if n.lower() == n and "-" not in n}
    for path in files("crates", ".rt"):
        text = read(path)
        camel = r"([a-z][a-z0-9]*[A-Z]\w*)"
        bound = set(re.findall(r"(?:\blet |\bmut |\bas )" + camel, text) + re.findall(r"\b" + camel + r": ", text))
        text = turn(text, same)
        for n in sorted(bound):
            text = re.sub(r"(?<![\w'-])" + n + r"(?![\w'-])", snake(n), text)
        put(path, read(path), text)
    for path in files("crates", ".edit"):
        text = read(path)
        put(path, text, edit(turn(text, set())))
    for path in [*files("docs", ".md"), "README.md"]:
        text = read(path)
        put(path, text, re.sub(r"`[^`\n]+`|```.*?```", lambda m: turn_code(m[0], table), text, flags=re.S))


def edit(text):
    """A must-fail edit, which the kit's scripts leave as it was: what they turn in the files that it is of."""

    def line(m):
        code = re.sub(r"(?<![\w'-])[a-z]\w*", lambda n: snake(n[0]), m[2])
        code = re.sub(r" \.(?=[a-z0-9])", ".", code)
        return m[1] + re.sub(r"(?<=[ (])\((\w+(?:\.\w+)+)\)", r"\1", code)

    return re.sub(r"(?m)^((?:old|new): )(.*)$", line, text)


def turn_code(code, table):
    return re.sub(r"[A-Za-z][\w'-]*", lambda m: table.get(m[0], m[0]), code)


def put(path, old, new):
    if old != new and WRITE:
        with open(path, "w", encoding="utf-8") as f:
            f.write(new)


main()
