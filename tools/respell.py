#!/usr/bin/env python3
"""Respells the names of this repository's own definitions and lemmas as the kit of the port spells names: words in snake case.

usage: tools/respell.py      at the top of the repository, once, after the kit's own script

The names stand in names.txt beside this script, old and new on a line, and a file behind them where they hold for that file alone. They were
found so: a name that begins with a small letter loses its inner capitals; a dash between two parts stays only where each part is itself the
name of a definition, and else becomes `_`; a lemma that would then have the name of a definition gets `_lem` behind it. Types, modules,
functions of src/, what the checker generates, strings, inputs and outputs keep their names; in a comment only what stands in backquotes is
turned.
"""
import os
import re

TOKEN = re.compile(r"(?<![\w'≤≡<*+◌₀-₉-])[A-Za-z_][\w'₀-₉]*(?:-[\w'₀-₉]+)*(?![\w'-])")


def files():
    for folder, dirs, names in os.walk("crates"):
        dirs[:] = sorted(d for d in dirs if d != "out")
        for n in sorted(names):
            if n.endswith((".antt", ".rt")):
                yield os.path.join(folder, n)


def main():
    here = os.path.dirname(os.path.realpath(__file__))
    everywhere, beside = {}, {}
    with open(os.path.join(here, "names.txt"), encoding="utf-8") as f:
        for line in f:
            old, new, *where = line.split()
            (beside.setdefault(where[0], {}) if where else everywhere)[old] = new
    for p in files():
        names = {**everywhere, **beside.get(p, {})}
        with open(p, encoding="utf-8") as f:
            was = f.read()
        lines = was.split("\n")
        sign = "--" if p.endswith(".antt") else "//"
        for i, line in enumerate(lines):
            code, mark, said = line.partition(sign)
            code = TOKEN.sub(lambda m: names.get(m.group(0), m.group(0)), code)
            said = re.sub(r"`[^`]*`", lambda q: TOKEN.sub(lambda m: names.get(m.group(0), m.group(0)), q.group(0)), said)
            lines[i] = code + mark + said
        text = "\n".join(lines)
        if text != was:
            with open(p, "w", encoding="utf-8") as f:
                f.write(text)


if __name__ == "__main__":
    main()
