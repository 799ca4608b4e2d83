#!/usr/bin/env python3
"""Turns the names of this repository's definitions and lemmas to snake case, once, over a tree that port.py has turned.

usage: tools/spelling.py        in the repository, with everything committed or to be committed with it
       tools/spelling.py --list prints the renamings and the names that would fall together, and writes nothing

A definition, a lemma, a field or a constructor whose name has dashes gets underscores; a type gets camel case; `getD` in a name
becomes `get_or`; a module named with a middle dot gets a plain name. Names that Rattle makes, as `loop-i-preserved`, stay, and so
do names of src/, strings and file names.
"""

import os
import re
import sys

DECLARED = re.compile(r"^\s*(?:(?:abbrev|unfoldable|pub) )*(?:(?:record|data) (\S+)|((?:[^\s(){}\[\];,:=]+ )+):(?:\s|$))")
TOKEN = re.compile(r"[^\W\d][\w'\-\u00b7]*")
MADE = re.compile(r"^(invariant|decreases)-")
MODULES = {"Value\u00b7": "ValueCase", "Field\u00b7": "FieldCase", "Line\u00b7": "LineCase"}
# the library has bit_and and bit_or
APART = {"bit-and": "bit_of_and", "bit-or": "bit_of_or"}


def files(*endings):
    for folder, dirs, names in os.walk("crates"):
        dirs[:] = sorted(d for d in dirs if d != "out")
        for name in sorted(names):
            if name.endswith(endings):
                yield os.path.join(folder, name)


def text_of(path):
    with open(path, encoding="utf-8") as f:
        return f.read()


def declared():
    """Each name that a line of an antt file declares, but for answers to goals, whose types are goals."""
    found = set()
    for path in files(".antt"):
        for line in text_of(path).splitlines():
            if line.lstrip().startswith("--") or "tie." in line:
                continue
            m = DECLARED.match(line)
            if m:
                found.update((m.group(1) or m.group(2)).split())
    return found


def turned(name):
    if name in MODULES:
        return MODULES[name]
    if name in APART:
        return APART[name]
    name = name.replace("getD", "get_or")
    if name[0].isupper():
        return "".join(part[0].upper() + part[1:] for part in name.split("-"))
    return name.replace("-", "_")


def renamings():
    names = {n for n in declared() if TOKEN.fullmatch(n) and not MADE.match(n)}
    return {n: turned(n) for n in sorted(names | set(MODULES)) if turned(n) != n}


def main():
    to = renamings()
    if "--list" in sys.argv[1:]:
        used = {}
        for path in files(".antt", ".rt"):
            for token in TOKEN.findall(text_of(path)):
                used.setdefault(token, path)
        for old, new in to.items():
            print(old, new, "(falls together: " + used[new] + ")" if new in used else "")
        return
    for path in files(".antt", ".rt", ".edit"):
        old = text_of(path)
        new = TOKEN.sub(lambda m: to.get(m.group(0), m.group(0)), old)
        if new != old:
            with open(path, "w", encoding="utf-8") as f:
                f.write(new)


if __name__ == "__main__":
    main()
