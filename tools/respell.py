#!/usr/bin/env python3
"""Respells this repository's own definitions and lemmas, after /opt/rattle/port/port.py has run: words in snake case, types in camel case.

usage: python3 tools/respell.py        at the top of the repository, once, before any edit by hand

A name is this repository's own where a file of a crate's specs/ or proofs/ declares it, other than as the answer to a goal. A type, which
begins with a capital, loses its dashes: Lower-stand is LowerStand. Any other name gets an underscore for a dash and for a capital within:
squares-of is squares_of, rowPeriod is row_period. A dash stays in a lemma between two names, as in length-record. Names that Rattle makes,
functions of src/, strings and inputs keep their spelling.
"""

import collections
import os
import re

# variables of lemmas, which no signature declares
VARIABLES = "old-es old-ps new-es new-ps ds-are ys-are e-at e-is x-is xs-at xs-is after-at open-there codes-long not-less".split()
# words of the library, between which and a name a dash stays
LIBRARY = set("length get_or set take drop append map sum put_mid".split())
NAME = r"[A-Za-z][\w']*(?:-[\w']+)*"
SIGNATURE = re.compile(rf"^( *)((?:(?:pub|abbrev|unfoldable|pattern) )*)(record |data )?({NAME})((?: [({{][^\n]*)?) :( *[^\n]*)", re.M)
TOKEN = re.compile(rf"(?<![\w'«-]){NAME}(?![\w'-])")


def files(endings):
    for folder, dirs, names in os.walk("."):
        dirs[:] = sorted(d for d in dirs if d not in (".git", "target", "out", "tools"))
        for name in sorted(names):
            if name.endswith(endings):
                yield os.path.join(folder, name)


def read(path):
    with open(path, encoding="utf-8") as f:
        return f.read()


def declared():
    """The repository's own names, each with whether it is a definition of specs/ and whether it is a field."""
    own, fields, definitions = set(), set(), set()
    for path in files((".antt",)):
        if not ("/specs/" in path or "/proofs/" in path):
            continue
        record = False
        for line in read(path).split("\n"):
            if line and not line.startswith(" "):
                record = bool(re.match(r"(?:pub |abbrev )*record ", line))
            m = SIGNATURE.match(line)
            if not m or "goal." in m.group(6) or path.endswith("Invariants.antt"):
                continue
            own.add(m.group(4))
            if record and m.group(1):
                fields.add(m.group(4))
            if "/specs/" in path and ("abbrev" in m.group(2) or "unfoldable" in m.group(2) or m.group(3)):
                definitions.add(m.group(4))
    return own, fields, definitions


def camel(name):
    return "".join(w[0].upper() + w[1:] for w in name.split("-"))


def snake(name):
    name = name.replace("getD", "get_or")
    return re.sub(r"(?<=[a-z])([A-Z])", lambda m: "_" + m.group(1).lower(), name).replace("-", "_")


def table():
    own, fields, definitions = declared()
    names = {n for n in own if "-" in n or (n in fields and re.search(r"[a-z][A-Z]", n)) or "getD" in n or "putMid" in n} | set(VARIABLES)
    plain = LIBRARY | {snake(d) for d in definitions if d[0].islower()}
    turned = {}
    for name in names:
        if name[0].isupper():
            turned[name] = camel(name)
            continue
        new = snake(name)
        if name not in fields and name not in definitions and name in own:
            parts = name.split("-")
            for i in range(len(parts) - 1, 0, -1):
                left, right = snake("-".join(parts[:i])), snake("-".join(parts[i:]))
                if left in plain and right in plain:
                    new = left + "-" + right
                    break
        turned[name] = new
    return {a: b for a, b in turned.items() if a != b}, fields


def main():
    turned, fields = table()
    again = collections.defaultdict(set)
    for a, b in turned.items():
        again[b].add(a)
    for b, a in sorted(again.items()):
        if len(a) > 1:
            print("fall together:", b, sorted(a))

    def word(m):
        name = m.group(0)
        before = m.string[: m.start()]
        if before.endswith(".") and name not in fields and not re.search(r"(?:specs|proofs)\.[\w.]*$|\b(?:pure|tones|draft|calls|code|fixes|plans|sizes|sweeps|tables|totals)\.$", before[-120:]):
            return name
        return turned.get(name, name)

    for path in files((".antt", ".rt", ".edit", ".md")):
        old = read(path)
        if path.endswith(".md"):
            new = re.sub(r"`[^`\n]*`", lambda m: TOKEN.sub(word, m.group(0)), old)
        elif path.endswith(".rt"):
            new = re.sub(r'"(?:[^"\\\n]|\\.)*"|[^"]+', lambda m: m.group(0) if m.group(0)[0] == '"' else TOKEN.sub(word, m.group(0)), old)
        else:
            new = TOKEN.sub(word, old)
        if new != old:
            with open(path, "w", encoding="utf-8") as f:
                f.write(new)


if __name__ == "__main__":
    main()
