#!/usr/bin/env python3
"""Brings the names of this repository's own definitions and lemmas to today's spelling, after the kit's port.py.

usage: python3 tools/respell.py    at the top of the repository, once

A name that specs/ or proofs/ declare and that has a dash is turned: words to snake case, types and facts (names that begin with a capital)
to camel case. Names that the kit makes (goals, steps) and names of std keep their spelling. It rewrites specs/, proofs/, the clauses of src/,
the edits beside them and the names between backticks in README.md and docs/, and prints the names that fall together.
"""

import collections
import glob
import re

ANTT = sorted(glob.glob("crates/*/specs/**/*.antt", recursive=True) + glob.glob("crates/*/proofs/**/*.antt", recursive=True))
OTHER = sorted(
    glob.glob("crates/*/src/**/*.rt", recursive=True) + glob.glob("crates/*/must-*/*.edit") + glob.glob("crates/*/must-*/**/*.edit", recursive=True)
)
PAGES = ["README.md"] + sorted(glob.glob("docs/*.md"))
EDGE = r"[^\s(){};,.`:|\"]"
DECLARES = re.compile(r"\s*(?:abbrev |unfoldable |pub )*(?:data |record |module |ruleset )?([^\s(){};,.]+)((?: \{[^}]*\}| \([^)]*\))*) : (.*)")


def declared():
    names = set()
    for path in ANTT + OTHER:  # other names that an import gives
        names |= set(re.findall(r"[{,] ?[^\s(){};,.]+ as ([^\s(){};,.]+)(?=[},])", open(path, encoding="utf-8").read()))
    for path in ANTT:
        for line in open(path, encoding="utf-8"):
            m = DECLARES.match(line)
            if m and not line.lstrip().startswith("--") and not m.group(3).startswith(("goal.", "need.", "given.")):
                names.add(m.group(1))
    return names


def respelled(name):
    words = name.split("-")
    if name[0].isupper():
        return "".join(w[0].upper() + w[1:] for w in words)
    return "_".join(w if w.isupper() else re.sub(r"(?<=[a-z])([A-Z])", lambda m: "_" + m.group(1).lower(), w) for w in words)


def main():
    names = declared()
    turned = {n: respelled(n) for n in names if "-" in n}
    meets = collections.defaultdict(set)
    for n in names:
        meets[turned.get(n, n)].add(n)
    for new, old in sorted(meets.items()):
        if len(old) > 1:
            print("falls together:", new, sorted(old))
    one = re.compile("(?<!" + EDGE + ")(" + "|".join(re.escape(n) for n in sorted(turned, key=len, reverse=True)) + ")(?!" + EDGE + ")")
    quoted = re.compile(r'"(?:[^"\\]|\\.)*"')
    count = 0
    for path in sorted(set(ANTT + OTHER)) + PAGES:
        text = open(path, encoding="utf-8").read()
        if path in PAGES:
            new = re.sub(r"`[^`\n]+`", lambda m: one.sub(lambda n: turned[n.group(1)], m.group(0)), text)
        elif path.endswith(".rt"):
            parts, at = [], 0
            for m in quoted.finditer(text):
                parts += [one.sub(lambda n: turned[n.group(1)], text[at : m.start()]), m.group(0)]
                at = m.end()
            new = "".join(parts) + one.sub(lambda n: turned[n.group(1)], text[at:])
        else:
            new = one.sub(lambda n: turned[n.group(1)], text)
        if new != text:
            count += 1
            open(path, "w", encoding="utf-8").write(new)
    print(f"{len(turned)} names in {count} files")


main()
