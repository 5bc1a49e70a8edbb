#!/usr/bin/env python3
"""Brings the repository's own definitions and lemmas to the spelling of the library: words in snake case.

usage: python3 tools/respell.py [--list]      at the top of the repository; --list only prints old and new names

It is run once, after the kit's own script has turned everything else. Every name that a file of specs/ or proofs/
declares is turned: a capital inside a word becomes an underscore before a small letter, and a dash an underscore. Facts
and types keep their capital at the front. The names that Rattle makes for goals (loop-x-preserved, returns-in-..) and
those of the library stay, and so does everything that Rust code names. Names that would fall together are an error.
"""

import pathlib
import re
import sys

ROOT = pathlib.Path(__file__).resolve().parent.parent
WORD = r"[^\s(){}\[\],;:.λ]+"
DECLARED = re.compile(rf"^ *(?:abbrev |unfoldable )?(?:pub )?(?:record |data )?({WORD})(?: \(.*\)| \{{.*\}})* : (.*)$")

def turned(name):
    if name[0].isupper():
        return name
    return re.sub(r"(?<=[a-z0-9])([A-Z])", lambda m: "_" + m.group(1).lower(), name).replace("-", "_")


def declared():
    names = set()
    for path in sorted(ROOT.glob("crates/*/specs/**/*.antt")) + sorted(ROOT.glob("crates/*/proofs/**/*.antt")):
        for line in path.read_text().split("\n"):
            found = DECLARED.match(line)
            if found and not line.lstrip().startswith(("--", "use ", "let ")) and "goal." not in found.group(2):
                names.add(found.group(1))
    return names


def main():
    names = declared()
    table = {n: turned(n) for n in names if turned(n) != n and re.match(r"^[A-Za-z]", n)}
    new = list(table.values())
    clash = sorted(n for n in set(new) if new.count(n) > 1 or n in names)
    for old in sorted(table):
        print(old, table[old])
    if clash:
        sys.exit("names fall together: " + " ".join(clash))
    if "--list" in sys.argv:
        return
    pattern = re.compile(r"(?<![\w'\-])(" + "|".join(sorted(map(re.escape, table), key=len, reverse=True)) + r")(?![\w'\-])")
    for path in sorted(ROOT.glob("crates/*/specs/**/*.antt")) + sorted(ROOT.glob("crates/*/proofs/**/*.antt")) + sorted(ROOT.glob("crates/*/src/**/*.rt")):
        text = path.read_text()
        after = pattern.sub(lambda m: table[m.group(1)], text)
        if after != text:
            path.write_text(after)


main()
