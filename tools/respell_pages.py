#!/usr/bin/env python3
"""Brings the names in the pages to the spelling that specs/ and proofs/ have today, after tools/respell.py.

usage: respell_pages.py [--dry]     at the top; it tells each name that it changes, and with --dry changes none

Only code spans (`..`) of the pages are read, and in them only words that respell.py's snake() turns into a name that crates/*/specs/ or
crates/*/proofs/*.antt declare today: what is a name of Rust, of C, of a command or of a file, or a word with a dash, stays as it is.
"""
import glob
import os
import re
import sys

HERE = os.path.dirname(os.path.abspath(__file__))
PAGES = ["README.md", "docs/*.md", "docs/requests/*.md", "rust/README.md", "oracle/README.md", "oracle/*/README.md"]
NOT_OURS = {"docs/PORT.md"}
GONE = {"firstOf"}  # a definition that is gone (docs/requests/M-107.md), though a lemma elsewhere has the name today
SPAN = re.compile(r"(?<!`)`[^`\n]+`(?!`)")
# operators have ◌ where they had _ for an argument
OPERATOR = re.compile(r"(?<![\w◌])_([^\w\s`()_◌]+)_(?![\w◌])")


def respell():
    """tools/respell.py, which runs as it is read, without its last line."""
    names = {"__file__": os.path.join(HERE, "respell.py"), "__name__": "respell"}
    with open(names["__file__"], encoding="utf-8") as file:
        exec(compile(file.read().rsplit("\nmain()\n", 1)[0], names["__file__"], "exec"), names)
    return names


def main():
    old = respell()
    own = old["own_names"]()
    told = {}

    def turn(match):
        new = old["snake"](match[0])
        if new == match[0] or new not in own or match[0] in own or match[0] in GONE:
            return match[0]
        told[match[0]] = new
        return new

    def span(match):
        return OPERATOR.sub(r"◌\1◌", old["NAME"].sub(turn, match[0]))

    for path in sorted(path for pattern in PAGES for path in glob.glob(pattern)):
        if path in NOT_OURS:
            continue
        with open(path, encoding="utf-8") as file:
            was = file.read()
        text = SPAN.sub(span, was)
        if text != was and "--dry" not in sys.argv:
            with open(path, "w", encoding="utf-8") as file:
                file.write(text)
    for name in sorted(told):
        print(name, told[name])


main()
