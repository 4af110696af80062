#!/usr/bin/env python3
"""Tells which wrong programs do not fit the text that they are to change.

usage: edits_fit.py [--show] [ROOT]     at the top, or with the top of another checkout

Reads crates/*/must-fail/*.edit and edits/NAME/*.edit (of the crate NAME), as rt does: each `old:` text must stand exactly once in the file that
`file:` names, further pairs apply to what the earlier ones made, and the whole must change something. With --show each edit that fits is printed
too, with the line that it makes. The status is 1 if an edit does not fit.
"""
import glob
import os
import sys


def fit(path, folder, show):
    """What is wrong with an edit, or None; and the lines that it makes."""
    name, old, texts, was, made = "", None, {}, {}, []
    with open(path, encoding="utf-8") as file:
        lines = file.read().split("\n")
    for line in lines:
        if line.startswith("file: "):
            name = line[len("file: "):].strip()
        elif line.startswith("old: "):
            old = line[len("old: "):]
        elif line.startswith("new:"):
            new = line[len("new:"):].removeprefix(" ")
            if not name or not old:
                return "a 'new:' line stands before any 'file:' or 'old:' line", made
            if name not in texts:
                if not os.path.isfile(f"{folder}/{name}"):
                    return f"there is no file {name}", made
                with open(f"{folder}/{name}", encoding="utf-8") as file:
                    texts[name] = was[name] = file.read()
            found = texts[name].count(old)
            if found != 1:
                return f"{found} times in {name}: {old}", made
            if old == new:
                return f"old and new are the same: {old}", made
            at = texts[name].index(old)
            before, after = texts[name][:at].rsplit("\n", 1)[-1], texts[name][at + len(old):].split("\n", 1)[0]
            number = texts[name].count("\n", 0, at) + 1
            texts[name] = texts[name].replace(old, new)
            made.append(f"{name}:{number}:\n    - {before}{old}{after}\n    + {before}{new}{after}")
            old = None
    if not made:
        return "it has no 'old:' and 'new:' pair", made
    return (None if texts != was else "it changes nothing"), made


def main():
    words = [word for word in sys.argv[1:] if word != "--show"]
    show = "--show" in sys.argv[1:]
    root = words[0] if words else "."
    sets = [("must-fail", sorted(glob.glob(f"{root}/crates/*/must-fail/*.edit")), lambda path: os.path.dirname(os.path.dirname(path))),
            ("edits", sorted(glob.glob(f"{root}/edits/*/*.edit")), lambda path: f"{root}/crates/{os.path.basename(os.path.dirname(path))}")]
    all_fit = True
    for label, paths, crate in sets:
        fits = 0
        for path in paths:
            why, made = fit(path, crate(path), show)
            fits += why is None
            if why:
                print(f"{os.path.relpath(path, root)}: {why}")
            elif show:
                print(os.path.relpath(path, root), *made, sep="\n  ")
        print(f"{label}: {fits} of {len(paths)} edits fit")
        all_fit = all_fit and fits == len(paths)
    sys.exit(0 if all_fit else 1)


main()
