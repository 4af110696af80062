#!/usr/bin/env python3
"""The model's own `if◌then◌else◌`, kept shut, is `when◌then◌else◌`: today's library has the other name. usage: rename_choice.py, at the top"""
import glob
import re

OWN = re.compile(r"^use Rattle\.model\.specs\.Lists\.\{[^}]*if◌then◌else◌", re.M)
LIBRARY = re.compile(r"^use Rattle\.std\.[\w.]+\.\{[^}]*if◌then◌else◌", re.M)
ALONE = re.compile(r"(?<![\w'.◌-])if(?![\w'◌-])")


def turn(text):
    out = []
    for part in re.split(r"(--[^\n]*)", text):
        out.append(part if part.startswith("--") else ALONE.sub("when", part.replace("if◌then◌else◌", "when◌then◌else◌")))
    return "".join(out)


files = set()
for path in sorted(glob.glob("crates/*/specs/**/*.antt", recursive=True) + glob.glob("crates/*/proofs/**/*.antt", recursive=True)):
    text = open(path, encoding="utf-8").read()
    if OWN.search(text) or path == "crates/model/specs/Lists.antt":
        if LIBRARY.search(text):
            print("both:", path)
        files.add(path)
        with open(path, "w", encoding="utf-8") as f:
            f.write(turn(text))
for path in sorted(glob.glob("crates/*/must-fail/*.edit") + glob.glob("edits/*/*.edit")):
    crate = path.split("/")[1]
    lines, here, new = open(path, encoding="utf-8").read().split("\n"), None, []
    for line in lines:
        if line.startswith("file: "):
            here = f"crates/{crate}/{line[6:].strip()}"
        new.append(turn(line) if here in files and line.startswith(("old: ", "new: ")) else line)
    if new != lines:
        print("edit:", path)
        with open(path, "w", encoding="utf-8") as f:
            f.write("\n".join(new))
print(len(files), "files")
