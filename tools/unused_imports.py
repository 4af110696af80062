#!/usr/bin/env python3
"""Takes imported names that nothing in the file uses out of the `use` lines of the .antt files. usage: unused_imports.py, at the top"""
import glob
import re

total = 0
for path in sorted(glob.glob("crates/*/specs/**/*.antt", recursive=True) + glob.glob("crates/*/proofs/**/*.antt", recursive=True)):
    text = open(path, encoding="utf-8").read()
    body = re.sub(r"--[^\n]*", "", "\n".join(l for l in text.split("\n") if not l.startswith(("use ", "pub use "))))
    tokens = set(re.findall(r"[^\s(){}\[\];,.`]+", body)) | set(re.findall(r"[\w'◌₀-₉-]+", body))
    lines = []
    for line in text.split("\n"):
        m = re.match(r"use ([^\s{]+?)\.\{\s*([^}]*)\}\s*$", line)
        if not m:
            lines.append(line)
            continue
        kept = []
        for item in [i.strip() for i in m[2].split(",") if i.strip()]:
            shown = item.split(" as ")[-1].strip()
            parts = [p for p in re.split("◌", shown) if p.strip()]
            used = shown in tokens or all((p in tokens) if re.fullmatch(r"[\w'₀-₉-]+", p) else p in body for p in parts)
            if used or not parts:
                kept.append(item)
            else:
                total += 1
        if kept:
            lines.append(f"use {m[1]}.{{{' ' if kept[0].startswith('-') else ''}{', '.join(kept)}}}")
    new = "\n".join(lines)
    if new != text:
        open(path, "w", encoding="utf-8").write(new)
print(f"{total} names taken out")
