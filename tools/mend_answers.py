#!/usr/bin/env python3
"""Changes that many answers need alike, after turn_proofs.py. usage: mend_answers.py, at the top"""
import glob
import re

for path in sorted(glob.glob("crates/*/proofs/**/*.antt", recursive=True)):
    text = was = open(path, encoding="utf-8").read()
    # the branch of `if !b` says b ≡ false, where it said not b ≡ true
    negated = r"not-(?:true|false)\s+(?:_|[\w'.]+)\s+(c\.if-not-(?!rules|options)[\w'-]+\.(?:true|false))(?![\w'.-])"
    text = re.sub(r"\(" + negated + r"\)", r"\1", text)
    text = re.sub(negated, r"\1", text)
    if text != was:
        open(path, "w", encoding="utf-8").write(text)
