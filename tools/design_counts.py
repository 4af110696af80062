#!/usr/bin/env python3
"""Counts the places of the design pass in src/, for docs/DESIGN-PASS.md: tools/design_counts.py [CHECKOUT] [--list]."""
import glob
import re
import sys

root = next((a for a in sys.argv[1:] if not a.startswith("--")), ".")
listed = "--list" in sys.argv
FILES = {f: open(f).read() for f in sorted(glob.glob(root + "/crates/*/src/*.rt"))}


def code(text):
    return re.sub(r"//[^\n]*", lambda m: " " * len(m.group(0)), text)


def functions():
    for f, t in FILES.items():
        for m in re.finditer(r"^( *)(?:pub )?(?:extern \"C\" )?fn (\w+).*?^\1\}$", code(t), re.S | re.M):
            yield f, t.count("\n", 0, m.start()) + 1, m.group(2), m.group(0)


def lines(pattern):
    for f, t in FILES.items():
        for i, line in enumerate(code(t).split("\n"), 1):
            if re.search(pattern, line):
                yield f, i, line.strip()


def head(text):
    return text[: text.index("\n{") if "\n{" in text else text.index("{")]


def show(name, places):
    places = list(places)
    print(f"{name}: {len(places)}")
    if listed:
        for f, i, what in places:
            print(f"    {f[len(root) + 1:] if root != '.' else f[2:]}:{i} {what[:110]}")


def enums():
    for f, t in FILES.items():
        for m in re.finditer(r"^(?:pub )?enum (\w+) \{\n(.*?)\n\}", code(t), re.S | re.M):
            variants = re.findall(r"^    (\w+)", m.group(2), re.M)
            yield f, t.count("\n", 0, m.start()) + 1, m.group(1) + ": " + ", ".join(variants)


def parameters(*names):
    for f, i, name, text in functions():
        h = head(text)
        if all(re.search(rf"[(\s]{n}: ", h) for n in names):
            yield f, i, name


def flag_and_slice():
    for f, i, name, text in functions():
        if re.search(r"-> bool\b", head(text)) and "&mut" in head(text):
            yield f, i, name


print("1. enums, flags, numbers")
show("  own enums", enums())
show("  functions that answer a bool and write what is lent", flag_and_slice())
show("  functions that answer the end, the count or 0 for none (read by hand from this list of -> usize with an early return)",
     ((f, i, n) for f, i, n, t in functions() if re.search(r"-> usize\b", head(t)) and re.search(r"\breturn \w+;", t)))
show("  tests of a kind's number (.kind, .tag, half)", lines(r"\.(kind|tag|half) *(==|!=|<|>)|< *\w+\.(kind|tag)\b"))
show("  answers tested by their number", lines(r"number_of\(\w+(\.\w+)?\) *(==|!=)"))
show("  matches and let-elses on an own Option or Result", lines(r"\b(Step|ImageStep|PackStep|Interned|Source|Trial|Found|SwapStep|Packed|Decision|Number|Place|Text|FirstLine|Commutation|Input)::\w+.*(=>|= \w+ else)"))
print("3. loops")
show("  while", lines(r"^\s*while "))
show("  for over the indexes of a slice's elements", lines(r"^\s*for \w+ in .*\.len\(\)"))
show("  for over another range", lines(r"^\s*for \w+ in (?!.*\.len\(\)).*\.\."))
show("  for over elements or an iterator", lines(r"^\s*for .* in (?!.*\.\.)"))
show("  iterator chains and library searches", lines(r"\.(iter|iter_mut|chars|bytes|zip|all|any|position|rev|fill|contains|copy_within|copy_from_slice)\("))
print("4. derives and conversions")
show("  derives of PartialEq", lines(r"derive\(.*PartialEq"))
show("  impl From, TryFrom, Display, Add, Neg", lines(r"^impl (From|TryFrom|fmt::Display|Display|Add|Neg)"))
show("  records copied field by field (a literal with three fields or more of one other value)",
     ((f, i, n) for f, i, n, t in functions() if any(len(re.findall(rf"^\s*(\w+): {v}\.\1,", t, re.M)) >= 3 for v in set(re.findall(r": (\w+)\.\w+,", t)))))
print("5. parameters that travel together")
for names in (("words", "numbers", "shape"), ("words", "numbers", "z"), ("nodes", "operations", "rows"), ("result_operations", "result_rows"), ("numbers", "u"), ("operations", "rows")):
    show("  " + ", ".join(names), parameters(*names))
print("6. buffers")
show("  a list in rows with its bounds beside (numbers, u, b)", parameters("numbers", "u", "b"))
show("  parallel arrays in rows", lines(r"^pub const \w+: usize = \d+;"))
print("7. switches")
show("  matches on a strategy or a setting", lines(r"match (strategy|lazy|absorption|options\.\w+|rules\.\w+)"))
print("functions:", sum(1 for _ in functions()), " lines of src:", sum(t.count("\n") for t in FILES.values()))
