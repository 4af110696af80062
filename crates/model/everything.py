#!/usr/bin/env python3
# Writes specs/Everything.antt: one name whose `unfolding` line opens every definition of the model, so that closed runs compute.
import pathlib, re

specs = pathlib.Path(__file__).parent / "specs"
modules = [line.split()[-1] for line in (specs / "Lib.antt").read_text().splitlines() if line.startswith("pub mod")]
modules = modules[: modules.index("Everything")]
# what the model stands on
below = [
    ("mathlib.Core.List", ["flatten"]),
    ("Rattle.std.proofs.Math.Option", ["or_else", "bind"]),
    ("Rattle.bits.specs.Bit", ["bit"]),
    ("Rattle.bits.specs.Sum", ["sum_to"]),
    ("Rattle.bits.specs.Popcount", ["popcount_in", "popcount"]),
    ("Rattle.store.specs.Equal", ["same_list"]),
    ("Rattle.store.specs.Chunk", ["chunks"]),
    ("Rattle.angle.specs.Angle", ["eighths_of", "pick", "signed_angle"]),
    ("Rattle.pauli.specs.Word", ["width", "is_identity", "common", "xor_words", "phase", "symplectic", "anticommutes"]),
    ("Rattle.pauli.specs.Letter", ["has_x", "has_z", "single", "weight"]),
]


# lines of at most 140 characters, underscores and the end not counted
def wrapped(start, words, between, end, later):
    lines, line = [], start + words[0]
    for word in words[1:]:
        longer = line + between + word
        if len(longer.replace("_", "")) > 140:
            lines.append(line + end)
            longer = later + word
        line = longer
    return lines + [line + end]


def of(module):
    text = (specs / f"{module}.antt").read_text()
    return re.findall(r"^\s*unfoldable pub (\S+) :", text, re.M)


groups = below + [(f"Rattle.model.specs.{module}", of(module)) for module in modules]
groups = [(module, names) for module, names in groups if names]
out = ["-- Written by everything.py: `unfolding everything` opens the whole model, so that closed runs compute. Assumes nothing."]
out += ["use Rattle.std.specs.Prelude.{ℕ}"]
for module, names in groups:
    out += wrapped(f"use {module}.{{", names, ", ", "}", f"use {module}.{{")
out += ["", "unfoldable pub everything : ℕ"]
out += wrapped("unfolding ", [name for _, names in groups for name in names], " ", "", "    ")
out += ["everything = 0", ""]
(specs / "Everything.antt").write_text("\n".join(out))
