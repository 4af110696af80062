#!/usr/bin/env python3
"""Turns the old Proof.antt files, which answer goals `tie.Need-..`, into Invariants.antt and Answers.antt.

usage: turn_proofs.py NAMES [CRATE..]     at the top; NAMES is the folder that `rt names` wrote

It goes by the names that Rattle lists (names.json): each old goal with its new name, and the places that an answer's path goes back through.
Answers that a check finds alone (`omega arith`, `search rules`) are left out. What it cannot turn is told, and the file stays.
"""
import glob
import json
import os
import re
import sys

sys.path.insert(0, os.path.dirname(os.path.abspath(__file__)))
sys.argv.append("--dry") if "--dry" not in sys.argv else None
os.environ["RESPELL_AS_MODULE"] = "1"
import importlib.util

spec = importlib.util.spec_from_file_location("respell", os.path.join(os.path.dirname(os.path.abspath(__file__)), "respell.py"))
respell = importlib.util.module_from_spec(spec)
src = open(spec.origin, encoding="utf-8").read().rsplit("\nmain()\n", 1)[0]
respell.__file__ = spec.origin
exec(compile(src, spec.origin, "exec"), respell.__dict__)

ALONE = {"omega arith", "search rules", "search needs", "omega (arith)", "refl"}
COMPONENT = r"[\w'₀-₉◌·-]+"
warnings = []


def same_step(cited, step):
    """Whether a cited step is that one; the scripts took some for a library's lemma, and gave it `_lem`."""
    cited = cited[:1].lower() + cited[1:] if "-" in cited else cited
    return bool(step) and re.sub("_lem$", "", plain(cited)) == re.sub("_lem$", "", plain(step))


def plain(name):
    return name.replace("-", "_")


class Function:
    def __init__(self, key, names, where):
        self.names, self.where = names, where
        self.places = {p[0]: i for i, p in enumerate(names["places"])}
        self.needs = {}
        for (old, new), at in zip(names["needs"], names["asked_at"]):
            self.needs.setdefault(plain(old), (new, at[0]))

    def need(self, old):
        for form in (old, re.sub(r"^(overflow|nonzero)-", "", old), re.sub(r"^slice-bounds-", "part-", old), re.sub(r"^slice-bounds-", "sub-", old)):
            for known in self.needs:
                if same_step(form, known):
                    return self.needs[known]
        return None

    def arm(self, index):
        return self.names["arms"][index] if index < len(self.names["arms"]) else None

    def above(self, place):
        """The places from `place` up to Start: an old path's number of steps back is that of an older build, so a step is found by its name."""
        while place is not None:
            yield place
            place = self.names["places"][self.places[place]][1]

    def path(self, place, parts):
        """("text", path) of c at `place` followed by `parts`; or ("place", None), where the path only goes back."""
        back = 0
        while parts and parts[0] == "before":
            back, parts = back + 1, parts[1:]
        if not parts:
            return ("place", None)
        head, rest = parts[0], parts[1:]
        found = [p for p in self.above(place) if same_step(head, self.names["places"][self.places[p]][2][0])]
        if not found:
            if head not in ("args", "requires", "ranges", "auto", "type_inv"):
                self.warn(f"no step {head} above {place}")
                return None
            rest = rest[:1] + [field(p) for p in rest[1:]] if head in ("args", "ranges") else [field(p) for p in rest]
            return ("text", ".".join(["c", head] + rest))
        if len(found) > 1:
            self.warn(f"several steps {head} above {place}: {found}")
        index = self.places[found[0]]
        step = self.names["places"][index][2]
        arms = [a for p in self.above(place) if (a := self.arm(self.places[p]))]
        for arm in arms:
            for new, old_step, old_path in arm[2]:
                if same_step(head, old_step) and old_path == rest[: len(old_path)] and old_path:
                    return ("text", ".".join(["c", arm[0], new] + [field(p) for p in rest[len(old_path):]]))
        made = {"taken": "true", "left": "false"}
        if rest and rest[0] in made and step[1].startswith("if-"):
            rest = [made[rest[0]]] + rest[1:]
        known = {"ensures", "requires", "result", "new", "true", "false", "invariant", "auto", "is", "branch"}
        if rest and rest[0] not in known and rest[0] not in {v for _, vs in self.names["loops"] for v in vs}:
            rest = [field(p) for p in rest]
        else:
            rest = rest[:1] + [field(p) for p in rest[1:]]
        return ("text", ".".join(["c", step[1]] + rest))

    def warn(self, text):
        warnings.append(f"{self.where}: {text}")
        self.bad = True


def field(part):
    return respell.snake(part) if respell.wants(part) else part


def split(text):
    """The declarations of a proof file, each a list of lines: comments, the signature, `unfolding`, the clauses."""
    blocks, comments = [], []

    def own(block):
        return name_of(next(l for l in block if not l.startswith("--")))

    for line in text.split("\n"):
        if line.startswith("--") or not line.strip():
            comments.append(line)
        elif line[0] in " \t)" or line.startswith(("unfolding", "where")):
            blocks[-1] += comments + [line]
            comments = []
        elif blocks and name_of(line) == own(blocks[-1]) and not re.match(r"[^=]*? :(?!=)", line):
            blocks[-1] += [c for c in comments if c.strip()] + [line]
            comments = []
        else:
            blocks.append([c for c in comments if c.startswith("--")] + [line])
            comments = []
    return blocks


def name_of(line):
    m = re.match(r"(?:abbrev |pub |unfoldable )*([\w'₀-₉◌-]+)", line)
    return m[1] if m else line


def turn_term(fn, term, place, loop_args=None):
    """The term of a need, its paths turned."""
    aliases = {"c": place}
    out, at = [], 0
    pattern = re.compile(r"(?<![\w'.◌-])let ([\w'₀-₉-]+) = ([\w'₀-₉-]+)((?:\." + COMPONENT + r")*)\s+in\b\s*|(?<![\w'.◌·-])([A-Za-z_][\w'₀-₉-]*)((?:\." + COMPONENT + r")*)|((?:\." + COMPONENT + r")+)")
    for m in pattern.finditer(term):
        out.append(term[at:m.start()])
        at = m.end()
        if m[1]:
            head, tail = m[2], m[3]
            parts = [p for p in tail.split(".") if p]
            if head in aliases:
                r = fn.path(aliases[head], parts)
                if r and r[0] == "place":
                    aliases[m[1]] = place
                    continue
                text = r[1] if r else head + tail
            else:
                text = head + "".join("." + field(p) for p in parts)
            gap = re.search(r"\s*$", m[0])[0]
            out.append(f"let {m[1]} = {text} in{gap}")
            aliases.pop(m[1], None)
        elif m[4]:
            head, tail = m[4], m[5]
            parts = [p for p in tail.split(".") if p]
            if head in aliases:
                if not parts and head != "c":
                    fn.warn(f"the place {head} stands alone")
                    out.append("c")
                    continue
                r = fn.path(aliases[head], parts) if parts else ("text", "c")
                if r is None:
                    out.append(head + tail)
                elif r[0] == "place":
                    fn.warn(f"a place stands alone: {head}{tail}")
                    out.append("c")
                else:
                    out.append(r[1])
            else:
                out.append(head + "".join("." + field(p) for p in parts))
        else:
            out.append("".join("." + field(p) for p in m[6].split(".") if p))
    out.append(term[at:])
    text = "".join(out)
    return re.sub(r"[ \t]+\n", "\n", text).strip()


def uses(lines, text):
    """The use lines whose names stand in text."""
    kept = []
    for line in lines:
        m = re.match(r"use ([^\s{]+?)\.?\{([^}]*)\}\s*$", line)
        if not m:
            alias = line.split(" as ")[-1].split(".")[-1].strip()
            if re.search(r"(?<![\w'-])" + re.escape(alias) + r"(?![\w'-])", text):
                kept.append(line)
            continue
        items = []
        for item in [i.strip() for i in m[2].split(",") if i.strip()]:
            shown = item.split(" as ")[-1].strip()
            probes = [p for p in shown.split("◌") if p] if "◌" in shown else [shown]
            if "◌" in shown:
                seen = all(re.search(r"(?<![\w'◌-])" + re.escape(p) + r"(?![\w'◌-])", text) if re.match(r"\w", p) else p in text for p in probes)
            else:
                seen = re.search(r"(?<![\w'◌.-])" + re.escape(shown) + r"(?![\w'◌-])", text) is not None
            if seen:
                items.append(item)
        if items:
            kept.append(f"use {m[1]}.{{{', '.join(items)}}}")
    return kept


def turn(path, module, fn):
    """(invariants, answers) as texts, or None where the file stays."""
    text = open(path, encoding="utf-8").read()
    fn.bad = False
    lines = text.split("\n")
    imports = [l for l in lines if l.startswith("use ") and ".Tie as tie" not in l and ".Statement.{statement}" not in l]
    title = [l for l in lines[:3] if l.startswith("--")][:1]
    body = "\n".join(l for l in lines if not l.startswith("use "))
    blocks = split(body)
    invariants, answers = [], []
    for block in blocks:
        block = [l for l in block if l.strip()]
        while block and block[0].startswith("--"):
            block = block[1:] if block[0] in title else block
            if block and block[0].startswith("--"):
                break
        comments = [l for l in block if l.startswith("--")]
        rest = [l for l in block if not l.startswith("--")]
        if not rest:
            continue
        first = rest[0]
        name = name_of(first)
        if re.match(r"pub [\w'-]+[-_]spec : \{M : Type 1\}", first):
            continue
        m = re.match(r"abbrev (?:pub )?(invariant|decreases)-([\w-]+) : tie\.(?:invariant|decreases)-([\w-]+)", first)
        if m:
            old_loop = m[3]
            where = next((i for i, (names, _) in enumerate(fn.names["loops"]) if plain(names[0]) == plain(old_loop)), None)
            if where is None:
                fn.warn(f"no loop {old_loop}")
                continue
            (old, new), variables = fn.names["loops"][where]
            changed = fn.names["changed"][where]
            clause = "\n".join(rest[1:])
            head, term = clause.split("=", 1)
            args = head.split()[1:]
            if len(args) != len(variables) + sum(changed):
                fn.warn(f"{m[1]}-{old_loop} has {len(args)} arguments, and {len(variables)} + {sum(changed)} were expected")
                continue
            to = {}
            later = args[len(variables):]
            for v, c, a in zip(variables, changed, args):
                to[a] = f"l.initial.{v}" if c else f"l.{v}"
            for v, a in zip([v for v, c in zip(variables, changed) if c], later):
                to[a] = f"l.{v}"
            to.pop("_", None)

            def put(mm):
                h = mm[1]
                parts = [p for p in mm[2].split(".") if p]
                base = to.get(h)
                if base is None:
                    base = h
                return base + "".join("." + field(p) for p in parts)

            term = re.sub(r"(?<![\w'.◌·-])([A-Za-z_][\w'₀-₉-]*)((?:\." + COMPONENT + r")*)", put, term)
            invariants.append((comments, f"abbrev pub {m[1]}-{new} : goal.{m[1]}-{new}", [l for l in rest[1:] if l.startswith("unfolding")], f"{m[1]}-{new} l =" + term.rstrip()))
            continue
        m = re.match(r"(?:pub )?([\w'₀-₉-]+) : tie\.Need-([\w'-]+)", first)
        if m:
            known = fn.need(m[2])
            if known is None:
                term = "\n".join(rest[1:]).split("=", 1)[-1]
                if " ".join(term.split()) not in ALONE and not re.match(r"nonzero", m[2]):
                    fn.warn(f"no need {m[2]}")
                continue
            new, place = known
            opens = [l for l in rest[1:] if l.startswith("unfolding")]
            clause = "\n".join(l for l in rest[1:] if not l.startswith("unfolding"))
            clauses = re.split(r"\n(?=" + re.escape(m[1]) + r"[ \n])", clause)
            if len(clauses) != 1:
                fn.warn(f"{m[2]} has {len(clauses)} clauses")
                continue
            head, term = clause.split("=", 1)
            args = head.split()[1:]
            if not args or args[0] != "c" or len(args) > 2:
                fn.warn(f"{m[2]}: arguments {args}")
                continue
            term = turn_term(fn, term, place)
            if " ".join(term.split()) in ALONE and not opens:
                continue
            gap = "\n    " if "\n" in term and not term.startswith(("(", "record", "elim")) else " "
            answers.append((comments, f"pub {new} : goal.{new}", opens, f"{new} c ={gap}{term}"))
            continue
        # a lemma of the file's own
        both = "\n".join(rest)
        if "tie." in both:
            fn.warn(f"a lemma speaks of places: {first[:80]}")
        both = re.sub(r"\.(" + COMPONENT + ")", lambda k: "." + field(k[1]), both)
        answers.append((comments, both, [], ""))
    texts = []
    for kind, items in (("Given", invariants), ("Goals", answers)):
        if not items or all(not i[3] for i in items) and kind == "Given":
            texts.append(None)
            continue
        content = "\n\n".join("\n".join(c + [h] + o + ([t] if t else [])) for c, h, o, t in items)
        heads = title + uses(imports, content) + [f"use {module}.{kind} as goal"]
        texts.append("\n".join(heads) + "\n\n" + content + "\n")
    if answers and all(not a[3] for a in answers):
        texts[1] = None  # lemmas alone, which nothing cites
    return None if fn.bad else texts


def main():
    names_root, only = sys.argv[1], [a for a in sys.argv[2:] if not a.startswith("--")]
    done = kept = 0
    for crate in sorted(os.listdir("crates")):
        if only and crate not in only:
            continue
        table = f"{names_root}/crates/{crate}/names.json"
        files = sorted(glob.glob(f"crates/{crate}/proofs/**/Proof.antt", recursive=True))
        if not files or not os.path.exists(table):
            if files:
                print(f"no names: {crate}")
            continue
        names = json.load(open(table, encoding="utf-8"))
        for path in files:
            where = os.path.dirname(path)[len(f"crates/{crate}/proofs/"):]
            key = f"Rattle-{crate}-proofs." + where.replace("/", ".") + ".Lts"
            text = open(path, encoding="utf-8").read()
            if "tie.spec" not in text:
                kept += 1
                continue
            if key not in names:
                warnings.append(f"{path}: no names for {key}")
                kept += 1
                continue
            fn = Function(key, names[key], path)
            made = turn(path, f"Rattle.{crate}.proofs." + where.replace("/", "."), fn)
            if made is None:
                kept += 1
                continue
            os.remove(path)
            for name, content in zip(("Invariants.antt", "Answers.antt"), made):
                if content:
                    with open(os.path.join(os.path.dirname(path), name), "w", encoding="utf-8") as f:
                        f.write(content)
            if not os.listdir(os.path.dirname(path)):
                os.rmdir(os.path.dirname(path))
            done += 1
    for w in warnings:
        print("left: " + w)
    print(f"{done} turned, {kept} left")


main()
