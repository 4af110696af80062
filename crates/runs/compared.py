#!/usr/bin/env python3
# Writes the oracle's jobs and what the Rust makes of them as theorems, the model's outcome held to the Rust's by computing: specs/Fixed*.antt from
# small jobs of the fixed list, specs/Directed*.antt from the directed cases but for 01's starred examples.
import pathlib
import re

root = pathlib.Path(__file__).resolve().parents[2]
specs = root / "crates/runs/specs"
LARGEST = 9  # operations of a job that is taken
JOBS = 32  # jobs in a file
DIRECTED = 63  # directed cases in front of pinned.rs's, whose like are calls in specs/Options.antt
NONE, MINUS_ONE = 65535, 4294967295


# comment, header, records of each job
def jobs(path):
    comment, numbers = "", []
    for line in path.read_text().splitlines():
        if line.startswith("#"):
            comment = comment or line[1:].strip()
            continue
        numbers += [int(x) for x in line.split()]
        if len(numbers) < 18:
            continue
        qubits, nodes, operations = numbers[:3]
        if len(numbers) == 18 + 5 * nodes + 6 * operations + 8 * qubits:
            at, parts = 18, []
            for width, count in ((5, nodes), (6, operations), (4, 2 * qubits)):
                parts.append([numbers[at + width * i : at + width * (i + 1)] for i in range(count)])
                at += width * count
            yield comment, numbers[:14], parts
            comment, numbers = "", []


def answers(path):
    for text in path.read_text().split("end\n")[:-1]:
        yield [[int(x) for x in line.split()] for line in text.splitlines() if not line.startswith("#")]


def listed(items):
    return "(" + " ∷ ".join(items + ["[]"]) + ")" if items else "[]"


def numbers(fields):
    return listed([str(x) for x in fields])


def node(r):
    if r == [0] * 5:
        return "I"
    if r[0] == 1 and r[2] in (1, 2, 3) and r[3:] == [0, 0]:
        return "%s %d" % ("IXYZ"[r[2]], r[1])
    if r[0] == 2:
        return "product %d %d %d %d" % tuple(r[1:])
    return numbers(r)


def operation(r):
    r = r[:4] + [NONE if x == -1 else x for x in r[4:]]
    if r[0] == 1 and r[4:] == [NONE, NONE]:
        return "rotate %d %d %d" % tuple(r[1:4])
    if r[0] == 2 and r[3] == 0:
        return "measure %d %d %d %d" % (r[1], r[2], r[4], r[5])
    if r[0] == 3 and r[5] == NONE:
        return "conditional %d %d %d %d" % tuple(r[1:5])
    return numbers(r)


def row(r):
    return "row %d %d %d %d" % tuple(r)


def result(r):
    kind, axis, sign, angle, outcome, target = r[:4] + [NONE if x == -1 else x for x in r[4:]]
    if kind == 1:
        return "rotated %d %d" % (axis, angle)
    if kind == 2:
        return "measured%s %d %d %d" % ("+" if sign == 1 else "-", axis, outcome, target)
    return "conditioned %d %d %d" % (axis, angle, outcome)


def result_row(r):
    if r[2:] == [-1, 0]:
        return "kept %d %d" % tuple(r[:2])
    return "given%s %d %d %d" % ("+" if r[3] == 1 else "-", r[0], r[1], r[2])


# the axes' words from their letters other than I
def axes(count, qubits, letters):
    l = max(1, (qubits + 63) // 64)
    words = [[0] * (2 * l) for _ in range(count)]
    for axis, q, letter in letters:
        if letter in (1, 2):
            words[axis][q // 64] += 1 << q % 64
        if letter in (2, 3):
            words[axis][l + q // 64] += 1 << q % 64
    return listed([numbers(w) for w in words])


def outcome(qubits, answer):
    first = answer[0]
    if first[0] == 10:
        return ["limit_exceeded"]
    if first[0] == 9:
        return ["within (non_hermitian_at %d)" % first[14]]
    operations, stored = first[6], first[7]
    records = answer[1 : 1 + operations]
    rows = answer[1 + operations : 1 + operations + 2 * qubits]
    letters = answer[1 + operations + 2 * qubits :]
    return [
        "within (shows %d" % first[14],
        listed([result(r) for r in records]),
        listed([result_row(r) for r in rows]),
        axes(stored, qubits, letters),
        numbers(first[1:6] + first[8:]) + ")",
    ]


# a line of at most 160 bytes: broken between elements of a list
def broken(line):
    lines = []
    while len(line.encode()) > 150:
        cut = line[:110].rfind(" ∷ ")
        lines.append(line[:cut])
        line = "    " + line[cut + 1 :]
    return lines + [line]


def theorem(name, comment, head, parts, answer):
    qubits, _, _, limit, lookback, window, candidates, rounds, absorb, eager, _, lazy, strategy, depth = head
    absorption = "off" if not absorb else "lazy" if lazy else "at_once"
    flag = lambda b: "true" if b else "false"
    lines = [
        "%s : outcome %d (rules %d %d %d %s %s %s %s) %d (program %d"
        % (name, limit, lookback, window, candidates, absorption, flag(eager), "Litinski" if strategy else "Merge", flag(depth), rounds, qubits),
        "    " + listed([node(r) for r in parts[0]]),
        "    " + listed([operation(r) for r in parts[1]]),
        "    " + listed([row(r) for r in parts[2]]) + ")",
    ]
    came = outcome(qubits, answer)
    lines += ["    ≡ " + came[0]] + ["    " + x for x in came[1:]]
    lines = (["-- " + comment] if comment else []) + lines
    return [b for line in lines for b in broken(line)] + ["unfolding everything", "%s = refl" % name, ""]


HEAD = "-- Written by compared.py: %s, with what the Rust makes of each. Assumes nothing.\n"
USED = [
    ("Rattle.std.specs.Prelude", "◌≡◌ refl true false [] ◌∷◌"),
    ("Rattle.model.specs.declared.Strategy.TheVariants", "Merge Litinski"),
    ("Rattle.model.specs.declared.Absorption.TheVariants", "off at_once lazy"),
    ("Rattle.model.specs.Everything", "everything"),
    ("Rattle.runs.specs.Shown", "I X Y Z product rotate measure conditional row program rules rotated measured+ measured-"),
    ("Rattle.runs.specs.Shown", "conditioned kept given+ given- non_hermitian_at shows"),
    ("Rattle.runs.specs.Outcome", "limit_exceeded within outcome"),
]


# the enum's cases in 01's words
CASES = {"off": "Off as off", "at_once": "AtOnce as at_once", "lazy": "Lazy as lazy"}


# the names of each module that the text uses
def imports(text):
    words = set(re.findall(r"[^\s()]+", re.sub(r"(?m)^--.*", "", text)))
    lines = []
    for module, names in USED:
        used = [CASES.get(n, n) for n in names.split() if n.strip("◌") in words]
        lines += ["use %s.{%s}\n" % (module, ", ".join(used))] if used else []
    return "".join(lines)


def write(name, title, theorems):
    for old in specs.glob(name + "*.antt"):
        old.unlink()
    for i in range(0, len(theorems), JOBS):
        text = "\n".join(line for t in theorems[i : i + JOBS] for line in t).rstrip()
        (specs / ("%s%d.antt" % (name, i // JOBS + 1))).write_text(HEAD % title + imports(text) + "\n" + text + "\n")
    print(len(theorems), "jobs in", name)


def theorems(folder, name, wanted):
    pairs = zip(jobs(folder / (name + ".jobs")), answers(folder / (name + ".out")))
    # settings of document 02 have runs of their own
    pairs = [(job, answer) for job, answer in pairs if not re.match("M-1", job[0])]
    return [theorem("job_%d" % i, *job, answer) for i, (job, answer) in enumerate(pairs) if wanted(i, *job)]


def small(i, comment, head, parts):
    return head[2] <= LARGEST and head[1] <= 30 and head[0] <= 3


def directed(i, comment, head, parts):
    return i < DIRECTED and not comment.startswith("*")


oracle = root / "oracle"
write("Fixed", "jobs of the oracle's fixed list", theorems(oracle / "fixed", "list", small))
write("Directed", "the oracle's directed cases", theorems(oracle / "directed", "cases", directed))
