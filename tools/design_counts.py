#!/usr/bin/env python3
"""Counts, in the src/ of every crate, what docs/DESIGN-PASS.md speaks of, and names each place:
tools/design_counts.py [ROOT]. Comments are left out. It goes by text: what it cannot see (a twin that is written
differently, a fact that is spelt in two ways) is found by reading."""
import glob
import os
import re
import sys

root = sys.argv[1] if len(sys.argv) > 1 else "."
REFUSALS = (
    "BAD_REPLICA BAD_ROW BAD_COUNTER EXHAUSTED SHORT_OUTPUT UNREADABLE BAD_CARD REPEATED EARLY IMPLAUSIBLE BAD_SIZES "
    "BAD_KIND NOTHING_WAITING LOG_FULL BAD_LOG BAD_AMOUNT ABOVE_ONE"
).split()


class Function:
    def __init__(self, place, name, head, body):
        self.place, self.name, self.head, self.body = place, name, head, body
        inside = head[head.index("(") + 1 :]
        inside = inside[: inside.rindex(")", 0, min([i for i in (inside.find("->"), inside.find("requires"), inside.find("ensures")) if i >= 0] or [len(inside)]))]
        self.parameters = re.findall(r"(\w+): ", re.sub(r"\bmut ", "", inside)) + (["self"] if re.search(r"\bself\b", inside) else [])
        clauses = re.search(r"\b(requires|ensures)\b.*", head, re.S)
        self.clauses = clauses.group(0) if clauses else ""
        self.result = (re.search(r"->\s*([^\n{]+?)\s*(?:\n|\{|$)", head) or [None, ""])[1]


def functions(path, lines):
    found, i = [], 0
    while i < len(lines):
        start = re.match(r"^(\s*)(pub(\([a-z]+\))? )?(const )?(extern \"C\" )?fn (\w+)", lines[i])
        if not start:
            i += 1
            continue
        indent, j = start.group(1), i
        while lines[j] != indent + "{" and not (lines[j].endswith(" {") and not re.match(r"\s*(requires|ensures)\b", lines[j])):
            if lines[j].endswith(";"):
                break
            j += 1
        if lines[j].endswith(";"):
            i = j + 1
            continue
        k = j + 1
        while lines[k] != indent + "}":
            k += 1
        found.append(Function(f"{path}:{i + 1}", start.group(6), "\n".join(lines[i : j + 1]), lines[j + 1 : k]))
        i = k + 1
    return found


code, all_functions = [], []
for path in sorted(glob.glob(os.path.join(root, "crates/*/src/*.rt"))):
    text = [re.sub(r"\s*//.*", "", line) for line in open(path).read().split("\n")]
    short = os.path.relpath(path, root)
    code += [(f"{short}:{n}", line) for n, line in enumerate(text, 1)]
    all_functions += functions(short, text)


def show(title, places):
    places = sorted(set(places))
    print(f"{title}: {len(places)}")
    for place in places:
        print(f"    {place}")


def lines(pattern):
    return [f"{place}  {line.strip()}" for place, line in code if re.search(pattern, line)]


show("1a names of refusal numbers", lines(r"\b(" + "|".join(REFUSALS) + r")\b"))
show(
    "1b functions that answer a refusal as a number",
    [f"{f.place} {f.name}" for f in all_functions if f.result == "u64" and re.search(r"number|first_failing|Began|cond \(eqb number", f.clauses)],
)
show("1c fields that say whether the others count", lines(r"^\s*(pub )?(ok|is_log|number|kept): (bool|u64|u32|usize),"))
show("1d a length, or a walk's flag, that stands for none", lines(r"\blength == 0|\b(walked|found)\.(ok|is_log)"))
show("1e numbers of kinds", lines(r"\b(INCREMENT|CLEAR|COUNT|DELIVER|READ_AND_CLEAR)\b|Kind::\w+ as u32"))


def shape(function):
    body = re.sub(r"\s+", " ", " ".join(function.body))
    return re.sub(r"\b[a-z_]\w*\b|\b[A-Z_]{2,}\b|\b\d[\d_]*\b", "_", body)


shapes = {}
for f in all_functions:
    if len(shape(f)) > 30:
        shapes.setdefault(shape(f), []).append(f)
twins = [fs for fs in shapes.values() if len(fs) > 1]
show("2 bodies of one shape, set by set", ["; ".join(f"{f.place} {f.name}" for f in fs) for fs in twins])

show("3a loops with no `for`", lines(r"^\s*('\w+: )?(while|loop)\b"))
show("3b counters raised by hand", lines(r"^\s*\w+ \+= 1;"))

show("4a functions that only cast or compare", [f"{f.place} {f.name}" for f in all_functions if len(f.body) == 1 and re.fullmatch(r"\s*(\w+ as \w+|\d+ [<=]+ [\w.]+|[\w.]+ [<=]+ \d+)", f.body[0])])
show("4b calls of std::num", lines(r"std::num::"))

facts = {}
for f in all_functions:
    for fact in set(re.findall(r"\b([A-Z][A-Za-z]+) [a-z(]", (re.search(r"requires.*", f.clauses.split("ensures")[0], re.S) or [""])[0])):
        facts.setdefault(fact, []).append(f"{f.place} {f.name}")
show("5a facts that three or more functions require", [f"{fact} {len(fs)}" for fact, fs in facts.items() if len(fs) >= 3])
groups = {}
for f in all_functions:
    names = [p for p in f.parameters if p != "self"]
    for a in range(len(names)):
        for b in range(a + 2, len(names) + 1):
            groups.setdefault(tuple(names[a:b]), set()).add(f.place)
kept = {g: fs for g, fs in groups.items() if len(fs) >= 3}
largest = {g: fs for g, fs in kept.items() if not any(g != h and len(h) > len(g) and fs <= kept[h] and all(x in h for x in g) for h in kept)}
show("5b parameters side by side in three or more functions", [f"({', '.join(g)}) {len(fs)}" for g, fs in largest.items()])

show("6 a slice or an array with a position or a count beside it", [f"{f.place} {f.name}" for f in all_functions if re.search(r"\[\w+(; [\w:]+)?\]", f.head.split("requires")[0].split("ensures")[0]) and set(f.parameters) & {"at", "count", "len"}])
