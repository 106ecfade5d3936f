#!/usr/bin/env python3
"""Brings this repository's own definitions and lemmas to snake case: `row-well-formed` becomes `row_well_formed`.

usage: python3 tools/snake_case.py    at the top, once, right behind the toolchain's port.py and before any edit by hand

Turned are the names that files of specs/ and proofs/ declare or bind, in these files, in the clauses of src/, in must-fail edits, and, between
backticks, in comments and in the documents but for docs/landings/. Names that come from a library keep their dashes, and so do those that the
toolchain makes (in a proof that walks the code only declared names are turned). It stops where two names would fall together.
"""

import os
import re
import sys

WORD = re.compile(r"(?<![^\s(){}\[\];,.λ`'])[A-Za-zℕ∈][^\s(){}\[\];,.λ→«»\"`:]*-[^\s(){}\[\];,.λ→«»\"`:]*(?![^\s(){}\[\];,.`:'])")
DECLARED = re.compile(r"^\s*(?:(?:pub|abbrev|unfoldable|data|record|module) )*((?:[^\s(){};,.λ→«»\":]+ )*[^\s(){};,.λ→«»\":]+)(?: \{[^}]*\})* :(?![:=])", re.M)
USE = re.compile(r"use ([^\s;{}]+)\.\{([^}]*)\}")


def files(top, *ends):
    for folder, inside, names in os.walk(top):
        inside[:] = sorted(d for d in inside if d not in ("out", ".git", "target"))
        for name in sorted(names):
            if name.endswith(ends):
                yield os.path.join(folder, name)


def read(path):
    with open(path, encoding="utf-8") as it:
        return it.read()


def code_of(text, mark):
    return "\n".join(line.partition(mark)[0] for line in text.split("\n"))


def is_walk(path):
    return os.path.basename(path) in ("Proof.antt", "Invariants.antt", "Answers.antt")


def main():
    crates = sorted(os.listdir("crates"))
    own, declared, foreign, words = set(), set(), set(), {}
    for path in files("crates", ".antt", ".rt"):
        code = code_of(read(path), "--" if path.endswith(".antt") else "//")
        words[path] = set(re.split(r"[\s(){}\[\];,.λ:]+", code))
        for module, items in USE.findall(code):
            parts = module.split(".")
            if parts[0] != "Rattle" or len(parts) < 2 or parts[1] not in crates:
                foreign |= {name for item in items.split(",") for name in item.split() if "-" in name}
        if path.endswith(".antt"):
            declared |= {name for names in DECLARED.findall(code) for name in names.split()}
            if not is_walk(path):
                own |= set(WORD.findall(code))
    own = {name for name in own | declared if "-" in name} - foreign
    turned = {name: name.replace("-", "_") for name in own}
    if len(set(turned.values())) < len(turned):
        raise SystemExit("two names of the repository would be one")
    for path, there in words.items():
        if path.endswith(".antt") and not is_walk(path):
            for name in sorted(own & there):
                if turned[name] in there:
                    print(f"look: {path} has {name} and {turned[name]}")

    def turn(text):
        return WORD.sub(lambda it: turned.get(it[0], it[0]), text)

    # outside the code a name may also be one that port.py has turned
    def turn_said(text):
        snake = lambda name: name.replace("-", "_")
        return WORD.sub(lambda it: snake(it[0]) if it[0] in own or snake(it[0]) in declared and it[0] not in foreign else it[0], text)

    def turn_quoted(text):
        return re.sub(r"`[^`\n]*`", lambda it: turn_said(it[0]), text)

    def turn_lines(text, mark):
        lines = (line.partition(mark) for line in text.split("\n"))
        return "\n".join((turn_said if mark == "# " else turn)(code) + sign + turn_quoted(said) for code, sign, said in lines)

    paths = [(path, "--" if path.endswith(".antt") else "//") for path in files("crates", ".antt", ".rt")]
    paths += [(path, "# ") for path in files("crates", ".edit")]
    changed = 0
    for path, mark in paths:
        text = read(path)
        new = turn_lines(text, mark)
        if new != text:
            changed += 1
            with open(path, "w", encoding="utf-8") as it:
                it.write(new)
    for path in ["README.md", *(p for p in files("docs", ".md") if "landings" not in p and not p.endswith("PORT.md"))]:
        text = read(path)
        new = turn_quoted(text)
        if new != text:
            changed += 1
            with open(path, "w", encoding="utf-8") as it:
                it.write(new)
    print(f"{len(own)} names, {changed} files")


if __name__ == "__main__":
    sys.exit(main())
