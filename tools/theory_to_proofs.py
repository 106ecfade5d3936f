#!/usr/bin/env python3
"""Moves what is proved of definitions from specs/ to proofs/, statements unchanged: the files whose first line says LAWS or CLAIMS, of the crates
that have must-fail edits of a definition. The toolchain tells an edit that a proof refuses from one that no longer reads, and counts the second
as bad: a theorem of specs/ that fails under an edit reads as the second.

usage: python3 tools/theory_to_proofs.py    at the top, once, right behind snake_case.py

Files that contracts of their own crate cite stay, since a crate's specs/ cannot name its proofs/. Prints what it moved.
"""

import os
import re
import shutil

CRATES = ["protocol", "conversion", "replica_model", "chassis_model", "version_1", "chassis", "text", "listing"]
# (the toolchain makes a module of the first name in proofs/)
NAMES = {"Reads": "ReadsOfReplicas"}
STAY = {"chassis": ["BeginLaws", "StepCodeLaws"], "text": ["DecimalLaws", "Powers"], "listing": ["Sizes"]}


def read(path):
    with open(path, encoding="utf-8") as it:
        return it.read()


def write(path, text):
    os.makedirs(os.path.dirname(path), exist_ok=True)
    with open(path, "w", encoding="utf-8") as it:
        it.write(text)


moved = {}
for crate in CRATES:
    specs, proofs = f"crates/{crate}/specs", f"crates/{crate}/proofs"
    names = [f[:-5] for f in sorted(os.listdir(specs)) if re.match(r"-- (LAWS|CLAIMS)", read(f"{specs}/{f}"))]
    moved[crate] = [name for name in names if name not in STAY.get(crate, []) and name != "Lib"]
    os.makedirs(proofs, exist_ok=True)
    for name in moved[crate]:
        shutil.move(f"{specs}/{name}.antt", f"{proofs}/{NAMES.get(name, name)}.antt")
        print(f"{crate}: {name}")
    # the root files: a remark goes with the modules behind it
    here, there, said = [], [], []
    for line in read(f"{specs}/Lib.antt").rstrip("\n").split("\n"):
        named = re.match(r"pub mod (\w+)", line)
        if not named:
            said.append(line)
            continue
        there_now = named[1] in moved[crate]
        (there if there_now else here).extend([*said, f"pub mod {NAMES.get(named[1], named[1])}" if there_now else line])
        said = []
    write(f"{specs}/Lib.antt", "\n".join([*here, *said]) + "\n")
    had = read(f"{proofs}/Lib.antt") if os.path.isfile(f"{proofs}/Lib.antt") else ""
    write(f"{proofs}/Lib.antt", "\n".join(there) + "\n" + had)

for folder, inside, names in os.walk("crates"):
    inside[:] = [d for d in inside if d != "out"]
    for name in names:
        if name.endswith((".rt", ".antt", ".edit")):
            text = read(f"{folder}/{name}")
            if name.endswith(".edit"):
                # (an edit names a file of its own crate)
                crate = folder.split("/")[1]
                new = re.sub(r"(?m)^file: specs/(\w+)\.antt$", lambda it: it[0].replace("specs/", "proofs/") if it[1] in moved.get(crate, []) else it[0], text)
            else:
                new = re.sub(r"Rattle\.(\w+)\.specs\.(\w+)", lambda it: f"Rattle.{it[1]}.proofs.{NAMES.get(it[2], it[2])}" if it[2] in moved.get(it[1], []) else it[0], text)
            if new != text:
                write(f"{folder}/{name}", new)
