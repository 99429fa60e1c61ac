#!/usr/bin/env python3
"""Brings the must-fail edits to today's spelling: tight projections, and names in snake case.

usage: tools/respell_edits.py     at the top of the repository
"""
import glob
import re


def respelled(text):
    text = re.sub(r"\((\w+) \.(\w+)\)", r"\1.\2", text)
    text = re.sub(r"(?<=[\w)]) \.(?=[a-z])", ".", text)
    text = re.sub(r"\bltZ\b", "lt_z", re.sub(r"\bleZ\b", "le_z", text))
    return re.sub(r"\b[a-z]+(?:[A-Z][a-z0-9]*)+\b", lambda m: re.sub(r"(?<=[a-z0-9])([A-Z])", lambda c: "_" + c.group(1).lower(), m.group(0)), text)


for path in sorted(glob.glob("crates/*/must-fail/**/*.edit", recursive=True)):
    with open(path, encoding="utf-8") as file:
        old = file.read()
    if ".antt" not in old.split("\n")[0]:
        continue
    new = "\n".join(line[:5] + respelled(line[5:]) if line.startswith(("old: ", "new: ")) else line for line in old.split("\n"))
    if new != old:
        with open(path, "w", encoding="utf-8") as file:
            file.write(new)
