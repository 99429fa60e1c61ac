#!/usr/bin/env python3
"""Gives each plain type `#[derive(Clone, Copy)]` and each crate the line `#![tactic(auto)]`, behind its first comment.

usage: tools/plain_types.py     at the top of the repository
"""
import glob
import re

for path in sorted(glob.glob("crates/*/src/**/*.rt", recursive=True)):
    with open(path, encoding="utf-8") as file:
        old = file.read()
    lines, out = old.split("\n"), []
    for line in lines:
        if re.match(r"^\s*#\[derive\(Drop\)\]", line):
            line = line.replace("Drop", "Clone, Copy")
        if re.match(r"^\s*(pub )?(struct|enum) ", line) and not any("derive" in each for each in out[-3:]):
            out.append(re.match(r"^\s*", line).group(0) + "#[derive(Clone, Copy)]")
        out.append(line)
    new = "\n".join(out)
    if re.search(r"/src/(lib|main)\.rt$", path) and "tactic(auto)" not in new:
        lines, at = new.split("\n"), 0
        while at < len(lines) and lines[at].startswith("//"):
            at += 1
        lines.insert(at, "#![tactic(auto)]")
        if at + 1 < len(lines) and lines[at + 1].strip():
            lines.insert(at + 1, "")
        new = "\n".join(lines)
    if new != old:
        with open(path, "w", encoding="utf-8") as file:
            file.write(new)
