#!/usr/bin/env python3
"""A ghost value that an equation of `requires` fixes becomes a `let` in the clauses that speak of it.

usage: tools/ghost_lets.py     at the top of the repository

    ghost net: { T }                          requires { let net = lent a b in P net }
    requires value { lent a b ≡ net }    ->   ensures { let net = lent a b in Q net }
    requires sound { P net }
    ensures { Q net }
"""
import glob
import re

CLAUSE = re.compile(r"^    (requires|ensures)(\*?)( \w+)? \{ ")


def clauses(lines, start):
    """The clauses from line start on: (first line, line behind the last), up to the body."""
    at, found = start, []
    while not lines[at].startswith("{"):
        end = at + 1
        while not CLAUSE.match(lines[end]) and not lines[end].startswith(("{", "    ghost ")):
            end += 1
        found.append((at, end))
        at = end
    return found


def turned(text, path):
    lines = text.split("\n")
    out, at = [], 0
    while at < len(lines):
        m = re.match(r"^    ghost (\w+): \{ .* \}$", lines[at])
        if not m:
            out.append(lines[at])
            at += 1
            continue
        name = m.group(1)
        parts = clauses(lines, at + 1)
        whole = ["\n".join(lines[a:b]) for a, b in parts]
        fixing = [w for w in whole if re.match(r"^    requires(?: \w+)? \{ ([\s\S]*) ≡ " + name + r" \}$", w)]
        if len(fixing) != 1:
            print(path, name, "stays:", len(fixing), "equations")
            out.append(lines[at])
            at += 1
            continue
        value = re.match(r"^    requires(?: \w+)? \{ ([\s\S]*) ≡ " + name + r" \}$", fixing[0]).group(1)
        rest = [w for w in whole if w is not fixing[0]]
        asks = [w for w in rest if w.startswith("    requires")]
        for w in rest:
            if len(asks) == 1 and w is asks[0]:
                w = re.sub(r"^    requires \w+ \{ ", "    requires { ", w)
            head = CLAUSE.match(w).group(0)
            body = w[len(head):]
            if re.search(r"(?<![\w.])" + name + r"(?!\w)", body):
                w = head + f"let {name} = {value} in " + body
            out += w.split("\n")
        if not asks:
            print(path, name, "no requires left")
        if len(asks) > 1:
            print(path, name, len(asks), "requires")
        at = parts[-1][1]
    return "\n".join(out)


for path in sorted(glob.glob("crates/*/src/**/*.rt", recursive=True)):
    with open(path, encoding="utf-8") as file:
        old = file.read()
    new = turned(old, path)
    if new != old:
        with open(path, "w", encoding="utf-8") as file:
            file.write(new)
