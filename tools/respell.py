#!/usr/bin/env python3
"""Brings the names of the repository's own definitions and lemmas to snake case.

usage: tools/respell.py [--list]      at the top of a repository that port.py of the toolchain has just turned

A word in camel case (`netOf`) and a word joined by dashes (`net-of`) become `net_of`; a fact, that is a definition whose value is a type, becomes `NetOf`.
Only names that an .antt file of crates/ declares are touched, in .antt files, contracts of .rt files, must-fail edits, comments and the pages' code words.
A name stays where its new form would fall together with another name. --list prints what would be renamed and what stays, and writes nothing.
"""
import os
import re
import sys
from collections import defaultdict

WORD = r"[^\s(){}.;,@\"«»\[\]\\|:=]+"
SIGNATURE = re.compile(
    r"^(\s*)((?:abbrev\s+|pub\s+|unfoldable\s+|record\s+|data\s+|ruleset\s+)*)(" + WORD + r")((?:\s*\([^)]*\)|\s*\{[^}]*\})*)\s*:(?!=)\s*(.*)"
)
TOKEN = re.compile(r"\"(?:[^\"\\]|\\.)*\"|--[^\n]*|" + WORD)
CAMEL = re.compile(r"^[a-z][A-Za-z0-9]*[A-Z]")
# Words of Rattle's own that a name may not become.
# Names of a file or a proof alone.
LOCAL = "pathAt handedAt pairsAt oldAt strangeAt newAt movedAt netFault wrongIn standingAt listFault handAt faultAt stateAt rateBits delayBits".split()
# Where two names would fall together.
BY_HAND = {
    "allDigits": "every_digit", "allWords": "all_the_words", "goesOn": "goes_further", "isDigit": "is_digit_byte", "noMove": "without_move",
    "noPlace": "without_place", "readBack": "reads_back", "runOn": "run_onward", "someBelow": "any_below", "stepBack": "step_back",
    "takenTwice": "taken_twice", "tooMany": "too_many", "turnedDown": "turned_down", "turnsFit": "turns_fit",
}
TAKEN = set("open data record ruleset result in as use pub mod fn self ground assumption".split())


def files(root, *ends):
    for folder, dirs, names in os.walk(root):
        dirs[:] = sorted(d for d in dirs if d not in (".git", "target") and not (d == "out" and folder.count(os.sep) == 1))
        for name in sorted(names):
            if name.endswith(ends):
                yield os.path.join(folder, name)


def read(path):
    with open(path, encoding="utf-8", newline="") as file:
        return file.read()


def snake(name):
    name = re.sub(r"(?<=[a-z0-9])([A-Z])", lambda m: "_" + m.group(1).lower(), name) if CAMEL.match(name) else name
    return re.sub(r"(?<=[\w'₀-₉])-(?=[\w'])", "_", name)


def upper(name):
    return "".join(part[:1].upper() + part[1:] for part in snake(name).split("_"))


def declared():
    """The names that the crates declare, each with whether every declaration of it gives a type, and the answers of proofs by hand, which stay."""
    kinds, answers = defaultdict(list), set()
    for path in files("crates", ".antt"):
        for line in read(path).splitlines():
            if line.lstrip().startswith(("--", "use ", "λ", "→")):
                continue
            m = SIGNATURE.match(line)
            if not m:
                continue
            indent, heads, name, _, rest = m.groups()
            if path.endswith("Proof.antt") and re.match(r"(\w+\.)?Need-|tie\.", rest):
                answers.add(name)
                continue
            fact = not indent and not re.search(r"\b(record|data|ruleset)\b", heads) and bool(re.search(r"(^|→\s*)Type [01]\s*$", rest))
            kinds[name].append(fact)
    return {name: all(each) for name, each in kinds.items()}, answers


def used(text):
    """The tokens of an antt text but those of paths of modules, where a Rust function's name stands."""
    text = re.sub(r"Rattle\.[\w.+]*\.", "", text)
    return set(TOKEN.findall(text))


def foreign(text, crates):
    """The names that a file takes from the toolchain's libraries: they keep their spelling."""
    found = set()
    for module, names in re.findall(r"^\s*(?:pub )?(?:ghost )?use ([^\s{}]+)\.\{([^}]*)\}", text, re.M):
        owner = module.split(".")[1] if module.startswith("Rattle.") else ""
        if owner not in crates:
            found |= {part.split(" as ")[0].strip() for part in names.split(",")}
    return found


def renamings():
    names, answers = declared()
    stays, out = [], {}
    where = defaultdict(set)
    for path in files("crates", ".antt"):
        for token in used(read(path)):
            where[token].add(path)
    camel = [n for n in sorted(names) if CAMEL.match(n)]
    dashed = [n for n in sorted(names) if "-" in n and re.match(r"^[a-z_]", n) and not CAMEL.match(n) and not n.endswith("-spec") and n not in answers]
    camel += [n for n in camel if False]
    for name in camel:
        new = BY_HAND.get(name) or (upper(name) if names[name] else snake(name))
        if new in TAKEN or new in out.values() or (where[new] & where[name] and name not in BY_HAND):
            stays.append((name, new))
        else:
            out[name] = new
    for name in dashed:
        new = snake(name)
        if new in TAKEN or new in out.values() or new in names or where[new] & where[name]:
            new += "_lem"
        if new in out.values() or new in names:
            stays.append((name, new))
        else:
            out[name] = new
    for name in LOCAL:
        out[name] = snake(name)
    return out, stays


def named(m, table):
    """The new form of a token; behind a dot it is a field, which falls together with no lemma."""
    new = table.get(m.group(0), m.group(0))
    field = m.start() and m.string[m.start() - 1] == "."
    return new[:-4] if field and new.endswith("_lem") and not m.group(0).endswith("_lem") else new


def main():
    whole, stays = renamings()
    table = whole
    crates = set(os.listdir("crates"))
    if "--list" in sys.argv:
        for name, new in sorted(table.items()):
            print(name, new)
        for name, new in stays:
            print("stays:", name, new)
        return
    camel = {name: new for name, new in table.items() if CAMEL.match(name)}
    # A word of a comment is a name where it is in camel case, or where the crate itself declares it.
    for path in files("crates", ".antt", ".rt", ".edit"):
        old = read(path)
        lines = []
        table = {name: new for name, new in whole.items() if name not in foreign(old, crates)}
        for line in old.split("\n"):
            if path.endswith(".edit"):
                head, _, rest = line.partition(": ")
                if head in ("old", "new"):
                    code, mark, said = rest.partition("--") if re.search(r"file: \S+\.antt", old) else rest.partition("//")
                    line = head + ": " + TOKEN.sub(lambda m: named(m, table), code) + mark + said
            else:
                mark = "//" if path.endswith(".rt") else "--"
                at = line.find(mark)
                while mark == "--" and at > 0 and not line[at - 1].isspace():
                    at = line.find(mark, at + 1)
                code, said = (line, "") if at < 0 else (line[:at], line[at:])
                said = re.sub(r"[A-Za-z][\w'-]*", lambda m: camel.get(m.group(0), m.group(0)), said)
                said = re.sub(r"`([^`\s]+)`", lambda m: "`" + table.get(m.group(1), m.group(1)) + "`", said)
                line = re.sub(TOKEN, lambda m: named(m, table), code) + said
            lines.append(line)
        new = "\n".join(lines)
        if new != old:
            with open(path, "w", encoding="utf-8", newline="") as file:
                file.write(new)
    pages = [os.path.join("docs", name) for name in os.listdir("docs") if name.endswith(".md") and not name.startswith("PORT")] + ["README.md"]
    for path in pages:
        old = read(path)
        new = re.sub(r"`([^`\n]+)`", lambda m: "`" + re.sub(r"[A-Za-z][\w'-]*", lambda w: table.get(w.group(0), w.group(0)), m.group(1)) + "`", old)
        if new != old:
            with open(path, "w", encoding="utf-8", newline="") as file:
                file.write(new)


main()
