#!/usr/bin/env python3
"""The soak texts as a second writer has them: soak.py SEED PLACES TRANSITIONS prints one, soak.py check PROGRAM PATHRUN [DRAWN] holds PROGRAM to them.

Written from document 02, order 14, and from the authors' published xoshiro256starstar.c and splitmix64.c. check compares all edges of the two counts at
edge seeds and DRAWN seeds (500) of its own, and has PATHRUN read every text: none may be refused."""
import random
import subprocess
import sys

WORD = (1 << 64) - 1


def splitmix64(x):
    """The outputs that follow the counter x."""
    while True:
        x = (x + 0x9E3779B97F4A7C15) & WORD
        z = x
        z = ((z ^ (z >> 30)) * 0xBF58476D1CE4E5B9) & WORD
        z = ((z ^ (z >> 27)) * 0x94D049BB133111EB) & WORD
        yield z ^ (z >> 31)


def xoshiro256starstar(seed):
    """The raw outputs of the generator that splitmix64 seeds."""
    words = splitmix64(seed)
    s = [next(words) for _ in range(4)]

    def rotl(x, k):
        return ((x << k) | (x >> (64 - k))) & WORD

    while True:
        yield (rotl((s[1] * 5) & WORD, 7) * 9) & WORD
        t = (s[1] << 17) & WORD
        s[2] ^= s[0]
        s[3] ^= s[1]
        s[1] ^= s[2]
        s[0] ^= s[3]
        s[2] ^= t
        s[3] = rotl(s[3], 45)


LONGEST = 18446744073709263994
RATES = {1: "3ff0000000000000", 2: "4000000000000000", 4: "4010000000000000", 8: "4020000000000000"}


def text(seed, places, transitions):
    raw = xoshiro256starstar(seed or 1)

    def choice(options):
        return options[next(raw) % len(options)]

    counts = [choice(range(10)) for _ in range(places)]
    moves = [(choice(range(places)), choice(range(places)), choice((1, 2, 4, 8))) for _ in range(transitions)]
    lines = ["(net"]
    lines += [f"(place {n} 0 q{k})" for k, n in enumerate(counts)]
    lines += [f"(move {RATES[rate]} 0000000000000000 (take {take} 1 1) (put {put} 1))" for take, put, rate in moves]
    lines += [f"(run 11 1 {seed} 4024000000000000)", ")"]
    return "".join(line + "\n" for line in lines)


def cases(drawn):
    for seed in (0, 1, 2, 9, 10, 1 << 63, WORD - 1, WORD):
        for places in (1, 2, 9, 10, 11, 31, 32):
            for transitions in (1, 2, 15, 16):
                yield seed, places, transitions
    # the largest seed whose text has 1,614 bytes: every place number has two digits
    yield LONGEST, 32, 16
    draw = random.Random(14)
    for _ in range(drawn):
        yield draw.getrandbits(draw.randint(1, 64)), draw.randint(1, 32), draw.randint(1, 16)


REFUSED = [(1, 0, 1), (1, 33, 1), (1, 1, 0), (1, 1, 17), (0, 0, 0), (WORD, WORD, 1), (1, 1, WORD)]
WRONG = [[], ["1"], ["1", "2"], ["1", "2", "3", "4"], ["", "1", "1"], ["x", "1", "1"], ["1", "-1", "1"], ["18446744073709551616", "1", "1"],
         ["99999999999999999999", "1", "1"], ["1", "1", "1 "], ["1" * 40, "1", "1"]]


def run(program, words, given=b""):
    made = subprocess.run([program] + [str(word) for word in words], input=given, capture_output=True, check=True)
    return made.stdout, made.stderr


def check(program, pathrun, drawn):
    held = longest = 0
    for case in cases(drawn):
        out, said = run(program, case)
        if out != text(*case).encode() or said:
            sys.exit(f"soak {case}: not the second writer's text")
        longest = max(longest, len(out))
        result, _ = run(pathrun, [], out)
        if not result.startswith(b"(result %d 11 1)\n" % case[1]):
            sys.exit(f"soak {case}: pathrun answers {result[:40]}")
        held += 1
    for case in REFUSED:
        out, said = run(program, case)
        if out or b"refused by 2\n" not in said or b"usage: " not in said:
            sys.exit(f"soak {case}: not refused by 2")
    for words in WRONG:
        out, said = run(program, words)
        if out or b"usage: " not in said:
            sys.exit(f"soak {words}: not turned down")
    if longest != 1614:
        sys.exit(f"soak: the longest text has {longest} bytes, not 1,614")
    print(f"soak: {held} texts as the second writer has them and read by pathrun, {len(REFUSED)} refused, {len(WRONG)} calls turned down")


def main(words):
    if words[:1] == ["check"] and len(words) in (3, 4):
        check(words[1], words[2], int(words[3]) if len(words) == 4 else 500)
    elif len(words) == 3:
        sys.stdout.write(text(*(int(word) for word in words)))
    else:
        sys.exit(__doc__)


if __name__ == "__main__":
    main(sys.argv[1:])
