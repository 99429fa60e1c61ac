#!/usr/bin/env python3
"""A second reader of net texts, written from documents 01 and 02 alone, and the texts on which the proved reader is held to it.

    net_text.py record FOLDER          writes FOLDER/stdin and FOLDER/stdout: the fixed cases and their answers
    net_text.py random SEED COUNT OUT  writes OUT.in and OUT.out: damaged texts drawn from the seed, and their answers
    net_text.py refused PROGRAM SEED COUNT
                                       runs the program on each text that is refused, of the fixed cases and of so many drawn ones:
                                       it has to print the refusal and nothing else

A batch is a row of cases, each its length in five digits, a newline, and so many bytes. The answer to a case is one line:
`refused NUMBER LINE`, or `given` with the numbers of the net and the run line (floats by their bits, in hexadecimal)."""
import random
import re
import subprocess
import sys

if hasattr(sys, "set_int_max_str_digits"):
    sys.set_int_max_str_digits(0)

DECIMAL = rb"([0-9]+)"
FLOAT = rb"([0-9a-f]{16})"
# the label is all between the space after the capacity and the bracket that ends the line; without that space there is none
PLACE = re.compile(rb"\(place " + DECIMAL + rb" " + DECIMAL + rb"(?: (.*))?\)", re.DOTALL)
LABEL = re.compile(rb"[a-z0-9-]{1,16}")
ARC = re.compile(rb" \((?:take " + DECIMAL + rb" " + DECIMAL + rb" " + DECIMAL + rb"|(put|read|block) " + DECIMAL + rb" " + DECIMAL + rb")\)")
MOVE = re.compile(rb"\(move " + FLOAT + rb" " + FLOAT + rb"((?:" + ARC.pattern.replace(rb"(", rb"(?:").replace(rb"(?:?:", rb"(?:").replace(rb"\(?:", rb"\(") + rb")*)\)")
RUN = re.compile(rb"\(run " + DECIMAL + rb" " + DECIMAL + rb" " + DECIMAL + rb" " + FLOAT + rb"\)")
KINDS = {b"put": 2, b"read": 3, b"block": 4}


def badly(digits):
    """A decimal with a leading zero, or over 64 bits."""
    return (len(digits) > 1 and digits[:1] == b"0") or int(digits) >= 2**64


def value(bits):
    """The float of 64 bits as a fraction's sign and size; None for a NaN, infinity as a very large number."""
    sign, field, digits = bits >> 63, bits >> 52 & 0x7FF, bits & (1 << 52) - 1
    if field == 0x7FF:
        return None if digits else (-1 if sign else 1) * 2**2000
    size = digits << 1 if field == 0 else (digits | 1 << 52) << field
    return -size if sign else size  # in units of 2^-1075


UNIT = 1075


def rate_fits(bits):
    x = value(bits)
    return x is not None and (x == 0 or 2 ** (UNIT - 100) <= x <= 2 ** (UNIT + 100))


def delay_fits(bits):
    x = value(bits)
    return x is not None and 0 <= x <= 2 ** (UNIT + 30)


def first(tests):
    for number, applies in tests:
        if applies:
            return number
    return 0


def place_line(net, match):
    initial, capacity, label = match.groups()
    number = first([
        (1, net["moves"]),
        (2, len(net["places"]) >= 32),
        (4, badly(initial) or badly(capacity) or int(initial) > 2**53 or int(capacity) > 2**53),
        (17, label is None or not LABEL.fullmatch(label)),
        (18, any(label == earlier for _, _, earlier in net["places"]))])
    net["places"].append((int(initial), int(capacity), label))
    return number


def move_line(net, match):
    rate, delay = int(match.group(1), 16), int(match.group(2), 16)
    arcs, strange = [], False
    for arc in ARC.finditer(match.group(3)):
        if arc.group(1) is not None:
            place, weight, flag = arc.group(1), arc.group(2), arc.group(3)
            strange |= badly(flag) or int(flag) > 1
            kind = 0 if int(flag) == 1 else 1
        else:
            place, weight, kind = arc.group(5), arc.group(6), KINDS[arc.group(4)]
        strange |= badly(place) or badly(weight)
        arcs.append((kind, int(place), int(weight)))
    takes = [a for a in arcs if a[0] <= 1]
    places = len(net["places"])
    number = first([
        (2, places == 0 or len(net["moves"]) >= 64 or len(arcs) > 16),
        (3, any(p >= places for _, p, _ in arcs)),
        (4, strange or not rate_fits(rate) or not delay_fits(delay) or any(w > 1000000 for _, _, w in arcs)),
        (5, len({p for _, p, _ in takes}) < len(takes)),
        (6, value(delay) is not None and value(delay) > 0 and not takes),
        (7, sum(max(w, 1) for k, _, w in takes if k == 0) > 16)])
    net["moves"].append((rate, delay, arcs))
    return number


def run_line(net, match):
    numbers = match.groups()[:3]
    net["run"] = [int(n) for n in numbers] + [int(match.group(4), 16)]
    return first([(2, not net["places"]), (4, any(badly(n) for n in numbers))])


def read(text):
    if len(text) > 8192:
        return "refused 2 0"
    net = {"places": [], "moves": [], "run": None}
    lines = text.split(b"\n")
    rest = lines.pop()
    stage = "net"
    for i, line in enumerate(lines, 1):
        number = 1
        if stage == "net":
            number = 0 if line == b"(net" else 1
            stage = "inside"
        elif stage == "inside":
            for form, act in ((PLACE, place_line), (MOVE, move_line), (RUN, run_line)):
                match = form.fullmatch(line)
                if match:
                    number = act(net, match)
                    if form is RUN:
                        stage = "close"
        elif stage == "close":
            number = 0 if line == b")" else 1
            stage = "done"
        if number:
            return f"refused {number} {i}"
    if stage != "done" or rest:
        return f"refused 1 {len(lines) + 1}"
    out = ["given", str(len(net["places"])), str(len(net["moves"]))]
    for initial, capacity, label in net["places"]:
        out += [str(initial), str(capacity), label.decode()]
    for rate, delay, arcs in net["moves"]:
        out += [f"{rate:016x}", f"{delay:016x}", str(len(arcs))]
        for arc in arcs:
            out += [str(n) for n in arc]
    samples, realizations, seed, horizon = net["run"]
    return " ".join(out + [str(samples), str(realizations), str(seed), f"{horizon:016x}"])


SAMPLE = b"""(net
(place 2 0 q0)
(place 0 0 q1)
(move 3ff0000000000000 3ff0000000000000 (take 0 1 1) (put 1 1))
(run 3 1 1 4000000000000000)
)
"""
ONE = "3ff0000000000000"


def net(places=("0 0",), moves=(), run=f"3 1 1 {ONE}", tail=")\n"):
    """A text; the places have the labels q0, q1 and so on behind what is given of them."""
    lines = ["(net"] + [f"(place {p} q{i})" for i, p in enumerate(places)] + [f"(move {m})" for m in moves] + [f"(run {run})"]
    return ("\n".join(lines) + "\n" + tail).encode()


def cases():
    """Document 01's sample cut at every byte, each refusal at several lines, order in a line and in a text, the limits by one."""
    yield SAMPLE
    for i in range(len(SAMPLE)):
        yield SAMPLE[:i]
    for extra in (b"\n", b" ", b")", b")\n", b"x", SAMPLE):
        yield SAMPLE + extra
    for i in range(len(SAMPLE)):
        if SAMPLE[i : i + 1] == b"\n":
            yield SAMPLE[:i] + b"\n" + SAMPLE[i:]
            yield SAMPLE[:i] + b"\r" + SAMPLE[i:]
            yield SAMPLE[:i] + b" " + SAMPLE[i:]
    zero = "0000000000000000"
    big, limit = str(2**64), str(2**53)
    # values of a place
    for p in ("0 0", f"{limit} {limit}", f"{2**53 + 1} 0", f"0 {2**53 + 1}", "00 0", "01 0", "0 07", f"{big} 0", f"0 {2**64 - 1}", "9" * 300 + " 0",
              "-1 0", "+1 0", "1", "1 2 3", " 1 2", "1  2", "0x1 0", "a 0", "1\t2"):
        yield net(places=(p,))
        yield net(places=("5 6", p))
    # labels: absent, empty, of each length, each kind of byte, where they begin and end
    def labelled(*ends, head=()):
        lines = ["(net", *head, *(f"(place 0 0{end}" for end in ends), f"(run 3 1 1 {ONE})", ")", ""]
        return "\n".join(lines).encode("latin-1")
    for end in (")", " )", "  )", " q)", "q)", " q", " q ", " q) ", " q))", "))", ") q)", " -)", " 0)", " a-0)", " q0 q1)", " q0 )", "  q0)", " Q)", " q\xc8)", " \xff)", " \0)",
                " q\t)", " q\r)", " (q)", " q_0)", " q.0)", " `)", " {)", " /)", " :)", " @)", " [)", "\tq)", " " + "q" * 15 + ")", " " + "q" * 16 + ")", " " + "q" * 17 + ")",
                " " + "q" * 300 + ")", " " + "9" * 16 + ")", " " + "-" * 17 + ")"):
        yield labelled(end)
        yield labelled(" x)", end)
    # 18 at the later of two, after 17; 4 first, and 1 and 2 before it
    for ends in ((" q)", " q)"), (" q)", " r)", " q)"), (" q)", " qq)"), (" qq)", " q)"), (" " + "q" * 16 + ")", " " + "q" * 16 + ")"), (" Q)", " Q)"), (" q)", ")"), (" q)", " q)", ")")):
        yield labelled(*ends)
    for head in ("(place 00 0 q)", "(place 00 0)", "(place 00 0 Q)", "(place 9007199254740993 0)", "(place 0 01 q q)", "(place 0)", "(place 0 0 q", "(place x 0 Q)"):
        yield labelled(" q)", head=(head,))
        yield labelled(" q)", head=("(place 0 0 q)", head))
    yield labelled(*([f" q{i})" for i in range(32)] + [")"]))
    yield labelled(*([f" q{i})" for i in range(31)] + [" q0)"]))
    yield net(places=["0 0", "0 0 q0"], moves=[f"{ONE} {zero} (put 9 1)"])
    # how many
    yield net(places=["0 0"] * 32)
    yield net(places=["0 0"] * 33)
    yield net(places=["0 0"] * 32 + ["00 0"])
    yield net(places=["0 0"] * 32 + ["x 0"])
    yield net(places=[f"{2**53 + 1} 0"] + ["0 0"] * 33)
    yield net(moves=[f"{ONE} {zero}"] * 64)
    yield net(moves=[f"{ONE} {zero}"] * 65)
    yield net(moves=[f"{ONE} {zero}"] * 64 + [f"{ONE} {zero} (put 9 1)"])
    yield net(moves=[f"{ONE} {zero}" + " (put 0 1)" * 16])
    yield net(moves=[f"{ONE} {zero}" + " (put 0 1)" * 17])
    yield net(moves=[f"{ONE} {zero}" + " (put 7 1)" * 17])
    yield net(moves=[f"{ONE} {zero}" + " (put 0 1)" * 17 + " (put 0)"])
    yield net(places=())
    yield net(places=(), moves=[f"{ONE} {zero}"])
    yield net(places=(), moves=["x"])
    yield net(places=(), run=f"03 1 1 {ONE}")
    # rates and delays
    for bits in ("0000000000000000", "8000000000000000", "39b0000000000000", "39afffffffffffff", "4630000000000000", "4630000000000001", "0000000000000001",
                 "bff0000000000000", "7ff0000000000000", "fff0000000000000", "7ff8000000000000", "7ff0000000000001", "fff8000000000000",
                 "41d0000000000000", "41d0000000000001", "8000000000000001", "3FF0000000000000", "3ff000000000000", "3ff00000000000000", "3ff000000000000g"):
        yield net(moves=[f"{bits} {zero}"])
        yield net(moves=[f"{ONE} {bits} (take 0 0 0)"])
        yield net(moves=[f"{bits} {bits}"])
    # arcs
    for arc in ("take 0 1 1", "take 0 1 0", "take 0 1 2", "take 0 1 01", "take 0 1 00", f"take 0 1 {big}", "take 0 1", "take 0 1 1 1", "take 0 1 x", "put 0 1 1",
                "read 0 1", "block 0 1", "Put 0 1", "putt 0 1", "put 1 1", "put 00 1", "put 01 1", f"put {big} 1", f"put 0 {big}", "put 0 00", "put 0 1000000",
                "put 0 1000001", "put 0 01000000", "take 0 16 1", "take 0 17 1", "take 0 17 0", "put 1 2000000", "put 1 x"):
        yield net(moves=[f"{ONE} {zero} ({arc})"])
        yield net(moves=[f"{ONE} {zero} (read 0 1)", f"{ONE} {zero} (put 0 1) ({arc})"])
    # several faults in a line: the first of the list
    many = ["take 0 1 1", "take 0 1 1"]
    for arcs in ([*many], [*many, "put 9 1"], [*many, "put 0 1000001"], ["take 0 1000001 1", "put 9 1"], ["take 0 9 1", "take 0 9 1"], ["take 0 0 1"] * 16, ["put 0 1"] * 3):
        body = "".join(f" ({a})" for a in arcs)
        yield net(moves=[f"{ONE} {zero}{body}"])
        yield net(moves=[f"{ONE} {ONE}{body}"])
        yield net(moves=[f"7ff8000000000000 {zero}{body}"])
    wide = " ".join(f"(take {p} 1 1)" for p in range(16))
    yield net(places=["0 0"] * 17, moves=[f"{ONE} {zero} {wide}"])
    yield net(places=["0 0"] * 17, moves=[f"{ONE} {zero} " + wide.replace("(take 3 1 1)", "(take 3 2 1)")])
    yield net(places=["0 0"] * 17, moves=[f"{ONE} {zero} " + wide.replace("1 1)", "0 1)")])
    # several faults in a text: the first line
    yield net(places=("0 0", "00 0", f"{2**53 + 1} 0"), moves=["x"])
    yield net(moves=[f"{ONE} {ONE}", f"{ONE} {zero} (put 3 1)", "x"], run="x")
    # the order of lines
    yield b"(net\n(place 0 0 a)\n(move 3ff0000000000000 0000000000000000)\n(place 0 0 b)\n(run 3 1 1 3ff0000000000000)\n)\n"
    yield b"(net\n(place 0 0 a)\n(move 3ff0000000000000 0000000000000000)\n(place 0 0)\n(run 3 1 1 3ff0000000000000)\n)\n"
    yield b"(net\n(place 0 0 a)\n(run 3 1 1 3ff0000000000000)\n(place 0 0 b)\n)\n"
    yield b"(net\n(place 0 0 a)\n(run 3 1 1 3ff0000000000000)\n(run 3 1 1 3ff0000000000000)\n)\n"
    yield b"(net\n(net\n)\n"
    yield b"(net\n)\n"
    yield b"(net\n(place 0 0 a)\n)\n"
    yield b"(place 0 0 a)\n"
    yield b")\n"
    yield b"\n"
    yield b"(net \n"
    yield b"(Net\n"
    # the run line
    for run in (f"0 0 0 {zero}", f"{2**64 - 1} {2**64 - 1} {2**64 - 1} ffffffffffffffff", f"{big} 1 1 {ONE}", f"1 {big} 1 {ONE}", f"1 1 {big} {ONE}", f"01 1 1 {ONE}",
                f"1 1 1 7ff8000000000001", f"1 1 1 {ONE.upper()}", f"1 1 {ONE}", f"1 1 1 1 {ONE}", "1 1 1 "):
        yield net(run=run)
    for tail in ("", ")", ") \n", " )\n", ")x\n", ")\n\n", "))\n"):
        yield net(tail=tail)
    # how long
    for size in (8191, 8192, 8193):
        head, end = b"(net\n(place ", b" 0 q)\n"
        yield head + b"9" * (size - len(head) - len(end)) + end
    pad = net(moves=[f"{ONE} {zero}" + " (put 0 1)" * 11] * 55)
    yield pad
    yield pad + b" " * (8192 - len(pad))
    yield pad + b" " * (8193 - len(pad))
    yield bytes(range(256))


def drawn(rng):
    """A net text that is often right, then damaged in up to three places."""
    places = rng.choice((1, 2, 3, 32))
    text = ["(net"]
    for p in range(places):
        label = rng.choice((f"q{p}", f"q{p}", f"{p}-abcdefghijklm"))
        if rng.random() < 0.02:
            label = rng.choice(("", "Q", "q q", "q" * 17, "q0", "q0"))
        text.append(f"(place {rng.choice((0, 1, 5, 2**53))} {rng.choice((0, 3, 2**53))} {label})")
    for _ in range(rng.choice((0, 1, 2, 5))):
        arcs = []
        for _ in range(rng.choice((0, 1, 2, 3, 16, 17))):
            kind = rng.choice(("take", "take", "put", "read", "block"))
            place, weight = rng.randrange(places + (rng.random() < 0.05)), rng.choice((0, 1, 1, 2, 16, 1000000))
            arcs.append(f" ({kind} {place} {weight}" + (f" {rng.choice((0, 0, 1))}" if kind == "take" else "") + ")")
        text.append(f"(move {rng.choice((ONE, '0000000000000000', '39b0000000000000'))} {rng.choice(('0000000000000000', '0000000000000000', ONE))}" + "".join(arcs) + ")")
    text += [f"(run {rng.randrange(2000)} {rng.randrange(3)} {rng.getrandbits(64)} {rng.getrandbits(64):016x})", ")", ""]
    text = bytearray("\n".join(text).encode())
    for _ in range(rng.choice((0, 0, 1, 1, 2, 3))):
        at = rng.randrange(len(text) + 1)
        what = rng.randrange(5)
        if what == 0:
            del text[at : at + rng.choice((1, 1, 2, 8))]
        elif what == 1:
            text[at:at] = rng.choice((b"0", b" ", b"\n", b")", b"(", b"1", b"f", b"-", b"Q", b"\xc8", b" q0", b"(put 0 1)", b" (read 0 1)"))
        elif what == 2 and at < len(text):
            text[at] = rng.choice(b"0123456789abcdefF ()\n\r\t") if rng.random() < 0.9 else rng.randrange(256)
        elif what == 3:
            del text[at:]
        else:
            lines = bytes(text).split(b"\n")
            i, j = rng.randrange(len(lines)), rng.randrange(len(lines))
            lines[i], lines[j] = lines[j], lines[i]
            text = bytearray(b"\n".join(lines))
    return bytes(text)


def batch(texts, in_path, out_path):
    with open(in_path, "wb") as given, open(out_path, "w") as answers:
        for text in texts:
            given.write(b"%05d\n" % len(text) + text)
            answers.write(read(text) + "\n")


if __name__ == "__main__":
    if sys.argv[1:2] == ["record"] and len(sys.argv) == 3:
        batch(cases(), f"{sys.argv[2]}/stdin", f"{sys.argv[2]}/stdout")
    elif sys.argv[1:2] == ["refused"] and len(sys.argv) == 5:
        rng = random.Random(int(sys.argv[3]))
        refused = differ = 0
        for text in list(cases()) + [drawn(rng) for _ in range(int(sys.argv[4]))]:
            said = read(text)
            if said.startswith("refused"):
                refused += 1
                printed = subprocess.run([sys.argv[2]], input=text, capture_output=True).stdout
                differ += printed != f"({said})\n".encode()
        print(f"{refused} refused texts, {differ} answered otherwise")
        sys.exit(differ > 0 or refused == 0)
    elif sys.argv[1:2] == ["random"] and len(sys.argv) == 5:
        rng = random.Random(int(sys.argv[2]))
        batch((drawn(rng) for _ in range(int(sys.argv[3]))), f"{sys.argv[4]}.in", f"{sys.argv[4]}.out")
    else:
        sys.exit(__doc__)
