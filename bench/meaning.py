#!/usr/bin/env python3
"""Compares programs of `bpftap check` with the meaning that docs/LANGUAGE.md gives their expressions, which is written here again,
without the program's own code.

  bench/meaning.py                    a million runs
  bench/meaning.py --runs N --seed N  N runs, of other expressions

The expressions are random, with many operands of an `or` (or of an `and` of negations) that differ only in their numbers, and many
comparisons of the same bytes.
Each is tried on frames of its own numbers, cut at each byte. The program is this folder's, or BPFTAP=PATH.
"""
import argparse
import random
import subprocess
import sys

from filters import program, program_of, run

IP, ARP, RARP = 0x0800, 0x0806, 0x8035
NUMBERS = {"icmp": 1, "tcp": 6, "udp": 17, "sctp": 132}
TYPES = {"ip": IP, "arp": ARP, "rarp": RARP}

# Few numbers of each kind, so that frames often have those that are asked for.
ADDRESSES = [0xc0000201, 0xc0000209, 0xc0000301, 0x0a000001, 0x0a000002, 0x0a010001, 0xe0000001]
PORTS = [53, 80, 443, 8080, 5353, 1024, 65535]
ETHERNET = [0x020000000001, 0x020000000002, 0x020100000001, 0x0a0000000001, 0x0b0000000002, 0x0c0107000003, 0xffffffffffff]


# What a test answers: True, False, or None if it aborts.

def number(frame, offset, size):
    """Bytes of the frame as a number, or None if one of them is missing."""
    return int.from_bytes(frame[offset:offset + size], "big") if offset + size <= len(frame) else None


def check(value, holds):
    return None if value is None else holds(value)


def both(first, second):
    """The second is asked if the first is True."""
    answer = first()
    return second() if answer is True else answer


def either(first, second):
    answer = first()
    return second() if answer is False else answer


def negated(answer):
    return None if answer is None else not answer


def directed(direction, source, destination):
    return {
        "src": source, "dst": destination, "src or dst": lambda: either(source, destination),
        "src and dst": lambda: both(source, destination),
    }[direction]()


def is_type(frame, kind):
    return check(number(frame, 12, 2), lambda n: n == kind)


def is_protocol(frame, wanted):
    return both(lambda: is_type(frame, IP), lambda: check(number(frame, 23, 1), lambda n: n == wanted))


def is_first(frame, wanted):
    return both(lambda: is_protocol(frame, wanted), lambda: check(number(frame, 20, 2), lambda n: n & 0x1fff == 0))


def net_of(frame, kind, direction, address, mask):
    source, destination = (26, 30) if kind == "ip" else (28, 38)
    side = lambda offset: lambda: check(number(frame, offset, 4), lambda n: n & mask == address)
    return both(lambda: is_type(frame, TYPES[kind]), lambda: directed(direction, side(source), side(destination)))


def header_end(frame):
    first = number(frame, 14, 1)
    return None if first is None else 14 + 4 * (first & 15)


def ports_of(frame, transport, direction, low, high):
    def side(offset):
        end = header_end(frame)
        return None if end is None else check(number(frame, end + offset, 2), lambda n: low <= n <= high)
    return both(lambda: is_first(frame, NUMBERS[transport]), lambda: directed(direction, lambda: side(0), lambda: side(2)))


def any_of(tests):
    for test in tests:
        answer = test()
        if answer is not False:
            return answer
    return False


def in_layer(frame, layer):
    if layer == "ether":
        return True
    return is_type(frame, TYPES[layer]) if layer in TYPES else is_first(frame, NUMBERS[layer])


def accessed(frame, layer, index, size):
    if layer == "ether":
        return number(frame, index, size)
    if layer in TYPES:
        return number(frame, 14 + index, size)
    end = header_end(frame)
    return None if end is None else number(frame, end + index, size)


COMPARED = {
    "=": lambda a, b: a == b, "!=": lambda a, b: a != b, "<": lambda a, b: a < b, ">": lambda a, b: a > b,
    "<=": lambda a, b: a <= b, ">=": lambda a, b: a >= b,
}


def answer_of(tree, frame, wire):
    """What an expression answers to a packet."""
    form = tree[0]
    if form == "not":
        return negated(answer_of(tree[1], frame, wire))
    if form == "and":
        return both(lambda: answer_of(tree[1], frame, wire), lambda: answer_of(tree[2], frame, wire))
    if form == "or":
        return either(lambda: answer_of(tree[1], frame, wire), lambda: answer_of(tree[2], frame, wire))
    if form == "word":
        word = tree[1]
        return is_type(frame, TYPES[word]) if word in TYPES else is_protocol(frame, NUMBERS[word])
    if form == "net":
        _, kind, direction, address, mask, _ = tree
        return any_of([lambda k=k: net_of(frame, k, direction, address, mask) for k in ([kind] if kind else TYPES)])
    if form == "ports":
        _, transport, direction, low, high = tree
        wanted = [transport] if transport else ["tcp", "udp", "sctp"]
        return any_of([lambda t=t: ports_of(frame, t, direction, low, high) for t in wanted])
    if form == "ether host":
        side = lambda offset: lambda: check(number(frame, offset, 6), lambda n: n == tree[2])
        return directed(tree[1], side(6), side(0))
    if form == "ip proto":
        return is_protocol(frame, tree[1])
    if form == "ether proto":
        return is_type(frame, tree[1])
    if form == "less":
        return wire <= tree[1]
    if form == "length":
        return COMPARED[tree[1]](wire, tree[2])
    _, layer, index, size, mask, comparison, wanted = tree
    bits = lambda n: n if mask is None else n & mask
    holds = lambda n: COMPARED[comparison](bits(n), wanted)
    return both(lambda: in_layer(frame, layer), lambda: check(accessed(frame, layer, index, size), holds))


# Expressions as texts.

def dotted(address):
    return ".".join(str(address >> shift & 255) for shift in (24, 16, 8, 0))


def text_of(tree):
    form = tree[0]
    if form == "not":
        return "not " + inner(tree[1])
    if form in ("and", "or"):
        return f"{text_of(tree[1])} {form} {inner(tree[2])}"
    if form == "word":
        return tree[1]
    if form == "net":
        _, kind, direction, address, mask, is_host = tree
        begin = f"{kind + ' ' if kind else ''}{direction} "
        return begin + (f"host {dotted(address)}" if is_host else f"net {dotted(address)} mask {dotted(mask)}")
    if form == "ports":
        _, transport, direction, low, high = tree
        begin = f"{transport + ' ' if transport else ''}{direction} "
        return begin + (f"port {low}" if low == high else f"portrange {low}-{high}")
    if form == "ether host":
        return f"ether {tree[1]} host " + ":".join(f"{tree[2] >> shift & 255:x}" for shift in (40, 32, 24, 16, 8, 0))
    if form in ("ip proto", "ether proto", "less"):
        return f"{form} {tree[1]}"
    if form == "length":
        return f"len {tree[1]} {tree[2]}"
    _, layer, index, size, mask, comparison, wanted = tree
    return f"{layer}[{index}:{size}]{'' if mask is None else f' & {mask}'} {comparison} {wanted}"


def inner(tree):
    return f"({text_of(tree)})" if tree[0] in ("and", "or") else text_of(tree)


# Random ones.

def direction(rng):
    return rng.choice(["src", "dst", "src or dst", "src or dst", "src and dst"])


def maker(rng):
    """A function that makes primitives or relations of one kind, which differ only in their numbers."""
    form = rng.choice(["host", "host", "net", "port", "port", "range", "ether", "ether", "joined", "ip proto", "ether proto", "word", "bytes", "bytes", "compared", "length"])
    if form in ("host", "net"):
        kind, side = rng.choice([None, None, "ip", "arp", "rarp"]), direction(rng)
        mask = 0xffffffff if form == "host" else rng.choice([0xffffff00, 0xffff0000, 0xff000000, 0xff0000ff])
        return lambda: ("net", kind, side, rng.choice(ADDRESSES) & mask, mask, form == "host")
    if form in ("port", "range"):
        transport, side = rng.choice([None, None, "tcp", "udp", "sctp"]), direction(rng)
        def ports():
            low = rng.choice(PORTS)
            return ("ports", transport, side, low, low if form == "port" else min(65535, low + rng.choice([1, 30, 400])))
        return ports
    if form == "joined":
        word, side = rng.choice([*TYPES, *NUMBERS]), direction(rng)
        if rng.random() < 0.5:
            return lambda: ("and", ("word", word), ("net", None, side, rng.choice(ADDRESSES), 0xffffffff, True))
        return lambda: ("and", ("word", word), ("ports", None, side, *[rng.choice(PORTS)] * 2))
    if form == "ether":
        side = direction(rng)
        return lambda: ("ether host", side, rng.choice(ETHERNET))
    if form == "ip proto":
        return lambda: ("ip proto", rng.choice([1, 6, 17, 132, 2, 89]))
    if form == "ether proto":
        return lambda: ("ether proto", rng.choice([IP, ARP, RARP, 0x86dd, 2000]))
    if form == "word":
        return lambda: ("word", rng.choice([*TYPES, *NUMBERS]))
    if form == "length":
        return lambda: ("length", rng.choice(list(COMPARED)), rng.choice([30, 42, 60, 1500]))
    layer = rng.choice(["ether", "ip", "arp", "rarp", "tcp", "udp", "icmp"])
    index, size = rng.choice([(0, 1), (2, 2), (8, 1), (12, 4), (4, 2), (6, 4), (0, 2)])
    wanted = lambda: rng.choice([0, 1, 5, 8, 64, 80, 443, 0xc0000201, 0x45])
    if form == "bytes":
        return lambda: ("bytes", layer, index, size, None, "=", wanted())
    return lambda: rng.choice([
        ("bytes", layer, index, size, None, rng.choice(list(COMPARED)), wanted()),
        ("bytes", layer, index, size, rng.choice([1, 64, 0x45]), rng.choice(["=", "!="]), 0)])


def pair(rng):
    """Two kinds of which all of one may be asked before the other one, or of which one has what the other one asks for."""
    sides = ["src", "dst", "src or dst"]
    host = lambda kind, side: lambda: ("net", kind, side, rng.choice(ADDRESSES), 0xffffffff, True)
    port = lambda transport, side: lambda: ("ports", transport, side, *[rng.choice(PORTS)] * 2)
    form = rng.choice(["host", "port", "bytes"])
    if form == "host":
        return [host("ip", rng.choice(sides)), host(None, rng.choice(sides))]
    if form == "port":
        return [port(transport, rng.choice(sides)) for transport in rng.sample(["tcp", "udp", "sctp"], 2)]
    transport, index = rng.choice(["tcp", "udp"]), rng.choice([0, 1, 2])
    return [port(transport, "src or dst"), lambda: ("bytes", transport, index, 2, None, "=", rng.choice(PORTS))]


def twins(rng):
    """Tests of TCP and of UDP by turns, most of which ask for the same ports in the same order."""
    side, joint, first = rng.choice(["src", "dst", "src or dst"]), rng.choice(["or", "and"]), rng.choice(["tcp", "udp"])
    both = [(first, low) for low in rng.choices(PORTS, k=rng.choice([2, 3, 5]))]
    both = [one for transport, low in both for one in [(transport, low), ("tcp" if transport == "udp" else "udp", low)]]
    if rng.random() < 0.3:
        both.append((rng.choice(["tcp", "udp", "sctp"]), rng.choice(PORTS)))
    if rng.random() < 0.3:
        rng.shuffle(both)
    width = rng.choice([0, 0, 30])
    one = lambda transport, low: ("ports", transport, side, low, min(65535, low + width))
    tests = [one(*each) if joint == "or" else ("not", one(*each)) for each in both]
    tree = tests[0]
    for other in tests[1:]:
        tree = (joint, tree, other)
    return tree


def a_list(rng):
    """Operands of an `or`, or negations of an `and`, of one list or of several in any order; another test may be among them."""
    if rng.random() < 0.1:
        return twins(rng)
    makers = pair(rng) if rng.random() < 0.2 else [maker(rng) for _ in range(rng.choice([1, 1, 2, 2, 3]))]
    count = rng.choice([2, 2, 3, 4, 6, 8]) + len(makers) - 1
    joint = rng.choice(["or", "or", "and"])
    make = lambda: rng.choice(makers)()
    one = make if joint == "or" else lambda: ("not", make())
    tree = one()
    for _ in range(count - 1):
        other = maker(rng)() if rng.random() < 0.1 else one()
        tree = (joint, tree, other)
    return tree


def expression(rng, levels):
    chance = rng.random()
    if levels == 0 or chance < 0.4:
        return a_list(rng) if rng.random() < 0.8 else single(rng)
    if chance < 0.5:
        return ("not", expression(rng, levels - 1))
    return (rng.choice(["and", "or"]), expression(rng, levels - 1), expression(rng, levels - 1))


def changed(rng, tree):
    """The tree with some operands exchanged, or with another part in place of one."""
    if rng.random() < 0.1:
        return expression(rng, 0)
    if tree[0] == "not":
        return ("not", changed(rng, tree[1]))
    if tree[0] in ("and", "or"):
        left, right = changed(rng, tree[1]), changed(rng, tree[2])
        return (tree[0], right, left) if rng.random() < 0.4 else (tree[0], left, right)
    return tree


def single(rng):
    if rng.random() < 0.3:
        return ("less", rng.choice([20, 60, 100]))
    if rng.random() < 0.3:
        return ("bytes", rng.choice(["ip", "tcp", "udp"]), rng.choice([0, 2, 8]), rng.choice([1, 2]), None, rng.choice(list(COMPARED)), 80)
    return maker(rng)()


def frame(rng):
    """A frame of the numbers that are asked for."""
    ends = rng.choice(ETHERNET).to_bytes(6, "big") + rng.choice(ETHERNET).to_bytes(6, "big")
    kind = rng.choice([IP, IP, IP, ARP, RARP, 2000])
    source, destination = (rng.choice(ADDRESSES).to_bytes(4, "big") for _ in range(2))
    if kind in (ARP, RARP):
        return ends + kind.to_bytes(2, "big") + bytes(14) + source + bytes(6) + destination + bytes(4)
    words = rng.choice([5, 5, 6, 15, 0])
    fragment = rng.choice([0, 0, 0, 0x4000, 0x2000, 1, 0x1fff])
    header = bytes([0x40 | words, 0, 0, 80, 0, 0]) + fragment.to_bytes(2, "big")
    header += bytes([rng.choice([1, 8, 64]), rng.choice([1, 6, 17, 132, 6, 17, 2])]) + bytes(2) + source + destination
    ports = b"".join(rng.choice(PORTS).to_bytes(2, "big") for _ in range(2))
    return ends + kind.to_bytes(2, "big") + header + bytes(max(0, 4 * words - 20)) + ports + bytes(8)


def compared(rng, tree, program, frames):
    """Runs a program on frames cut at each byte, and stops if it answers otherwise. Returns how often it ran, and accepted."""
    runs = accepted = 0
    for _ in range(frames):
        whole = frame(rng)
        wire = rng.choice([len(whole), 60, 1500])
        for length in range(len(whole) + 1):
            cut = whole[:length]
            wanted = 262144 if answer_of(tree, cut, wire) is True else 0
            answer, _ = run(program, cut, wire)
            if answer != wanted:
                sys.exit(f"{text_of(tree)}: {answer} in place of {wanted} for {cut.hex()} of {wire} bytes")
            runs += 1
            accepted += wanted != 0
    return runs, accepted


def main():
    parser = argparse.ArgumentParser(description=__doc__.splitlines()[0])
    parser.add_argument("--runs", type=int, default=1_000_000, help="how many runs at least")
    parser.add_argument("--seed", type=int, default=1)
    words = parser.parse_args()
    rng = random.Random(words.seed)
    runs = accepted = expressions = refused = 0
    while runs < words.runs:
        tree = expression(rng, 2)
        done = subprocess.run([program(), "check", "--", text_of(tree)], stdout=subprocess.PIPE, stderr=subprocess.PIPE, text=True)
        if done.returncode != 0:
            if done.stderr.strip() != "bpftap: TooLong":
                sys.exit(f"{text_of(tree)}: {done.stderr}")
            refused += 1
            continue
        more, kept = compared(rng, tree, program_of(done.stdout), 3)
        runs, accepted, expressions = runs + more, accepted + kept, expressions + 1
    print(f"{runs} runs of {expressions} programs agree, of which {accepted} accept; {refused} expressions were too long")


if __name__ == "__main__":
    main()
