#!/usr/bin/env python3
"""Times `bpftap compare` of two expressions without a capture, and counts the answers.

  bench/same.py            each expression of bench/filters.py beside rewrites of itself, and large lists that are shuffled
  bench/same.py --large    only the large lists
  bench/same.py --random N [--frames M]
                           N random pairs, each answer beside M frames (100,000) of their own numbers, cut at any byte
  bench/same.py --heavy N  N random pairs with arithmetic, and programs, which are often too large

Prints how many pairs have which answer, the slowest pairs in seconds of a processor, and the most memory that a pair took. The program is
this folder's, or BPFTAP=PATH; random pairs are decided by its library, which BPFTAP_LIBRARY=PATH names.
"""
import argparse
import collections
import os
import pathlib
import random
import struct
import subprocess
import sys
import tempfile
import time

import meaning
from filters import EXPRESSIONS, address, port, program

REWRITES = {
    "and itself": lambda expr: f"({expr}) and ({expr})",
    "not not": lambda expr: f"not (not ({expr}))",
    "De Morgan": lambda expr: f"not (not ({expr}) and not ({expr}))",
}


def shuffled(members, seed):
    """The members, joined by `or`, in order and in another order."""
    other = members[:]
    random.Random(seed).shuffle(other)
    return " or ".join(members), " or ".join(other)


def rules(count):
    """Rules of a firewall: a source network and a destination port each."""
    return [f"(tcp and src net 10.{n}.0.0/16 and dst port {port(n + 2)})" for n in range(count)]


LARGE = {
    "100 hosts, shuffled": shuffled([f"src host {address(n)}" for n in range(100)], 1),
    "100 ports, shuffled": shuffled([f"tcp dst port {port(n)}" for n in range(100)], 2),
    "50 rules, shuffled": shuffled(rules(50), 3),
    "50 rules, one changed": (" or ".join(rules(50)), " or ".join([*rules(49), "(tcp and src net 10.99.0.0/16 and dst port 1)"])),
}


class Compared:
    """What one comparison printed first, and what it took."""

    def __init__(self, *words):
        began = subprocess.Popen([program(), "compare", *words], stdout=subprocess.PIPE, text=True)
        self.words, self.answer = words, began.stdout.read().partition("\n")[0]
        began.stdout.close()
        _, status, used = os.wait4(began.pid, 0)
        began.returncode = os.waitstatus_to_exitcode(status)
        self.seconds, self.megabytes = used.ru_utime + used.ru_stime, used.ru_maxrss // 1024


def summary(done):
    """How many have which answer, the slowest ones, and the most memory."""
    for answer, count in collections.Counter(one.answer for one in done).most_common():
        print(f"{count} of {len(done)}: {answer}")
    for one in sorted(done, key=lambda one: -one.seconds)[:3]:
        print(f"{one.seconds:.2f} s: {', '.join(word[:60] for word in one.words)}")
    print(f"{sum(one.seconds for one in done):.0f} s together, at most {max(one.megabytes for one in done)} MB")


def heavy_value(rng, depth):
    """A value with fields that shift, multiply, divide or index one another."""
    kind = rng.random()
    if depth == 0 or kind < 0.35:
        field = f"{rng.choice(['ip', 'ip', 'tcp', 'ether'])}[{rng.choice([0, 2, 4, 8, 9, 12, 16, rng.randrange(40)])}"
        return rng.choice([f"{field}]", f"{field}:2]", f"{field}:4]", "len", str(rng.choice([1, 2, 3, 7, 60, 255, 65535]))])
    if kind < 0.45:
        return f"{rng.choice(['ip', 'tcp', 'ether'])}[{heavy_value(rng, depth - 1)} & {rng.choice([15, 60, 255])}]"
    return f"({heavy_value(rng, depth - 1)} {rng.choice('+ - * / % & | ^ << >>'.split())} {heavy_value(rng, depth - 1)})"


def heavy_expression(rng):
    parts = [f"{heavy_value(rng, 3)} {rng.choice('= != < > <= >='.split())} {heavy_value(rng, 2)}" for _ in range(rng.choice([1, 1, 2, 3]))]
    return rng.choice([" and ", " or "]).join([*parts, *rng.choices(["port 53", "tcp", "not ip"], k=rng.randrange(2))])


# Codes that load, calculate by k or by X, move, store, load what was stored, and compare; docs/ASSEMBLY.md has what each does.
LOADS, BY_K, BY_X, MOVES = [32, 40, 48, 64, 72, 80, 177, 128], [4, 20, 36, 68, 84, 164], [12, 28, 44, 60, 76, 92, 108, 124, 156, 172], [7, 135, 132]
STORED, FORKS = [2, 3, 96, 97], [21, 37, 53, 69, 29, 45, 61, 77]


def heavy_program(rng):
    """A listing of a random program, whose jumps go forward."""
    size, insns = rng.choice([15, 60, 200, 400]), []
    for left in range(size, 0, -1):
        code, way = rng.choice(rng.choices([LOADS, BY_K, BY_X, MOVES, STORED, FORKS], [4, 2, 2, 1, 3, 4])[0]), lambda: rng.randrange(min(left, 6))
        ways = (way(), way()) if code in FORKS else (0, 0)
        k = {177: 14, 128: 0}.get(code, rng.randrange(16) if code in STORED else rng.choice([0, 1, 2, 8, 12, 14, 20, 23, 26, rng.randrange(60)]))
        insns.append(f"{code} {ways[0]} {ways[1]} {max(k, 1) if code in BY_K else k}")
    insns += ["6 0 0 0", "6 0 0 1"]
    return "".join(f"{line}\n" for line in [len(insns), *insns])


def heavy_pairs(count):
    """Compares random pairs with arithmetic, every third of which has a program."""
    rng, done = random.Random(2000), []
    with tempfile.TemporaryDirectory() as folder:
        listing = pathlib.Path(folder) / "random.bpf"
        while len(done) < count:
            first = heavy_expression(rng)
            second = rng.choice([f"not not ({first})", heavy_expression(rng)])
            listing.write_text(heavy_program(rng))
            one = Compared("-f", str(listing), first) if rng.random() < 1 / 3 else Compared(first, second)
            if one.answer:
                done.append(one)
    summary(done)


class Frames:
    """Frames in one memory, cut at any byte: of the first ones no more was captured than was on the wire."""

    def __init__(self, rng, count):
        self.all, spans, at = [], [], 0
        for n in range(count):
            whole = meaning.frame(rng)
            captured = rng.randrange(len(whole) + 1)
            wire = rng.randrange(captured, 1600) if n < count * 4 // 5 else rng.randrange(captured + 1)
            self.all.append((whole[:captured], wire))
            spans.append(struct.pack("=QII", at, captured, wire))
            at += captured
        self.memory, self.spans = b"".join(frame for frame, _ in self.all), b"".join(spans)

    def parted(self, first, second):
        """The places of the frames that one filter accepts and the other does not."""
        one, other = (keep.run_spans(self.memory, self.spans) for keep in (first, second))
        return [] if one == other else [n for n, pair in enumerate(zip(one, other)) if bool(pair[0]) != bool(pair[1])]


def contradiction(bpftap, frames, trees, answer, keep):
    """What contradicts an answer about two expressions, by the tables of docs/LANGUAGE.md; None if nothing does."""
    says = lambda frame, wire: {meaning.answer_of(tree, frame, wire) for tree in trees}
    kind = answer.answer
    if kind in (bpftap.Sameness.SHORT, bpftap.Sameness.DIFFER):
        wanted = {True, None if kind == bpftap.Sameness.SHORT else False}
        if says(answer.packet, answer.wire) != wanted or len(answer.packet) > answer.wire:
            return f"the packet {answer.packet.hex()} of {answer.wire} bytes"
    for n in frames.parted(*keep) if kind in (bpftap.Sameness.SAME, bpftap.Sameness.SAME_AS_CAPTURED, bpftap.Sameness.SHORT) else []:
        frame, wire = frames.all[n]
        is_captured = len(frame) <= wire
        if kind == bpftap.Sameness.SAME or is_captured and (kind == bpftap.Sameness.SAME_AS_CAPTURED or False in says(frame, wire)):
            return f"the frame {frame.hex()} of {wire} bytes"
    return None


def random_pairs(count, frames):
    """Decides random pairs, and looks for frames that contradict the answers."""
    sys.path.insert(0, str(pathlib.Path(__file__).resolve().parent.parent / "bindings" / "python"))
    import bpftap
    rng = random.Random(1993)
    frames, answers, slowest, wrong = Frames(rng, frames), collections.Counter(), 0, 0
    while sum(answers.values()) < count:
        first = meaning.expression(rng, 1)
        trees = first, meaning.changed(rng, first)
        texts = [meaning.text_of(tree) for tree in trees]
        try:
            keep = [bpftap.Filter(text) for text in texts]
        except bpftap.FilterError:
            continue
        began = time.perf_counter()
        answer = bpftap.compare(*texts)
        slowest = max(slowest, time.perf_counter() - began)
        answers[answer.answer.name] += 1
        why = contradiction(bpftap, frames, trees, answer, keep)
        if why:
            wrong += 1
            print(f"{answer.answer.name} of {texts}, but {why}")
    for name, pairs in answers.most_common():
        print(f"{pairs} of {count}: {name}")
    print(f"{wrong} answers contradicted by {len(frames.all)} frames each; the slowest pair took {slowest:.2f} s")


def main():
    parser = argparse.ArgumentParser(description=__doc__.splitlines()[0])
    parser.add_argument("--large", action="store_true", help="only the large lists")
    parser.add_argument("--random", type=int, default=0, metavar="N", help="only N random pairs")
    parser.add_argument("--heavy", type=int, default=0, metavar="N", help="only N random pairs with arithmetic")
    parser.add_argument("--frames", type=int, default=100_000, metavar="M", help="frames for each of these")
    words = parser.parse_args()
    if words.random:
        return random_pairs(words.random, words.frames)
    if words.heavy:
        return heavy_pairs(words.heavy)
    for name, pair in LARGE.items():
        one = Compared(*pair)
        print(f"{name}: {one.answer}, {one.seconds:.2f} s, {one.megabytes} MB")
    if not words.large:
        summary([Compared(expr, rewrite(expr)) for expr in EXPRESSIONS for rewrite in REWRITES.values()])


if __name__ == "__main__":
    main()
