#!/usr/bin/env python3
"""Compares cuts of parts, joined, with one cut of the whole capture.

  bench/parts.py [COUNT]       COUNT random captures, 10,000 by default: torn and damaged ones and some that carry captures, in parts as `parts`
                               guesses them or that begin anywhere. The last line is `N passed, M failed`; as many are tried side by side as there are processors
  bench/parts.py --time SIZE   of a capture of SIZE megabytes, the real one repeated, and a filter that keeps few packets: how many times the processor
                               time of one cut four parts and their join take together, and how many times as fast four processes are; medians of 9

It is run over the program of BPFTAP, or over the repository's own, as `tests/program.py` is.
"""
import concurrent.futures
import os
import pathlib
import random
import resource
import statistics
import subprocess
import sys
import tempfile
import time

ROOT = pathlib.Path(__file__).resolve().parent.parent
sys.path.insert(0, str(ROOT / "tests"))
from cases.common import PROGRAM, VETH, Scene
from cases.parts import ranges_of, sorted_lines, try_random

WORKERS = 4
FILTER = "tcp dst port 22"


def try_group(seed, count):
    """Tries random captures of a seed; returns how many checks passed, and a line for each that failed."""
    with tempfile.TemporaryDirectory() as folder:
        scene, rng = Scene(pathlib.Path(folder)), random.Random(seed)
        for _ in range(count):
            try_random(scene, rng)
        return scene.passed, scene.failures


def try_captures(count):
    """Tries `count` captures, a hundred of each seed, and returns the exit status."""
    passed = failed = 0
    sizes = [min(100, count - begun) for begun in range(0, count, 100)]
    with concurrent.futures.ProcessPoolExecutor(len(os.sched_getaffinity(0))) as pool:
        for seed, (good, failures) in enumerate(pool.map(try_group, range(len(sizes)), sizes)):
            for line in failures:
                print(f"seed {seed}: {line}")
            passed, failed = passed + good, failed + len(failures)
    print(f"{count} captures: {passed} passed, {failed} failed")
    return 1 if failed else 0


def taken(call):
    """How long a call takes, and how much processor time its processes."""
    def used():
        of = resource.getrusage(resource.RUSAGE_CHILDREN)
        return of.ru_utime + of.ru_stime
    began, before = time.perf_counter(), used()
    call()
    return time.perf_counter() - began, used() - before


def measure(megabytes):
    """Prints both ratios."""
    real = VETH.read_bytes()
    with tempfile.TemporaryDirectory(dir=os.environ.get("TMPDIR")) as folder:
        os.chdir(folder)
        records = real[24:]
        with open("in.pcap", "wb") as whole:
            whole.write(real[:24])
            for _ in range(megabytes * 1_000_000 // len(records)):
                whole.write(records)

        def one():
            subprocess.run([PROGRAM, "cut", "-s", "0", "-e", FILTER, "in.pcap", "one.pcap"], check=True)

        def four():
            ranges = ranges_of(subprocess.run([PROGRAM, "parts", str(WORKERS), "in.pcap"], check=True, stdout=subprocess.PIPE).stdout)
            cuts = [
                subprocess.Popen([PROGRAM, "cut", "--bytes", f"{first}-{end}", "-s", "0", "-e", FILTER, "in.pcap", f"{first}.pcap"], stdout=subprocess.PIPE, text=True)
                for first, end in ranges]
            lines = [cut.communicate()[0].strip() for cut in cuts]
            pathlib.Path("lines.txt").write_text(sorted_lines(lines))
            subprocess.run([PROGRAM, "join", "lines.txt", "four.pcap"], check=True)

        one(), four()
        same = pathlib.Path("one.pcap").read_bytes() == pathlib.Path("four.pcap").read_bytes()
        pairs = [(taken(one), taken(four)) for _ in range(9)]
        work = statistics.median(parts[1] / whole[1] for whole, parts in pairs)
        speed = statistics.median(whole[0] / parts[0] for whole, parts in pairs)
        print(f"{megabytes} MB, {len(os.sched_getaffinity(0))} processors: the same bytes: {same}; processor time {work:.2f}; {WORKERS} processes {speed:.1f} times as fast")
    return 0 if same else 1


def main(words):
    if words[:1] == ["--time"]:
        return measure(int(words[1]))
    return try_captures(int(words[0]) if words else 10_000)


if __name__ == "__main__":
    sys.exit(main(sys.argv[1:]))
