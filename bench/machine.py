#!/usr/bin/env python3
"""Counts what the filter machine costs for each executed instruction of a program, by valgrind's callgrind.

The programs are those of `bench/filters.py`'s expressions, run once over the real capture of `examples/`. The loop of
`bench/machine` runs them. Its own cost is counted by a program of one return; `RETURN` of that count is the machine's own, by the
listing of the built program. It proves and builds bench/machine first, in a copy, over what ./build kept
(MACHINE=PATH takes a built one), and needs valgrind. `bpftap` is this folder's, or BPFTAP=PATH.

  bench/machine.py [EVERY [CAPTURE]]    all programs, or each EVERYth; on another little-endian savefile
"""
import concurrent.futures
import os
import pathlib
import re
import statistics
import subprocess
import sys
import tempfile

import bench
import filters

RETURN = 10


def counted(machine, folder, capture, name, listing):
    """User instructions of one round over the capture."""
    path = folder / f"{name}.bpf"
    path.write_text(listing)
    words = ["valgrind", "--tool=callgrind", "--toggle-collect=*::round", "--callgrind-out-file=/dev/null"]
    done = subprocess.run([*words, machine, str(path), str(capture), "1"],
                          stdout=subprocess.DEVNULL, stderr=subprocess.PIPE, text=True)
    found = re.search(r"Collected : (\d+)", done.stderr)
    if not found:
        sys.exit(f"callgrind said nothing of {name}:\n{done.stderr[-2000:]}")
    return int(found.group(1))


def measured(machine, folder, capture, every):
    """Prints the average over all executed instructions, and over the programs."""
    seen = list(filters.packets(capture))
    around = counted(machine, folder, capture, "return", "1\n6 0 0 0\n") - RETURN * len(seen)

    def one(place):
        words = [filters.program(), "check", filters.EXPRESSIONS[place]]
        done = subprocess.run(words, stdout=subprocess.PIPE, stderr=subprocess.PIPE, text=True)
        if done.returncode != 0:
            return None
        program = filters.program_of(done.stdout)
        executed = sum(filters.run(program, packet, wire)[1] for packet, wire in seen)
        return executed, counted(machine, folder, capture, place, done.stdout) - around

    with concurrent.futures.ThreadPoolExecutor(os.cpu_count()) as threads:
        rows = [row for row in threads.map(one, range(0, len(filters.EXPRESSIONS), every)) if row]
    ratios = [count / executed for executed, count in rows]
    print(f"{len(rows)} programs, user instructions for each executed one:"
          f" {sum(count for _, count in rows) / sum(executed for executed, _ in rows):.2f},"
          f" the programs' own averages {statistics.mean(ratios):.2f} on average,"
          f" {statistics.median(ratios):.2f} in the middle, {max(ratios):.2f} at most")


def main():
    every = int(sys.argv[1]) if len(sys.argv) > 1 else 1
    capture = pathlib.Path(sys.argv[2]) if len(sys.argv) > 2 else filters.CAPTURE
    with tempfile.TemporaryDirectory() as name:
        folder = pathlib.Path(name)
        machine = os.environ.get("MACHINE")
        if machine is None:
            machine = bench.built(folder, "machine", ["bpfvm"], {"main.txt": "src/main.rt"})
        measured(machine, folder, capture, every)


if __name__ == "__main__":
    main()
