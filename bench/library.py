#!/usr/bin/env python3
"""Measures the library for C beside libpcap, and the batches of the Python package.

  bench/library.py           nanoseconds a packet, of 10 million of 100 bytes: libpcap's program by bpf_filter, and ours by it and by each call
                             of the library, batches of 1 and of 256 also as a multiple of bpftap_program_run; bpftap_next beside a plain loop in C;
                             then run_each of Python on 100,000 packets, and what of it is joining them and gathering their sizes
  bench/library.py --stacks  KiB of stack that each call of the library touches at most: random expressions of bench/meaning.py, and deep
                             ones of 1,000 and of 8,192 bytes

It builds the library first (`./build bpftap_c`), and needs gcc and libpcap's header; without these only Python is measured.
"""
import pathlib
import random
import shutil
import subprocess
import sys
import tempfile
import time
from array import array

ROOT = pathlib.Path(__file__).resolve().parent.parent

PORTS = [20, 21, 22, 23, 25, 53, 67, 68, 69, 80, 110, 111, 123, 135, 137, 138, 139, 143, 161, 389, 443, 445, 465, 514, 587, 636, 993, 995, 1433, 3306]
EXPRESSIONS = ["tcp port 80", "host 10.0.0.1 or host 10.0.0.2", " or ".join(f"port {port}" for port in PORTS)]


def measure_c():
    with tempfile.TemporaryDirectory() as folder:
        program = pathlib.Path(folder) / "library"
        words = ["gcc", "-O2", f"-I{ROOT / 'include'}", ROOT / "bench" / "library" / "library.c", ROOT / "out" / "lib" / "libbpftap.a", "-lpcap", "-o", program]
        if not shutil.which("gcc") or subprocess.run(words).returncode:
            print("gcc or libpcap is not there: C is not measured")
            return
        for expression in EXPRESSIONS:
            subprocess.run([program, expression], check=True)


def gather(packets, batch):
    """What `run_each` hands to C: the packets, joined, and their sizes."""
    for begin in range(0, len(packets), batch):
        part = packets[begin : begin + batch]
        b"".join(part), array("I", [*map(len, part)])


def measure_python():
    sys.path.insert(0, str(ROOT / "bindings" / "python"))
    import bpftap

    packets = [bytes(12) + b"\x08\x00\x45" + bytes(8) + bytes([6 if n % 2 else 17]) + bytes(76) for n in range(100_000)]
    tcp = bpftap.Filter("tcp port 80")
    memory = b"".join(packets)
    spans = (bpftap._library.Span * len(packets))(*[(100 * n, 100, 100) for n in range(len(packets))])
    calls = {
        "run_each": lambda: tcp.run_each(packets),
        "run_each without the run": lambda: gather(packets, bpftap._filters.BATCH),
        "run_spans": lambda: tcp.run_spans(memory, spans),
    }
    for what, call in calls.items():
        best = 1e9
        for _ in range(20):
            began = time.process_time()
            call()
            best = min(best, time.process_time() - began)
        print(f"  Python, {what:28} {best * 1e9 / len(packets):7.2f}")


# What tests/library/stacks.c measures, in its order.
CALLS = ["compile", "print", "why", "compare", "steps", "steps_json", "others"]


def stacks():
    """For each kind of expressions the most stack that a call touches."""
    sys.path.insert(0, str(ROOT / "tests" / "library"))
    import bench
    import deep
    import meaning

    rng = random.Random(1)
    kinds = {
        "random": [meaning.text_of(meaning.expression(rng, 2)) for _ in range(500)], "1,000 bytes": deep.texts(1000),
        "8,192 bytes": [*deep.texts(8192), *(text for _, text, _ in bench.hostile())],
    }
    print(f"{'':12}" + "".join(f"{call:>12}" for call in CALLS))
    with tempfile.TemporaryDirectory() as folder:
        program = pathlib.Path(folder) / "stacks"
        source, archive = ROOT / "tests" / "library" / "stacks.c", ROOT / "out" / "lib" / "libbpftap.a"
        subprocess.run(["gcc", "-O2", f"-I{ROOT / 'include'}", source, archive, "-pthread", "-o", program], check=True)
        for kind, texts in kinds.items():
            lines = "".join(f"{text}\t{other}\n" for text, other in zip(texts, ["ip", *texts]))
            said = subprocess.run([program, "4096"], input=lines, stdout=subprocess.PIPE, text=True, check=True).stdout
            rows = [[*map(int, line.split())] for line in said.splitlines()]
            print(f"{kind:12}" + "".join(f"{max(column) / 1024:12.0f}" for column in zip(*rows)))


if __name__ == "__main__":
    subprocess.run([ROOT / "build", "bpftap_c"], check=True)
    if sys.argv[1:] == ["--stacks"]:
        stacks()
    else:
        measure_c()
        measure_python()
