#!/usr/bin/env python3
"""Measures how the Python package goes through a capture, beside pcapy and beside the C call.

  bench/captures.py    how many times the time of pcapy's loop, which opens a capture of 4,048 packets and asks a filter of each, is taken by
                       each way through it here; and how many times the time of `bpftap_cut` by `cut`, of 100 MB

It is run by a Python that has pcapy (Debian: python3-pcapy, so /usr/bin/python3), and takes the library of BPFTAP_LIBRARY or out/lib. A ratio is
the median of 60, each beside a loop before it and one after it, since other work on the machine slows both.
"""
import ctypes
import mmap
import pathlib
import statistics
import sys
import tempfile
import time

ROOT = pathlib.Path(__file__).resolve().parent.parent
sys.path.insert(0, str(ROOT / "bindings" / "python"))
import bpftap

EXPRESSION = "udp port 5353"


def taken(call):
    began = time.perf_counter()
    call()
    return time.perf_counter() - began


def ratio(call, other, times=60):
    return statistics.median(taken(call) / statistics.mean((taken(other), taken(other))) for _ in range(times))


def measure_loops(path):
    try:
        import pcapy
    except ImportError:
        print("pcapy is not there: the ways through a capture are not measured")
        return

    def pcapys():
        reader, program = pcapy.open_offline(path), pcapy.BPFProgram(EXPRESSION)
        while True:
            header, data = reader.next()
            if header is None:
                return
            program.filter(data)

    def loop():
        wanted = bpftap.Filter(EXPRESSION)
        return sum(wanted.matches(packet) for packet in bpftap.read(path))

    ways = {
        "read": lambda: [*bpftap.read(path)], "read and matches of each": loop, "read and run_each": lambda: bpftap.Filter(EXPRESSION).run_each(bpftap.read(path)),
        "Capture.matching": lambda: [*bpftap.read(path).matching(EXPRESSION)], "Capture.answers": lambda: bpftap.read(path).answers(EXPRESSION)}
    for name, call in ways.items():
        print(f"{name:26} {ratio(call, pcapys):.2f} of pcapy's loop")


def measure_cut(content):
    for expression in ("", EXPRESSION, "tcp"):
        keep = bpftap.Filter(expression)

        def call_of_c():
            with mmap.mmap(-1, len(content)) as mapped:
                to = (ctypes.c_char * len(content)).from_buffer(mapped)
                bpftap._library.lib.bpftap_cut(content, len(content), keep._insns, keep._size, 0, to, len(content))
                del to

        print(f"cut by {expression or 'nothing':19} {ratio(lambda: bpftap.cut(content, keep), call_of_c, 9):.2f} of the C call")


if __name__ == "__main__":
    real = (ROOT / "examples" / "veth.pcap").read_bytes()
    head, packets = real[:24], real[24:]
    with tempfile.TemporaryDirectory() as folder:
        path = pathlib.Path(folder) / "in.pcap"
        path.write_bytes(head + packets * 16)
        measure_loops(str(path))
    measure_cut(head + packets * (100_000_000 // len(packets)))
