"""Prints what the package decides of pairs of expressions, each a line with a tab between them."""
import sys

import bpftap

for line in sys.stdin.read().splitlines():
    first, second = line.split("\t")
    found = bpftap.compare(first, second)
    shown = "" if found.packet is None else f" {found.wire} {found.packet.hex()}"
    print(f"{found.answer.name}{shown}")
