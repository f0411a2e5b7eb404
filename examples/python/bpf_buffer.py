# SPDX-License-Identifier: MIT OR Apache-2.0
"""Writes what a read(2) of /dev/bpf that has room for all gives on FreeBSD on 64 bits, little-endian, for the packets that a filter accepts, to try a program
that reads such buffers: `python3 bpf_buffer.py EXPR IN OUT`, with bpftap's Python package. For what a `Listener` hands over: `buffer(listener.read())`.
Each packet comes after a `struct bpf_hdr`: its time, both lengths, and the length of the header."""
import struct
import sys

from bpftap import Filter, read

# Seconds and microseconds, the captured and the original length, and the header's own length: with the 14 bytes of the
# Ethernet header that is 40, so what comes after them stands at a multiple of 8.
HEADER = struct.Struct("<qqIIH")


def record(packet):
    """A packet after its header."""
    return HEADER.pack(packet.seconds, packet.nanos // 1000, len(packet.data), packet.wire, HEADER.size) + packet.data


def buffer(packets):
    """The records of packets, each from a multiple of 8 bytes on, as BPF_WORDALIGN asks for; the last one ends with its packet."""
    made = bytearray()
    for packet in packets:
        made += bytes(-len(made) % 8) + record(packet)
    return bytes(made)


if __name__ == "__main__":
    if len(sys.argv) != 4:
        sys.exit("usage: python3 bpf_buffer.py EXPR IN OUT")
    keep = Filter(sys.argv[1])
    with open(sys.argv[3], "wb") as made:
        made.write(buffer(packet for packet in read(sys.argv[2]) if keep.matches(packet)))
