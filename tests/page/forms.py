"""Captures in other forms: pcapng as its writers write it, cooked ones, and what is in them as a classic capture."""
import struct

SECTION, INTERFACE, OLD_PACKET, SIMPLE, NAMES, PACKET = 0x0a0d0d0a, 1, 2, 3, 4, 6


def padded(content):
    return content + bytes(-len(content) % 4)


def block(order, number, content):
    size = 12 + len(padded(content))
    return struct.pack(order + "II", number, size) + padded(content) + struct.pack(order + "I", size)


def section(order):
    return block(order, SECTION, struct.pack(order + "IHHq", 0x1a2b3c4d, 1, 0, -1))


def option(order, code, content):
    return struct.pack(order + "HH", code, len(content)) + padded(content)


def interface(order, link=1, snap=262144, power=None, offset=None):
    """With units of 10^-power seconds, or 2^-(power - 128), and times that count from `offset`."""
    options = option(order, 2, b"eth0")
    options += option(order, 9, bytes([power])) if power is not None else b""
    options += option(order, 14, struct.pack(order + "q", offset)) if offset is not None else b""
    return block(order, INTERFACE, struct.pack(order + "HHI", link, 0, snap) + options + option(order, 0, b""))


def packet(order, time, frame, wire=None, number=0):
    """With a comment, as a person adds it."""
    head = struct.pack(order + "5I", number, time >> 32, time & 0xffffffff, len(frame), wire or len(frame))
    return block(order, PACKET, head + padded(frame) + option(order, 1, b"seen") + option(order, 0, b""))


def old_packet(order, time, frame, number=0):
    return block(order, OLD_PACKET, struct.pack(order + "HH4I", number, 7, time >> 32, time & 0xffffffff, len(frame), len(frame)) + padded(frame))


def simple(order, frame, wire=None):
    return block(order, SIMPLE, struct.pack(order + "I", wire or len(frame)) + padded(frame))


def classic(*records, link=1, order="<", magic=0xa1b23c4d):
    """A classic capture of records: seconds, nanoseconds (or microseconds, by the magic), frame, length on the wire."""
    head = struct.pack(order + "IHHiIII", magic, 2, 4, 0, 0, 262144, link)
    return head + b"".join(struct.pack(order + "4I", seconds, part, len(frame), wire) + frame for seconds, part, frame, wire in records)


A, B = bytes(range(60)), bytes(range(100, 171))
SECOND = 1_700_000_000


def forms():
    """Files, and what is in them as a classic capture."""
    for order in "<>":
        micro = section(order) + interface(order) + block(order, NAMES, bytes(4)) + packet(order, SECOND * 10**6 + 5, A) + packet(order, SECOND * 10**6 + 999_999, B, 90)
        yield f"micro {order}", micro, classic((SECOND, 5000, A, 60), (SECOND, 999_999_000, B, 90))
        nano = section(order) + interface(order, power=9) + packet(order, SECOND * 10**9 + 123_456_789, B)
        yield f"nano {order}", nano, classic((SECOND, 123_456_789, B, 71))
        binary = section(order) + interface(order, power=128 + 10, offset=SECOND) + packet(order, 3 * 1024 + 512, A)
        yield f"2^-10 with an offset {order}", binary, classic((SECOND + 3, 500_000_000, A, 60))
        old = section(order) + interface(order) + old_packet(order, 7 * 10**6, A)
        yield f"old blocks {order}", old, classic((7, 0, A, 60))
        short = section(order) + interface(order, snap=40) + simple(order, A[:40], 60) + simple(order, A[:20])
        yield f"simple blocks {order}", short, classic((0, 0, A[:40], 60), (0, 0, A[:20], 20))
    two = section("<") + interface("<", power=9) + interface("<") + packet("<", 5 * 10**6, A, number=1) + packet("<", 6, B)
    yield "two interfaces, two sections", two + section(">") + interface(">") + packet(">", 8 * 10**6, B), classic((5, 0, A, 60), (0, 6, B, 71), (8, 0, B, 71))
    yield "no packets", section("<"), classic()
    raw = b"\x45" + bytes(30)
    made = bytes(12) + b"\x08\0" + raw
    yield "raw IP in pcapng", section("<") + interface("<", link=101) + packet("<", 10**6, raw), classic((1, 0, made, 45))
    yield "raw IP", classic((1, 2, raw, 31), link=101, magic=0xa1b2c3d4), classic((1, 2000, made, 45))
    yield "raw IP, nanoseconds", classic((1, 2, raw, 31), link=12, order=">"), classic((1, 2, made, 45))


# Files that are not converted, and why.
REFUSED = {
    "wireless.pcapng": (section("<") + interface("<", link=105) + packet("<", 1, A), "an interface has the link type 105"),
    "nobody.pcapng": (section("<") + packet("<", 1, A), "no interface 0 is described"),
    "small.pcapng": (section("<") + struct.pack("<II", 6, 4) + bytes(8), "a block has 4 bytes"),
    "long.pcapng": (section("<") + interface("<") + block("<", PACKET, struct.pack("<5I", 0, 0, 1, 99, 99)), "a packet is longer than its block"),
    "order.pcapng": (section("<")[:8] + bytes(20), "a section has no byte order"),
}
