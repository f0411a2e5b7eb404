# SPDX-License-Identifier: MIT OR Apache-2.0
"""Packets."""
from __future__ import annotations

from typing import NamedTuple

from ._library import bytes_of, in_range


class Packet(NamedTuple):
    """A packet: its captured bytes, its length on the wire, and when it was captured."""
    data: bytes
    wire: int
    seconds: int = 0
    nanos: int = 0

    @property
    def time(self) -> float:
        """Seconds since 1970; a float holds a time of today to some 200 nanoseconds."""
        return self.seconds + self.nanos / 1e9


class Message(NamedTuple):
    """What a listener kept of a packet: `data` are its first bytes. `place` is its place in the capture of this number."""
    data: bytes
    wire: int
    seconds: int = 0
    nanos: int = 0
    place: int = 0
    capture: int = 0
    time = Packet.time


def parts_of(packet: Packet | Message | bytes, wire: int | None = None) -> tuple[bytes, int]:
    """The captured bytes of a packet and its length on the wire: the one that is passed, else that of the packet, else all bytes."""
    if isinstance(packet, (Packet, Message)):
        wire = packet[1] if wire is None else wire
        packet = packet[0]
    if type(packet) is not bytes:
        packet = bytes_of("packet", packet)
    if wire is None:
        return packet, len(packet)
    return packet, wire if type(wire) is int and 0 <= wire < 2**32 else in_range("wire", wire)
