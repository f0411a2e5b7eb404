# SPDX-License-Identifier: MIT OR Apache-2.0
"""Faults of the C library as exceptions."""
from ._library import NO_MEMORY, lib, text


class Fault(ValueError):
    """A fault: its line, as `BadWord 4`; its name; and its place, or None if it has none. The program prints the same line, but `TooLong` for
    `RecordTooLong`."""

    def __init__(self, line):
        super().__init__(line)
        self.name, _, place = line.partition(" ")
        self.place = int(place) if place else None


def fault_line(fault, place=0):
    """The line of a fault, as `BadWord 4`."""
    return text(lambda to, room: lib.bpftap_fault_text(fault, place, to, room))[1].decode()


def raise_fault(kind, fault, place):
    """Raises a fault, if there is one."""
    if fault == NO_MEMORY:
        raise MemoryError("bpftap: NoMemory")
    if fault:
        raise kind(fault_line(fault, place))
