# SPDX-License-Identifier: MIT OR Apache-2.0
"""Listeners of a packet tap."""
from __future__ import annotations

import ctypes
import enum
import threading

from ._captures import record_of
from ._errors import Fault, raise_fault
from ._filters import Filter, filter_of
from ._library import MAX_CAPACITY, MAX_SNAP, OK, Buffer, Tap, bytes_of, in_range, int_of, lib
from ._packets import Message, Packet


class ListenerError(Fault):
    """A listener is not opened."""


class Fed(enum.IntEnum):
    """What became of a packet that arrived."""
    PASSED = 0
    """The filter rejected it."""
    STORED = 1
    """It is in the store."""
    HELD = 2
    """It is in the store, which became the hold: only if the listener is immediate."""
    ROTATED = 3
    """The store became the hold, and it is in the new store."""
    DROPPED = 4
    """It found no room."""
    CLOSED = 5
    """The listener is closed."""


def _messages(buffer):
    """The messages of a buffer."""
    content = ctypes.string_at(buffer.bytes, buffer.size)
    at, messages = ctypes.c_size_t(0), []
    while (found := lib.bpftap_listener_next(buffer, at)).fault == OK:
        data = content[found.offset : found.offset + found.captured]
        messages.append(Message(data, found.wire, found.seconds, found.nanos, found.place, found.capture))
    return messages


class Listener:
    """A listener of a packet tap: it keeps the packets that a filter accepts in two buffers until they are read.

    The store takes packets as they arrive, and the hold waits for its reader. If a packet finds no room in the store, the store becomes the
    hold; if the hold still waits, the packet is dropped. `capacity` is the room of each buffer in bytes: a packet takes 32 bytes and those
    that are kept of it, at most `snap`, rounded up to a multiple of 8. If it is `immediate`, the store becomes the hold after each packet
    that is stored while the hold is empty.

    Threads may share a listener: its calls run one after the other.
    """

    def __init__(self, keep: Filter | str, snap: int = MAX_SNAP, capacity: int = MAX_CAPACITY, immediate: bool = False):
        self.filter = filter_of(keep)
        snap, capacity = int_of("snap", snap), int_of("capacity", capacity)
        # Out of their ranges they are refused as 0 is: BadSnap, BadCapacity.
        snap = snap if 0 < snap <= MAX_SNAP else 0
        capacity = capacity if 0 < capacity <= MAX_CAPACITY else 0
        self._memory = ctypes.create_string_buffer(max(1, 3 * capacity))
        begin = ctypes.addressof(self._memory)
        store, hold, self._batch = (Buffer(begin + n * capacity, capacity) for n in range(3))
        self._tap = Tap(store=store, hold=hold, snap=snap, mode=int(immediate))
        # ctypes releases the interpreter's lock in a call, and the library allows one call at a time.
        self._lock = threading.Lock()
        raise_fault(ListenerError, lib.bpftap_listener_open(self._tap), 0)

    def arrive(self, packet: Packet | Message | bytes, capture: int = 0, place: int | None = None) -> Fed:
        """A packet arrives. `capture` and `place` stay with it; without a place, that is the number of packets that arrived before."""
        if not isinstance(packet, (Packet, Message)):
            packet = bytes_of("packet", packet)
            packet = Packet(packet, len(packet))
        data = bytes_of("data", packet.data)
        answer = self.filter.run(data, packet.wire)
        with self._lock:
            record = record_of(packet, self._tap.received if place is None else place, packet.nanos)
            fed = lib.bpftap_listener_arrive(self._tap, answer, in_range("capture", capture), record, data, len(data))
        return Fed(fed)

    def flush(self) -> bool:
        """Makes the store the hold if it has messages and the hold has none, as the read timeout of bpf(4) does; whether it did."""
        with self._lock:
            return lib.bpftap_listener_flush(self._tap)

    def read(self) -> list[Message]:
        """Takes the messages of the hold, oldest first."""
        with self._lock:
            raise_fault(ListenerError, lib.bpftap_listener_read(self._tap, self._batch).fault, 0)
            return _messages(self._batch)

    @property
    def pending(self) -> list[Message]:
        """The messages that were not read yet, oldest first: those of the hold, and then those of the store."""
        with self._lock:
            return _messages(self._tap.hold) + _messages(self._tap.store)

    def close(self) -> None:
        """From now on nothing changes, nothing is read, and packets that arrive are not counted."""
        with self._lock:
            lib.bpftap_listener_close(self._tap)

    @property
    def received(self) -> int:
        """The packets that arrived before it was closed."""
        return self._tap.received

    @property
    def matched(self) -> int:
        """Those that the filter accepted."""
        return self._tap.matched

    @property
    def dropped(self) -> int:
        """Those that the filter accepted and that found no room."""
        return self._tap.dropped

    def __reduce__(self):
        raise TypeError("a listener cannot be copied or pickled: its packets are in memory of its own")

    def __repr__(self):
        return f"<Listener of {self.filter!r}: received {self.received}, matched {self.matched}, dropped {self.dropped}>"
