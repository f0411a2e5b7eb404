# SPDX-License-Identifier: MIT OR Apache-2.0
"""Captures: pcap files of Ethernet frames."""
from __future__ import annotations

import ctypes
import functools
import itertools
import os
import pathlib
import struct
from array import array
from collections.abc import Callable, Iterable, Iterator

from ._errors import Fault, raise_fault
from ._filters import Filter, FilterError, filter_of
from ._library import END, MAX_SNAP, Record, buffer_of, bytes_of, in_range, iter_of, lib, not_a, room_of, view_of
from ._packets import Packet

SECOND = 10**9

# How many records are read at once.
BATCH = 1024


class CaptureError(Fault):
    """A capture is refused or ends in a torn or bad record, or a packet cannot be written."""
    written: bytes | None = None
    """What `cut` wrote of the packets before; `None` if another call failed."""


class Spans:
    """Where the packets of a capture lie in its content, and when they were captured, in columns of a number for each packet.

    `rows` are the spans as `Filter.run_spans` takes them; `offsets`, `captured` and `wire` are views of them. `times` are nanoseconds since
    1970. numpy takes all of them."""

    def __init__(self, rows: array[int], times: Callable[[], array[int]]):
        self.rows, self._times = rows, times

    def __len__(self) -> int:
        return len(self.rows) // 2

    @property
    def offsets(self) -> memoryview:
        return memoryview(self.rows)[::2]

    @property
    def captured(self) -> memoryview:
        return memoryview(self.rows).cast("B").cast("I")[2::4]

    @property
    def wire(self) -> memoryview:
        return memoryview(self.rows).cast("B").cast("I")[3::4]

    @functools.cached_property
    def times(self) -> array[int]:
        return self._times()


def _spans_of(memory, size, reader):
    """The spans of all records up to the end of a capture, as one array, and what ended it: a fault and its place."""
    rows, part = array("Q"), array("Q", bytes(16 * BATCH))
    while True:
        found = lib.bpftap_spans(memory, size, reader, part.buffer_info()[0], BATCH)
        rows += part[: 2 * found.size]
        if found.fault or not found.size:
            return rows, (0 if found.fault == END else found.fault, found.place)


def _content_of(content):
    """The bytes of a capture, which are not copied."""
    if isinstance(content, (str, os.PathLike)):
        raise not_a("content", content, "bytes-like: read(path) reads a file, and has its bytes as .content")
    return view_of("content", content)


class Capture:
    """A capture in memory: an iterable of its packets, with a length and an index. A torn or bad record ends it: it raises the `CaptureError`
    that `fault` has, after the packets before it.

    A content that is not `bytes`, such as an `mmap`, is not copied, and must not change meanwhile. `close`, or the end of a `with`, gives it
    back."""

    def __init__(self, content: bytes):
        self._content = content if isinstance(content, bytes) else _content_of(content)
        with buffer_of("content", self._content) as (memory, size):
            self._reader = lib.bpftap_open(memory, size)
            raise_fault(CaptureError, self._reader.fault, 0)
            self._rows, self._end = _spans_of(memory, size, self._reader)
        self._fields = struct.Struct(">4I" if self.big_endian else "<4I").unpack_from

    @property
    def fault(self) -> CaptureError | None:
        """The error of the torn or bad record that ends the capture, if there is one."""
        try:
            raise_fault(CaptureError, *self._end)
        except CaptureError as error:
            return error
        return None

    @property
    def content(self) -> bytes | memoryview:
        """The bytes of the capture, which `Filter.run_spans` takes."""
        if self._content is None:
            raise ValueError("the capture is closed")
        return self._content

    @property
    def snap(self) -> int:
        """The snapshot length that the header says."""
        return self._reader.snap

    @property
    def nanoseconds(self) -> bool:
        """Whether times are in nanoseconds, and not in microseconds."""
        return self._reader.unit != 0

    @property
    def big_endian(self) -> bool:
        return self._reader.order != 0

    def spans(self) -> Spans:
        """Where the packets lie: `filter.run_spans(capture.content, capture.spans())` asks a filter of all of them in one call."""
        return Spans(self._rows, self._times)

    def _times(self):
        unit, times = 1 if self.nanoseconds else 1000, array("Q")
        for offset in self._rows[::2]:
            seconds, part, _, _ = self._fields(self.content, offset - 16)
            times.append(seconds * SECOND + part * unit)
        return times

    def __len__(self) -> int:
        return len(self._rows) // 2

    def __getitem__(self, place: int | slice) -> Packet | list[Packet]:
        offsets = self._rows[::2][place]
        return [*self._packets(offsets)] if isinstance(place, slice) else next(self._packets([offsets]))

    def _packets(self, offsets, is_all=False):
        """The packets whose bytes begin at these offsets; after all of them comes what ended the capture."""
        content, fields, unit, new = self.content, self._fields, 1 if self.nanoseconds else 1000, tuple.__new__
        is_view = type(content) is not bytes
        for offset in offsets:
            seconds, part, captured, wire = fields(content, offset - 16)
            data = content[offset : offset + captured]
            # Packet's own `__new__` takes three times as long.
            yield new(Packet, (bytes(data) if is_view else data, wire, seconds, part * unit))
        if is_all:
            raise_fault(CaptureError, *self._end)

    def __iter__(self) -> Iterator[Packet]:
        return self._packets(self._rows[::2], True)

    def answers(self, keep: Filter | str) -> array[int]:
        """What a filter or expression answers to each packet: how many bytes of it are kept, 0 if it is rejected."""
        return filter_of(keep).run_spans(self.content, self._rows)

    def matching(self, keep: Filter | str) -> Iterator[Packet]:
        """The packets that a filter or expression accepts. All are asked in one call, so it is faster than to ask `Filter.matches` of each.
        A torn or bad record raises a `CaptureError` after them."""
        return self._packets(itertools.compress(self._rows[::2], self.answers(keep)), True)

    def close(self) -> None:
        """Forgets the content. Packets and spans that were taken stay."""
        if isinstance(self._content, memoryview):
            self._content.release()
        self._content = None

    def __enter__(self) -> Capture:
        return self

    def __exit__(self, *_) -> None:
        self.close()


def read(path: str | os.PathLike) -> Capture:
    """The capture that a file holds."""
    return Capture(pathlib.Path(path).read_bytes())


def record_of(packet: Packet, place: int, nanos: int) -> Record:
    """The record of a packet, with this fraction of a second."""
    return Record(place=in_range("place", place, 2**64 - 1), seconds=in_range("seconds", packet.seconds), nanos=in_range("nanos", nanos),
                  wire=in_range("wire", packet.wire))


def _put(result):
    raise_fault(CaptureError, result.fault, result.place)


def encode(packets: Iterable[Packet], snap: int = MAX_SNAP, nanoseconds: bool = False, big_endian: bool = False) -> bytes:
    """The bytes of a capture of these packets."""
    order, unit = int(big_endian), int(nanoseconds)
    header = room_of(24)
    _put(lib.bpftap_put_header(order, unit, in_range("snap", snap), header, 24))
    parts = [header]
    for place, packet in enumerate(iter_of("packets", packets)):
        if not hasattr(packet, "nanos"):
            raise not_a(f"packet {place}", packet, "a Packet")
        data = bytes_of("data", packet.data)
        to = room_of(len(data) + 16)
        record = record_of(packet, place, min(packet.nanos, SECOND))  # BadFraction from a second on
        _put(lib.bpftap_put(order, unit, ctypes.byref(record), data, len(data), to, len(to)))
        parts.append(to)
    return b"".join(parts)


def write(path: str | os.PathLike, packets: Iterable[Packet], **form) -> None:
    """Writes a capture of these packets. `snap`, `nanoseconds` and `big_endian` say its form."""
    pathlib.Path(path).write_bytes(encode(packets, **form))


def cut(content: bytes, keep: Filter | str, snap: int = 0) -> bytes:
    """The packets of a capture that a filter or expression accepts, each with its first `snap` bytes (0: all that the filter keeps), as a capture in
    the same form.

    If the capture ends in a torn or bad record, a `CaptureError` is raised; its attribute `written` is the cut of the packets before.
    """
    keep, snap = filter_of(keep), in_range("snap", snap)
    with _content_of(content) as view, buffer_of("content", view) as (memory, size):
        to = room_of(size)
        result = lib.bpftap_cut(memory, size, keep._insns, keep._size, snap, to, size)
    try:
        raise_fault(CaptureError if result.fault >= 64 else FilterError, result.fault, result.place)
    except CaptureError as error:
        error.written = to[: result.size]
        raise
    return to[: result.size]
