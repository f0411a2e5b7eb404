# SPDX-License-Identifier: MIT OR Apache-2.0
"""Filters."""
from __future__ import annotations

import ctypes
import enum
import itertools
from array import array
from collections.abc import Collection, Iterable, Sequence
from typing import TYPE_CHECKING, Any, NamedTuple

from . import _library
from ._errors import Fault, raise_fault
from ._library import MAX_INSNS, MAX_SNAP, Insn, buffer_of, in_range, int_of, iter_of, lib, program_run, quick_run, text, utf8
from ._packets import Packet, parts_of
from ._stacks import reading

if TYPE_CHECKING:
    from ._captures import Spans


class FilterError(Fault):
    """An expression, a listing or a program is refused. It is printed as the line of the fault; below it, of `compare`, which expression it is
    of; and the hint."""
    number: int | None = None
    """Which expression `compare` refused, 1 or 2; `None` if another call failed."""
    hint: str | None = None
    """What helps to fix an expression, a line or two; `None` if there is nothing to say."""

    def __str__(self) -> str:
        which = [f"in the {'first' if self.number == 1 else 'second'} expression"] if self.number else []
        return "\n  ".join([super().__str__(), *which, *(self.hint or "").splitlines()])


class Verdict(enum.IntEnum):
    """What an expression answers to a packet. `ABORT`: a byte past the captured ones was wanted, or a divisor was 0; the packet is
    rejected then."""
    NO = 0
    YES = 1
    ABORT = 2


def raise_refusal(result, code=None, number=None):
    """Raises the fault of a result, if there is one; with the hint to it, if it is one of an expression. Returns the result."""
    try:
        raise_fault(FilterError, result.fault, result.place)
    except FilterError as error:
        if code is not None:
            fault, place = result.fault, result.place
            error.hint = reading(code, lambda: text(lambda *to: lib.bpftap_hint(code, len(code), fault, place, *to)))[1].decode() or None
        error.number = number
        raise
    return result


class Executed(NamedTuple):
    """An instruction that was executed, and what the machine holds after it: `cell` is the cell of scratch memory that it stored `value` into,
    or `None`."""
    place: int
    accumulator: int
    index: int
    cell: int | None = None
    value: int = 0


class Look(NamedTuple):
    """What a test looked at: `size` bytes of the frame from byte `offset` on, captured or not; or, if both are 0, the length on the wire."""
    offset: int
    size: int


# How many packets are handed over at once: what they take stays in the processor's cache.
BATCH = 1024
# Numbers below this one are a digit of Python, which it compares the fastest.
QUICK = 2**30


def _row(place: int, insn: Sequence[int]) -> tuple[int, ...]:
    """The fields of an instruction."""
    fields = tuple(iter_of(f"instruction {place}", insn))
    if len(fields) != 4:
        raise ValueError(f"instruction {place} is not (code, jt, jf, k): {fields}")
    most = (2**16 - 1, 2**8 - 1, 2**8 - 1, 2**32 - 1)
    return tuple(in_range(f"{what} of instruction {place}", *field) for what, *field in zip(("code", "jt", "jf", "k"), fields, most))


def _rebuilt(program, expression):
    """The filter of these instructions, which were compiled from this expression, if there is one."""
    made = Filter.from_program(program)
    made.expression = expression
    return made


class Filter:
    """A filter: an expression as of pcap-filter(7), compiled.

    `snap` is the most bytes of a packet that the filter keeps. `Filter.from_listing` takes a program in the form of `tcpdump -ddd`,
    and `Filter.from_program` one as instructions.
    """

    def __init__(self, expression: str, snap: int = MAX_SNAP):
        insns, code, snap = (Insn * MAX_INSNS)(), utf8("expression", expression), int_of("snap", snap)
        snap = snap if 0 < snap <= MAX_SNAP else 0  # BadSnap, if the text is an expression
        made = raise_refusal(reading(code, lambda: lib.bpftap_compile(code, len(code), snap, insns, MAX_INSNS)), code)
        self._keep(insns, made.size, expression)

    @classmethod
    def from_listing(cls, listing: str) -> Filter:
        insns = (Insn * MAX_INSNS)()
        code = utf8("listing", listing)
        return cls._of(insns, raise_refusal(lib.bpftap_read_listing(code, len(code), insns, MAX_INSNS)).size)

    @classmethod
    def from_program(cls, program: Iterable[Sequence[int]]) -> Filter:
        """Of instructions, each four numbers `(code, jt, jf, k)`."""
        rows = [_row(place, insn) for place, insn in enumerate(iter_of("program", program))]
        insns = (Insn * max(1, len(rows)))(*rows)
        raise_refusal(lib.bpftap_check(insns, len(rows)))
        return cls._of(insns, len(rows))

    @classmethod
    def _of(cls, insns, size):
        made = cls.__new__(cls)
        made._keep(insns, size, None)
        return made

    def _keep(self, insns, size, expression):
        program = ctypes.create_string_buffer(lib.bpftap_program_size() + 16)
        # A buffer of ctypes is aligned to 16 bytes already; the room beside it costs nothing and makes sure. ctypes passes what `byref` makes
        # without another object.
        at = ctypes.byref(program, -ctypes.addressof(program) % 16)
        raise_fault(FilterError, lib.bpftap_program_init(at, insns, size), 0)
        # Only now, so that no other thread runs what is not prepared yet, if `__init__` is called once more.
        self.expression, self._insns, self._size, self._program, self._at = expression, insns, size, program, at

    def __reduce__(self):
        # copy, deepcopy and pickle: the addresses in here are those of this filter's own memory.
        return _rebuilt, (self.program, self.expression)

    def __repr__(self):
        return f"Filter({self.expression!r})" if self.expression is not None else f"<Filter of {self._size} instructions>"

    def run(self, packet: Packet | bytes, wire: int | None = None) -> int:
        """How many bytes of a packet the filter keeps, 0 if it rejects it. `wire` is the packet's length on the wire; without it that is the one
        of a `Packet`, and the number of captured bytes of anything else."""
        if type(packet) is Packet:
            if wire is None:
                wire = packet[1]
            packet = packet[0]
        elif wire is None and type(packet) is bytes:
            wire = len(packet)
        # What most packets are: two thirds of the time that the calls below take.
        if type(packet) is bytes and type(wire) is int and 0 <= wire < QUICK and len(packet) < QUICK:
            return quick_run(self._at, packet, len(packet), wire)
        return program_run(self._at, *parts_of(packet, wire))

    def matches(self, packet: Packet | bytes, wire: int | None = None) -> bool:
        """Whether the filter accepts a packet."""
        return self.run(packet, wire) != 0

    def run_each(self, packets: Iterable[Packet | bytes], wire: Iterable[int] | None = None) -> array[int]:
        """What the filter answers to each of many packets. `wire` are their lengths on the wire; without it they are as `run` says."""
        answers, left, wires = array("I"), iter_of("packets", packets), None if wire is None else iter_of("wire", wire)
        while part := [*itertools.islice(left, BATCH)]:
            if wires is None and {*map(type, part)} == {bytes}:
                answers.extend(self._run_joined(part))
            else:
                answers.extend(self._run_parts(part, itertools.repeat(None) if wires is None else wires))
        if wires is not None and next(wires, None) is not None:
            raise ValueError(f"wire has more numbers than there are packets, which are {len(answers)}")
        return answers

    def _run_joined(self, part):
        memory, sizes, answers = b"".join(part), array("I", [*map(len, part)]), array("I", bytes(4 * len(part)))
        where = [(numbers.buffer_info()[0], len(numbers)) for numbers in (sizes, answers)]
        raise_refusal(lib.bpftap_program_run_joined(self._at, memory, len(memory), *where[0], *where[1]))
        return answers

    def _run_parts(self, part, wires):
        found = [*map(parts_of, part, wires)]
        if len(found) < len(part):
            raise ValueError("wire has fewer numbers than there are packets")
        packets = [packet for packet, _ in found]
        begins = itertools.accumulate(map(len, packets), initial=0)
        lengths = [len(packet) | wire << 32 for packet, wire in found]
        return self.run_spans(b"".join(packets), array("Q", itertools.chain.from_iterable(zip(begins, lengths))))

    def run_spans(self, memory: Any, spans: Spans | Any) -> array[int]:
        """What the filter answers to each packet of a memory. `spans` are those of a `Capture`, or have 16 bytes for each packet: where it
        begins (64 bits), and how many of its bytes were captured and were on the wire (32 bits each). Memory and spans are buffers (`bytes`,
        `bytearray`, `mmap`, `memoryview`, an array of numpy), and are not copied."""
        spans = getattr(spans, "rows", spans)
        with buffer_of("memory", memory) as (content, size), buffer_of("spans", spans) as (where, spans_size):
            if spans_size % 16:
                raise ValueError(f"spans have {spans_size} bytes, which is not a multiple of 16")
            count = spans_size // 16
            answers = array("I", bytes(4 * count))
            if count:
                raise_refusal(lib.bpftap_program_run_spans(self._at, content, size, where, count, answers.buffer_info()[0], count))
        return answers

    def decide(self, packet: Packet | bytes, wire: int | None = None) -> tuple[Verdict, str]:
        """What the expression answers to a packet, and the primitive or relation that decides."""
        if self.expression is None:
            raise TypeError("a program has no expression to explain")
        code, (packet, wire) = utf8("expression", self.expression), parts_of(packet, wire)
        reason, line = reading(code, lambda: text(lambda *to: lib.bpftap_why(code, len(code), packet, len(packet), wire, *to)))
        raise_refusal(reason)
        return Verdict(reason.verdict), line.decode().partition(" ")[2]

    def why(self, packet: Packet | bytes, wire: int | None = None) -> str:
        """What the expression answers to a packet and what decides, as `No tcp port 80`."""
        verdict, part = self.decide(packet, wire)
        return f"{verdict.name.capitalize()} {part}"

    def trace(self, packet: Packet | bytes, wire: int | None = None) -> list[Executed]:
        """Which instructions a run over a packet executes, in order."""
        packet, wire = parts_of(packet, wire)
        to = (_library.Executed * MAX_INSNS)()
        size = raise_refusal(lib.bpftap_trace(self._insns, self._size, packet, len(packet), wire, to, MAX_INSNS)).size
        return [Executed(one.place, one.accumulator, one.index, None if one.cell == _library.NO_CELL else one.cell, one.value) for one in to[:size]]

    def looks(self, packet: Packet | bytes, wire: int | None = None) -> list[Look]:
        """What the expression looks at of a packet: what each primitive or relation does that is asked, from left to right."""
        if self.expression is None:
            raise TypeError("a program has no expression to explain")
        code, (packet, wire) = utf8("expression", self.expression), parts_of(packet, wire)
        room = 64
        while True:
            to = (_library.Look * room)()
            result = reading(code, lambda: lib.bpftap_looks(code, len(code), packet, len(packet), wire, to, room))
            if result.fault != _library.NO_ROOM:
                break
            room = result.size
        return [Look(one.offset, one.size) for one in to[: raise_refusal(result).size]]

    @property
    def program(self) -> list[tuple[int, int, int, int]]:
        """The instructions, each `(code, jt, jf, k)`."""
        return [(insn.code, insn.jt, insn.jf, insn.k) for insn in self._insns[: self._size]]

    @property
    def listing(self) -> str:
        """The program in the form of `tcpdump -ddd`."""
        return self._text(lib.bpftap_write_listing)

    @property
    def image(self) -> str:
        """The program by the names of its instructions, as `tcpdump -d` prints it."""
        return self._text(lib.bpftap_image)

    def _text(self, call):
        result, found = text(lambda to, room: call(self._insns, self._size, to, room))
        raise_refusal(result)
        return found.decode()

    @property
    def canonical(self) -> str:
        """The expression in its canonical form, which shows how it was read."""
        if self.expression is None:
            raise TypeError("a program has no expression to print")
        code = utf8("expression", self.expression)
        result, found = reading(code, lambda: text(lambda *to: lib.bpftap_print(code, len(code), *to)))
        raise_refusal(result)
        return found.decode()


    def assert_matches(self, packets: Iterable[Packet | bytes], exactly: Collection[int]) -> None:
        """For tests: fails unless the filter accepts the packets of these places, counted from 0, and no other one. The failure has a line
        for each packet that differs, with what decided on it."""
        __tracebackhide__ = True  # pytest shows the caller's line
        packets, places = [*iter_of("packets", packets)], {int_of("a place in exactly", place) for place in iter_of("exactly", exactly)}
        failed = [self._differs(place, packet, place in places) for place, packet in enumerate(packets)]
        failed = [line for line in failed if line]
        failed += [f"packet {place}: there are only {len(packets)} packets" for place in sorted(places - {*range(len(packets))})]
        if failed:
            raise AssertionError(f"{self!r} differs:\n  " + "\n  ".join(failed))

    def _differs(self, place, packet, wanted):
        """A line if the answer to a packet is not the one that is wanted."""
        if self.matches(packet) == wanted:
            return None
        said = ("accepts it" if not wanted else "rejects it") if self.expression is None else self.why(packet)
        return f"packet {place}: {said}, wanted {'Yes' if wanted else 'No'}"


def filter_of(keep: Filter | str) -> Filter:
    """The filter, or that of an expression."""
    if isinstance(keep, Filter):
        return keep
    if isinstance(keep, str):
        return Filter(keep)
    raise TypeError(f"keep is of type {type(keep).__name__}, which is neither a Filter nor a str")
