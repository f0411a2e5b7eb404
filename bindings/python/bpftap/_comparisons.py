# SPDX-License-Identifier: MIT OR Apache-2.0
"""Whether two expressions accept the same packets."""
from __future__ import annotations

import enum
from dataclasses import dataclass

from ._filters import raise_refusal
from ._library import in_range, lib, text, utf8
from ._stacks import deeply


class Sameness(enum.IntEnum):
    """What is decided of two expressions.

    `SAME`: both accept the same packets, of every captured length and every length on the wire. `SAME_AS_CAPTURED`: so it is of packets of
    which no more bytes were captured than were on the wire. `SHORT`: they differ only where one aborts: one accepts the packet, which is too
    short for the other; of packets of which no more bytes were captured than were on the wire, none gets Yes from one and No from the
    other. `DIFFER`: one answers Yes to a packet, and the other No. `NOT_DECIDED`: nothing is claimed."""
    SAME = 0
    SAME_AS_CAPTURED = 1
    SHORT = 2
    DIFFER = 3
    NOT_DECIDED = 4

    def __bool__(self) -> bool:
        """Raises `TypeError`: `SAME` is 0, so `assert answer` would hold if the expressions differ."""
        raise TypeError("a Sameness is neither true nor false: compare it, as in `answer is Sameness.SAME`")


class Cause(enum.IntEnum):
    """Why nothing is claimed. GRAPHS: the decision graphs differ, and no packet was found that shows how the expressions do. BUDGET: the
    budget is spent; PRODUCT, QUOTIENT, LOAD: so it is, and an expression has a product of two values that are no constants, a division by
    one, or bytes at an index that is none. FAR: a byte may be looked at that is 131,072 bytes or more from the first one. LEVELS: an
    expression has too many levels. RELATION is not given since 2.3.0."""
    GRAPHS = 1
    BUDGET = 2
    RELATION = 3
    PRODUCT = 4
    QUOTIENT = 5
    LOAD = 6
    FAR = 7
    LEVELS = 8


@dataclass(frozen=True)
class Comparison:
    """What is decided; the packet that shows a difference, by its captured bytes and its length on the wire, or None; why nothing is
    claimed, or None."""
    answer: Sameness
    packet: bytes | None = None
    wire: int | None = None
    cause: Cause | None = None

    @property
    def same(self) -> bool:
        """Whether both accept the same packets, of all that there can be."""
        return self.answer is Sameness.SAME

    def __bool__(self) -> bool:
        raise TypeError("a Comparison is neither true nor false: ask whether it is `.same`, or its `.answer`")


def compare(first: str, second: str, budget: int = 2_000_000) -> Comparison:
    """Decides for every packet that there can be whether two expressions accept it alike. `budget` bounds the decision graphs, and so the
    memory and the time. An expression that is refused is a `FilterError`; its attribute `number` says which one, 1 or 2."""
    one, other, budget = utf8("first", first), utf8("second", second), in_range("budget", budget, 2**64 - 1)
    result, packet = deeply(lambda: text(lambda *to: lib.bpftap_compare(one, len(one), other, len(other), budget, *to)))
    raise_refusal(result, (one, other)[result.number], result.number + 1)
    answer = Sameness(result.answer)
    if answer in (Sameness.SHORT, Sameness.DIFFER):
        return Comparison(answer, packet, result.wire)
    return Comparison(answer, cause=Cause(result.cause) if result.cause else None)
