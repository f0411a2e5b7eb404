# SPDX-License-Identifier: MIT OR Apache-2.0
"""What tests ask of packets."""
from __future__ import annotations

from collections.abc import Iterable

from ._filters import Filter
from ._library import iter_of
from ._packets import Packet


def assert_all_match(packets: Iterable[Packet | bytes], expression: str) -> None:
    """Fails with the place of each packet that the expression does not accept, and what decided on it."""
    __tracebackhide__ = True  # pytest shows the caller's line
    wanted = Filter(expression)
    failed = [f"packet {place}: {wanted.why(packet)}" for place, packet in enumerate(iter_of("packets", packets)) if not wanted.matches(packet)]
    if failed:
        raise AssertionError(f"not {expression!r}:\n  " + "\n  ".join(failed))
