# SPDX-License-Identifier: MIT OR Apache-2.0
"""Steps that are played to listeners over captures."""
from __future__ import annotations

import html
from collections.abc import Iterable, Iterator
from dataclasses import dataclass, field

from ._captures import Capture, CaptureError
from ._library import iter_of, not_a
from ._listeners import Listener
from ._packets import Message, Packet


@dataclass(frozen=True)
class Report:
    """What a listener came to: its filter, its counts, the batches that were read from it, and what it still has."""
    filter: str
    received: int
    matched: int
    dropped: int
    batches: list[list[Message]]
    held: list[Message]


@dataclass
class Replay:
    """The reports of all listeners. If a capture ended in a torn or bad record, `fault` is that error, and `capture` its number."""
    reports: list[Report] = field(default_factory=list)
    fault: CaptureError | None = None
    capture: int | None = None

    def _repr_svg_(self) -> str:
        """A picture for notebooks: a row for each listener, with a box for each batch that was read and a dashed one for what it still has.
        A packet is shown as the number of its capture and its place there."""
        rows, width = [], 400
        for number, report in enumerate(self.reports):
            y, x = 10 + 62 * number, 10
            counts = f"received {report.received}, matched {report.matched}, dropped {report.dropped}"
            rows.append(_words(x, y + 10, f"{number}: {report.filter} ({counts})"))
            for batch, dashes in [*((batch, "") for batch in report.batches), (report.held, ' stroke-dasharray="4"')]:
                label = " ".join(f"{message.capture}:{message.place}" for message in batch)
                box = 14 + 7 * len(label)
                rows.append(f'<rect x="{x}" y="{y + 18}" width="{box}" height="24" fill="none" stroke="gray"{dashes}/>' + _words(x + 7, y + 34, label))
                x += box + 6
            width = max(width, x, 20 + 7 * len(f"{number}: {report.filter} ({counts})"))
        size = f'width="{width}" height="{10 + 62 * len(self.reports)}"'
        return f'<svg xmlns="http://www.w3.org/2000/svg" {size} font-family="monospace" font-size="11">{"".join(rows)}</svg>'


def _words(x, y, text):
    return f'<text x="{x}" y="{y}">{html.escape(text)}</text>'


def _packets(captures: Iterable[Capture], replay: Replay) -> Iterator[tuple[int, int, Packet]]:
    """The packets of the captures in order, each with the number of its capture and its place there, up to the first torn or bad record."""
    for number, capture in enumerate(captures):
        try:
            for place, packet in enumerate(iter_of(f"capture {number}", capture)):
                yield number, place, packet
        except CaptureError as error:
            replay.fault, replay.capture = error, number
            return


def _step(place: int, step: str, listeners: int) -> tuple[str, int]:
    """What a step does, and to which listener."""
    if not isinstance(step, str):
        raise not_a(f"step {place}", step, "a str")
    word, _, number = step.partition(" ")
    if step == "arrive":
        return step, 0
    if word not in ("flush", "read", "close") or not (number.isascii() and number.isdecimal()) or int(number) >= listeners:
        raise ValueError(f"step {place} is not 'arrive', or 'flush', 'read' or 'close' with the number of a listener: {step!r}")
    return word, int(number)


def steps(listeners: Iterable[Listener], script: Iterable[str], captures: Iterable[Capture]) -> Replay:
    """Plays steps to listeners over captures, as `bpftap steps` does. A step is `arrive`, at which the next packet of the captures arrives at
    every listener, or `flush L`, `read L` or `close L`, with the number of a listener from 0. After the last packet `arrive` does nothing.

    All steps are checked before the first one is played: a `ValueError` names one that is no step. The captures are read to their end, even
    if the script ends before."""
    listeners = [*iter_of("listeners", listeners)]
    for number, listener in enumerate(listeners):
        if not isinstance(listener, Listener):
            raise not_a(f"listener {number}", listener, "a Listener")
    played = [_step(place, step, len(listeners)) for place, step in enumerate(iter_of("script", script))]
    replay, batches = Replay(), [[] for _ in listeners]
    packets = _packets(iter_of("captures", captures), replay)
    for word, number in played:
        if word == "arrive":
            found = next(packets, None)
            if found:
                for listener in listeners:
                    listener.arrive(found[2], found[0], found[1])
            continue
        done = getattr(listeners[number], word)()
        if word == "read" and done:
            batches[number].append(done)
    for _ in packets:  # up to a torn or bad record, which becomes the fault
        pass
    for listener, read in zip(listeners, batches):
        expression = listener.filter.expression
        shown = "a program" if expression is None else expression
        replay.reports.append(Report(shown, listener.received, listener.matched, listener.dropped, read, listener.pending))
    return replay
