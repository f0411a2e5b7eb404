# SPDX-License-Identifier: MIT OR Apache-2.0
"""bpftap: the proved filter compiler, filter machine, capture cutter and tap.

    >>> from bpftap import Filter
    >>> tcp, packet = Filter("tcp port 80"), bytes(60)
    >>> tcp.matches(packet)
    False
    >>> tcp.why(packet)
    'No tcp port 80'

A `Filter` is a filter expression that was compiled, or a program that was handed in. `read` goes through the packets of a capture,
`write` makes one, and `cut` filters one. `compare` decides whether two expressions accept the same packets. A `Listener` keeps and drops
packets as a listener of bpf(4) does, and `steps` plays a script to several. What goes wrong is a `FilterError`, a `CaptureError` or a
`ListenerError`, each with the name of the fault and its place.
"""
from ._assertions import assert_all_match
from ._captures import Capture, CaptureError, Spans, cut, read, write
from ._comparisons import Cause, Comparison, Sameness, compare
from ._filters import Executed, Filter, FilterError, Look, Verdict
from ._library import MAX_CAPACITY, MAX_SNAP, Insn, version
from ._listeners import Fed, Listener, ListenerError
from ._packets import Message, Packet
from ._steps import Replay, Report, steps

__all__ = ["MAX_CAPACITY", "MAX_SNAP", "Capture", "CaptureError", "Cause", "Comparison", "Executed", "Fed", "Filter", "FilterError", "Insn",
           "Listener", "ListenerError", "Look", "Message", "Packet", "Replay", "Report", "Sameness", "Spans", "Verdict", "assert_all_match", "compare",
           "cut", "read", "steps", "version", "write"]
__version__ = version()
