"""Plays a script to listeners by the Python package, and prints what `bpftap steps LISTENERS SCRIPT CAPTURE..` prints."""
import sys

import bpftap


def opened(line):
    """The listener of a line of LISTENERS."""
    snap, capacity, expression = line.split(" ", 2)
    snap = int(snap) or bpftap.MAX_SNAP
    return bpftap.Listener(bpftap.Filter(expression, snap), snap, int(capacity.rstrip("i")), capacity.endswith("i"))


def print_all(messages):
    for message in messages:
        time = f"{message.seconds}.{message.nanos:09}"
        print(f"capture {message.capture} place {message.place} time {time} len {message.wire} kept {len(message.data)}")


listeners, script = ([*open(path).read().splitlines()] for path in sys.argv[1:3])
replay = bpftap.steps([opened(line) for line in listeners], script, [bpftap.read(path) for path in sys.argv[3:]])
for number, report in enumerate(replay.reports):
    print(f"listener {number} received {report.received} matched {report.matched} dropped {report.dropped}")
    for place, batch in enumerate(report.batches):
        print(f"batch {place}")
        print_all(batch)
    print("held")
    print_all(report.held)
