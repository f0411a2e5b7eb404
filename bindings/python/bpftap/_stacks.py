# SPDX-License-Identifier: MIT OR Apache-2.0
"""Calls that may need much stack."""
import threading

# `bpftap.h` says how much stack the calls need that read expressions. A thread of Python has 8 MiB with glibc, and less with musl.
SHORT = 1000
STACK = 17 << 20

_lock = threading.Lock()


def deeply(call):
    """What a call returns, on a thread of its own that has all the stack that it may need."""
    ended = []

    def run():
        try:
            ended.append((call(), None))
        except BaseException as error:
            ended.append((None, error))

    thread = threading.Thread(target=run, name="bpftap")
    with _lock:
        before = threading.stack_size(STACK)
        try:
            thread.start()
        finally:
            threading.stack_size(before)
    thread.join()
    (returned, error), = ended
    if error:
        raise error
    return returned


def reading(text, call):
    """What a call returns that reads an expression: on a thread of its own if that is long."""
    return call() if len(text) <= SHORT else deeply(call)
