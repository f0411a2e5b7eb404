"""`bpftap steps` over replays that look random, beside a slow program of the definitions: what each listener keeps, looking back."""
import concurrent.futures
import itertools
import re
from dataclasses import dataclass

from .common import HEADER, TCP_RECORD, UDP_RECORD, Scene, case, fault_lines
from .stepping import ELEVEN, put, zeros

# LISTENERS, SCRIPT, how many packets there are, and what becomes of them.
FATES = [
    ("32 128i", ELEVEN, 7, "Held Stored Stored Dropped Rotated Held Closed"),
    ("32 128", ELEVEN, 7, "Stored Stored Rotated Stored Rotated Stored Closed"),
    ("32 64", "arrive\narrive\narrive\nread 0\narrive\n", 4, "Stored Rotated Dropped Rotated"),
    ("10 48 udp", "arrive\nflush 0\nread 0\n", 1, "Passed"),
]


@case
def each_packet_has_its_fate(scene):
    """In both modes, in the order of their arrival."""
    for listeners, script, packets, fates in FATES:
        printed = scene.run(f"steps -v {put(scene, listeners, script, [zeros(packets)])}").out.decode()
        found = re.findall(r"^step \d+ arrive .*\n  listener 0 (\w+)", printed, re.M)
        scene.check(f"{listeners} {script!r}", found, fates.split(" "))


class Dice:
    """Numbers that look random, the same in each run."""

    def __init__(self):
        self.state = 1

    def roll(self, sides):
        self.state = (self.state * 6364136223846793005 + 1442695040888963407) % 2**64
        return (self.state >> 33) % sides


@dataclass(frozen=True)
class Listener:
    """How a listener is asked for."""
    filter: str
    snap: int
    capacity: int
    is_immediate: bool

    def line(self):
        return f"{self.snap} {self.capacity}{'i' if self.is_immediate else ''} {self.filter}\n"

    def accepts(self, is_tcp):
        return {"": True, "tcp": is_tcp, "udp": not is_tcp, "not tcp": not is_tcp}[self.filter]


def size(kept):
    """The size of a packet's record in a buffer."""
    return (kept + 7) // 8 * 8 + 32


@dataclass(frozen=True)
class Before:
    """The state before a step: the load of the store, and whether the hold is full."""
    load: int = 0
    is_held: bool = False

    def is_over(self, step, listener):
        return isinstance(step, tuple) and self.load + size(step[2]) > listener.capacity

    def drops(self, step, listener):
        return self.is_over(step, listener) and self.is_held

    def then(self, step, listener):
        more = size(step[2]) if isinstance(step, tuple) else 0
        is_over = self.is_over(step, listener)
        rotates = not self.is_held and (is_over or step == "flush" and self.load > 0)
        hands = listener.is_immediate and more > 0 and not is_over and not self.is_held
        load = 0 if rotates or hands else self.load
        return Before(
            load if hands or self.drops(step, listener) else load + more,
            rotates or hands or self.is_held and step != "read")


def looked_back(own, listener):
    """What is kept, and the counts, looking back from each step at all before it."""
    kept, received, matched, dropped = [], 0, 0, 0
    for place, step in enumerate(own):
        received += step == "passed" or isinstance(step, tuple)
        if not isinstance(step, tuple):
            continue
        matched += 1
        before = Before()
        for earlier in own[:place]:
            before = before.then(earlier, listener)
        if before.drops(step, listener):
            dropped += 1
        else:
            kept.append(step)
    return (received, matched, dropped), kept


def own_steps(number, listener, script, playlist):
    """The steps of a listener before its close: a packet that it keeps by its capture, its place and its bytes."""
    own, packets = [], iter(playlist)
    for step in script:
        word, _, which = step.partition(" ")
        if word == "arrive":
            for capture, place, is_tcp in itertools.islice(packets, 1):
                own.append((capture, place, min(38, listener.snap)) if listener.accepts(is_tcp) else "passed")
        elif which == str(number):
            if word == "close":
                break
            own.append(word)
    return own


def some_packets(dice, capture):
    """Up to seven packets of a capture: its records, and each packet's capture, place and protocol."""
    kinds = [dice.roll(2) == 0 for _ in range(dice.roll(8))]
    text = b"".join(TCP_RECORD if is_tcp else UDP_RECORD for is_tcp in kinds)
    return text, [(capture, place, is_tcp) for place, is_tcp in enumerate(kinds)]


def some_captures(dice):
    """Two captures, whether the first is torn, and the packets of their playlist: then the second gives nothing."""
    first, playlist = some_packets(dice, 0)
    is_torn = dice.roll(4) == 0
    second, others = some_packets(dice, 1)
    return [HEADER + first + bytes(7 * is_torn), HEADER + second], is_torn, playlist if is_torn else playlist + others


def some_listener(dice):
    kind = ["", "tcp", "udp", "not tcp"][dice.roll(4)]
    snap = dice.roll(50) + 1
    return Listener(kind, snap, size(snap) + dice.roll(150), dice.roll(2) == 1)


def some_steps(dice, listeners):
    """What some of the listeners do, in turn, and mostly an arrival."""
    for number in range(listeners):
        kind = dice.roll(12)
        if kind < 4:
            yield f"{'flush' if kind < 2 else 'read'} {number}"
        elif kind == 4 and dice.roll(8) == 0:
            yield f"close {number}"
    if dice.roll(3):
        yield "arrive"


def reported(printed):
    """For each listener that is printed its counts, and what was read of it and is held."""
    reports = []
    for line in printed.splitlines():
        words = line.split(" ")
        if words[0] == "listener":
            reports.append(((int(words[3]), int(words[5]), int(words[7])), []))
        elif words[0] == "capture":
            reports[-1][1].append((int(words[1]), int(words[3]), int(words[9])))
    return reports


def replay(folder, replayed):
    """A replay in a folder of its own: what is printed and reported, and the status."""
    captures, listeners, script = replayed
    folder.mkdir()
    scene = Scene(folder)
    words = put(scene, "".join(listener.line() for listener in listeners), "".join(f"{step}\n" for step in script), captures)
    seen = scene.run(f"steps {words}")
    return reported(seen.out.decode()), seen.err.decode(), seen.status


# A run reads its captures for many listeners at once.
LISTENERS = 24


@case
def replays_keep_what_looking_back_keeps(scene):
    """250 replays of two captures to 24 listeners each."""
    dice, started = Dice(), []
    with concurrent.futures.ThreadPoolExecutor(4) as pool:
        for number in range(250):
            captures, is_torn, playlist = some_captures(dice)
            listeners = [some_listener(dice) for _ in range(LISTENERS)]
            script = [step for _ in range(dice.roll(20)) for step in some_steps(dice, LISTENERS)]
            wanted = [looked_back(own_steps(l, one, script, playlist), one) for l, one in enumerate(listeners)]
            fault = [f"Capture 0 TornRecord {sum(capture == 0 for capture, _, _ in playlist)}"] if is_torn else []
            done = pool.submit(replay, scene.folder / str(number), (captures, listeners, script))
            started.append((done, (wanted, fault_lines(*fault), 2 if is_torn else 0)))
        for number, (done, wanted) in enumerate(started):
            scene.check(f"replay {number}", done.result(), wanted)
