"""`bpftap steps --json`: each object beside the line of text that the same call prints without it."""
import concurrent.futures
import json
import re

from .common import HEADER, ROOT, TCP_RECORD, TORN, UDP_RECORD, VETH, WHOLE, Scene, case
from .jsonlines import decided_of
from .replays import Dice
from .stepping import put

HOLD = r"the hold of step (\d+) with (\d+) packets?"
SUM = r"(\d+) stored and (\d+) more"

# What a step is, what became of a packet, and what is printed of a listener: the form of the line, and the members that its groups are.
ARRIVE = (r"step (\d+) arrive capture (\d+) place (\d+) time (\d+)\.(\d{9}) len (\d+)",
          "step capture place seconds nanoseconds length")
OWN = r"step (\d+) (flush|read|close) (\d+)"
NO_PACKET = r"step (\d+) arrive, no packet is left"
ANSWERS = [
    (r"Passed, the filter rejects it", {"answer": "passed"}, ""),
    (rf"Stored, {SUM} are within (\d+)", {"answer": "stored"}, "stored size capacity"),
    (rf"Held, {SUM} are within (\d+), and the empty hold takes them at once", {"answer": "held"}, "stored size capacity"),
    (rf"Rotated, {SUM} exceed (\d+), and the empty hold takes the \d+", {"answer": "rotated"}, "stored size capacity"),
    (rf"Dropped, {SUM} exceed (\d+); {HOLD} is not read", {"answer": "dropped"}, "stored size capacity hold_step hold_packets"),
    (r"Closed", {"answer": "closed"}, ""),
    (r"not flushed, closed", {"answer": "not flushed", "reason": "closed"}, ""),
    (rf"not flushed, {HOLD} is not read", {"answer": "not flushed", "reason": "hold not read"}, "hold_step hold_packets"),
    (r"not flushed, nothing is stored", {"answer": "not flushed", "reason": "nothing stored"}, ""),
    (r"flushed, the empty hold takes the (\d+) stored", {"answer": "flushed"}, "stored"),
    (r"nothing read, closed", {"answer": "nothing read", "reason": "closed"}, ""),
    (r"nothing read, nothing is held", {"answer": "nothing read", "reason": "nothing held"}, ""),
    (rf"read, it takes {HOLD}", {"answer": "read"}, "hold_step hold_packets"),
    (r"closed", {"answer": "closed"}, ""),
]
COUNTS = (r"listener (\d+) received (\d+) matched (\d+) dropped (\d+)", "listener received matched dropped")
MESSAGE = (r"capture (\d+) place (\d+) time (\d+)\.(\d{9}) len (\d+) kept (\d+)", "capture place seconds nanoseconds length kept")


# What an expression answers to a packet that it rejects, and what decides.
REJECTED = re.compile(r"(Passed, the filter rejects it): (No|Abort) (.*)")


def rejection_of(text):
    """An answer's text without what decided of a rejected packet, and that as members."""
    found = REJECTED.fullmatch(text)
    return (found[1], {"verdict": found[2].lower()} | decided_of(found[3])) if found else (text, {})


def members(form, names, line):
    """The members that a line has of this form, nothing if it has another."""
    found = re.fullmatch(form, line)
    return found and dict(zip(names.split(), map(int, found.groups())))


class Reader:
    """The lines of `steps -v`, one after the other, as its objects have them."""

    def __init__(self):
        self.step, self.packet, self.listener, self.part = {}, {}, {}, {}

    def step_of(self, line):
        if one := members(*ARRIVE, line):
            self.step = {"step": one["step"], "action": "arrive"}
            self.packet = {name: one[name] for name in ("capture", "place")}
            return self.step | one
        if found := re.fullmatch(NO_PACKET, line):
            return {"step": int(found[1]), "action": "arrive"}
        found = re.fullmatch(OWN, line)
        self.step, self.packet = {"step": int(found[1]), "action": found[2]}, {}
        return self.step | {"listener": int(found[3])}

    def answer_of(self, line):
        listener, text = re.fullmatch(r"  listener (\d+) (.*)", line).groups()
        answer, decided = rejection_of(text)
        for form, fixed, names in ANSWERS:
            found = members(form, names, answer)
            if found is not None:
                return self.step | {"listener": int(listener)} | fixed | found | self.packet | decided
        raise ValueError(line)

    def report_of(self, line):
        if counts := members(*COUNTS, line):
            self.listener = {"listener": counts["listener"]}
            return counts
        if batch := members(r"batch (\d+)", "batch", line):
            self.part = batch
        elif line == "held":
            self.part = {"held": True}
        else:
            return self.listener | self.part | members(*MESSAGE, line)
        return self.listener | self.part

    def read(self, line):
        if line.startswith("step "):
            return self.step_of(line)
        return self.answer_of(line) if line.startswith("  ") else self.report_of(line)


def objects_of(text):
    reader = Reader()
    return [reader.read(line) for line in text.decode().splitlines()]


def parsed(out):
    return [json.loads(line) for line in out.decode().splitlines()]


def compare(scene, words):
    """Checks that a call with `--json` has the facts of the same call without it, in order, and its status; with `-v` and without."""
    for options in ("", "-v "):
        text, objects = scene.run(f"steps {options}{words}"), scene.run(f"steps --json {options}{words}")
        scene.check(f"objects of {options}{words}", parsed(objects.out), objects_of(text.out))
        scene.check(f"status of {options}{words}", objects.status, text.status)


@case
def each_line_is_an_object(scene):
    """Over the real captures, in both modes."""
    folder = ROOT / "examples" / "steps"
    compare(scene, f"{folder}/listeners.txt {folder}/script.txt {VETH}")
    captures = " ".join(str(path) for path in sorted((ROOT / "examples").glob("*.pcap")))
    script = "arrive\n" * 40 + "read 0\nflush 1\nread 1\n" * 2 + "arrive\n" * 300 + "close 1\nflush 1\nread 1\narrive\nflush 0\n"
    scene.put({"l.txt": "96 4096 tcp\n0 262176i \n64 96 not udp\n", "s.txt": script})
    compare(scene, f"l.txt s.txt {captures}")
    # What decides is a primitive, a relation or the empty expression, after `not` or not, and aborts for each cause.
    listeners = ["not tcp or arp", "not (len / 0x0e = 1)", "1 / (len - 98) = 0", "ether[100] = 1", "not (not (ip[9] = 17))", "not (arp or icmp)"]
    scene.put({"l.txt": "".join(f"64 96 {expr}\n" for expr in listeners)})
    compare(scene, f"l.txt s.txt {captures}")


# The lines of one packet that is stored, of another that is read, and of one that two filters reject.
STORED = (
    '{"step":1,"action":"arrive","capture":0,"place":0,"seconds":2,"nanoseconds":0,"length":14}\n'
    '{"step":1,"listener":0,"action":"arrive","answer":"stored","stored":0,"size":48,"capacity":64,"capture":0,"place":0}\n'
    '{"listener":0,"received":1,"matched":1,"dropped":0}\n'
    '{"listener":0,"held":true}\n'
    '{"listener":0,"held":true,"capture":0,"place":0,"seconds":2,"nanoseconds":0,"length":14,"kept":14}\n')
READ = (
    '{"step":1,"action":"arrive","capture":0,"place":0,"seconds":2,"nanoseconds":0,"length":14}\n'
    '{"step":1,"listener":0,"action":"arrive","answer":"held","stored":0,"size":48,"capacity":64,"capture":0,"place":0}\n'
    '{"step":2,"action":"read","listener":0}\n'
    '{"step":2,"listener":0,"action":"read","answer":"read","hold_step":1,"hold_packets":1}\n'
    '{"step":3,"action":"arrive"}\n'
    '{"step":4,"action":"flush","listener":0}\n'
    '{"step":4,"listener":0,"action":"flush","answer":"not flushed","reason":"nothing stored"}\n'
    '{"listener":0,"received":1,"matched":1,"dropped":0}\n'
    '{"listener":0,"batch":0}\n'
    '{"listener":0,"batch":0,"capture":0,"place":0,"seconds":2,"nanoseconds":0,"length":14,"kept":14}\n'
    '{"listener":0,"held":true}\n')


REJECTED_LINES = (
    '{"step":1,"action":"arrive","capture":0,"place":0,"seconds":2,"nanoseconds":0,"length":14}\n'
    '{"step":1,"listener":0,"action":"arrive","answer":"passed","capture":0,"place":0,"verdict":"no","decided":"not ip"}\n'
    '{"step":1,"listener":1,"action":"arrive","answer":"passed","capture":0,"place":0,"verdict":"abort","decided":"not tcp","cause":{"byte":23}}\n'
    '{"step":1,"listener":2,"action":"arrive","answer":"passed","capture":0,"place":0,"verdict":"abort","decided":"(1 / (len - 14)) = 0",'
    '"cause":{"divisor":0}}\n')


@case
def an_object_reads_so(scene):
    """One of each form, byte for byte; a fault is an object too, and has no hints."""
    scene.start({"l.txt": "32 64\n", "i.txt": "32 64i\n", "s.txt": "arrive\n", "r.txt": "arrive\nread 0\narrive\nflush 0\n",
                 "whole.pcap": WHOLE, "torn.pcap": TORN})
    scene.expect("steps --json -v l.txt s.txt whole.pcap", out=STORED)
    scene.expect("steps --json -v i.txt r.txt whole.pcap", out=READ)
    scene.put({"no.txt": "32 64 not ip\n32 64 not tcp\n32 64 1 / (len - 14) = 0\n"})
    rejected = "".join(line for line in scene.run("steps --json -v no.txt s.txt whole.pcap").out.decode().splitlines(True) if "step" in line)
    scene.check("rejected packets", rejected, REJECTED_LINES)
    torn = '{"fault":"Capture TornRecord","numbers":[0,1],"file":"torn.pcap"}\n'
    scene.expect("--hints steps --json -v l.txt s.txt torn.pcap", 2, torn, STORED)
    scene.expect("steps --json whole.pcap s.txt whole.pcap", 1, '{"fault":"Listeners","numbers":[1]}\n')
    scene.expect("steps --json l.txt s.txt none.pcap", 3, '{"fault":"Device","numbers":[],"file":"none.pcap"}\n')


EXPRESSIONS = ("", "tcp", "udp", "not tcp", "not udp port 53", "ether[60] = 1", "1 / (len - 38) = 0")


def random_call(dice):
    """LISTENERS, SCRIPT and a capture that look random."""
    count = 1 + dice.roll(3)
    listeners = "".join(
        f"{(16, 38)[dice.roll(2)]} {80 + 8 * dice.roll(20)}{'i' * dice.roll(2)} {EXPRESSIONS[dice.roll(len(EXPRESSIONS))]}\n"
        for _ in range(count))
    steps = ("arrive", "arrive", "arrive", "flush {}", "read {}", "close {}")
    script = "".join(steps[dice.roll(6) if dice.roll(4) else 0].format(dice.roll(count)) + "\n" for _ in range(dice.roll(24)))
    records = b"".join((TCP_RECORD, UDP_RECORD)[dice.roll(2)] for _ in range(dice.roll(16)))
    return listeners, script, HEADER + records


def facts(folder, call):
    """The facts of the text and of the objects of a call with `-v`, in a folder of its own, and the statuses."""
    folder.mkdir()
    scene = Scene(folder)
    listeners, script, capture = call
    words = put(scene, listeners, script, [capture])
    text, objects = scene.run(f"steps -v {words}"), scene.run(f"steps -v --json {words}")
    return (objects_of(text.out), text.status), (parsed(objects.out), objects.status)


@case
def random_scripts_have_the_same_facts(scene):
    """A thousand, each with its own listeners and packets."""
    dice, started = Dice(), []
    with concurrent.futures.ThreadPoolExecutor(4) as pool:
        for number in range(1000):
            started.append(pool.submit(facts, scene.folder / str(number), random_call(dice)))
        for number, done in enumerate(started):
            text, objects = done.result()
            scene.check(f"script {number}", objects, text)


@case
def a_full_output_is_a_fault(scene):
    """Standard output fails, once with `-v` and once without."""
    scene.start({"l.txt": "32 64\n", "s.txt": "arrive\n", "whole.pcap": WHOLE, "torn.pcap": TORN})
    fault = '{"fault":"Device","numbers":[],"stream":"standard output"}\n'
    for options in ("", "-v "):
        scene.expect(f"steps --json {options}l.txt s.txt whole.pcap", 3, fault, streams="> /dev/full")
        torn = '{"fault":"Capture TornRecord","numbers":[0,1],"file":"torn.pcap"}\n'
        scene.expect(f"steps --json {options}l.txt s.txt torn.pcap", 3, fault + torn, streams="> /dev/full")
