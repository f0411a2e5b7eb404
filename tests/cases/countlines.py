"""`split --json` and `run --json`: each object beside the line of text that the same call prints without it, and faults as objects."""
import concurrent.futures
import json
import random
import re

from .common import HEADER, ROOT, TCP_RECORD, TORN, UDP_RECORD, VETH, WHOLE, Scene, as_bytes, case
from .jsonlines import parsed, random_capture

PART = re.compile(r"(.*) (\d+) of (\d+)")
LISTENER = re.compile(
    r"interface (\d+) listener (\d+) received (\d+) matched (\d+) dropped (\d+) written (\d+) (?:(Clean|Unfinished)|Write (\d+))")
NUMBERS = ("interface", "listener", "received", "matched", "dropped", "written")

EXPRESSIONS = ["", "tcp", "not udp", "arp or icmp", "ip[9] / (len - 54) = 1", "len > 60"]


def part_of(line):
    """The facts of a line of `split`, as its object has them."""
    path, kept, packets = PART.fullmatch(line).groups()
    return {"file": path, "kept": int(kept), "packets": int(packets)}


def listener_of(line):
    """The facts of a line of `run`."""
    *numbers, end, size = LISTENER.fullmatch(line).groups()
    facts = dict(zip(NUMBERS, map(int, numbers)))
    return facts | ({"end": end.lower()} if end else {"end": "write", "bytes": int(size)})


def facts_of(line):
    return (listener_of if line.startswith("interface ") else part_of)(line)


def outputs(scene):
    """The captures that were written."""
    return {name: text for name, text in scene.files().items() if name.startswith("out-")}


def fault_of(line):
    """The names and the numbers of a fault's line."""
    words = line.removeprefix("bpftap: ").split(" ")
    if words[0] in ("Device", "SameFile"):
        words = words[:1]
    return " ".join(word for word in words if not word.isdigit()), [int(word) for word in words if word.isdigit()]


def both(scene, command, words):
    """What a call prints, reports, answers and writes without `--json`, and with it, by the facts."""
    text = scene.run([command, *words])
    written = outputs(scene)
    objects = scene.run([command, "--json", *words])
    lines = [facts_of(line) for line in text.out.decode().splitlines()]
    faults = [fault_of(line) for line in text.err.decode().splitlines() if line.startswith("bpftap: ")]
    # Beside the faults an object may say how many frames no filter looks into.
    seen = [(one["fault"], one["numbers"]) for one in parsed(objects.err) if "fault" in one]
    return (lines, faults, text.status, written), (parsed(objects.out), seen, objects.status, outputs(scene))


def compare(scene, command, words):
    """Checks that a call with `--json` has the facts of the same call without it, in order, and writes the same captures."""
    wanted, seen = both(scene, command, words)
    scene.check(f"objects of {command} {words}", seen, wanted)
    scene.check(f"members in order of {command} {words}", [list(one) for one in seen[0]], [list(one) for one in wanted[0]])


@case
def each_line_is_an_object(scene):
    """Over the real captures. The buffers of `run` have room for all packets, so that none is dropped."""
    captures = sorted(str(path) for path in (ROOT / "examples").glob("*.pcap"))
    lines = [f"{96 * (n % 2)} out-{n} {expr}" for n, expr in enumerate(EXPRESSIONS)]
    listeners = [f"{n % 2} {n} {96 * (n % 2)} 1048576{'i' * (n % 2)} 2 out-{n} {expr}" for n, expr in enumerate(EXPRESSIONS)]
    scene.put({"lines.txt": "\n".join(lines), "listeners.txt": "\n".join(listeners)})
    compare(scene, "split", ["lines.txt", *captures])
    compare(scene, "run", ["listeners.txt", str(VETH), "+", *captures])


@case
def an_object_reads_so(scene):
    """One of each form, byte for byte."""
    scene.put({"lines.txt": "0 a.pcap tcp\n0 b.pcap udp\n", "listeners.txt": "0 0 0 1048576 2 a.pcap tcp\n1 0 0 1048576 2 /dev/full\n",
               "in.pcap": HEADER + TCP_RECORD + UDP_RECORD + TCP_RECORD})
    scene.expect("split --json lines.txt in.pcap", out='{"file":"a.pcap","kept":2,"packets":3}\n{"file":"b.pcap","kept":1,"packets":3}\n')
    scene.expect("run --json listeners.txt in.pcap + in.pcap in.pcap", 3, out=(
        '{"interface":0,"listener":0,"received":3,"matched":2,"dropped":0,"written":2,"end":"clean"}\n'
        '{"interface":1,"listener":0,"received":6,"matched":6,"dropped":0,"written":0,"end":"write","bytes":0}\n'))


@case
def a_path_is_a_string(scene):
    """An OUT with any characters comes back from the object as it is: quotes, backslashes, control characters and others."""
    names = ['"', '\\', '\\"n', '\x01\t\x1f', '\x7f', 'a"b"c', '\u00e9\u4e2d\U0001f600', '{"file":1}', "x" * 200]
    scene.put({"lines.txt": "".join(f"0 out-{name}\n" for name in names), "in.pcap": WHOLE})
    seen = scene.run("split --json lines.txt in.pcap")
    wanted = [{"file": f"out-{name}", "kept": 1, "packets": 1} for name in names]
    scene.check("objects", (parsed(seen.out), seen.out.count(b"\n"), seen.err, seen.status), (wanted, len(names), b"", 0))
    scene.check("captures", sorted(outputs(scene)), sorted(f"out-{name}" for name in names))


def random_call(numbers, command):
    """A plan that looks random, with two captures at least, and the words of a call."""
    count = 1 + numbers.randrange(4)
    interfaces = 1 + numbers.randrange(2) if command == "run" else 1
    first = (lambda: f"{numbers.randrange(interfaces)} {numbers.randrange(3)} ") if command == "run" else (lambda: "")
    room = (lambda: f"1048576{'i' * numbers.randrange(2)} {1 + numbers.randrange(3)} ") if command == "run" else (lambda: "")
    plan = "".join(f"{first()}{numbers.choice([0, 14, 60])} {room()}out-{n} {numbers.choice(EXPRESSIONS)}\n" for n in range(count))
    captures = [random_capture(numbers) for _ in range(2 + numbers.randrange(2))]
    names = [f"{n}.pcap" for n in range(len(captures))]
    if interfaces > 1:
        names.insert(1, "+")
    return {"plan.txt": plan} | {f"{n}.pcap": text for n, text in enumerate(captures)}, ["plan.txt", *names]


def random_facts(folder, command, call):
    """The facts of a call in a folder of its own, as `both` has them."""
    folder.mkdir()
    scene = Scene(folder)
    files, words = call
    scene.put(files)
    return both(scene, command, words)


@case
def random_plans_have_the_same_facts(scene):
    """A thousand, half of them of each command, each with its own captures, some of them torn."""
    numbers, started = random.Random(65), []
    with concurrent.futures.ThreadPoolExecutor(4) as pool:
        for number in range(1000):
            command = ("split", "run")[number % 2]
            call = random_call(numbers, command)
            started.append((command, call, pool.submit(random_facts, scene.folder / str(number), command, call)))
        for number, (command, call, done) in enumerate(started):
            wanted, seen = done.result()
            scene.check(f"{command} {number} of {call[0]['plan.txt']!r}", seen, wanted)


@case
def drops_are_counted(scene):
    """A small buffer drops packets: how many differs from run to run, but each that matched was dropped or written."""
    scene.put({"listeners.txt": "0 0 96 128 1 out-0\n0 0 96 128 1 out-1 tcp\n"})
    objects = parsed(scene.run(["run", "--json", "listeners.txt", str(VETH)]).out)
    scene.check("matched", [(one["received"], one["matched"], one["end"]) for one in objects], [(253, 253, "clean"), (253, 122, "clean")])
    scene.check("dropped and written", [one["dropped"] + one["written"] for one in objects], [one["matched"] for one in objects])
    kept = [(len(text) > 24, one["written"]) for text, one in zip(outputs(scene).values(), objects)]
    scene.check("something is written", [(is_there, count > 0) for is_there, count in kept], [(True, True)] * 2)


# The plan, the words after it, the status, and the fault.
FAULTS = [
    ("split", "0 a.pcap\n", "whole.pcap torn.pcap", 2, {"fault": "Capture TornRecord", "numbers": [1, 1], "file": "torn.pcap"}),
    ("split", "0 a.pcap\n", "short.pcap", 1, {"fault": "Capture ShortHeader", "numbers": [0], "file": "short.pcap"}),
    ("split", "0 a.pcap\n", "whole.pcap none.pcap", 3, {"fault": "Capture Device", "numbers": [1], "file": "none.pcap"}),
    ("split", "0 no/a.pcap\n", "whole.pcap", 3, {"fault": "Device", "numbers": [], "file": "no/a.pcap"}),
    ("split", "0 a.pcap\nx\n", "whole.pcap", 1, {"fault": "Lines", "numbers": [2]}),
    ("split", "0 a.pcap\n0 b.pcap tcp and 80\n", "whole.pcap", 1, {"fault": "Expression NoQualifier", "numbers": [1, 8]}),
    ("split", "0 whole.pcap\n", "whole.pcap", 1, {"fault": "SameFile", "numbers": [], "file": "whole.pcap"}),
    ("run", "0 0 0 1048576 2 a.pcap\n", "whole.pcap torn.pcap", 2, {"fault": "Interface Capture TornRecord", "numbers": [0, 1, 1], "file": "torn.pcap"}),
    ("run", "1 0 0 1048576 2 a.pcap\n", "whole.pcap + short.pcap", 1, {"fault": "Interface Capture ShortHeader", "numbers": [1, 0], "file": "short.pcap"}),
    ("run", "0 0 0 1048576 2 a.pcap\n", "none.pcap", 3, {"fault": "Interface Capture Device", "numbers": [0, 0], "file": "none.pcap"}),
    ("run", "0 0 0 96 0 a.pcap\n", "whole.pcap", 1, {"fault": "Open BadCapacity", "numbers": [0, 0]}),
    ("run", "0 0 0 1048576 2 a.pcap\n2 0 0 96 2 b.pcap\n", "whole.pcap + whole.pcap", 1, {"fault": "Listeners", "numbers": [2]}),
    ("run", "0 0 0 1048576 2 a.pcap\n", "+ " * 16, 1, {"fault": "TooMany", "numbers": []}),
    ("run", "0 0 0 1048576 2 ./whole.pcap\n", "whole.pcap", 1, {"fault": "SameFile", "numbers": [], "file": "./whole.pcap"}),
]


@case
def a_fault_is_an_object(scene):
    """It has the names, the numbers and the file of the line without `--json`, on a line of its own, and no hints."""
    for command, plan, captures, status, fault in FAULTS:
        for hints in ("", "--hints "):
            scene.start({"plan.txt": plan, "torn.pcap": TORN, "whole.pcap": WHOLE, "short.pcap": ""})
            words = f"{hints}{command} --json plan.txt {captures}"
            seen = scene.run(words)
            scene.check(f"fault of {words}, {plan!r}", (seen.err.count(b"\n"), json.loads(seen.err), seen.status), (1, fault, status))
    scene.expect("split --json none.txt whole.pcap", 3, '{"fault":"Device","numbers":[],"file":"none.txt"}\n')
    scene.expect("run --json none.txt whole.pcap", 3, '{"fault":"Device","numbers":[],"file":"none.txt"}\n')


@case
def a_failed_output_is_an_object(scene):
    """Standard output takes each number of bytes in turn, and then fails: it has a prefix, and that is the fault."""
    scene.put({"lines.txt": "0 out-0\n0 out-1 tcp\n", "listeners.txt": "0 0 0 1048576 2 out-0\n", "in.pcap": HEADER + TCP_RECORD})
    fault = {"fault": "Device", "numbers": [], "stream": "standard output"}
    for words in ("split --json lines.txt in.pcap", "run --json listeners.txt in.pcap"):
        whole = scene.run(words).out
        scene.expect(words, 3, json.dumps(fault, separators=(",", ":")) + "\n", streams="> /dev/full")
        # An OUT is a file of this size at most too.
        for room in range(len(HEADER + TCP_RECORD), len(whole)):
            seen = scene.run_into(room, words)
            scene.check(f"{words} into {room} bytes", (seen.out, parsed(seen.err), seen.status), (whole[:room], [fault], 3))


@case
def a_bad_option_stays_text(scene):
    """What is no call of a command is reported by `clap`, with `--json` too."""
    for words in ("split --json", "run --json --jsn l.txt in.pcap"):
        seen = scene.run(words)
        scene.check(words, (seen.status, seen.out, seen.err.startswith(as_bytes("error"))), (1, b"", True))
