"""`--json`: each object beside the line of text that the same call prints without it, and faults as objects."""
import json
import random
import re

from .common import ALL, ARP_RECORD, HEADER, IP, IP_RECORD, ROOT, TCP_RECORD, TORN, UDP_RECORD, VETH, WHOLE, case, header

MIXED = HEADER + ARP_RECORD + IP_RECORD + TCP_RECORD + UDP_RECORD

LINE = re.compile(r"place (\d+) time (\d+)\.(\d{9}) len (\d+) captured (\d+) (Yes|No|Abort) (.*)")
COUNTS = re.compile(r"(\d+) packets: (\d+) Yes, (\d+) No, (\d+) Abort")
BYTE = re.compile(r"(.*), byte (\d+) is not captured")
END = re.compile(r"(\d+) at (\d+): (.*)")

DIVISOR = ", the divisor is 0"

# What JSON escapes in a name: control characters, and those that turn the direction of text.
CONTROLS = [*range(1, 32), *range(0x7f, 0xa0), *range(0x202a, 0x202f), *range(0x2066, 0x206a)]
# Neighbours of these, a character of four bytes, and what has escapes of its own.
OTHERS = [0x20, 0x7e, 0xa0, 0x2029, 0x202f, 0x2065, 0x206a, 0x1f600, 0x22, 0x5c]


def decided_of(rest):
    """The members that follow the answer of an expression, from its text."""
    if rest.endswith(DIVISOR):
        return {"decided": rest.removesuffix(DIVISOR), "cause": {"divisor": 0}}
    if found := BYTE.fullmatch(rest):
        return {"decided": found[1], "cause": {"byte": int(found[2])}}
    return {"decided": rest}


def end_of(rest):
    """The members that follow the answer of a program, from its text."""
    number, place, instruction = END.fullmatch(rest).groups()
    return {"returned": int(number), "at": int(place), "instruction": instruction}


def objects_of(text, is_program):
    """The facts of the lines of `explain`, as its objects have them: a place 0 begins the next capture."""
    capture = -1
    for line in text.splitlines():
        if found := COUNTS.fullmatch(line):
            yield dict(zip(("packets", "yes", "no", "abort"), map(int, found.groups())))
            continue
        place, seconds, nanos, length, captured, answer, rest = LINE.fullmatch(line).groups()
        capture += place == "0"
        yield {
            "capture": capture, "place": int(place), "seconds": int(seconds), "nanoseconds": int(nanos), "length": int(length),
            "captured": int(captured), "answer": answer.lower(), **(end_of if is_program else decided_of)(rest)}


def parsed(out):
    return [json.loads(line) for line in out.decode().splitlines()]


def compare(scene, words, is_program=False):
    """Checks that a call of `explain` with `--json` has the facts of the same call without it, in order, and its status."""
    text, objects = scene.run(["explain", *words]), scene.run(["explain", "--json", *words])
    wanted = list(objects_of(text.out.decode(), is_program))
    scene.check(f"objects of {words}", parsed(objects.out), wanted)
    scene.check(f"members in order of {words}", [list(one) for one in parsed(objects.out)], [list(one) for one in wanted])
    scene.check(f"status of {words}", objects.status, text.status)


@case
def each_packet_is_an_object(scene):
    """Over the real captures each object has the facts of the line, for expressions and for programs."""
    captures = sorted(str(path) for path in (ROOT / "examples").glob("*.pcap"))
    for path in captures:
        for expr in ("", "tcp port 80 or 8080", "not udp", "not (len / 0x0e = 1)", "1 / (len - 98) = 0", "ether[100] = 1"):
            compare(scene, ["-e", expr, path])
        for listing in ("ip.bpf", "ssh.asm"):
            compare(scene, ["-f", str(ROOT / "examples" / listing), path], True)
    compare(scene, ["-e", "arp or udp", *captures])


# Members of a packet in full, written by hand from the tables of LANGUAGE and the fields of RFC 791 and 793: words, and what follows the members
# that the packet's object has without `-p`, up to the run.
TYPE = '{"offset":12,"size":2,"value":2048,"field":"ethertype"}'
IN_FULL = [
    (["-p", "0", "-e", "len > 4 or arp"],
     ',"bytes":"ffffffffffff0001020304050806","expression":"len > 4 or arp",'
     '"asked":[{"test":"len > 4","answer":"yes","length":14,"bytes":[]}],"unasked":["arp"],'),
    (["-p", "1", "-e", "not tcp or ip"],
     ',"bytes":"ffffffffffff0001020304050800","expression":"not tcp or ip","asked":[{"test":"tcp","answer":"abort",'
     '"bytes":[' + TYPE + ',{"offset":23,"size":1,"value":null,"field":"protocol"}]}],"unasked":["ip"],'),
    (["-p", "2", "-e", "udp or tcp port 53 or arp"],
     ',"bytes":"ffffffffffff00010203040508004500001800000000400600000a0000010a00000200350035",'
     '"expression":"udp or tcp port 53 or arp","asked":[{"test":"udp","answer":"no","bytes":['
     + TYPE + ',{"offset":23,"size":1,"value":6,"field":"protocol"}]},{"test":"tcp port 53","answer":"yes","bytes":['
     + TYPE + ',{"offset":23,"size":1,"value":6,"field":"protocol"},'
     '{"offset":20,"size":2,"value":0,"field":"flags and fragment offset"},{"offset":14,"size":1,"value":69,"field":"version and IHL"},'
     '{"offset":34,"size":2,"value":53,"field":"source port"}]}],"unasked":["arp"],'),
    (["-p", "1", "-f", "ip.bpf"],
     ',"bytes":"ffffffffffff0001020304050800","expression":null,"asked":[],"unasked":[],'
     '"run":{"instructions":3,"returned":262144,"at":2,"instruction":"ret #262144","steps":['
     '{"at":0,"instruction":"ldh [12]","accumulator":2048,"index":0},{"at":1,"instruction":"jeq #0x800","accumulator":2048,"index":0},'
     '{"at":2,"instruction":"ret #262144","accumulator":2048,"index":0}]}}\n'),
    (["-p", "0", "-f", "store.bpf"],
     ',"bytes":"ffffffffffff0001020304050806","expression":null,"asked":[],"unasked":[],'
     '"run":{"instructions":3,"returned":0,"at":2,"instruction":"ldb [99]","steps":['
     '{"at":0,"instruction":"ld #0x5","accumulator":5,"index":0},'
     '{"at":1,"instruction":"st M[3]","accumulator":5,"index":0,"stored":{"cell":3,"value":5}},'
     '{"at":2,"instruction":"ldb [99]","accumulator":5,"index":0}]}}\n'),
]

# The line of an instruction of a run, as the text has it.
STEP = re.compile(r"\((\d+)\) (\S+) +(\S*?) .* A 0x([0-9a-f]+) X 0x([0-9a-f]+)(?: M\[(\d+)\] 0x([0-9a-f]+))?")


def steps_of(text):
    """The run of the text of `-p`: the place of each instruction, the registers after it, and what it stored."""
    for step in STEP.finditer(text):
        stored = {"stored": {"cell": int(step[6]), "value": int(step[7], 16)}} if step[6] else {}
        yield {"at": int(step[1]), "accumulator": int(step[4], 16), "index": int(step[5], 16), **stored}


@case
def a_packet_in_full_is_an_object(scene):
    """`explain -p --json` prints the members that the packet's object has, then its bytes, what each test looked at, and the run."""
    listing = "4\n0 0 0 5\n2 0 0 3\n48 0 0 99\n6 0 0 9\n"
    scene.start({"in.pcap": MIXED, "ip.bpf": IP, "store.bpf": listing})
    for words, members in IN_FULL:
        each = scene.run(["explain", "--json", *words[2:], "in.pcap"]).out.decode().splitlines()
        seen = scene.run(["explain", "--json", *words, "in.pcap"])
        line, wanted = seen.out.decode(), each[int(words[1])].removesuffix("}") + members
        scene.check(f"object of {words}", (line[: len(wanted)], line.count("\n"), seen.err, seen.status), (wanted, 1, b"", 0))
        run, text = json.loads(line)["run"], scene.run(["explain", *words, "in.pcap"]).out.decode()
        steps = [{key: one[key] for key in one if key != "instruction"} for one in run["steps"]]
        scene.check(f"run of {words}", (steps, run["instructions"], f"answer {run['returned']}"),
                    (list(steps_of(text)), len(steps), text.splitlines()[-1]))
        scene.check(f"end of {words}", {key: run[key] for key in ("at", "instruction")}, {key: run["steps"][-1][key] for key in ("at", "instruction")})
    too_long = "ip" + "||ip" * 599
    scene.check("no program", json.loads(scene.run(["explain", "--json", "-p", "1", "-e", too_long, "in.pcap"]).out)["run"], None)


@case
def packets_in_full_are_objects_in_order(scene):
    """A range of places has an object for each packet, on a line of its own; the number of the capture counts from 0, and a capture that has no
    packet there is a fault with its path."""
    scene.start({"in.pcap": MIXED, "one.pcap": WHOLE, "torn.pcap": TORN})
    words = ["explain", "--json", "-p", "0-2", "-e", "arp"]
    seen = parsed(scene.run([*words, "in.pcap", "one.pcap", "in.pcap"]).out)
    scene.check("places", [(one["capture"], one["place"]) for one in seen], [(0, 0), (0, 1), (0, 2), (1, 0), (2, 0), (2, 1), (2, 2)])
    one = scene.run([*words, "one.pcap"]).out.decode()
    scene.expect([*words, "torn.pcap"], 2, '{"fault":"TornRecord","numbers":[1],"file":"torn.pcap"}\n', one)
    words[3] = "2"
    seen = scene.run([*words, "one.pcap", "in.pcap"])
    scene.check("no packet", (seen.err, [(one["capture"], one["place"]) for one in parsed(seen.out)], seen.status),
                (b'{"fault":"NoPacket","numbers":[2],"file":"one.pcap"}\n', [(1, 2)], 1))
    scene.expect([*words, "none.pcap"], 3, '{"fault":"Device","numbers":[],"file":"none.pcap"}\n')
    stream = scene.run([*words, "in.pcap"], streams=">/dev/full")
    scene.check("standard output", (json.loads(stream.err), stream.status), ({"fault": "Device", "numbers": [], "stream": "standard output"}, 3))
    for path in sorted(str(path) for path in (ROOT / "examples").glob("*.pcap")):
        seen = scene.run(["explain", "--json", "-p", "0-999", "-e", "tcp port 80 or ip[8] < 3 and not udp", path])
        each = scene.run(["explain", "--json", "-e", "tcp port 80 or ip[8] < 3 and not udp", path])
        heads = [line.removesuffix("}") + ',"bytes":"' for line in each.out.decode().splitlines()[:-1]]
        scene.check(f"heads of {path}", [line[: len(head)] for line, head in zip(seen.out.decode().splitlines(), heads)], heads)
        scene.check(f"lines of {path}", (len(parsed(seen.out)), seen.status), (len(heads), 0))


@case
def an_object_reads_so(scene):
    """One of each form, byte for byte."""
    scene.start({"in.pcap": MIXED})
    head = '{"capture":0,"place":%d,"seconds":%d,"nanoseconds":0,"length":%d,"captured":%d,"answer":'
    scene.expect("explain --json -e 'not tcp' in.pcap", out="".join([
        head % (0, 1, 14, 14) + '"yes","decided":"not tcp"}\n',
        head % (1, 2, 14, 14) + '"abort","decided":"not tcp","cause":{"byte":23}}\n',
        head % (2, 1, 38, 38) + '"no","decided":"not tcp"}\n',
        head % (3, 2, 38, 38) + '"yes","decided":"not tcp"}\n',
        '{"packets":4,"yes":2,"no":1,"abort":1}\n']))


DIFFERENCE = re.compile(r"(place \d+ time \S+ len \d+ captured \d+) first (Yes|No|Abort) (.*) second (Yes|No|Abort) (.*)")
DIFFERENCES = re.compile(r"(\d+) packets: (\d+) differ, (\d+) accepted by the first alone, (\d+) by the second")


def answer_of(answer, rest, is_program=False):
    return {"answer": answer.lower(), **(end_of if is_program else decided_of)(rest)}


def differences_of(text, is_program):
    """The facts of the lines of `compare`, of which the second filter may be a program. The text does not say which capture a packet is of: the number is left out."""
    for line in text.splitlines():
        if found := DIFFERENCES.fullmatch(line):
            yield dict(zip(("packets", "differ", "first", "second"), map(int, found.groups())))
            continue
        head, first, one, second, other = DIFFERENCE.fullmatch(line).groups()
        place, seconds, nanos, length, captured = re.fullmatch(r"place (\d+) time (\d+)\.(\d{9}) len (\d+) captured (\d+)", head).groups()
        yield {
            "place": int(place), "seconds": int(seconds), "nanoseconds": int(nanos), "length": int(length), "captured": int(captured),
            "first": answer_of(first, one), "second": answer_of(second, other, is_program)}


@case
def each_difference_is_an_object(scene):
    """`compare --json` has the facts of the lines, in order, the number of the capture, and the status."""
    scene.start({"in.pcap": MIXED, "torn.pcap": TORN})
    captures = [*sorted(str(path) for path in (ROOT / "examples").glob("*.pcap")), "in.pcap", "torn.pcap"]
    pairs = [["tcp port 8080", "tcp dst port 8080"], ["not tcp", "1 / (len - 98) = 0"], ["-f", str(ROOT / "examples" / "ssh.asm"), "tcp"]]
    for words in pairs:
        is_program = "-f" in words
        for inputs in ([one] for one in captures):
            text, seen = scene.run(["compare", *words, *inputs]), scene.run(["compare", "--json", *words, *inputs])
            objects = parsed(seen.out)
            numbers = [one.pop("capture") for one in objects[:-1]]
            wanted = list(differences_of(text.out.decode(), is_program))
            scene.check(f"objects of {words} {inputs}", objects, wanted)
            scene.check(f"members in order of {words} {inputs}", [list(one) for one in objects], [list(one) for one in wanted])
            scene.check(f"numbers and status of {words} {inputs}", ({*numbers} <= {0}, seen.status), (True, text.status))
    seen = parsed(scene.run(["compare", "--json", "ip", "not tcp", "in.pcap", "in.pcap"]).out)
    scene.check("numbers of captures", [one.get("capture") for one in seen], [0, 0, 0, 1, 1, 1, None])
    scene.check("counts of both", seen[-1], {"packets": 8, "differ": 6, "first": 4, "second": 2})
    scene.expect("compare --json arp 'ip[9] = 17' in.pcap", out="".join([
        '{"capture":0,"place":0,"seconds":1,"nanoseconds":0,"length":14,"captured":14,'
        '"first":{"answer":"yes","decided":"arp"},"second":{"answer":"no","decided":"ip[9] = 17"}}\n',
        '{"capture":0,"place":3,"seconds":2,"nanoseconds":0,"length":38,"captured":38,'
        '"first":{"answer":"no","decided":"arp"},"second":{"answer":"yes","decided":"ip[9] = 17"}}\n',
        '{"packets":4,"differ":2,"first":1,"second":1}\n']))
    torn = '{"fault":"TornRecord","numbers":[1],"file":"torn.pcap"}\n'
    scene.expect("compare --json tcp tcp torn.pcap", 2, torn, '{"packets":1,"differ":0,"first":0,"second":0}\n')
    scene.expect("compare --json -q ip arp in.pcap", 4)


# Pairs of filters of which a packet shows the difference.
SHOWN = [
    ("tcp", "udp"), ("tcp port 80", "tcp dst port 80"), ("ip[100] = 1", "ip"), ("not tcp", "not ip proto 6 and ether[60] >= 0"),
    ("arp", "arp or ether[13] = 7")]


def dumped_bytes(lines):
    """The bytes of a packet, from the lines that `tcpdump -XX` prints."""
    return "".join(line.split(": ")[1][:40].replace(" ", "") for line in lines)


@case
def an_answer_about_two_filters_is_an_object(scene):
    """`compare --json` without a capture: the answer, its cause, and the packet, as the text has them."""
    product = "5\n32 0 0 26\n7 0 0 0\n32 0 0 30\n44 0 0 0\n22 0 0 0\n"
    scene.start({"ip.bpf": "4\n40 0 0 12\n21 0 1 2048\n6 0 0 262144\n6 0 0 0\n", "product.bpf": product})
    scene.expect("compare --json tcp 'ip proto 6'", out='{"answer":"same"}\n')
    scene.expect("compare --json -q tcp udp", 4)
    scene.expect("compare --json -f ip.bpf ip", out='{"answer":"same"}\n')
    undecided = '{"answer":"not decided","cause":"too large, with a product of two fields"}\n'
    scene.expect("compare --json -f product.bpf 'ether[26:4] * ether[30:4] != 0'", 5, out=undecided)
    for first, second in SHOWN:
        text = scene.run(["compare", first, second])
        lines = text.out.decode().splitlines()
        seen = scene.run(["compare", "--json", first, second])
        scene.check(f"one line of {first}, {second}", (seen.out.count(b"\n"), seen.status), (1, text.status))
        found = re.fullmatch(r"len (\d+) captured (\d+) first (Yes|No|Abort) (.*) second (Yes|No|Abort) (.*)", lines[1])
        length, captured, answer, one, other, rest = found.groups()
        scene.check(f"object of {first}, {second}", json.loads(seen.out), {
            "answer": lines[0], "length": int(length), "captured": int(captured), "bytes": dumped_bytes(lines[2:]),
            "first": answer_of(answer, one), "second": answer_of(other, rest)})


def random_capture(numbers):
    """A small capture of random frames, one at least, cut anywhere, with nanoseconds; sometimes it is torn."""
    text = bytes.fromhex("4d3cb2a1") + header()[4:]
    for _ in range(1 + numbers.randrange(3)):
        frame = numbers.randbytes(12) + numbers.choice([b"\x08\x00", b"\x08\x06", b"\x86\xdd"])
        frame += bytes([0x45]) + numbers.randbytes(8) + numbers.choice([b"\x06", b"\x11", b"\x01"]) + numbers.randbytes(30)
        kept = frame[:numbers.randrange(len(frame) + 1)]
        times = [numbers.choice([0, 1, 2**31, 2**32 - 1]), numbers.randrange(10**9), len(kept), len(frame)]
        text += b"".join(number.to_bytes(4, "little") for number in times) + kept
    return text[:-1] if numbers.random() < 0.1 else text


@case
def random_captures_have_the_same_facts(scene):
    """A thousand random captures, in calls of ten, by expressions and programs."""
    numbers = random.Random(65)
    for group in range(100):
        names = [f"{group}-{one}.pcap" for one in range(10)]
        scene.start({name: random_capture(numbers) for name in names})
        scene.put({"all.bpf": ALL, "byte.bpf": "3\n48 0 0 23\n22 0 0 0\n6 0 0 0\n"})
        if group % 5:
            compare(scene, ["-e", numbers.choice(["tcp", "not udp port 53", "ip[9] / (len - 54) = 1 or arp", "icmp"]), *names])
        else:
            compare(scene, ["-f", numbers.choice(["all.bpf", "byte.bpf"]), *names], True)


def name_in(line):
    """The name and the operand of an instruction, in a line of an image."""
    return " ".join(line.partition(") ")[2].split("jt")[0].split())


@case
def a_program_is_an_object(scene):
    """`check --json` has the expression as `-x` prints it, the numbers of the listing and the names of the image."""
    scene.start({"ip.bpf": "4\n40 0 0 12\n21 0 1 2048\n6 0 0 262144\n6 0 0 0\n"})
    for expr in ("", "ip", "tcp dst port 80 or 443", "-1 + len > 60", "(-1 = 4294967295)", "ip[9] = 17 and not host 10.0.0.1"):
        words = ["--", expr] if expr.startswith("-") else [expr]
        seen = json.loads(scene.run(["check", "--json", *words]).out)
        read = scene.run(["check", "-x", *words]).out.decode().rstrip("\n")
        scene.check(f"expression of {expr!r}", seen["expression"], read)
        # It can be given back as a word.
        again = scene.run(["check", "--json", seen["expression"]])
        scene.check(f"object of {read!r}", (json.loads(again.out or "{}"), again.err), (seen, b""))
        listing = scene.run(["check", *words]).out.decode().splitlines()[1:]
        numbers = [" ".join(str(one[name]) for name in ("code", "jt", "jf", "k")) for one in seen["instructions"]]
        scene.check(f"numbers of {expr!r}", numbers, listing)
        scene.check(f"places of {expr!r}", [one["place"] for one in seen["instructions"]], list(range(len(listing))))
        image = scene.run(["check", "-d", *words]).out.decode().splitlines()
        for one, line in zip(seen["instructions"], image):
            scene.check(f"name of {line}", one["name"], name_in(line))
    # A jump names the place that it leads to, in the image of tcpdump too; and what is printed reads as the same program again.
    scene.put({"ja.bpf": "4\n5 0 0 1\n6 0 0 1\n5 0 0 0\n6 0 0 2\n"})
    names = [one["name"] for one in json.loads(scene.run("check --json -f ja.bpf").out)["instructions"]]
    scene.check("names of jumps", names, ["ja 2", "ret #1", "ja 3", "ret #2"])
    scene.check("as the image has them", names, [name_in(line) for line in scene.run("check -d -f ja.bpf").out.decode().splitlines()])
    scene.put({"ja.asm": "".join(f"({place:03}) {name}\n" for place, name in enumerate(names))})
    scene.check("read as assembly", scene.run("check --json -f ja.asm"), scene.run("check --json -f ja.bpf"))
    scene.expect("check --json -f ip.bpf", out=(
        '{"expression":null,"instructions":[{"place":0,"code":40,"jt":0,"jf":0,"k":12,"name":"ldh [12]"},'
        '{"place":1,"code":21,"jt":0,"jf":1,"k":2048,"name":"jeq #0x800"},'
        '{"place":2,"code":6,"jt":0,"jf":0,"k":262144,"name":"ret #262144"},{"place":3,"code":6,"jt":0,"jf":0,"k":0,"name":"ret #0"}]}\n'))
    seen = json.loads(scene.run("check --json -s 96 ip").out)
    scene.check("snapshot length", seen["instructions"][2]["k"], 96)


@case
def counts_are_an_object(scene):
    """`cut -c --json` reports the counts of `cut -c`."""
    scene.start({"torn.pcap": TORN, "whole.pcap": WHOLE})
    scene.expect("cut --json -c -s 0 -w out.pcap whole.pcap whole.pcap", err='{"kept":2,"packets":2}\n')
    scene.expect(["cut", "--json", "-c", "-s", "0", "-e", "udp port 5353", str(VETH), "out.pcap"], err='{"kept":67,"packets":253}\n')
    scene.expect("cut --json -c -s 0 torn.pcap out.pcap", 2, '{"fault":"TornRecord","numbers":[1],"file":"torn.pcap"}\n{"kept":1,"packets":1}\n')


# Words, the status, and the fault.
FAULTS = [
    ("explain --json -e ip torn.pcap", 2, {"fault": "TornRecord", "numbers": [1], "file": "torn.pcap"}),
    ("explain --json -e ip whole.pcap torn.pcap", 2, {"fault": "Capture TornRecord", "numbers": [1, 1], "file": "torn.pcap"}),
    ("explain --json -q -e arp whole.pcap torn.pcap", 2, {"fault": "Capture TornRecord", "numbers": [1, 1], "file": "torn.pcap"}),
    ("explain --json -e ip 'no such\"file'", 3, {"fault": "Device", "numbers": [], "file": 'no such"file'}),
    ("explain --json -e 'tcp and 80' torn.pcap", 1, {"fault": "NoQualifier", "numbers": [8]}),
    ("explain --json -e ip -f all.bpf torn.pcap", 1, {"fault": "FilterTwice", "numbers": []}),
    ("explain --json -e ip short.pcap", 1, {"fault": "ShortHeader", "numbers": [], "file": "short.pcap"}),
    ("check --json 'tcp and 80'", 1, {"fault": "NoQualifier", "numbers": [8]}),
    ("check --json -f jump.bpf", 1, {"fault": "Program JumpOut", "numbers": [0]}),
    ("cut --json -s 0 torn.pcap out.pcap", 2, {"fault": "TornRecord", "numbers": [1], "file": "torn.pcap"}),
    ("cut --json -s 0 -w out.pcap whole.pcap torn.pcap", 2, {"fault": "Capture TornRecord", "numbers": [1, 1], "file": "torn.pcap"}),
    ("cut --json -s 0 whole.pcap whole.pcap", 1, {"fault": "SameFile", "numbers": [], "file": "whole.pcap"}),
    ("cut --json -s 0 long.pcap out.pcap", 2, {"fault": "TooLong", "numbers": [0], "file": "long.pcap"}),
]

FILES = {
    "torn.pcap": TORN, "whole.pcap": WHOLE, "short.pcap": "", "all.bpf": ALL, "jump.bpf": "2\n5 0 0 9\n6 0 0 0\n",
    "long.pcap": HEADER + bytes.fromhex("01000000 00000000 01000400 01000400"),
}


@case
def a_fault_is_an_object(scene):
    """It has the names, the numbers and the file of the line without `--json`, on a line of its own, and no hints."""
    scene.start(FILES)
    for words, status, fault in FAULTS:
        seen = scene.run(words)
        scene.check(f"fault of {words}", (seen.err.count(b"\n"), json.loads(seen.err), seen.status), (1, fault, status))
        scene.check(f"hints of {words}", scene.run(f"--hints {words}").err, seen.err)


# Names of files that a line shows with escapes, and JSON with others.
NAMES = ["a\tb.pcap", "a\nb.pcap", 'a"b.pcap', "a\\b.pcap", "é日.pcap", "\x1b[1m.pcap", "\x7f.pcap", "standard output", "x" * 255]


@case
def a_file_is_named_by_its_own_text(scene):
    """The key `file` is the path, whatever the fault and whatever bytes the path has: of a file that is torn, missing, or written by the
    same call, by each command that names it."""
    scene.start({})
    for name in NAMES:
        scene.put({name: TORN, "lines.txt": "0 out.pcap\n", "steps.txt": "0 1048576\n", "script.txt": "arrive\n",
                   "run.txt": "0 0 0 1048576 2 out.pcap\n"})
        torn = {"fault": "TornRecord", "numbers": [1], "file": name}
        missing = {"fault": "Device", "numbers": [], "file": "none/" + name}
        first = {"fault": "Capture TornRecord", "numbers": [0, 1], "file": name}
        for words, status, fault in (
            (["explain", "--json", "-e", "ip", name], 2, torn),
            (["cut", "--json", "-s", "0", name, "out.pcap"], 2, torn),
            (["split", "--json", "lines.txt", name], 2, first),
            (["steps", "--json", "steps.txt", "script.txt", name], 2, first),
            (["run", "--json", "run.txt", name], 2, {"fault": "Interface Capture TornRecord", "numbers": [0, 0, 1], "file": name}),
            (["cut", "--json", "-s", "0", name, name], 1, {"fault": "SameFile", "numbers": [], "file": name}),
            (["explain", "--json", "-e", "ip", "none/" + name], 3, missing),
            (["info", "--json", "none/" + name], 3, missing),
            (["steps", "--json", "steps.txt", "script.txt", "none/" + name], 3, missing),
            (["check", "--json", "-f", "none/" + name], 3, missing),
        ):
            seen = scene.run(words)
            scene.check(f"fault of {words}", (seen.err.count(b"\n"), json.loads(seen.err), seen.status), (1, fault, status))


@case
def a_long_path_is_named_whole(scene):
    """An object of more than 512 bytes is whole too."""
    scene.start({})
    path = "/".join(["x" * 200] * 4)
    seen = scene.run(["explain", "--json", "-e", "ip", path])
    scene.check("a long path", (json.loads(seen.err), seen.status), ({"fault": "Device", "numbers": [], "file": path}, 3))


@case
def a_stream_is_no_file(scene):
    """Standard output that fails has a key of its own: no file of that name prints the same object."""
    scene.start({})
    stream = scene.run("check --json ip", streams=">/dev/full")
    scene.check("a stream", (json.loads(stream.err), stream.status), ({"fault": "Device", "numbers": [], "stream": "standard output"}, 3))
    named = scene.run(["explain", "--json", "-e", "ip", "standard output"])
    scene.check("a file", (json.loads(named.err), named.status), ({"fault": "Device", "numbers": [], "file": "standard output"}, 3))


@case
def an_expression_that_is_refused_is_named(scene):
    """The fault of one of two expressions has its name, as the line below its text. Beside a listing there is only one."""
    scene.start({"in.pcap": WHOLE, "ip.bpf": IP})
    for words, fault, number, argument in [
        ("'port http' arp", "BadWord", 5, "EXPR1"), ("arp 'tcp port https'", "BadWord", 9, "EXPR2"), ("'port http' 'ip or'", "BadWord", 5, "EXPR1"),
        ("-f ip.bpf 'port http'", "BadWord", 5, None), ("-q arp 'ip or' in.pcap", "Syntax", 5, "EXPR2"), ("arp 'ip or' in.pcap", "Syntax", 5, "EXPR2"),
    ]:
        named = {"argument": argument} if argument else {}
        seen = scene.run(f"compare --json {words}")
        scene.check(f"compare --json {words}", (json.loads(seen.err), seen.out, seen.status), ({"fault": fault, "numbers": [number], **named}, b"", 1))
        text = scene.run(f"compare {words}").err.decode().splitlines()[1:]
        scene.check(f"compare {words}", text, [f"  {argument}:"] if argument else [])


@case
def a_failed_output_is_an_object(scene):
    """What standard output does not take is reported so too."""
    scene.start(FILES)
    fault = '{"fault":"Device","numbers":[],"stream":"standard output"}\n'
    scene.expect("explain --json -e ip whole.pcap", 3, fault, streams=">/dev/full")
    scene.expect("check --json ip", 3, fault, streams=">/dev/full")
    for room in (0, 1, 100, 120):
        seen = scene.run_into(room, "explain --json -e ip whole.pcap")
        scene.check(f"fault with {room} bytes", (seen.err.decode(), seen.status), (fault, 3))
        scene.check(f"a prefix of {room} bytes", scene.run("explain --json -e ip whole.pcap").out.startswith(seen.out), True)


@case
def forms_exclude_each_other(scene):
    """What has no JSON is refused with it."""
    scene.start(FILES)
    for words in ("check --json -d ip", "check --json -x ip"):
        seen = scene.run(words)
        scene.check(words, (seen.status, seen.out, b"cannot be used with" in seen.err), (1, b"", True))
    scene.expect("explain --json -q -e ip whole.pcap")
    scene.expect("explain --json -q -e arp whole.pcap", 4)


@case
def names_are_escaped(scene):
    """A name in JSON has no character that controls a terminal, and is read as it was given."""
    for codes in (CONTROLS[:40], CONTROLS[40:], OTHERS):
        name = "".join(map(chr, codes)) + ".pcap"
        scene.start({name: WHOLE, "lines.txt": "0 \x7f\u0085\u202e.pcap ip\n"})
        for words in (["info", "--json", name], ["explain", "--json", "-c", "-e", "ip", name], ["explain", "--json", "-l", "-e", "ip", name],
                      ["info", "--json", f"no {name}"], ["explain", "--json", "-e", "ip", f"no {name}"]):
            seen = scene.run(words)
            printed = (seen.out or seen.err).decode()
            scene.check(f"controls of {words[:3]}", [one for one in printed[:-1] if ord(one) in CONTROLS], [])
            scene.check(f"escapes of {words[:3]}", [f"\\u{one:04x}" in printed for one in codes], [one in CONTROLS for one in codes])
            scene.check(f"the name of {words[:3]}", json.loads(printed)["file"], words[-1])
        seen = scene.run(["split", "--json", "lines.txt", name])
        scene.check("split", seen.out.decode(), '{"file":"\\u007f\\u0085\\u202e.pcap","kept":1,"packets":1}\n')


@case
def an_expression_that_begins_with_a_sign_is_in_parentheses(scene):
    """`explain -p` gives an expression as a command line takes it."""
    scene.start({"in.pcap": WHOLE})
    for given, read in [("(-len = 10)", "(-len = 10)"), ("(-len = 10) and ip", "(-len = 10 and ip)"), ("ip and -len = 10", "ip and -len = 10")]:
        seen = json.loads(scene.run(["explain", "--json", "-p", "0", "-e", given, "in.pcap"]).out)
        scene.check(f"object of {given}", seen["expression"], read)
        text = scene.run(["explain", "-p", "0", "-e", given, "in.pcap"]).out.decode()
        scene.check(f"text of {given}", f"\nexpression: {read}\n" in text, True)
        scene.check(f"given back {read}", scene.run(["check", "-x", read]).out.decode(), read + "\n")
