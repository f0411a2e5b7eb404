"""`bpftap info`: each line beside what a reader of its own, in Python, finds in the same file, and beside capinfos where it is installed."""
import json
import random
import re
import struct
import subprocess

from .common import HEADER, ROOT, TORN, UDP_RECORD, VETH, WHOLE, case, fault_lines

KINDS = {0x0800: "ipv4", 0x0806: "arp", 0x86DD: "ipv6", 0x8100: "vlan", 0x88A8: "vlan", 0x9100: "vlan"}
MAGICS = {0xA1B2C3D4: ("micro", 1000), 0xA1B23C4D: ("nano", 1)}


def survey(text):
    """The facts of a capture by pcap-savefile(5), as `--json` has them, without its path. The header is whole and right."""
    order = "little" if struct.unpack("<I", text[:4])[0] in MAGICS else "big"
    sign = "<" if order == "little" else ">"
    unit, nanoseconds = MAGICS[struct.unpack(sign + "I", text[:4])[0]]
    facts = {"packets": 0, "length": 0, "captured": 0} | {kind: 0 for kind in ("ipv4", "arp", "ipv6", "vlan", "other")}
    facts |= {"order": order, "unit": unit, "snap": struct.unpack(sign + "I", text[16:20])[0]}
    place = 24
    while place < len(text):
        fault = fault_at(text, place, sign, nanoseconds)
        if fault:
            return facts | {"fault": fault, "numbers": [facts["packets"]]}
        seconds, fraction, captured, length = struct.unpack(sign + "4I", text[place : place + 16])
        frame = text[place + 16 : place + 16 + captured]
        kind = KINDS.get(int.from_bytes(frame[12:14], "big"), "other") if captured >= 14 else "other"
        moment = {"seconds": seconds, "nanoseconds": fraction * nanoseconds}
        facts.setdefault("first", moment)
        facts["last"] = moment
        for name, more in (("packets", 1), ("length", length), ("captured", captured), (kind, 1)):
            facts[name] += more
        place += 16 + captured
    return facts


def fault_at(text, place, sign, nanoseconds):
    """The fault of the record at an offset, if it has one."""
    if len(text) - place < 16:
        return "TornRecord"
    _, fraction, captured, _ = struct.unpack(sign + "4I", text[place : place + 16])
    if fraction * nanoseconds >= 10**9:
        return "BadFraction"
    if captured > 262144:
        return "TooLong"
    return "TornRecord" if len(text) - place - 16 < captured else None


def status_of(facts):
    return 2 if "fault" in facts else 0


def moment_text(name, facts):
    return f" {name} {facts[name]['seconds']}.{facts[name]['nanoseconds']:09}" if name in facts else ""


def line_of(path, facts):
    """The line of text of these facts."""
    kinds = "".join(f" {kind} {facts[kind]}" for kind in ("ipv4", "arp", "ipv6", "vlan", "other"))
    end = f"{facts['fault']} {facts['numbers'][0]}" if "fault" in facts else "Clean"
    return (f"{path} packets {facts['packets']} len {facts['length']} captured {facts['captured']}{moment_text('first', facts)}"
            f"{moment_text('last', facts)}{kinds} {facts['order']} {facts['unit']} snap {facts['snap']} {end}\n")


def random_record(rng, sign):
    """A record of a frame of some kind, or a bad one."""
    frame = rng.randbytes(12) + rng.choice([*KINDS, 0x1234]).to_bytes(2, "big") + rng.randbytes(rng.randrange(40))
    frame = frame[: rng.choice([0, 13, 14, len(frame)])]
    fraction = rng.choice([0, 7, 999999, 999999, 1000000 if rng.random() < 0.1 else 1])
    return struct.pack(sign + "4I", rng.randrange(2**32), fraction, len(frame), rng.choice([0, len(frame), 2**32 - 1])) + frame


def random_capture(rng):
    sign, magic = rng.choice("<>"), rng.choice([*MAGICS])
    text = struct.pack(sign + "IHHIIII", magic, 2, 4, 0, 0, rng.randrange(2**32), 1)
    text += b"".join(random_record(rng, sign) for _ in range(rng.randrange(6)))
    return text[: rng.randrange(24, len(text) + 1)] if rng.random() < 0.3 else text


@case
def the_example_reads_so(scene):
    """The real capture: the line, byte for byte, by a reader of its own, and the counts that the pages of the example have."""
    facts = survey(VETH.read_bytes())
    scene.expect(["info", VETH], out=line_of(VETH, facts))
    scene.check("packets of the example", (facts["packets"], facts["arp"]), (253, 7))


@case
def worked_examples(scene):
    """No packet, one, a torn record, and two captures; and an object."""
    scene.start({"none": HEADER, "torn": TORN, "udp": HEADER + UDP_RECORD})
    kinds, header = "arp 0 ipv6 0 vlan 0 other 0", "little micro snap 262144"
    scene.expect("info none", out=f"none packets 0 len 0 captured 0 ipv4 0 {kinds} {header} Clean\n")
    torn = f"torn packets 1 len 14 captured 14 first 2.000000000 last 2.000000000 ipv4 1 {kinds} {header} TornRecord 1\n"
    udp = f"udp packets 1 len 38 captured 38 first 2.000000000 last 2.000000000 ipv4 1 {kinds} {header} Clean\n"
    scene.expect("info torn udp", out=torn + udp, status=2)
    moment = '{"seconds":2,"nanoseconds":0}'
    scene.expect("info --json torn", status=2, out=(
        f'{{"file":"torn","packets":1,"length":14,"captured":14,"first":{moment},"last":{moment},"ipv4":1,"arp":0,"ipv6":0,"vlan":0,"other":0,'
        '"order":"little","unit":"micro","snap":262144,"fault":"TornRecord","numbers":[1]}\n'))


@case
def random_captures(scene):
    """Whole, torn and bad captures in all four forms, as text and as JSON."""
    rng = random.Random(20261128)
    for turn in range(150):
        texts = {f"{turn}-{n}": random_capture(rng) for n in range(rng.randrange(1, 4))}
        scene.start(texts)
        facts = {name: survey(text) for name, text in texts.items()}
        status = max(map(status_of, facts.values()))
        scene.expect(["info", *texts], out="".join(line_of(name, one) for name, one in facts.items()), status=status)
        seen = scene.run(["info", "--json", *texts])
        wanted = [{"file": name} | one for name, one in facts.items()]
        scene.check(f"objects of turn {turn}", ([json.loads(line) for line in seen.out.splitlines()], seen.status), (wanted, status))


@case
def refused_and_missing_files(scene):
    """A refused header has a line with its fault, and the next capture is read; a missing file is a fault of its own."""
    scene.start({"empty": "", "text": "no capture, but a long enough text", "one": WHOLE})
    seen = scene.run("info empty text one")
    lines = seen.out.decode().splitlines()
    scene.check("lines", (lines[:2], len(lines)), (["empty ShortHeader", "text NotSavefile"], 3))
    scene.check("status, and nothing on standard error", (seen.status, seen.err), (1, b""))
    seen = scene.run("info nosuch one")
    scene.check("a missing file", (seen.out.decode().splitlines()[0], seen.err.decode(), seen.status),
                ("nosuch Device", fault_lines("Device nosuch"), 3))


@case
def standard_output_that_fails(scene):
    """A full one is reported, one that nobody reads is not, and no capture is the file that is printed to."""
    scene.start({"one": WHOLE})
    scene.expect("info one", status=3, err=fault_lines("Device standard output"), streams=">/dev/full")
    seen = scene.run_unread("info one")
    scene.check("a pipe that nobody reads", (seen.err, seen.status), (b"", 3))
    scene.expect("info one", status=1, err=fault_lines("SameFile one"), streams=">>one")
    scene.check("the capture", scene.read("one"), WHOLE)


@case
def bad_usage(scene):
    """No capture is bad usage, and so is an option of another command."""
    for words in ("info", "info -e ip one", "info -c one"):
        seen = scene.run(words)
        scene.check(f"status of {words}", (seen.status, seen.out), (1, b""))


@case
def as_capinfos_counts(scene):
    """Packets, sizes and times are those of capinfos."""
    if not scene.has("capinfos"):
        return
    for path in sorted((ROOT / "examples").glob("*.pcap")):
        printed = subprocess.run(["capinfos", "-M", "-c", "-d", "-S", "-a", "-e", path], capture_output=True, text=True).stdout
        facts = survey(path.read_bytes())
        packets = int(re.search(r"Number of packets:\s+(\d+)", printed)[1])
        size = int(re.search(r"Data size:\s+(\d+)", printed)[1])
        scene.check(f"{path.name} by capinfos", (packets, size), (facts["packets"], facts["length"]))
        scene.expect(["info", path], out=line_of(path, facts))
