"""The examples: the commands of the pages in `examples/` print what these pages say, and files of lessons are what makes them."""
import re
import subprocess
import sys

from .common import IP_RECORD, LIMIT, PROGRAM, ROOT, VETH, WHOLE, case, records

EXAMPLES = ROOT / "examples"


def page(name, *begins):
    """The lines of an example's page that are indented and begin with this."""
    lines = (EXAMPLES / name / "README.md").read_text().splitlines()
    found = [line[4:] for line in lines if line.startswith("    ") and line[4:].startswith(begins)]
    return "".join(line + "\n" for line in found)


@case
def the_example_of_run(scene):
    """Both runs of the page print its lines."""
    printed = ""
    for words in [["listeners.txt", VETH], ["two.txt", VETH, "+", EXAMPLES / "veth-big-nano.pcap"]]:
        seen = scene.run(["run", EXAMPLES / "run" / words[0], *words[1:]])
        scene.check(f"standard error of {words[0]}, and its status", (seen.err, seen.status), (b"", 0))
        printed += seen.out.decode()
    scene.check("both", printed, page("run", "interface"))


# The answers of the page's table, line by line and listener by listener, as `-v` writes them.
ANSWERS = (
    "0 Passed, 1 Held, 0 Passed, 1 Stored, 0 Stored, 1 Passed, 1 read, 0 Stored, 1 Passed, 0 Rotated, 1 Passed, 0 Stored, "
    "1 Passed, 0 Dropped, 1 Passed, 0 read, 0 Rotated, 1 Passed, 1 flushed, 0 closed 0 Closed 1 Passed,")


@case
def the_example_of_steps(scene):
    """The reports are the page's lines, and before them `-v` has the answers of its table."""
    words = [EXAMPLES / "steps" / "listeners.txt", EXAMPLES / "steps" / "script.txt", VETH]
    reports = page("steps", "listener", "batch", "capture", "held")
    scene.expect(["steps", *words], out=reports)
    explained = scene.run(["steps", "-v", *words]).out.decode()
    scene.check("reports after -v", explained.endswith(reports), True)
    answers = [line.split()[1:3] for line in explained.splitlines() if line.startswith("  listener")]
    scene.check("answers", " ".join(" ".join(answer) for answer in answers), ANSWERS)


@case
def the_frames_of_the_lesson_on_options(scene):
    """The capture is what the script beside it writes: the bytes that the lesson shows are those that it names."""
    lessons = EXAMPLES / "lessons"
    made = subprocess.run([sys.executable, lessons / "options.py"], stdout=subprocess.PIPE, timeout=LIMIT).stdout
    scene.check("options.pcap", made, (lessons / "options.pcap").read_bytes())


@case
def the_programs_of_the_lesson_on_libpcap(scene):
    """Both listings are what the lesson's commands print, where tcpdump has the libpcap that the lesson names."""
    lessons = EXAMPLES / "lessons"
    page = (lessons / "libpcap.md").read_text()
    text = re.search(r"\$ text='(.*)'", page)[1]
    commands = re.findall(r"^    tcpdump (-y EN10MB .*)\"\$text\" > examples/lessons/(.*)$", page, re.M)
    scene.check("commands", len(commands), 2)
    if not scene.has("tcpdump"):
        return
    version = subprocess.run(["tcpdump", "--version"], stdout=subprocess.PIPE, stderr=subprocess.STDOUT, text=True, timeout=LIMIT).stdout
    if f"libpcap version {re.search(r'libpcap ([0-9.]+[0-9])', page)[1]} " not in version:
        scene.leave("tcpdump has another libpcap than the lesson's")
        return
    for options, name in commands:
        printed = subprocess.run(["tcpdump", *options.split(), text], stdout=subprocess.PIPE, timeout=LIMIT).stdout
        scene.check(name, printed, (lessons / name).read_bytes())


@case
def the_commands_of_ci(scene):
    """The commands of both workflows pass if the captures are whole and have what is asked for, and each fails if one is not."""
    for name in ["github.yml", "gitlab-ci.yml"]:
        commands = re.findall(r"^ +- (?:run: )?bpftap (.*)$", (EXAMPLES / "ci" / name).read_text(), re.M)
        scene.check(f"commands of {name}", len(commands), 2)
        scene.start({})
        (scene.folder / "captures").mkdir()
        for capture, failed in [(VETH.read_bytes(), [False, False]), (WHOLE + IP_RECORD[:7], [True, True])]:
            scene.put({"captures/web.pcap": capture})
            ended = [subprocess.run(["bash", "-c", f'"$0" {command}', PROGRAM], cwd=scene.folder, capture_output=True, timeout=LIMIT) for command in commands]
            scene.check(f"failures of {name}, {len(capture)} bytes", [one.returncode != 0 for one in ended], failed)


def cooked(link, head, order):
    """The real capture as one of the interface `any`: each Ethernet header is replaced by what `head` makes of it."""
    def number(value, size=4):
        return value.to_bytes(size, order)
    parts = [number(0xA1B2C3D4), number(2, 2), number(4, 2), bytes(8), number(262144), number(link)]
    for record in records(VETH.read_bytes()):
        times = [int.from_bytes(record[place : place + 4], "little") for place in (0, 4)]
        frame = head(record[16:30]) + record[30:]
        parts += [*map(number, times), number(len(frame)) * 2, frame]
    return b"".join(parts)


# The link types LINUX_SLL and LINUX_SLL2, and their headers, of a sent packet with an address of six bytes.
COOKED = {
    113: lambda head: bytes.fromhex("0004 0001 0006") + head[6:12] + bytes(2) + head[12:14],
    276: lambda head: head[12:14] + bytes.fromhex("0000 00000002 0001 04 06") + head[6:12] + bytes(2),
}


@case
def a_capture_of_raw_ip_becomes_one_of_ethernet(scene):
    """A frame of raw IP, or of BSD loopback, gets the Ethernet type of its version; a capture of another link type is refused in a line, and nothing is written."""
    frames = [record for record in records(VETH.read_bytes()) if record[28:30] == b"\x08\x00"]
    def with_header(header):
        return b"".join(record[:8] + (len(record) - 30 + len(header)).to_bytes(4, "little") * 2 + header + record[30:] for record in frames)
    wanted = [record[:8] + (len(record) - 16).to_bytes(4, "little") * 2 + bytes(12) + record[28:] for record in frames]
    head = VETH.read_bytes()[:20]
    scene.start({
        "raw.pcap": head + (101).to_bytes(4, "little") + with_header(b""), "loop.pcap": head + bytes(4) + with_header(bytes([2, 0, 0, 0])),
        "openbsd.pcap": head + (108).to_bytes(4, "little") + with_header(bytes([0, 0, 0, 2])), "wireless.pcap": head + (105).to_bytes(4, "little"),
    })
    script = EXAMPLES / "python" / "cooked.py"
    refused = b"cooked.py: the link type 105 is neither cooked (113, 276), raw IP (12, 14, 101) nor BSD loopback (0, 108)\n"
    for name, said in (("raw.pcap", b""), ("loop.pcap", b""), ("openbsd.pcap", b""), ("wireless.pcap", refused)):
        words = [sys.executable, script, name, f"{name}.out"]
        done = subprocess.run(words, cwd=scene.folder, stdout=subprocess.PIPE, stderr=subprocess.STDOUT, timeout=LIMIT)
        scene.check(name, (done.stdout, done.returncode), (said, int(bool(said))))
    for name in ("raw.pcap", "loop.pcap", "openbsd.pcap"):
        scene.expect(f"cut -s 0 {name}.out again.pcap")
        scene.check(f"frames of {name}", records(scene.read("again.pcap")), wanted)
    scene.check("what is refused", (scene.folder / "wireless.pcap.out").exists(), False)


@case
def a_cooked_capture_becomes_one_of_ethernet(scene):
    """What the script writes of a capture of either form, in both byte orders, is the capture with 0 for the receiver's address."""
    wanted = [record[:16] + bytes(6) + record[22:] for record in records(VETH.read_bytes())]
    for link, head in COOKED.items():
        for order in ("little", "big"):
            scene.start({"any.pcap": cooked(link, head, order)})
            words = [sys.executable, EXAMPLES / "python" / "cooked.py", "any.pcap", "out.pcap"]
            done = subprocess.run(words, cwd=scene.folder, stdout=subprocess.PIPE, stderr=subprocess.STDOUT, timeout=LIMIT)
            scene.check(f"{link}, {order}", (done.stdout, done.returncode), (b"", 0))
            scene.expect("cut -s 0 out.pcap again.pcap")
            scene.check(f"frames of {link}, {order}", records(scene.read("again.pcap")), wanted)
