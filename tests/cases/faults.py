"""`docs/FAULTS.md`: the program prints each of its lines, with its status, and no fault of the sources is missing there."""
import re
import subprocess
from dataclasses import dataclass

from .common import ALL, LIMIT, PROGRAM, ROOT, TORN, VETH, WHOLE, can_trace, case, fault_lines, header
from .manual import PAGES, section

PAGE = ROOT / "docs" / "FAULTS.md"


def record(fraction, captured):
    """A little-endian record's header with this fraction of a second and this captured length."""
    return b"".join(field.to_bytes(4, "little") for field in (1, fraction, captured, 60))


def listing(*lines):
    return "".join(f"{line}\n" for line in lines)


# The line of a part of `in.pcap`.
PART = "{} of {} packets 1 kept 1 bytes {} Clean in.pcap\n"

# The largest snapshot length in a header, and link type 113, Linux cooked.
COOKED = header()[:20] + (113).to_bytes(4, "little")

FILES = {
    "in.pcap": WHOLE, "torn.pcap": TORN, "empty.pcap": "", "text.pcap": "no savefile, but a text of some length",
    "old.pcap": header()[:6] + bytes([3, 0]) + header()[8:], "cooked.pcap": COOKED,
    "fraction.pcap": WHOLE + record(1000000, 0), "long.pcap": WHOLE + record(0, 262145),
    "all.bpf": ALL, "line.bpf": "1x\n", "line3.bpf": listing(2, "6 0 0 1", "6 0 0"), "count.bpf": listing(2, "6 0 0 1"),
    "empty.bpf": "0\n", "many.bpf": listing(513, *["6 0 0 0"] * 513), "code.bpf": listing(1, "8 0 0 1"),
    "jump.bpf": listing(3, "40 0 0 12", "21 0 1 2048", "6 0 0 1"), "cell.bpf": listing(2, "96 0 0 16", "6 0 0 0"),
    "zero.bpf": listing(2, "52 0 0 0", "6 0 0 0"), "end.bpf": listing(1, "0 0 0 1"),
    "long.asm": ";" * 65537, "byte.asm": "ret #0 @\n", "number.asm": "ret #08\n", "label.asm": "l" * 33 + ": ret #0\n",
    "name.asm": "; nothing\nmove #1\n", "operand.asm": "ret x\n", "twice.asm": "on: ret #0\non: ret #0\n", "place.asm": "(001) ret #0\n",
    "no.asm": "ja on\nret #0\n", "back.asm": "on: ja on\nret #0\n", "far.asm": "jeq #1, on\n" + "neg\n" * 256 + "on: ret #0\n",
    "gap.txt": PART.format("54-84", 84, 54), "size.txt": PART.format("24-84", 84, 55),
    "other.txt": PART.format("24-54", 84, 54) + PART.format("54-84", 85, 54),
    "arrive.txt": "arrive\n", "wait.txt": "arrive\nwait\n", "read1.txt": "arrive\nread 1\n",
    "one.txt": "0 1048576\n", "comment.txt": "# SNAP CAPACITY EXPRESSION\n0 1048576\n", "crlf.txt": "0 1048576\r\n",
    "65.txt": "0 1048576\n" * 65, "small.txt": "0 1048576\n10 47\n",
}

# 17 additions, each in the right operand of the one before; an expression of weight 81,920.
DEEP = "1+(" * 16 + "1+1" + ")" * 16 + " = 18"
LONG = "ip" + "||ip" * 2047

# Expressions that are refused, and their faults. The last two are read, and not compiled.
EXPRESSIONS = [
    ("#" * 8193, "TextTooLong"),
    ("tcp # udp", "BadByte 4"),
    ("port http", "BadWord 5"),
    ("tcp and vlan", "BadWord 8"),
    ("host 10.0.0.256", "BadNumber 5"),
    ("port 80 and", "Syntax 11"),
    ("tcp and 80", "NoQualifier 8"),
    ("tcp host 10.0.0.1", "BadQualifier 0"),
    ("host 10.0", "BadIdentifier 5"),
    ("net 10.0.0.1/8", "NetBits 4"),
    ("port 65536", "OutOfRange 5"),
    ("len / 0 = 1", "DivideByZero 6"),
    ("(" * 65 + "tcp", "TooNested 64"),
    (DEEP, "TooDeep"),
    (LONG, "TooLong"),
]
COMPILED = {"TooDeep", "TooLong"}

# The words of a command, the fault and the status.
REFUSED = [
    ("cut -s 0 -e ip -f all.bpf in.pcap out.pcap", "FilterTwice", 1),
    ("cut -s 0 none.pcap out.pcap", "Device none.pcap", 3),
    ("cut -s 0 in.pcap none/out.pcap", "Device none/out.pcap", 3),
    ("cut -s 0 . out.pcap", "Device .", 3),
    ("cut -s 0 in.pcap ./in.pcap", "SameFile ./in.pcap", 1),
    # A missing file is no file that could be lost: it cannot be opened.
    ("cut -s 0 none.pcap none.pcap", "Device none.pcap", 3),
    ("cut -s 0 none.pcap ./none.pcap", "Device none.pcap", 3),
    ("cut -s 0 none/in.pcap none/in.pcap", "Device none/in.pcap", 3),
    ("parts 2 .", "NotRegular", 1),
    ("cut --bytes 24-1000 -s 0 in.pcap out.pcap", "BadRange", 1),
    ("join one.txt out.pcap", "Lines 1", 1),
    ("join gap.txt out.pcap", "MissingPart 24", 1),
    ("join other.txt out.pcap", "OtherCapture 54", 1),
    ("join size.txt out.pcap", "OtherPart in.pcap", 1),
    ("steps -p none.pcap one.txt arrive.txt none.pcap", "Device none.pcap", 3),
    ("steps one.txt arrive.txt none.pcap", "Device none.pcap", 3),
    ("steps comment.txt arrive.txt in.pcap", "Listeners 1", 1),
    ("steps crlf.txt arrive.txt in.pcap", "Listeners 1", 1),
    ("steps one.txt wait.txt in.pcap", "Script 2", 1),
    ("steps 65.txt arrive.txt in.pcap", "TooMany", 1),
    ("steps one.txt read1.txt in.pcap", "NoListener 1", 1),
    ("steps small.txt arrive.txt in.pcap", "Open 1 BadCapacity", 1),
    ("steps none.txt arrive.txt in.pcap", "Device none.txt", 3),
    ("run none.txt in.pcap", "Device none.txt", 3),
    ("explain -e ip -f all.bpf in.pcap", "FilterTwice", 1),
    ("explain -p 9 -e ip in.pcap", "NoPacket 9", 1),
    ("explain -e ip none.pcap", "Device none.pcap", 3),
    (["check", b"\xff"], "a word of the command line is not UTF-8", 1),
]

# Listings that `cut`, `explain` and `check` refuse, and the status.
LISTED = [
    ("line.bpf", "BadLine 1", 1),
    ("line3.bpf", "BadLine 3", 1),
    ("count.bpf", "Count", 1),
    ("empty.bpf", "Program Empty", 1),
    ("many.bpf", "Program TooMany", 1),
    ("code.bpf", "Program UnknownCode 0", 1),
    ("jump.bpf", "Program JumpOut 1", 1),
    ("cell.bpf", "Program Cell 0", 1),
    ("zero.bpf", "Program ZeroDivisor 0", 1),
    ("end.bpf", "Program NoReturn", 1),
    ("none.bpf", "Device none.bpf", 3),
    ("long.asm", "TextTooLong", 1),
    ("byte.asm", "BadByte 1", 1),
    ("number.asm", "BadNumber 1", 1),
    ("label.asm", "LongLabel 1", 1),
    ("name.asm", "UnknownName 2", 1),
    ("operand.asm", "BadOperand 1", 1),
    ("twice.asm", "LabelTwice 2", 1),
    ("place.asm", "BadPlace 1", 1),
    ("no.asm", "NoLabel 1", 1),
    ("back.asm", "JumpBack 1", 1),
    ("far.asm", "JumpTooFar 1", 1),
]

# A file LISTENERS of `run`, the captures that follow it, the fault and the status.
RUNS = [
    ("0 0 0 1048576 2\n", "in.pcap", "Listeners 1", 1),
    ("1 0 0 1048576 2 out.pcap\n", "in.pcap", "Listeners 1", 1),
    ("0 0 0 1048576 2 out.pcap\n0 0 0 1048576 2 out.pcap\n", "in.pcap", "Listeners 2", 1),
    ("0 0 0 1048576 2 in.pcap\n", "in.pcap", "SameFile in.pcap", 1),
    ("0 0 0 1048576 2 out.pcap\n", "+ " * 16, "TooMany", 1),
    ("0 0 0 1048576 0 out.pcap\n", "in.pcap", "Open 0 0 BadCapacity", 1),
    ("0 0 10 47 2 out.pcap\n", "in.pcap", "Open 0 0 BadCapacity", 1),
]

# A file LINES of `split`, the captures that follow it, the fault and the status.
SPLITS = [
    ("0\n", "in.pcap", "Lines 1", 1),
    ("0 out.pcap\n262145 other.pcap\n", "in.pcap", "Lines 2", 1),
    ("0 out.pcap\n0 out.pcap\n", "in.pcap", "Lines 2", 1),
    ("0 in.pcap\n", "in.pcap", "SameFile in.pcap", 1),
    ("".join(f"0 {n}.pcap\n" for n in range(1025)), "none.pcap", "TooMany", 1),
    ("0 none/out.pcap\n", "in.pcap", "Device none/out.pcap", 3),
]

# Captures with a fault that `cut`, `explain`, `split`, `steps` and `run` report, and the status.
CAPTURES = [
    ("empty.pcap", "ShortHeader", 1),
    ("text.pcap", "NotSavefile", 1),
    ("old.pcap", "Version", 1),
    ("cooked.pcap", "LinkType", 1),
    ("torn.pcap", "TornRecord 1", 2),
    ("fraction.pcap", "BadFraction 1", 2),
    ("long.pcap", "TooLong 1", 2),
]

# What a placeholder of the page (a number, a path or another line) matches in a printed line.
PLACES = {"N": r"\d+", "C": r"\d+", "L": r"\d+", "I": r"\d+", "B": r"\d+", "PATH": r"\S+", "FAULT": r"(?P<inner>.+)"}


# The sections of the page that have the lines of a command; those of faults inside a line.
SHARED = "Files and words"
LISTINGS = "Programs: `-f` of `cut`, `explain`, `check` and `compare`"
PLANS = "`split`, `steps` and `run`"
SECTIONS = {
    "check": {SHARED, "Expressions", LISTINGS},
    "explain": {SHARED, "Expressions", "Captures", LISTINGS, "`explain`"},
    "compare": {SHARED, "Expressions", "Captures", LISTINGS, "`explain`"},
    "cut": {SHARED, "Expressions", "Captures", LISTINGS, "`parts`, `join` and `cut --bytes`"},
    "split": {SHARED, PLANS},
    "parts": {SHARED, "Captures", "`parts`, `join` and `cut --bytes`"},
    "join": {SHARED, "Captures", "`parts`, `join` and `cut --bytes`"},
    "steps": {SHARED, PLANS},
    "run": {SHARED, PLANS},
}
INNER = {"Captures", "Expressions"}


@dataclass(frozen=True)
class Row:
    """A line of a list of the page: its statuses, and whether a test makes it."""
    section: str
    line: str
    statuses: frozenset
    is_made: bool

    def match(self, line):
        """The match of a line that the program printed: words in capital letters are placeholders."""
        words = [PLACES.get(word, re.escape(word)) for word in self.line.split(" ")]
        return re.fullmatch(" ".join(words), line)


def rows():
    """The lines of the page's lists."""
    for part in PAGE.read_text().split("\n## ")[1:]:
        found = re.findall(r"^- `([^`]+)`(?: \(([\d, ]+?)( \*)?\))?: ", part, re.M)
        for text, statuses, star in found:
            line = text if text.startswith("interface ") else f"bpftap: {text}"
            yield Row(part.splitlines()[0], line, frozenset(map(int, (statuses or "1").split(", "))), not star)


class Page:
    """The rows of the page, and which of them the program has printed."""

    def __init__(self):
        self.rows = list(rows())
        self.seen = set()

    def statuses(self, line, sections):
        """The statuses that a line has by the rows of these sections, those of a fault inside it too; notes the rows as seen."""
        found = set()
        for row in self.rows:
            match = row.match(line) if row.section in sections else None
            if match is None:
                continue
            inner = match.groupdict().get("inner")
            statuses = row.statuses if inner is None else row.statuses & self.statuses(f"bpftap: {inner}", INNER)
            if statuses:
                self.seen.add(row)
                found |= statuses
        return found

    def amiss(self):
        """The rows that a test should have made and did not, and those that it made and should not have."""
        return [row for row in self.rows if row.is_made != (row in self.seen)]


def expect_fault(scene, page, words, fault, status, streams=""):
    """The program reports only this fault, with this status, and the page lists it so for the command."""
    seen = scene.run(words, streams)
    line = f"bpftap: {fault}"
    scene.check(f"standard error of {words}", (seen.err.decode(), seen.status), (line + "\n", status))
    command = words[0] if isinstance(words, list) else words.split()[0]
    scene.check(f"{line}, status {status}, on the page of {command}", status in page.statuses(line, SECTIONS[command]), True)


def expect_capture_faults(scene, page):
    """Faults of captures, by each command that reads them."""
    scene.put({"run.txt": "0 0 0 1048576 2 run.pcap\n", "split.txt": "0 split.pcap\n"})
    for path, fault, status in CAPTURES:
        expect_fault(scene, page, f"cut -s 0 {path} out.pcap", fault, status)
        expect_fault(scene, page, f"explain -e ip {path}", fault, status)
        expect_fault(scene, page, f"split split.txt in.pcap {path}", f"Capture 1 {fault}", status)
        expect_fault(scene, page, f"steps one.txt arrive.txt in.pcap {path}", f"Capture 1 {fault}", status)
        expect_fault(scene, page, f"run run.txt in.pcap {path}", f"Interface 0 Capture 1 {fault}", status)
    expect_fault(scene, page, "run run.txt in.pcap none.pcap", "Interface 0 Capture 1 Device", 3)
    expect_fault(scene, page, "split split.txt in.pcap none.pcap", "Capture 1 Device", 3)


def expect_expression_faults(scene, page):
    """Faults of expressions, by each command that reads them."""
    for text, fault in EXPRESSIONS:
        where = "Compile" if fault in COMPILED else "Expression"
        scene.put({"steps.txt": f"0 1048576\n0 1048576 {text}\n", "run.txt": f"0 0 0 1048576 2 out.pcap {text}\n",
                   "split.txt": f"0 out.pcap\n0 other.pcap {text}\n"})
        expect_fault(scene, page, ["check", text], fault, 1)
        if fault not in COMPILED:
            expect_fault(scene, page, ["explain", "-e", text, "none.pcap"], fault, 1)
        expect_fault(scene, page, ["cut", "-s", "0", "-e", text, "none.pcap", "out.pcap"], fault, 1)
        expect_fault(scene, page, "split split.txt in.pcap", f"{where} 1 {fault}", 1)
        expect_fault(scene, page, "steps steps.txt arrive.txt in.pcap", f"{where} 1 {fault}", 1)
        expect_fault(scene, page, "run run.txt in.pcap", f"{where} 0 {fault}", 1)


def expect_listing_faults(scene, page):
    """Faults of listings, by each command that reads them."""
    for path, fault, status in LISTED:
        expect_fault(scene, page, f"cut -s 0 -f {path} in.pcap out.pcap", fault, status)
        expect_fault(scene, page, f"explain -f {path} in.pcap", fault, status)
        expect_fault(scene, page, f"check -f {path}", fault, status)


def expect_split_faults(scene, page):
    """What `split` refuses, and an OUT that fails."""
    for lines, captures, fault, status in SPLITS:
        scene.put({"split.txt": lines})
        expect_fault(scene, page, f"split split.txt {captures}", fault, status)


def expect_run_faults(scene, page):
    """What `run` refuses, and the end of a listener whose OUT fails."""
    for listeners, captures, fault, status in RUNS:
        scene.put({"run.txt": listeners})
        expect_fault(scene, page, f"run run.txt {captures}", fault, status)
    scene.put({"run.txt": "0 0 0 1048576 2 none/out.pcap\n"})
    seen = scene.run("run run.txt in.pcap")
    printed = seen.out.decode().rstrip("\n")
    scene.check("end of a failed OUT", (printed[-8:], seen.status), (" Write 0", 3))
    scene.check(f"{printed}, status 3, on the page", 3 in page.statuses(printed, SECTIONS["run"]), True)


@case
def the_program_prints_the_lines_of_the_page(scene):
    """Each line of the page that a test can make is printed, with its status, and the page has each line that is printed."""
    page = Page()
    scene.start(FILES)
    for words, fault, status in REFUSED:
        expect_fault(scene, page, words, fault, status)
    expect_fault(scene, page, "check ip", "Device standard output", 3, ">/dev/full")
    expect_listing_faults(scene, page)
    expect_capture_faults(scene, page)
    expect_expression_faults(scene, page)
    expect_split_faults(scene, page)
    expect_run_faults(scene, page)
    scene.check("lines that were not printed, or are said not to be", page.amiss(), [])


# What pages say of a close that fails, which nothing reports.
CLOSED = [
    ("docs/FAULTS.md", "No command reports a `close` of OUT that fails, as where a disk over a network is full: use `sync OUT`, which does, or"),
    ("docs/PROMISES.md", "or what it took if its `close` fails, which only `sync OUT` reports;"),
    ("man/bpftap-cut.1", "A close of OUT that fails, as where a disk over a network is full, is never reported here; use .Ql sync OUT , which does."),
]


@case
def a_close_that_fails_is_not_reported(scene):
    """`cut` ends with 0 after each close of OUT that fails, and pages say so; `sync` and `cat`, which they name, report what fails."""
    for name, text in CLOSED:
        scene.check(f"on {name}", text in " ".join((ROOT / name).read_text().split()), True)
    if not can_trace():
        return scene.leave("strace can't trace here")
    scene.start({"in.pcap": WHOLE, "out.pcap": ""})
    for call, words, status in [("close", f"{PROGRAM} cut -s 0 in.pcap out.pcap", 0), ("close", "cat in.pcap > out.pcap", 1), ("fsync", "sync out.pcap", 1)]:
        traced = f"strace -qq -o calls.txt -P $PWD/out.pcap -e trace={call} -e inject={call}:error=EIO {words}"
        done = subprocess.run(["bash", "-c", traced], cwd=scene.folder, capture_output=True, text=True, timeout=LIMIT)
        scene.check(f"{words}, refused", "INJECTED" in scene.read("calls.txt").decode(), True)
        scene.check(words, (done.returncode, bool(done.stderr)), (status, status != 0))


@case
def a_limit_of_size_ends_a_command_by_a_signal(scene):
    """Under `ulimit -f` a command that writes more ends by SIGXFSZ, without a line; if that is ignored it is `Device`. The page says so."""
    text = "Under `ulimit -f` a signal ends a command that writes too much, with status 153 in the shell; after `trap '' XFSZ` that is `Device`."
    scene.check("on the page", text in " ".join(PAGE.read_text().split()), True)
    scene.start({"in.pcap": VETH.read_bytes()})
    for words, streams, failed in [("cut -s 0 in.pcap out.pcap", "", "out.pcap"), ("explain -e ip in.pcap", "> lines.txt", "standard output")]:
        seen = scene.run(words, streams, "ulimit -f 8")
        scene.check(f"{words} {streams}", (seen.err, seen.status), (b"", -25))
        scene.expect(words, 3, fault_lines(f"Device {failed}"), streams=streams, first="trap '' XFSZ; ulimit -f 8")


# Faults that no command reports: a call after a fault, and numbers that the command line refuses before.
UNREPORTED = {"Failed", "BadSnap"}


@case
def the_page_has_the_faults_of_the_sources(scene):
    """The page lists each name of a fault in the sources, except those that no command reports."""
    named = {word for row in rows() for word in row.line.split()}
    for path in sorted((ROOT / "crates").glob("*/src/*.rt")):
        if "/crates/test_" not in str(path):
            # A text by a derive, or a name that `name()` of a fault answers.
            names = set(re.findall(r'#\[error\("([A-Z]\w+)', path.read_text()))
            if path.name == "fault.rt":
                names |= set(re.findall(r'=> "([A-Z]\w+)"', path.read_text()))
            scene.check(f"faults of {path.relative_to(ROOT)}", names - named - UNREPORTED, set())


def names(line):
    """The words of a line that are no placeholders."""
    return tuple(word for word in line.split() if not re.fullmatch(r"[A-Z]+", word))


@case
def the_manual_has_no_other_faults(scene):
    """The page lists each fault that a manual page lists."""
    documented = {names(row.line.removeprefix("bpftap: ")) for row in rows()}
    for page in PAGES:
        items = [line.removeprefix(".It Li ") for line in section(page, "DIAGNOSTICS") if line.startswith(".It Li ")]
        listed = {names(re.sub(r"\b(Li|Ar) ", "", item)) for item in items}
        scene.check(f"faults of {page.name} that the page lacks", listed - documented, set())
