"""`bpftap steps`: in which order its files are checked, and what is reported."""
import os

from .common import HEADER, TORN, VETH, WHOLE, case, fault_lines

FILES = {
    "l.txt": "32 64\n", "s.txt": "arrive\n", "bad.txt": "x\n", "refused.txt": "32 64 tcp and 80\n",
    "whole.pcap": WHOLE, "torn.pcap": TORN, "empty.pcap": "",
}

# LISTENERS, SCRIPT and IN, the status, and the fault.
REFUSED = [
    # LISTENERS is read before SCRIPT, and that before IN.
    ("no.listeners no.script no.pcap", 3, "Device no.listeners"),
    ("bad.txt none.txt no.pcap", 3, "Device none.txt"),
    # The lines of both are looked at before IN, and IN goes before an expression.
    ("bad.txt bad.txt no.pcap", 1, "Listeners 1"),
    ("l.txt bad.txt no.pcap", 1, "Script 1"),
    ("refused.txt s.txt whole.pcap no.pcap", 3, "Device no.pcap"),
    ("refused.txt s.txt whole.pcap", 1, "Expression 0 NoQualifier 8"),
    ("refused.txt s.txt whole.pcap empty.pcap", 1, "Capture 1 ShortHeader"),
    ("l.txt s.txt .", 3, "Device ."),
]

# What is printed for the one packet of `whole.pcap` and of `torn.pcap`, which nobody reads.
EXPLAINED = (
    "step 1 arrive capture 0 place 0 time 2.000000000 len 14\n"
    "  listener 0 Stored, 0 stored and 48 more are within 64\n")
REPORT = "listener 0 received 1 matched 1 dropped 0\nheld\ncapture 0 place 0 time 2.000000000 len 14 kept 14\n"


@case
def files_are_looked_at_in_order(scene):
    """The first fault is reported, and nothing is printed."""
    scene.put(FILES)
    for words, status, fault in REFUSED:
        scene.refuse(f"steps {words}", status, fault)
    # Too many captures are refused after bad lines, and before one of them is read.
    many = ["none.pcap"] * 65537
    scene.refuse(["steps", "l.txt", "s.txt", *many], 1, "TooMany")
    scene.refuse(["steps", "l.txt", "s.txt", *many[1:]], 3, "Device none.pcap")
    scene.refuse(["steps", "l.txt", "bad.txt", *many], 1, "Script 1")


@case
def reports_are_printed(scene):
    """For captures that are whole or torn reports are printed, and no file is made or changed."""
    scene.put(FILES)
    before = scene.files()
    scene.expect("steps l.txt s.txt whole.pcap", out=REPORT)
    scene.expect("steps l.txt s.txt torn.pcap", 2, fault_lines("Capture 0 TornRecord 1"), REPORT)
    scene.expect("steps -v l.txt s.txt torn.pcap", 2, fault_lines("Capture 0 TornRecord 1"), EXPLAINED + REPORT)
    scene.expect("steps /dev/null /dev/null whole.pcap")
    scene.check("files", scene.files(), before)


# What is no capture and has 2 GB or no end, as IN with its redirection, and the fault of its file header.
ENDLESS = [
    ("zeros", "", "NotSavefile"), ("/dev/zero", "", "NotSavefile"), ("/dev/stdin", "< <(cat cooked /dev/zero)", "LinkType"),
]


@case
def what_is_no_capture_is_not_read_on(scene):
    """In 64 MB what is no capture is refused in its turn, by its first 24 bytes; a capture is read whole, if a pipe gives it in pieces too."""
    scene.put({**FILES, "far.txt": "read 1\n", "cooked": HEADER[:20] + bytes([113, 0, 0, 0])})
    with open(scene.folder / "zeros", "wb") as zeros:
        zeros.truncate(1 << 31)
    for path, streams, fault in ENDLESS:
        for words, status, line in [
            (f"l.txt s.txt {path}", 1, f"Capture 0 {fault}"),
            (f"refused.txt s.txt torn.pcap {path} empty.pcap", 1, f"Capture 1 {fault}"),
            (f"l.txt far.txt {path}", 1, "NoListener 0"),
            (f"l.txt s.txt {path} no.pcap", 3, "Device no.pcap"),
        ]:
            scene.expect(f"steps {words}", status, fault_lines(line), streams=streams, first="ulimit -v 65536")
    os.mkfifo(scene.folder / "fifo")
    for size in 10, 24, 30:
        pieces = f"(head -c {size} whole.pcap; sleep 0.1; tail -c +{size + 1} whole.pcap) > fifo &"
        scene.expect("steps l.txt s.txt fifo", out=REPORT, first=pieces)


# Expressions that reject packets of the real capture: with No, with Abort at a byte and at a divisor, and by a part whose text is
# longer than any other line.
REJECTING = [
    "tcp port 80 or 8080", "not udp and ether[200] = 1", "1 / (len - 98) = 0", " + ".join(["len"] * 100) + " = 0",
]


@case
def what_decides_is_what_explain_prints(scene):
    """After each packet that an expression rejects comes what `explain` prints for it."""
    for expr in REJECTING:
        scene.put({"l.txt": f"96 262176 {expr}\n", "s.txt": "arrive\n" * 253})
        answers = scene.run(["steps", "-v", "l.txt", "s.txt", str(VETH)]).out.decode().splitlines()
        lines = scene.run(["explain", "-e", expr, str(VETH)]).out.decode().splitlines()[:-1]
        wanted = [line.split(" ", 8)[8] for line in lines if line.split(" ")[8] != "Yes"]
        passed = "  listener 0 Passed, the filter rejects it"
        scene.check(f"rejected by {expr}", bool(wanted), True)
        scene.check(f"of {expr}", [line for line in answers if line.startswith(passed)], [f"{passed}: {end}" for end in wanted])
