"""`bpftap run`: what is refused before a file is opened, when each file is opened, and what is printed and written."""
import fcntl
import os
import pathlib
import re
import resource
import shutil
import struct
import subprocess
import termios
import time
from collections import Counter

from .common import (
    HEADER, IP_RECORD, LIMIT, PROGRAM, ROOT, TCP_RECORD, TORN, UDP_RECORD, VETH, as_bytes, can_trace, case, fault_lines, header,
    records)

T, U = TCP_RECORD, UDP_RECORD
CAPTURES = {"t.pcap": HEADER + T, "tu.pcap": HEADER + T + U, "torn.pcap": TORN, "empty.pcap": "", "kept.pcap": "kept"}

# The lines of LISTENERS, the captures, and the fault.
REFUSED = [
    # Two lines with one OUT, and an interface that has no captures.
    ("0 0 0 1048576 2 kept.pcap\n0 0 0 96 2 kept.pcap tcp", "none.pcap", "Listeners 2"),
    ("0 0 0 1048576 2 kept.pcap\n0 0 0 1048576 2 kept.pcap tcp\n", "none.pcap", "Listeners 2"),
    ("1 0 0 1048576 2 kept.pcap", "none.pcap", "Listeners 1"),
    ("1 0 0 1048576 2 right.pcap\n0 0 0 1048576i 1 left.pcap\n", "none.pcap", "Listeners 1"),
    ("0 0 0 1048576 2 kept.pcap tcp and 80", "none.pcap", "Expression 0 NoQualifier 8"),
    ("0 0 0 1048576 0 kept.pcap tcp and 80\n", "none.pcap", "Expression 0 NoQualifier 8"),
    # No buffer goes round, which is reported after all other refusals.
    ("0 0 0 1048576 0 kept.pcap", "none.pcap", "Open 0 0 BadCapacity"),
    ("0 0 0 1048576 0 kept.pcap tcp\n", "none.pcap", "Open 0 0 BadCapacity"),
    ("0 0 0 1048576 0 kept.pcap tcp\n", "+ " * 16, "TooMany"),
    # An OUT that is a file that is read, or the OUT of another line.
    ("0 0 0 1048576 0 ./none.pcap\n0 0 0 96 2 none.pcap", "none.pcap", "SameFile ./none.pcap"),
    ("0 0 0 1048576 0 kept.pcap\n0 0 0 96 2 ./kept.pcap", "none.pcap", "SameFile ./kept.pcap"),
    ("0 0 0 1048576 2 new.pcap\n0 0 0 1048576 2 ./tu.pcap\n", "tu.pcap", "SameFile ./tu.pcap"),
    ("0 0 0 1048576 2 kept.pcap\n0 0 0 1048576 2 ./kept.pcap\n", "tu.pcap", "SameFile ./kept.pcap"),
    ("0 0 0 1048576 2 listeners.txt\n", "tu.pcap", "SameFile listeners.txt"),
    # The most of each: lines and captures, for each interface, there or not.
    ("0 0 0 1048576 2 new.pcap\n0 0 0 1048576 2 ./kept.pcap\n", "tu.pcap t.pcap kept.pcap", "SameFile ./kept.pcap"),
    ("0 0 0 1048576 2 ./t.pcap\n", "tu.pcap t.pcap torn.pcap", "SameFile ./t.pcap"),
    ("0 0 0 1048576 2 ./t.pcap\n", "tu.pcap + t.pcap", "SameFile ./t.pcap"),
    ("0 0 0 1048576 2 t.pcap\n", "tu.pcap + torn.pcap tu.pcap t.pcap", "SameFile t.pcap"),
    ("1 0 0 1048576 2 ./tu.pcap\n", "tu.pcap + t.pcap", "SameFile ./tu.pcap"),
    ("1 0 0 1048576 2 ./none.pcap\n", "tu.pcap + t.pcap none.pcap", "SameFile ./none.pcap"),
    ("1 0 0 1048576 2 kept.pcap\n0 0 0 1048576 2 ./kept.pcap\n", "tu.pcap + t.pcap", "SameFile ./kept.pcap"),
    # More lines than a run takes: each expression is looked at first, and 1,030 are too many.
    ("".join(f"0 0 0 1048576 2 {n}.pcap\n" for n in range(1031)) + "0 0 0 1048576 2 kept.pcap tcp and 80\n", "none.pcap",
     "Expression 1031 NoQualifier 8"),
    ("".join(f"0 0 0 1048576 2 {n}.pcap\n" for n in range(1030)), "none.pcap", "TooMany"),
]


@case
def no_file_is_touched_where_a_run_is_refused(scene):
    """Nothing is opened before all is accepted, so that no file is made, changed or lost."""
    scene.put(CAPTURES)
    for listeners, captures, fault in REFUSED:
        scene.put({"listeners.txt": listeners})
        scene.refuse(f"run listeners.txt {captures}", 1, fault)
    scene.refuse("run none.txt none.pcap", 3, "Device none.txt")


# Symbolic links and their targets, and names of the missing file `new.pcap`; `far` leads to it by a full path.
LINKS = [("link", "new.pcap"), ("chain", "link"), ("here", "."), ("sub/up", "../new.pcap")]
NEW_NAMES = [
    "./new.pcap", ".//new.pcap", "sub/../new.pcap", "link", "chain", "here/new.pcap", "here/link", "sub/up", "far", "here/far"]


@case
def two_names_of_a_new_file_are_one_file(scene):
    """An OUT that does not exist yet is known by its folder and its name, with symbolic links followed."""
    scene.put(CAPTURES)
    (scene.folder / "sub").mkdir()
    for link, target in LINKS:
        os.symlink(target, scene.folder / link)
    os.symlink(scene.folder / "sub" / "up", scene.folder / "far")
    for name in [*NEW_NAMES, str(scene.folder / "new.pcap")]:
        for first, second in [("new.pcap", name), (name, "new.pcap")]:
            scene.put({"listeners.txt": f"0 0 0 1048576 2 {first}\n1 0 0 1048576 2 {second}\n"})
            scene.refuse("run listeners.txt t.pcap + tu.pcap", 1, f"SameFile {second}")
    # One name in two folders is two files, and a link may be the one OUT of its target.
    scene.put({"listeners.txt": "0 0 0 1048576 2 sub/new.pcap\n0 0 0 1048576 2 chain\n"})
    scene.expect("run listeners.txt t.pcap", out=report((0, 0), 1, 1) + report((0, 1), 1, 1))
    scene.check("both", (scene.read("sub/new.pcap"), scene.read("new.pcap")), (HEADER + T, HEADER + T))


@case
def a_fifo_is_a_file_too(scene):
    """A fifo is the OUT of one line, and no OUT is a fifo that is read; what goes to a device is no file's."""
    scene.put(CAPTURES)
    os.mkfifo(scene.folder / "fifo")
    for listeners, captures, path in [
        ("0 0 0 1048576 2 fifo\n0 0 0 1048576 2 ./fifo\n", "t.pcap", "./fifo"),
        ("0 0 0 1048576 2 ./fifo\n", "t.pcap fifo", "./fifo"),
    ]:
        scene.put({"listeners.txt": listeners})
        scene.refuse(f"run listeners.txt {captures}", 1, f"SameFile {path}")
    scene.put({"listeners.txt": "0 0 0 1048576 2 /dev/null\n0 0 0 1048576 2 /dev/./null\n"})
    scene.expect("run listeners.txt t.pcap", out=report((0, 0), 1, 1) + report((0, 1), 1, 1))


@case
def lines_beyond_the_most_take_little_memory(scene):
    """With 60,000 lines, too many are refused with little memory, after bad lines and refused expressions."""
    lines = [f"0 0 8 40 1 {line}\n" for line in range(60000)]
    scene.put({"t.pcap": HEADER + T})
    for last, fault in [("x\n", "Listeners 60001"), ("0 0 8 40 1 7\n", "Listeners 60001"), ("1 0 8 40 1 x\n", "Listeners 60001"),
                        ("0 0 8 40 1 x tcp and 80\n", "Expression 60000 NoQualifier 8")]:
        scene.put({"listeners.txt": "".join(lines) + last})
        scene.expect("run listeners.txt t.pcap", 1, fault_lines(fault), first="ulimit -v 200000")
    scene.put({"listeners.txt": "".join(lines)})
    scene.expect("run listeners.txt t.pcap", 1, fault_lines("TooMany"), first="ulimit -v 200000")
    scene.put({"listeners.txt": "".join(lines).replace(" 1 9\n", " 1 9 tcp and 80\n")})
    scene.expect("run listeners.txt t.pcap", 1, fault_lines("Expression 9 NoQualifier 8"), first="ulimit -v 200000")
    scene.check("files", sorted(scene.files()), ["listeners.txt", "t.pcap"])


def report(listener, received, matched, end="Clean", written=None):
    """The line of a listener that drops nothing, which is named by its interface and itself."""
    interface, number = listener
    written = matched if written is None else written
    return (f"interface {interface} listener {number} "
            f"received {received} matched {matched} dropped 0 written {written} {end}\n")


def replays(scene, listeners, captures, reports, files, *faults, status=0):
    """A run prints these reports and these faults, makes these files, and leaves all others."""
    scene.start({**CAPTURES, "listeners.txt": listeners})
    before = scene.files()
    words = f"run listeners.txt {captures}"
    scene.expect(words, status, fault_lines(*faults), "".join(reports))
    scene.check(f"files after {words}", scene.files(), {**before, **files})


TWO = "0 0 64 1048576 2 tcp.pcap tcp\n0 0 0 1048576 2 all.pcap\n"


@case
def each_listener_writes_what_it_keeps(scene):
    """Two listeners of one interface write a capture each, up to the first capture with a fault."""
    both = [report((0, 0), 2, 1), report((0, 1), 2, 2)]
    both_files = {"tcp.pcap": header(64) + T, "all.pcap": HEADER + T + U}
    torn = [report((0, 0), 1, 0), report((0, 1), 1, 1)]
    torn_files = {"tcp.pcap": header(64), "all.pcap": HEADER + IP_RECORD}
    replays(
        scene, TWO, "tu.pcap t.pcap", [report((0, 0), 3, 2), report((0, 1), 3, 3)],
        {"tcp.pcap": header(64) + T + T, "all.pcap": HEADER + T + U + T})
    replays(scene, TWO, "tu.pcap empty.pcap", both, both_files, "Interface 0 Capture 1 ShortHeader", status=1)
    replays(scene, TWO, "torn.pcap none.pcap", torn, torn_files, "Interface 0 Capture 0 TornRecord 1", status=2)
    replays(scene, TWO, "tu.pcap none.pcap", both, both_files, "Interface 0 Capture 1 Device", status=3)
    faults = ["Interface 0 Capture 0 TornRecord 1", "Interface 1 Capture 0 Device"]
    replays(scene, TWO, "torn.pcap + .", torn, torn_files, *faults, status=3)
    none = [report((0, 0), 0, 0), report((0, 1), 0, 0)]
    replays(scene, TWO, "+", none, {"tcp.pcap": header(64), "all.pcap": HEADER})


@case
def an_out_loses_what_it_had(scene):
    """An OUT that exists is overwritten, and a run without listeners touches no file."""
    replays(scene, "0 0 0 1048576 2 kept.pcap\n", "tu.pcap", [report((0, 0), 2, 2)], {"kept.pcap": HEADER + T + U})
    scene.put({"kept.pcap": "kept " * 100})
    scene.expect("run listeners.txt t.pcap", out=report((0, 0), 1, 1))
    scene.check("a long OUT", scene.read("kept.pcap"), HEADER + T)
    before = scene.files()
    scene.expect("run /dev/null tu.pcap")
    scene.check("files after no listeners", scene.files(), before)


# The captures of two interfaces, what the listener of each one keeps, the faults and the status.
SIDES = "1 0 0 1048576 2 right.pcap tcp\n0 0 0 1048576i 2 left.pcap\n"
REPLAYED = [
    ("tu.pcap + t.pcap t.pcap", [T, U], [T, T], [], 0),
    ("tu.pcap none.pcap +", [T, U], [], ["Interface 0 Capture 1 Device"], 3),
    ("+ . t.pcap", [], [], ["Interface 1 Capture 0 Device"], 3),
    ("none.pcap + empty.pcap", [], [], ["Interface 0 Capture 0 Device", "Interface 1 Capture 0 ShortHeader"], 3),
]


@case
def files_are_opened_as_they_are_replayed(scene):
    """Two interfaces replay side by side; a missing capture is reported after the packets before it."""
    for captures, left, right, faults, status in REPLAYED:
        reports = [report((0, 0), len(left), len(left)), report((1, 0), len(right), len(right))]
        files = {"left.pcap": HEADER + b"".join(left), "right.pcap": HEADER + b"".join(right)}
        replays(scene, SIDES, captures, reports, files, *faults, status=status)
    reports = [report((0, 0), 1, 1), report((1, 0), 3, 3)]
    files = {"left.pcap": HEADER + T, "right.pcap": HEADER + T + U + T}
    unfiltered = "1 0 0 1048576 2 right.pcap\n0 0 0 1048576i 1 left.pcap\n"
    replays(scene, unfiltered, "t.pcap + tu.pcap t.pcap", reports, files)


@case
def a_file_that_cannot_be_written_is_named_by_its_line(scene):
    """The report of its listener says where OUT failed, and other listeners write theirs."""
    # The packets went into the buffer, which is emptied at the end, and none of them into OUT.
    for out in ["no/a.pcap", ".", "t.pcap/a", "new/", "/dev/full"]:
        replays(scene, f"0 0 0 1048576 2 {out}\n", "t.pcap", [report((0, 0), 1, 1, "Write 0", 0)], {}, status=3)
    replays(scene, "0 0 0 1048576 2 a\n", "t.pcap", [report((0, 0), 1, 1)], {"a": HEADER + T})
    replays(scene, "0 0 0 1048576 2 /dev/full\n", "tu.pcap", [report((0, 0), 2, 2, "Write 0", 0)], {}, status=3)
    nowhere = "0 0 0 1048576 2 no/out.pcap\n0 0 0 1048576 2 all.pcap\n"
    replays(
        scene, nowhere, "tu.pcap t.pcap", [report((0, 0), 3, 3, "Write 0", 0), report((0, 1), 3, 3)],
        {"all.pcap": HEADER + T + U + T}, status=3)
    replays(
        scene, nowhere, "tu.pcap none.pcap", [report((0, 0), 2, 2, "Write 0", 0), report((0, 1), 2, 2)],
        {"all.pcap": HEADER + T + U}, "Interface 0 Capture 1 Device", status=3)


def whole_in(text, length):
    """How many records are whole in the front of a capture."""
    ends, end = [], 24
    for record in records(text):
        end += len(record)
        ends.append(end)
    return sum(end <= length for end in ends)


@case
def a_failed_out_is_reported_by_what_it_has(scene):
    """If a write of OUT fails, N and B are the packets and the bytes that OUT has, and nothing follows them."""
    text = VETH.read_bytes()
    thrice = text + text[24:] + text[24:]
    cases = [("veth.pcap", text, 118), *(("veth.pcap " * 3, thrice, blocks) for blocks in [1, 63, 64, 65, 100, 300])]
    for captures, wanted, blocks in cases:
        scene.start({"veth.pcap": text, "listeners.txt": "0 0 0 1048576 64 out.pcap\n"})
        room = blocks * 1024
        seen = scene.run(f"run listeners.txt {captures}", first=f"trap '' XFSZ\nulimit -f {blocks}")
        # How many packets arrived before the listener was found closed is the threads' to say.
        line = rf"interface 0 listener 0 received \d+ matched \d+ dropped 0 written {whole_in(wanted, room)} Write {room}\n"
        scene.check(f"{blocks}: a line of {seen.out}", bool(re.fullmatch(line, seen.out.decode())), True)
        scene.check(f"{blocks}: faults", (seen.err, seen.status), (b"", 3))
        scene.check(f"{blocks}: OUT", scene.read("out.pcap"), wanted[:room])


def size_while_open(scene, flush, seconds):
    """The size of OUT while the fifo of 5,000 packets that fit into a store is still open, or once packets are in it."""
    scene.start({"listeners.txt": f"0 {flush} 0 1048576 2 out.pcap\n"})
    os.mkfifo(scene.folder / "fifo")
    out = scene.folder / "out.pcap"
    size = 0
    with subprocess.Popen([PROGRAM, "run", "listeners.txt", "fifo"], cwd=scene.folder, stdout=subprocess.PIPE) as running:
        with open(scene.folder / "fifo", "wb") as fifo:
            fifo.write(HEADER + T * 5000)
            fifo.flush()
            end = time.monotonic() + seconds
            while size <= len(HEADER) and time.monotonic() < end:
                time.sleep(0.01)
                size = out.stat().st_size if out.exists() else 0
        printed = running.communicate(timeout=LIMIT)[0].decode()
    scene.check(f"FLUSH {flush}: printed", printed, report((0, 0), 5000, 5000))
    scene.check(f"FLUSH {flush}: OUT", scene.read("out.pcap"), HEADER + T * 5000)
    return size


@case
def a_flush_of_0_is_none(scene):
    """With FLUSH 0 no packet of a store is written before it is full, and with another FLUSH after that many packets."""
    scene.check("FLUSH 4096 writes", size_while_open(scene, 4096, 60) > len(HEADER), True)
    scene.check("FLUSH 0 writes", size_while_open(scene, 0, 1) > len(HEADER), False)


def sizes_reached(scene, sizes, seconds=60):
    """Whether each of these files has this many bytes before the time is up."""
    end = time.monotonic() + seconds
    while time.monotonic() < end:
        if all((scene.folder / name).exists() and (scene.folder / name).stat().st_size == size for name, size in sizes.items()):
            return True
        time.sleep(0.01)
    return False


@case
def an_out_is_followed(scene):
    """With FLUSH 1, and with an `i`, a packet is in OUT while the capture is still open, even if the OUT before is not read."""
    scene.start({"listeners.txt": "0 1 0 1048576 2 unread\n0 1 0 1048576 2 flushed.pcap\n0 0 0 1048576i 2 held.pcap tcp\n"})
    for name in ["fifo", "unread"]:
        os.mkfifo(scene.folder / name)
    with subprocess.Popen([PROGRAM, "run", "listeners.txt", "fifo"], cwd=scene.folder, stdout=subprocess.PIPE) as running:
        with open(scene.folder / "fifo", "wb", buffering=0) as fifo:
            fifo.write(HEADER)
            scene.check("headers", sizes_reached(scene, {"flushed.pcap": 24, "held.pcap": 24}), True)
            for packets in range(1, 6):
                fifo.write(T)
                size = 24 + packets * len(T)
                scene.check(f"{packets} packets", sizes_reached(scene, {"flushed.pcap": size, "held.pcap": size}), True)
        # The run waits for the fifo that nobody reads.
        with open(scene.folder / "unread", "rb") as unread:
            scene.check("the fifo", unread.read(), HEADER + T * 5)
        printed = running.communicate(timeout=LIMIT)[0].decode()
    scene.check("printed", printed, report((0, 0), 5, 5) + report((0, 1), 5, 5) + report((0, 2), 5, 5))
    scene.check("OUT", (scene.read("flushed.pcap"), scene.read("held.pcap")), (HEADER + T * 5, HEADER + T * 5))


@case
def an_out_that_blocks_holds_back_no_other(scene):
    """What is still in the stores at the end reaches each OUT, while a fifo that is the first OUT is not read."""
    scene.start({
        "tu.pcap": HEADER + T + U, "t.pcap": HEADER + T,
        "listeners.txt": "0 0 0 1048576 2 unread\n0 0 0 1048576 2 all.pcap\n0 0 0 1048576i 2 tcp.pcap tcp\n1 0 0 1048576 2 other.pcap\n"})
    os.mkfifo(scene.folder / "unread")
    whole = {"all.pcap": HEADER + T + U, "tcp.pcap": HEADER + T, "other.pcap": HEADER + T}
    words = [PROGRAM, "run", "listeners.txt", "tu.pcap", "+", "t.pcap"]
    with subprocess.Popen(words, cwd=scene.folder, stdout=subprocess.PIPE) as running:
        try:
            scene.check("reached", sizes_reached(scene, {name: len(text) for name, text in whole.items()}), True)
            scene.check("read", {name: scene.read(name) for name in whole}, whole)
            scene.check("ended", running.poll(), None)
            with open(scene.folder / "unread", "rb") as unread:
                scene.check("the fifo", unread.read(), HEADER + T + U)
            printed = running.communicate(timeout=LIMIT)[0].decode()
        finally:
            running.kill()
    scene.check("printed", printed, report((0, 0), 2, 2) + report((0, 1), 2, 2) + report((0, 2), 2, 1) + report((1, 0), 1, 1))


def processor_seconds(process):
    """User and system time of a process so far."""
    fields = pathlib.Path(f"/proc/{process}/stat").read_text().rpartition(")")[2].split()
    return (int(fields[11]) + int(fields[12])) / os.sysconf("SC_CLK_TCK")


@case
def threads_that_wait_sleep(scene):
    """If nothing comes, a run of eight listeners takes less than a fifth of a processor: a thread that spins takes a whole one."""
    scene.start({"listeners.txt": "".join(f"0 0 0 1048576 2 {out}.pcap\n" for out in range(8))})
    os.mkfifo(scene.folder / "fifo")
    with subprocess.Popen([PROGRAM, "run", "listeners.txt", "fifo"], cwd=scene.folder, stdout=subprocess.PIPE) as running:
        with open(scene.folder / "fifo", "wb", buffering=0) as fifo:
            fifo.write(HEADER + T)
            time.sleep(1)
            before = processor_seconds(running.pid)
            time.sleep(2)
            taken = processor_seconds(running.pid) - before
        printed = running.communicate(timeout=LIMIT)[0].decode()
    scene.check(f"{taken} s of a processor in 2 s", taken < 0.4, True)
    scene.check("printed", printed, "".join(report((0, out), 1, 1) for out in range(8)))


def woken_threads(scene):
    """What a replay prints that gets a packet now and then, and where its threads were woken again and again."""
    calls = scene.folder / "calls"
    words = ["strace", "-f", "-qq", "-o", calls, "-e", "trace=futex", PROGRAM, "run", "listeners.txt", "fifo"]
    with subprocess.Popen(words, cwd=scene.folder, stdout=subprocess.PIPE) as running:
        with open(scene.folder / "fifo", "wb", buffering=0) as fifo:
            fifo.write(HEADER)
            for _ in range(40):
                fifo.write(T)
                time.sleep(0.03)
        printed = running.communicate(timeout=LIMIT)[0].decode()
    woken = Counter(re.findall(r"futex\((\w+), FUTEX_WAKE", calls.read_text()))
    return printed, [place for place, times in woken.items() if times >= 5]


@case
def threads_that_wait_are_woken(scene):
    """A thread that makes work wakes the one that waits for it, a reader or a writer. A lost wake-up costs only milliseconds, so only
    system calls show it, if `strace` is there. On a processor that others use, a thread may find work before it waits, so this is tried
    five times at most."""
    if not can_trace():
        return scene.leave("strace can't trace here")
    scene.start({"listeners.txt": "0 1 0 1048576 2 out.pcap\n"})
    os.mkfifo(scene.folder / "fifo")
    for _ in range(5):
        printed, places = woken_threads(scene)
        scene.check("printed", printed, report((0, 0), 40, 40))
        if len(places) == 2:
            break
    scene.check(f"threads that were woken again and again, at {places}", len(places), 2)


@case
def a_replay_ends_on_one_processor(scene):
    """With buffers of a packet or two, on one processor, each run ends, and what matched was written or dropped."""
    text = VETH.read_bytes()
    scene.start({"veth.pcap": text, "listeners.txt": "".join(
        f"0 {out} {96 + out} {160 + out}{'i' * (out % 2)} {1 + out % 3} {out}.pcap\n" for out in range(6))})
    one = {min(os.sched_getaffinity(0))}
    line = re.compile(r"interface 0 listener \d received 759 matched 759 dropped (\d+) written (\d+) Clean")
    for _ in range(200):
        done = subprocess.run(
            [PROGRAM, "run", "listeners.txt", *["veth.pcap"] * 3], cwd=scene.folder, stdin=subprocess.DEVNULL, capture_output=True,
            text=True, timeout=LIMIT, preexec_fn=lambda: os.sched_setaffinity(0, one))
        found = [line.fullmatch(printed) for printed in done.stdout.splitlines()]
        counts = [sum(map(int, one.groups())) for one in found if one]
        scene.check("a run", (done.stderr, done.returncode, counts), ("", 0, [759] * 6))


# A user who has no processes, so that a limit on the user counts only those of a run.
NOBODY = 54321


def run_with_threads(scene, most, captures):
    """What a run prints that may have this many threads, its first one among them, and the status; only root can try it."""
    def limited():
        resource.setrlimit(resource.RLIMIT_NPROC, (most, most))
        os.setgid(NOBODY)
        os.setuid(NOBODY)
    done = subprocess.run(
        ["./bpftap", "run", "listeners.txt", *captures.split()], cwd=scene.folder, stdin=subprocess.DEVNULL,
        capture_output=True, timeout=LIMIT, preexec_fn=limited)
    return done.stdout.decode(), done.stderr.decode(), done.returncode


def unread(pipe):
    """How many bytes of a pipe nobody has read."""
    return struct.unpack("i", fcntl.ioctl(pipe, termios.FIONREAD, bytes(4)))[0]


@case
def each_thread_is_refused_in_turn(scene):
    """If a thread of a run is refused, only that is reported, nothing is read of IN, and there is no OUT; else all is written."""
    if os.geteuid() != 0:
        return scene.leave("only root can limit a user's threads")
    shutil.copy(PROGRAM, scene.folder / "bpftap")
    for folder in [scene.folder, scene.folder.parent]:
        folder.chmod(0o777)
    scene.put({**CAPTURES, "listeners.txt": "0 0 0 1048576 2 left.pcap\n1 0 0 1048576 2 right.pcap\n1 0 96 1048576 2 /dev/null tcp\n"})
    fifo = scene.folder / "in"
    os.mkfifo(fifo)
    fifo.chmod(0o666)
    pipe = os.open(fifo, os.O_RDWR)
    os.write(pipe, as_bytes(HEADER + T + U))
    waiting = unread(pipe)
    # One replays each interface, and for each listener one reads and one writes: nine with the first one. Some order of the
    # threads that start may let one of them do something, so each is refused several times.
    for most in 13 * [*range(1, 9)]:
        scene.check(f"{most} threads", run_with_threads(scene, most, "in + in"), ("", fault_lines("NoStart"), 1))
        scene.check("IN and OUT", (unread(pipe), scene.read("left.pcap"), scene.read("right.pcap")), (waiting, None, None))
    os.close(pipe)
    reports = report((0, 0), 1, 1) + report((1, 0), 2, 2) + report((1, 1), 2, 1)
    scene.check("9 threads", run_with_threads(scene, 9, "t.pcap + tu.pcap"), (reports, "", 0))
    scene.check("OUT", (scene.read("left.pcap"), scene.read("right.pcap")), (HEADER + T, HEADER + T + U))
