"""Captures that are watched while they are read: the frames that no filter looks into, and the progress on a terminal."""
import os
import pty
import random
import re
import select
import signal
import subprocess
import time
import unicodedata

from .common import ARP_RECORD, HEADER, IP, IP_RECORD, LIMIT, PROGRAM, TCP_RECORD, TORN, Seen, case, fault_lines, header

# The types of frames that no filter looks into: IPv6, and three of VLAN tags.
UNSEEN = [0x86dd, 0x8100, 0x88a8, 0x9100]
# Others: IPv4, ARP, MPLS, PPPoE, and neighbours of those above.
SEEN = [0x0800, 0x0806, 0x8847, 0x8864, 0x86dc, 0x86de, 0x8101, 0x0081, 0xdd86, 0x88a7, 0x9101, 0x0000, 0xffff]


def line(unseen, frames):
    """The line about frames that no filter looks into."""
    are = "is" if unseen == 1 else "are"
    return (f"  {unseen} of {frames} frames {are} IPv6 or VLAN: filters here do not look inside; with libpcap's program they do, into VLAN by "
            "'EXPR or (vlan and (EXPR))': tcpdump -y EN10MB -ddd EXPR > f.bpf, then -f f.bpf\n")


def record(number, captured=14, order="little", fraction=0):
    """The record of a frame of this type, with `captured` bytes captured."""
    frame = (bytes(12) + number.to_bytes(2, "big") + bytes(captured))[:captured]
    return b"".join(field.to_bytes(4, order) for field in (1, fraction, captured, max(captured, 60))) + frame


IPV6_RECORD = record(0x86dd)
MIXED = HEADER + IP_RECORD + IPV6_RECORD + ARP_RECORD + record(0x8100) + TCP_RECORD


def last_line(seen):
    """The last line of standard error."""
    lines = seen.err.decode().splitlines(keepends=True)
    return lines[-1] if lines else ""


@case
def frames_are_counted(scene):
    """Below what `explain`, `compare`, `split` and `cut -c` print is how many frames no filter looks into, with hints or without; with `--json`
    an object. It is of those that were read, also before a capture that can't be."""
    scene.start({"in.pcap": MIXED, "two.pcap": HEADER + record(0x88a8), "lines.txt": "0 all.pcap \n0 ip.pcap ip\n", "text.pcap": "a text, and no capture"})
    scene.expect("--hints cut -c -s 0 -e ip in.pcap out.pcap", 0, "2 of 5 packets\n" + line(2, 5))
    scene.expect("--hints cut -c -s 0 -e ip -w more.pcap in.pcap two.pcap in.pcap", 0, "4 of 11 packets\n" + line(5, 11))
    scene.expect("--hints split lines.txt in.pcap two.pcap", 0, line(3, 6), "all.pcap 6 of 6\nip.pcap 2 of 6\n")
    for words in ["explain -e ip", "explain -c -e ip", "compare ip tcp", "compare '' tcp", "compare ip ''", "split lines.txt"]:
        seen, plain = scene.run(f"--hints {words} in.pcap two.pcap"), scene.run(f"{words} in.pcap two.pcap")
        scene.check(words, (seen.err.decode(), seen.status), (line(3, 6), 0))
        scene.check(f"{words} without hints", plain, seen)
    for words in ["explain --json -e ip", "explain --json -c -e ip", "split --json lines.txt"]:
        scene.check(words, scene.run(f"{words} in.pcap two.pcap").err, b'{"frames":6,"unseen":3}\n')
    scene.expect("cut -c -s 0 -e ip in.pcap out.pcap", 0, "2 of 5 packets\n" + line(2, 5))
    scene.expect("cut --json -c -s 0 -e ip in.pcap out.pcap", 0, '{"kept":2,"packets":5}\n{"frames":5,"unseen":2}\n')
    scene.expect("explain -c -e ip two.pcap", 0, line(1, 1), "two.pcap 1 packets: 0 Yes, 1 No, 0 Abort\n")
    whole = f"cut --bytes 24-{len(MIXED)} -s 0 -e ip in.pcap"
    for json, lines in (("", "2 of 5 packets\n" + line(2, 5)), ("--json ", '{"kept":2,"packets":5}\n{"frames":5,"unseen":2}\n')):
        seen = scene.run(f"{whole} {json}-c part.pcap")
        scene.check(f"a part {json}", (seen.err.decode(), seen.status), (lines, 0))
    for words, numbered, counted in [("explain -e ip", False, ""), ("explain -c -e ip", False, ""), ("compare ip tcp", False, ""), ("split lines.txt", True, ""),
                                     ("cut -c -s 0 -e ip -w more.pcap", True, "0 of 1 packets\n")]:
        for last, fault, status in (("none", "Capture 1 Device" if numbered else "Device none", 3), ("text.pcap", "Capture 1 ShortHeader", 1)):
            seen = scene.run(f"{words} two.pcap {last}")
            scene.check(f"{words}, before {last}", (seen.err.decode(), seen.status), (fault_lines(fault) + counted + line(1, 1), status))


@case
def frames_are_counted_for_hints(scene):
    """Where hints are wanted `run`, and `cut` without `-c`, say it too, if an expression asks something."""
    scene.start({"in.pcap": MIXED, "two.pcap": HEADER + record(0x88a8), "run.txt": "0 0 0 1048576 2 run.pcap ip\n",
                 "empty.txt": "0 0 0 1048576 2 run.pcap \n"})
    for words, counts in (("cut -s 0 -e ip in.pcap one.pcap", line(2, 5)), ("cut -s 0 -e ip -w two_ip.pcap in.pcap two.pcap", line(3, 6)),
                          (f"cut --bytes 24-{len(MIXED)} -s 0 -e ip in.pcap one.pcap", line(2, 5)),
                          ("run run.txt in.pcap two.pcap", line(3, 6)), ("run empty.txt in.pcap", ""), ("cut -s 0 in.pcap all.pcap", ""),
                          ("cut --json -s 0 -e ip in.pcap json.pcap", "")):
        seen = scene.run(f"--hints {words}")
        scene.check(words, (seen.err.decode(), seen.status), (counts, 0))
        for made in ("one.pcap", "two_ip.pcap", "run.pcap", "all.pcap", "json.pcap"):
            (scene.folder / made).unlink(missing_ok=True)
        scene.check(f"{words} without hints", scene.run(words), Seen(seen.out, b"", 0))


@case
def types_of_frames(scene):
    """IPv6 and VLAN tags are counted, no other type, and no frame whose type was not captured."""
    for number in UNSEEN:
        scene.start({"in.pcap": HEADER + IP_RECORD + record(number) + record(number, 13) + record(number, 300)})
        scene.check(f"type {number:#x}", last_line(scene.run("--hints explain -e ip in.pcap")), line(2, 4))
    scene.start({"in.pcap": HEADER + b"".join(map(record, SEEN)) + IPV6_RECORD})
    scene.check("other types", last_line(scene.run("--hints explain -e ip in.pcap")), line(1, len(SEEN) + 1))


@case
def no_frames_are_counted(scene):
    """Nothing is said without such a frame, with `-q`, `-l` or `-p`, by `cut` without `-c` and hints, without an expression, or if the command
    failed."""
    scene.start({"in.pcap": MIXED, "plain.pcap": HEADER + IP_RECORD + TCP_RECORD, "ip.bpf": IP, "lines.txt": "0 ip.pcap ip\n",
                 "empty.txt": "0 all.pcap \n", "none": "", "lost.txt": "0 no/such.pcap ip\n"})
    for words in ["cut -s 0 -e ip in.pcap out.pcap", "explain -q -e ip in.pcap", "explain -l -e ip in.pcap", "explain -e ip plain.pcap",
                  "explain --json -e ip plain.pcap", "--hints explain -e ip plain.pcap", "--hints compare ip tcp plain.pcap", "--hints cut -c -s 0 -e ip plain.pcap out.pcap",
                  "--hints split lines.txt plain.pcap", "--hints explain -q -e ip in.pcap", "--hints compare -q ip ip in.pcap",
                  "--hints explain -p 1 -e ip in.pcap", "--hints cut -s 0 -f ip.bpf in.pcap out.pcap", "--hints explain -f ip.bpf in.pcap",
                  "--hints compare -f ip.bpf ip in.pcap", "--hints cut -c -s 0 -f ip.bpf in.pcap out.pcap",
                  "--hints cut -c -s 0 in.pcap out.pcap", "--hints explain -e '' in.pcap", "--hints compare '' ' ' in.pcap",
                  "--hints split empty.txt in.pcap", "--hints explain -e ip none", "--hints cut -c -s 0 -e ip in.pcap no/such.pcap",
                  "--hints split lost.txt in.pcap", "--hints cut -c -s 0 -e ip -w no/such.pcap in.pcap none", "cut --bytes 24-54 -s 0 -e ip in.pcap out.pcap"]:
        seen = scene.run(words)
        scene.check(words, b"IPv6" in seen.err or b"unseen" in seen.err, False)
    for words in ("explain -e ip in.pcap", "split lines.txt in.pcap", f"cut -c --bytes 24-{len(MIXED)} -s 0 -e ip in.pcap out.pcap"):
        seen = scene.run_unread(f"--hints {words}")
        scene.check(f"nobody reads {words}", (b"IPv6" in seen.err, seen.status), (False, 3))


@case
def damaged_captures(scene):
    """The frames before the first torn or bad record are counted, as its line and the counts have them."""
    bad = {"torn record": TORN[len(HEADER) + len(IP_RECORD):], "torn frame": IPV6_RECORD[:-1], "bad fraction": record(0x86dd, fraction=10**6),
           "too long": record(0x86dd)[:8] + (262145).to_bytes(4, "little") + record(0x86dd)[12:] + bytes(262145)}
    for what, rest in bad.items():
        scene.start({"in.pcap": HEADER + IPV6_RECORD + IP_RECORD + rest, "more.pcap": HEADER + IPV6_RECORD})
        for words in ["explain -e ip in.pcap", "cut -c -s 0 -e ip in.pcap out.pcap", "explain -e ip in.pcap more.pcap"]:
            seen = scene.run(f"--hints {words}")
            scene.check(f"{words}, {what}", (last_line(seen), seen.status), (line(1, 2), 2))


@case
def random_captures(scene):
    """Of random captures, in both orders, the numbers are those of a count in Python, whatever the lengths of the frames."""
    chance = random.Random(65)
    for number in range(60):
        order, text, unseen = chance.choice(["little", "big"]), b"", 0
        magic = chance.choice([0xa1b2c3d4, 0xa1b23c4d])
        frames = chance.randrange(1, 80)
        for _ in range(frames):
            kind = chance.choice(UNSEEN + SEEN)
            captured = chance.choice([chance.randrange(20), chance.randrange(2000), chance.randrange(14, 100), 262144 if chance.random() < 0.1 else 14])
            unseen += kind in UNSEEN and captured >= 14
            text += record(kind, captured, order)
        fields = [(magic, 4), (2, 2), (4, 2), (0, 4), (0, 4), (262144, 4), (1, 4)]
        scene.start({"in.pcap": b"".join(value.to_bytes(size, order) for value, size in fields) + text})
        wanted = line(unseen, frames) if unseen else ""
        scene.check(f"capture {number}", last_line(scene.run("--hints explain -e ip in.pcap", "> out.txt")), wanted)


# ---- Names

# The classes of characters that turn the direction of text.
DIRECTIONS = {"LRE", "RLE", "PDF", "LRO", "RLO", "LRI", "RLI", "FSI", "PDI"}

# Each of these controls a terminal: an escape sequence, a forged line, a deletion, a control character of two bytes, and text from the right.
NAME = "a\x1b]0;title\x07\tb\nc\r\x7f\u009bd\u202ee\u2066f.pcap"


def marked(name):
    """A name as `ls` shows it: control characters, and those that turn the direction of text, as question marks."""
    return "".join("?" if unicodedata.category(one) == "Cc" or unicodedata.bidirectional(one) in DIRECTIONS else one for one in name)


@case
def names_do_not_control_a_terminal(scene):
    """On a terminal the lines of files have `?` for each character of a name that would control it, and in a pipe the name as it is."""
    scene.start({NAME: HEADER + IP_RECORD, "plain.pcap": HEADER + IP_RECORD})
    out = NAME.replace("\n", "")
    scene.put({"lines.txt": f"0 {out} ip\n"})
    for words, name, rest in [
        (["info", NAME, "plain.pcap"], NAME, " packets 1 "), (["explain", "-c", "-e", "ip", NAME, "plain.pcap"], NAME, " 1 packets: "),
        (["explain", "-l", "-e", "ip", NAME], NAME, "\n"), (["split", "lines.txt", NAME], out, " 1 of 1\n"),
    ]:
        shown, _, status = watch(words, scene.folder, on_output=True)
        scene.check(f"{words[0]} on a terminal", (shown[: len(marked(name) + rest)], status), (marked(name) + rest, 0))
        scene.check(f"{words[0]} in a pipe", scene.run(words).out.decode()[: len(name + rest)], name + rest)
    size = len(HEADER) + len(IP_RECORD)
    words, counts = ["cut", "--bytes", f"24-{size}", "-s", "0", "plain.pcap", out], f"24-{size} of {size} packets 1 kept 1 bytes {size} Clean "
    shown, _, status = watch(words, scene.folder, on_output=True)
    scene.check("cut --bytes on a terminal", (shown[: len(counts + out) + 1], status), (f"{counts}{marked(out)}\n", 0))
    scene.expect(words, out=f"{counts}{out}\n")


# ---- Progress

# A record of no bytes at second 0: what the rest of a file reads as that was only made longer.
RECORD_LEN = 16
PROGRESS = re.compile(r"\d+\.\d of \d+\.\d [kMGT]B, \d+ s, \d+(\.\d [kMG])? packets")


def wait_for_reading(started):
    """Waits until a program has read more than its own libraries."""
    end = time.monotonic() + LIMIT
    while started.poll() is None and time.monotonic() < end:
        with open(f"/proc/{started.pid}/io", encoding="ascii") as counts:
            if int(counts.readline().split()[1]) > 3_000_000:
                return
        time.sleep(0.01)


def watch(words, folder, pauses=0, on_output=False):
    """Runs the program with standard error, and standard output too if that is asked for, on a terminal, and stops it `pauses` times,
    for more than a second each, while it reads. Returns all that the terminal got, what else was printed, and the status."""
    leader, follower = pty.openpty()
    started = subprocess.Popen([PROGRAM, *words], cwd=folder, stdin=subprocess.DEVNULL,
                               stdout=follower if on_output else subprocess.PIPE, stderr=follower)
    os.close(follower)
    for _ in range(pauses):
        wait_for_reading(started)
        if started.poll() is None:
            started.send_signal(signal.SIGSTOP)
            time.sleep(1.1)
            started.send_signal(signal.SIGCONT)
    shown, printed, end = b"", b"", time.monotonic() + LIMIT
    sources = [leader] + ([] if on_output else [started.stdout.fileno()])
    while sources and time.monotonic() < end:
        for source in select.select(sources, [], [], 1)[0]:
            try:
                part = os.read(source, 65536)
            except OSError:
                part = b""
            if not part:
                sources.remove(source)
            elif source == leader:
                shown += part
            else:
                printed += part
    status = started.wait(LIMIT)
    os.close(leader)
    return shown.replace(b"\r\n", b"\n").decode(), printed, status


def screen(shown):
    """The lines that a terminal shows in the end."""
    lines, row, column = [[]], 0, 0
    for character in shown:
        if character == "\n":
            lines.append([])
            row, column = row + 1, 0
        elif character == "\r":
            column = 0
        else:
            lines[row][column:column + 1] = character
            column += 1
    return [bytes("".join(one), "utf-8").decode().rstrip() for one in lines]


def texts(shown):
    """The texts of the progress that were on the terminal."""
    return [one.rstrip() for one in shown.split("\r") if " of " in one and " packets" in one and "\n" not in one]


def long_capture(scene, name, millions):
    """Makes a capture of `millions` million records of no bytes, which takes no room on the disk."""
    with open(scene.folder / name, "wb") as made:
        made.write(HEADER)
        made.truncate(len(HEADER) + millions * 1_000_000 * RECORD_LEN)


@case
def progress_is_shown(scene):
    """On a terminal a command that reads for more than a second shows how far it is, and erases that in the end."""
    scene.start({"lines.txt": "0 out.pcap ip\n", "listeners.txt": "0 0 0 1048576 2 out.pcap ip\n"})
    long_capture(scene, "long.pcap", 20)
    for words, status in [(["cut", "-s", "0", "-e", "ip", "long.pcap", "out.pcap"], 0), (["split", "lines.txt", "long.pcap"], 0),
                          (["cut", "-s", "0", "-e", "ip", "-w", "both.pcap", "long.pcap", "long.pcap"], 0),
                          (["explain", "-q", "-e", "ip", "long.pcap"], 4), (["compare", "ip", "tcp", "long.pcap"], 0),
                          (["run", "listeners.txt", "long.pcap"], 0)]:
        shown, _, ended = watch(words, scene.folder, pauses=1)
        scene.check(f"status of {words}", ended, status)
        scene.check(f"left on the terminal by {words}", screen(shown), [""])
        scene.check(f"shown by {words}", [one for one in texts(shown)[:1] if PROGRESS.fullmatch(one)], texts(shown)[:1] or ["a line"])
        size = " of 640.0 MB, " if words.count("long.pcap") == 2 else " of 320.0 MB, "
        scene.check(f"size of {words}", [one for one in texts(shown) if size not in one], [])


@case
def progress_of_parts(scene):
    """`parts` shows how far the places are that it looks at."""
    scene.start({})
    record = (1).to_bytes(4, "little") * 2 + (60).to_bytes(4, "little") * 2 + bytes(60)
    (scene.folder / "long.pcap").write_bytes(HEADER + record * 2_000_000)
    shown, _, status = watch(["parts", "1000000", "long.pcap"], scene.folder, pauses=2)
    scene.check("status", status, 0)
    scene.check("left on the terminal", screen(shown), [""])
    lines = [one.strip() for one in shown.split("\r") if " of 152.0 MB, " in one]
    scene.check("shown", bool(lines) and all(re.fullmatch(r"\d+\.\d of 152\.0 MB, \d+ s", one) for one in lines), True)


@case
def progress_gives_way(scene):
    """Before a fault's line, and for standard output on the same terminal, the line is erased: what is left is what was printed."""
    scene.start({})
    long_capture(scene, "long.pcap", 20)
    with open(scene.folder / "long.pcap", "ab") as made:
        made.write(b"torn")
    shown, _, status = watch(["cut", "-s", "0", "-e", "ip", "long.pcap", "out.pcap"], scene.folder, pauses=1)
    scene.check("status", status, 2)
    scene.check("the fault's line", screen(shown)[0], fault_lines("TornRecord 20000000").rstrip())
    scene.check("a line was shown", bool(texts(shown)), True)
    shown, _, status = watch(["compare", "ip", "arp", "long.pcap"], scene.folder, pauses=1, on_output=True)
    scene.check("a terminal for both", (screen(shown)[0], status), ("20000000 packets: 0 differ, 0 accepted by the first alone, 0 by the second", 2))


@case
def no_progress(scene):
    """Nothing is shown of a short run, of a pipe, with `--json`, or if standard error is no terminal."""
    scene.start({"in.pcap": HEADER + IP_RECORD})
    shown, _, status = watch(["cut", "-s", "0", "-e", "ip", "in.pcap", "out.pcap"], scene.folder)
    scene.check("a short run", (shown, status), ("", 0))
    long_capture(scene, "long.pcap", 20)
    shown, _, status = watch(["explain", "--json", "-q", "-e", "ip", "long.pcap"], scene.folder, pauses=1)
    scene.check("--json", (shown, status), ("", 4))
    seen = scene.run("cut -s 0 -e ip long.pcap out.pcap")
    scene.check("no terminal", (seen.err, seen.status), (b"", 0))


@case
def deciding_is_shown(scene):
    """On a terminal `compare` without a capture shows that it decides, and erases that before it prints. Elsewhere, and with `--json`, it
    shows nothing."""
    scene.start({})
    words, notice = ["compare", "ip", "ip and ip"], "deciding for every packet"
    shown, printed, status = watch(words, scene.folder)
    scene.check("a terminal", (notice in shown, screen(shown), printed, status), (True, [""], b"same\n", 0))
    shown, _, status = watch(words, scene.folder, on_output=True)
    scene.check("a terminal for both", (notice in shown, screen(shown), status), (True, ["same", ""], 0))
    shown, _, status = watch(["compare", "-q", "ip", "arp"], scene.folder)
    scene.check("only the status answers", (notice in shown, screen(shown), status), (True, [""], 4))
    shown, printed, status = watch([*words, "--json"], scene.folder)
    scene.check("--json", (shown, printed, status), ("", b'{"answer":"same"}\n', 0))
    scene.expect(words, out="same\n")
