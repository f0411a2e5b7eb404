#!/usr/bin/env python3
"""Measures each command of bpftap and the calls under it, beside cp and tcpdump if they do the same.

  bench/bench.py                   wall time and peak memory on a capture of some 100 MB, interleaved runs
  bench/bench.py --instructions    user instructions for each packet, by valgrind's callgrind, on a small capture
  bench/bench.py --listener        user instructions for each arrival of 660 bytes at a listener, by callgrind; proves and builds
                                   bench/listener first, in a copy, over what ./build kept
  bench/bench.py --steps           user instructions for each packet of a replay by `bpftap steps`, with one listener and with 64, read at
                                   each full hold
  bench/bench.py --explain         user instructions for each packet of `bpftap explain`, on the real capture of `examples/`
  bench/bench.py --run             packets per second of `bpftap run` with 1 to 8 listeners and 1 to 4 interfaces, beside as many `cut`
                                   and tcpdump at once; what is dropped with few buffers; instructions for a packet that nobody accepts,
                                   by `run` and by `cut`
  bench/bench.py --replay          user instructions for such a packet, with one listener and for each further one, by a program over only
                                   `replay`; proves and builds bench/replay first, in the same way
  bench/bench.py --waiting         processor time of `bpftap run` with 1, 8 and 64 listeners over a fifo that is silent for five seconds;
                                   packets per second and what is dropped with 1 to 8 listeners and few or many spare buffers, with
                                   16 interfaces of 8 listeners, and with an OUT of which 1 MB a second is read; `--beside PATH`
                                   measures another built program too, interleaved. TMPDIR=/dev/shm puts the files into memory: on a
                                   disk mostly the opening of an OUT is measured
  bench/bench.py --handover        arrivals per second at a listener, at a pair in one thread and in two, and at a listener under
                                   a lock in two threads; proves and builds bench/handover first, in the same way
  bench/bench.py --split           wall time of `split` with eight filters, beside a cut and a tcpdump for each, one by one and at once
  bench/bench.py --rejecting       wall and processor time of `cut -e` with `udp port 53` on packets that it rejects, beside tcpdump; with
                                   `--beside PATH` beside another filter too, which is called by EXPRESSION CAPTURE OUT
  bench/bench.py --expressions     wall time of `check` on expressions of some 8,192 bytes, interleaved runs, on a small stack

Machines are noisy, so the ratios of one run are what to compare. Instructions are repeatable. The captures that
bpftap and tcpdump write are compared.

It needs only Python. The program is this folder's, or BPFTAP=PATH. Without tcpdump only bpftap is
measured, --instructions and --explain need valgrind, and peak memory needs GNU time (a program started by Python itself
shows Python's size if it needs less).
"""
import argparse
import filecmp
import os
import pathlib
import random
import re
import resource
import shutil
import statistics
import struct
import subprocess
import sys
import tempfile
import time

import filters
from filters import program

ROOT = pathlib.Path(__file__).resolve().parent.parent
# Bytes; the program's own limit is that of the machine, mostly 8 MiB.
STACK = 768 << 10
# As `tcpdump -ddd udp port 53` prints it.
UDP_PORT_53 = """20
40 0 0 12
21 0 6 34525
48 0 0 20
21 0 15 17
40 0 0 54
21 12 0 53
40 0 0 56
21 10 11 53
21 0 10 2048
48 0 0 23
21 0 8 17
40 0 0 20
69 6 0 8191
177 0 0 14
72 0 0 14
21 2 0 53
72 0 0 16
21 0 1 53
6 0 0 262144
6 0 0 0
"""
LISTINGS = [
    ("all packets", "1\n6 0 0 262144\n", None),
    ("IPv4 (4 instructions)", "4\n40 0 0 12\n21 0 1 2048\n6 0 0 262144\n6 0 0 0\n", "ip"),
    ("UDP port 53 (20 instructions)", UDP_PORT_53, "udp port 53"),
    ("nothing", "1\n6 0 0 0\n", "less 1"),
]


def frame(rng, number):
    """An Ethernet frame of 60 to 1,260 bytes: two of three are UDP over IPv4, the others ARP."""
    size = rng.randrange(60, 1261)
    head = bytes.fromhex("ffffffffffff000102030405")
    if number % 3 == 2:
        head += bytes.fromhex("0806")
    else:
        head += bytes.fromhex("08004500") + struct.pack(">H", size - 14) + bytes.fromhex("0000000040110000")
        head += bytes.fromhex("0a0000010a000002") + struct.pack(">HH", 1000 + number % 5, 53 if number % 2 else 54)
    return head + bytes([number & 255]) * (size - len(head))


def generate(path, packets):
    """A little-endian capture with microseconds, the same for each call."""
    rng = random.Random(1993)
    with open(path, "wb", buffering=1 << 20) as out:
        out.write(struct.pack("<IHHIIII", 0xA1B2C3D4, 2, 4, 0, 0, 262144, 1))
        for number in range(packets):
            data = frame(rng, number)
            out.write(struct.pack("<IIII", number // 1000, number % 1000 * 1000, len(data), len(data)) + data)


def gnu_time():
    """GNU time, a small process to start the measured program from; None if there is none."""
    path = shutil.which("time")
    if path is None:
        return None
    done = subprocess.run([path, "--version"], stdout=subprocess.PIPE, stderr=subprocess.STDOUT, text=True)
    return path if "GNU" in done.stdout else None


def run(words, folder=None, timer=None):
    """Seconds, exit status, and peak memory in KiB (0 without GNU time) of one run."""
    peak = folder / "peak" if timer else None
    small = [timer, "-f", "%M", "-o", str(peak)] if timer else []
    start = time.perf_counter()
    done = subprocess.run([*small, *words], stdout=subprocess.DEVNULL, stderr=subprocess.DEVNULL)
    seconds = time.perf_counter() - start
    memory = int(peak.read_text().split()[-1]) if timer else 0
    return seconds, done.returncode, memory


def commands(folder, capture):
    """Name, words and written capture of each thing that is measured; cp first, as the one that the others are
    compared with."""
    out = folder / "cp.pcap"
    yield "cp", ["cp", str(capture), str(out)], out
    for at, (name, listing, expression) in enumerate(LISTINGS):
        path = folder / f"{at}.bpf"
        path.write_text(listing)
        out = folder / f"{at}-bpftap.pcap"
        yield f"bpftap cut, {name}", [program(), "cut", "-s", "0", "-f", str(path), str(capture), str(out)], out
        if shutil.which("tcpdump"):
            # As root tcpdump would become another user, which may not write here.
            stay = ["-Z", "root"] if os.geteuid() == 0 else []
            out = folder / f"{at}-tcpdump.pcap"
            words = ["tcpdump", *stay, "-r", str(capture), "-w", str(out)]
            yield f"tcpdump, {name}", words + ([expression] if expression else []), out


def compare(folder):
    """What bpftap and tcpdump wrote is the same, byte by byte."""
    for at, (name, _, _) in enumerate(LISTINGS):
        ours, theirs = folder / f"{at}-bpftap.pcap", folder / f"{at}-tcpdump.pcap"
        if theirs.exists() and not filecmp.cmp(ours, theirs, shallow=False):
            sys.exit(f"{name}: bpftap and tcpdump wrote different captures")


def wall(folder, packets, rounds):
    capture = folder / "in.pcap"
    generate(capture, packets)
    size = capture.stat().st_size
    print(f"{packets} packets, {size / 1e6:.0f} MB, median of {rounds} interleaved rounds")
    timer = gnu_time()
    all_commands = list(commands(folder, capture))
    seen = {name: [] for name, _, _ in all_commands}
    for _ in range(rounds):
        for name, words, _ in all_commands:
            seconds, status, memory = run(words, folder, timer)
            if status != 0:
                sys.exit(f"{name}: status {status}")
            seen[name].append((seconds, memory))
        compare(folder)
    base = statistics.median(seconds for seconds, _ in seen["cp"])
    for name, runs in seen.items():
        seconds = statistics.median(s for s, _ in runs)
        memory = f"{max(m for _, m in runs):7.0f} KiB at most" if timer else ""
        print(f"{name:40} {seconds:8.3f} s  {seconds / base:6.2f} x cp  {memory}")


def instructions_of(words, folder):
    """User instructions of one run, as callgrind counts them."""
    log = folder / "callgrind.out"
    done = subprocess.run(
        ["valgrind", "--tool=callgrind", f"--callgrind-out-file={log}", *words],
        stdout=subprocess.DEVNULL, stderr=subprocess.PIPE, text=True)
    found = re.search(r"Collected : (\d+)", done.stderr)
    if not found:
        sys.exit(f"callgrind said nothing of {words[0]}:\n{done.stderr[-2000:]}")
    return int(found.group(1))


def instructions(folder):
    """The difference of two captures' counts, so that starting up counts for nothing."""
    if shutil.which("valgrind") is None:
        sys.exit("valgrind is not there: without it no instructions can be counted")
    small, large = folder / "small.pcap", folder / "large.pcap"
    generate(small, 1000)
    generate(large, 11000)
    print("user instructions for each packet (660 bytes on average), by callgrind")
    for (name, first, _), (_, second, _) in zip(commands(folder, small), commands(folder, large)):
        if name == "cp":
            continue
        few = instructions_of(first, folder)
        count = (instructions_of(second, folder) - few) / 10000
        print(f"{name:40} {count:8.0f}")
    compare(folder)


def built(folder, name, below, files):
    """Builds bench/NAME over copies of the crates that it uses and of what ./build kept of them; returns the program's path."""
    kept = folder / "out" / "build"
    kept.mkdir(parents=True)
    for crate in below:
        shutil.copytree(ROOT / "crates" / crate, folder / "crates" / crate, ignore=shutil.ignore_patterns("out"))
        for part in (ROOT / "out" / "build").glob(f"{crate}.[rk]*"):
            (shutil.copytree if part.is_dir() else shutil.copy)(part, kept / part.name)
    crate = folder / "crates" / f"{name}_bench"
    # The gate reads .rt and .antt files only in crates, so here they have other names.
    for file, place in files.items():
        (crate / place).parent.mkdir(parents=True)
        shutil.copyfile(ROOT / "bench" / name / file, crate / place)
    lines = [line for line in (ROOT / "crates.txt").read_text().splitlines() if re.match(rf"({'|'.join(below)})[ :]", line)]
    (folder / "crates.txt").write_text("\n".join([*lines, f"{name}_bench: {' '.join(below)}"]) + "\n")
    shutil.copy(ROOT / "build", folder)
    subprocess.run([str(folder / "build"), crate.name], check=True, stdout=subprocess.DEVNULL)
    return str(crate / "out" / crate.name)


def listener_program(folder):
    files = {"main.txt": "src/main.rt", "Invariants.txt": "proofs/feed/Invariants.antt"}
    return built(folder, "listener", ["savefile", "bpfvm", "listener"], files)


def handover_program(folder):
    loops = {"listener": "through_listener", "pair": "through_pair", "feed": "feed", "drain": "drain_out"}
    files = {f"{file}.txt": f"proofs/{function}/Invariants.antt" for file, function in loops.items()}
    below = ["savefile", "bpfvm", "listener", "handover"]
    return built(folder, "handover", below, {"main.txt": "src/main.rt", **files})


def replay_program(folder):
    below = ["savefile", "bpfvm", "listener", "handover", "replay_types", "replay"]
    return built(folder, "replay", below, {"main.txt": "src/main.rt"})


def arrivals(folder):
    """Instructions for each arrival that is stored, with a read after each rotation."""
    program = listener_program(folder)
    count = instructions_of([program, "101000"], folder) - instructions_of([program, "1000"], folder)
    print(f"user instructions for each arrival of 660 bytes, by callgrind: {count / 100000:.0f}")


def steps(folder):
    """Instructions for each packet of a replay, reports included, with reads at each full hold: what 64 listeners cost
    beside one. An expression that rejects everything has no reports."""
    captures = {packets: folder / f"{packets}.pcap" for packets in (1000, 11000)}
    for packets, path in captures.items():
        generate(path, packets)
    print("user instructions for each packet (660 bytes on average) of `bpftap steps`, by callgrind")
    for name, listeners, expression in [
        ("one listener, all packets", 1, ""),
        ("64 listeners, all packets", 64, ""),
        ("one listener, none", 1, "less 1"),
        ("64 listeners, none", 64, "less 1"),
    ]:
        (folder / "listeners.txt").write_text(f"0 1048576 {expression}\n" * listeners)
        reads = "".join(f"read {l}\n" for l in range(listeners))
        counts = []
        for packets, path in captures.items():
            # A buffer of 1,048,576 bytes has room for some 1,500 packets.
            (folder / "script.txt").write_text(("arrive\n" * 1000 + reads) * (packets // 1000))
            words = [program(), "steps", *(str(folder / f) for f in ("listeners.txt", "script.txt")), str(path)]
            counts.append(instructions_of(words, folder))
        print(f"{name:40} {(counts[1] - counts[0]) / 10000:8.0f}")


def explained(folder):
    """Instructions for each packet of `explain -e`: the difference of the real capture eleven times and once."""
    data, packets = filters.CAPTURE.read_bytes(), len(list(filters.packets(filters.CAPTURE)))
    once, often = folder / "once.pcap", folder / "often.pcap"
    once.write_bytes(data)
    often.write_bytes(data + data[24:] * 10)
    print("user instructions for each packet of the real capture, of `bpftap explain`, by callgrind")
    for expression in ["tcp port 80 or 443", "udp port 5353", "tcp[13] & 2 != 0", "ip[2:2] > 576"]:
        counts = [instructions_of([program(), "explain", "-e", expression, str(path)], folder) for path in (once, often)]
        print(f"{expression:40} {(counts[1] - counts[0]) / (10 * packets):8.0f}")


# What the listeners of a replay accept, in turn.
FILTERS = ["", "ip", "udp port 53", "arp", "tcp", "port 54", "not ip", "less 500"]


def replay_words(folder, capture, interfaces, listeners, spares):
    """The command of a replay of the capture with this many interfaces, each with this many listeners."""
    lines = [
        f"{i} 0 0 1048576 {spares} {folder / f'{i}-{l}.pcap'} {FILTERS[l % len(FILTERS)]}".rstrip() + "\n"
        for i in range(interfaces) for l in range(listeners)]
    path = folder / f"{interfaces}-{listeners}-{spares}.txt"
    path.write_text("".join(lines))
    return [program(), "run", str(path), *" + ".join([str(capture)] * interfaces).split()]


def at_once(commands):
    """Seconds that commands take which are started together."""
    start = time.perf_counter()
    started = [subprocess.Popen(words, stdout=subprocess.DEVNULL, stderr=subprocess.DEVNULL) for words in commands]
    if any(one.wait() for one in started):
        sys.exit(f"{commands[0][0]} failed")
    return time.perf_counter() - start


def beside(folder, capture, interfaces, listeners):
    """As many `cut`, and as many tcpdump, as a replay has listeners."""
    places = [(i, l) for i in range(interfaces) for l in range(listeners)]
    yield "cut", [
        [program(), "cut", "-s", "0", *(["-e", FILTERS[l]] if FILTERS[l] else []), str(capture), str(folder / f"{i}-{l}-cut.pcap")]
        for i, l in places]
    if shutil.which("tcpdump"):
        stay = ["-Z", "root"] if os.geteuid() == 0 else []
        yield "tcpdump", [
            ["tcpdump", *stay, "-r", str(capture), "-w", str(folder / f"{i}-{l}-tcpdump.pcap"), *FILTERS[l].split()] for i, l in places]


def rejected(folder):
    """User instructions for a packet that no listener accepts: with one listener, for each further one, and by `cut`."""
    filtered = ["-s", "0", "-e", "less 1"]
    counts = {}
    for many in (1000, 11000):
        capture = folder / f"{many}.pcap"
        generate(capture, many)
        for listeners in (1, 2):
            lines = folder / f"nobody-{listeners}.txt"
            lines.write_text("".join(f"0 0 0 1048576 2 {folder / f'nobody-{l}.pcap'} less 1\n" for l in range(listeners)))
            counts[listeners, many] = instructions_of([program(), "run", str(lines), str(capture)], folder)
        counts["cut", many] = instructions_of([program(), "cut", *filtered, str(capture), str(folder / "nobody.pcap")], folder)
    of = {name: (counts[name, 11000] - counts[name, 1000]) / 10000 for name in (1, 2, "cut")}
    print(f"user instructions for each packet that nobody accepts: run {of[1]:.0f}, each listener more {of[2] - of[1]:.0f}, cut {of['cut']:.0f}")


def rejected_by_replay(folder):
    """User instructions for a packet that no listener accepts, in a replay by the bench's own program."""
    program = replay_program(folder)
    counts = {}
    for many in (1000, 11000):
        capture = folder / f"{many}.pcap"
        generate(capture, many)
        for listeners in (1, 2):
            counts[listeners, many] = instructions_of([program, str(listeners), str(capture)], folder)
    one, two = ((counts[listeners, 11000] - counts[listeners, 1000]) / 10000 for listeners in (1, 2))
    print(f"user instructions for each packet that nobody accepts: one listener {one:.0f}, each more {two - one:.0f}")


def replays(folder, packets, rounds):
    """Replays beside as many cuts, and what small rings cost. The reader of a capture does not wait for its listeners, so a
    listener that is slower drops."""
    capture = folder / "in.pcap"
    generate(capture, packets)
    if shutil.which("valgrind"):
        rejected(folder)
    print(f"{packets} packets, {capture.stat().st_size / 1e6:.0f} MB, median of {rounds} rounds, {os.cpu_count()} processors")
    for interfaces, listeners in [(1, 1), (1, 2), (1, 4), (1, 8), (2, 1), (4, 1)]:
        seen, many = {}, interfaces * packets
        for _ in range(rounds):
            words = replay_words(folder, capture, interfaces, listeners, 8)
            seen.setdefault("run", []).append(at_once([words]))
            for name, commands in beside(folder, capture, interfaces, listeners):
                seen.setdefault(name, []).append(at_once(commands))
        rates = ", ".join(f"{name} {many / statistics.median(times) / 1e6:.2f}" for name, times in seen.items())
        print(f"{interfaces} interfaces, {listeners} listeners each: million packets a second: {rates}")
    for spares in (2, 8, 64):
        shares = []
        for _ in range(rounds):
            done = subprocess.run(replay_words(folder, capture, 1, 4, spares), check=True, capture_output=True, text=True)
            counts = [line.split() for line in done.stdout.splitlines()]
            matched = sum(int(line[line.index("matched") + 1]) for line in counts)
            dropped = sum(int(line[line.index("dropped") + 1]) for line in counts)
            shares.append(100 * dropped / matched)
        print(f"{spares:2} spare buffers of 1 MiB: {statistics.median(shares):5.1f} % of what matched is dropped")


def processor_seconds(process):
    """User and system time of a process so far, and how often its threads gave up the processor by themselves."""
    fields = pathlib.Path(f"/proc/{process}/stat").read_text().rpartition(")")[2].split()
    switches = 0
    for status in pathlib.Path(f"/proc/{process}/task").glob("*/status"):
        switches += int(re.search(r"^voluntary_ctxt_switches:\s*(\d+)", status.read_text(), re.MULTILINE).group(1))
    return (int(fields[11]) + int(fields[12])) / os.sysconf("SC_CLK_TCK"), switches


def silent(folder, program, listeners):
    """Processor time, and switches, of a replay with this many listeners in five seconds in which nothing comes."""
    pipe, some = folder / "silent.pipe", folder / "some.pcap"
    os.mkfifo(pipe)
    generate(some, 10)
    words = [program, *replay_words(folder, pipe, 1, listeners, 8)[1:]]
    with subprocess.Popen(words, stdout=subprocess.DEVNULL) as replay:
        with open(pipe, "wb") as to:
            to.write(some.read_bytes())
            to.flush()
            time.sleep(0.5)
            before, switched = processor_seconds(replay.pid)
            time.sleep(5)
            after, switches = processor_seconds(replay.pid)
    pipe.unlink()
    if replay.returncode != 0:
        sys.exit(f"a silent replay ended with {replay.returncode}")
    return after - before, switches - switched


def counted(words):
    """Seconds of a replay, and the share of what matched that was dropped."""
    start = time.perf_counter()
    done = subprocess.run(words, check=True, capture_output=True, text=True)
    seconds = time.perf_counter() - start
    lines = [line.split() for line in done.stdout.splitlines()]
    matched, dropped = (sum(int(line[line.index(word) + 1]) for line in lines) for word in ("matched", "dropped"))
    return seconds, dropped / matched


def slow_sink(folder, program, capture):
    """Processor seconds, seconds and the dropped share of a replay of which one OUT is read at 1 MB a second, and another at once."""
    pipe, lines = folder / "slow.pipe", folder / "slow.txt"
    os.mkfifo(pipe)
    lines.write_text(f"0 0 0 1048576 2 {pipe}\n0 0 0 1048576 2 {folder / 'fast.pcap'} udp port 53\n")
    start = time.perf_counter()
    with subprocess.Popen([program, "run", str(lines), str(capture)], stdout=subprocess.PIPE, text=True) as replay:
        with open(pipe, "rb", buffering=0) as taken:
            while taken.read(10_000):
                time.sleep(0.01)
        reports = [line.split() for line in replay.stdout]
        # What its children took is known once they were waited for.
        _, status, used = os.wait4(replay.pid, 0)
        replay.returncode = os.waitstatus_to_exitcode(status)
    pipe.unlink()
    if replay.returncode != 0:
        sys.exit(f"a replay into a slow OUT ended with {replay.returncode}")
    share = sum(int(line[line.index("dropped") + 1]) for line in reports) / sum(int(line[line.index("matched") + 1]) for line in reports)
    return used.ru_utime + used.ru_stime, time.perf_counter() - start, share


def waiting(folder, packets, rounds, programs):
    """What waiting threads cost, and what it costs to wake them; interleaved over the programs."""
    for listeners in (1, 8, 64):
        for name, program in programs.items():
            seconds, switches = silent(folder, program, listeners)
            print(f"silent for 5 s, {listeners:2} listeners, {name}: {100 * seconds / 5:6.2f} % of a processor, {switches} switches")
    capture = folder / "in.pcap"
    generate(capture, packets)
    print(f"{packets} packets, {capture.stat().st_size / 1e6:.0f} MB, median of {rounds} rounds, {os.cpu_count()} processors")
    cases = [(1, listeners, spares) for listeners in (1, 2, 4, 8) for spares in (2, 8, 64)] + [(16, 8, 8)]
    for interfaces, listeners, spares in cases:
        seen = {name: [] for name in programs}
        for _ in range(rounds):
            for name, program in programs.items():
                seen[name].append(counted([program, *replay_words(folder, capture, interfaces, listeners, spares)[1:]]))
        for name, runs in seen.items():
            rate = interfaces * packets / statistics.median(seconds for seconds, _ in runs) / 1e6
            dropped = 100 * statistics.median(share for _, share in runs)
            print(f"{interfaces:2} interfaces, {listeners} listeners each, {spares:2} spares, {name}: "
                  f"{rate:.2f} million packets a second, {dropped:.1f} % dropped")
    few = folder / "few.pcap"
    generate(few, min(packets, 5000))
    for name, program in programs.items():
        used, seconds, share = slow_sink(folder, program, few)
        print(f"an OUT of which 1 MB a second is read, {name}: {used:.2f} s of a processor in {seconds:.1f} s, {100 * share:.1f} % dropped")


# Filters of a split, each of which keeps another part of a capture that is made here; the last keeps nothing.
SPLIT_FILTERS = [
    "udp port 53", "udp port 54", "arp", "src port 1000", "dst port 53 and src port 1001", "less 300", "greater 1000", "host 10.0.0.9"]


def one_by_one(commands):
    """Seconds for commands that run one after the other."""
    return sum(at_once([words]) for words in commands)


def split_commands(folder, capture):
    """The words of a split, and those of a cut and of a tcpdump for each of its filters."""
    lines = folder / "lines.txt"
    lines.write_text("".join(f"0 {folder}/{at}-split.pcap {expr}\n" for at, expr in enumerate(SPLIT_FILTERS)))
    commands = {"split": [[program(), "split", str(lines), str(capture)]], "cut": []}
    for at, expr in enumerate(SPLIT_FILTERS):
        commands["cut"].append([program(), "cut", "-s", "0", "-e", expr, str(capture), f"{folder}/{at}-cut.pcap"])
        if shutil.which("tcpdump"):
            stay = ["-Z", "root"] if os.geteuid() == 0 else []
            words = ["tcpdump", *stay, "-r", str(capture), "-w", f"{folder}/{at}-tcpdump.pcap", expr]
            commands.setdefault("tcpdump", []).append(words)
    return commands


def splits(folder, packets, rounds):
    """One pass with eight filters beside a cut, and a tcpdump, for each of them: one after the other, and all at once."""
    capture = folder / "in.pcap"
    generate(capture, packets)
    commands = split_commands(folder, capture)
    runs = [("split", "split", one_by_one)]
    for name in commands.keys() - {"split"}:
        runs += [(f"{name}, one by one", name, one_by_one), (f"{name}, all at once", name, at_once)]
    seen = {}
    for _ in range(rounds):
        for label, name, way in sorted(runs):
            seen.setdefault(label, []).append(way(commands[name]))
    for at, expr in enumerate(SPLIT_FILTERS):
        for name in commands.keys() - {"split"}:
            if not filecmp.cmp(folder / f"{at}-split.pcap", folder / f"{at}-{name}.pcap", shallow=False):
                sys.exit(f"{expr}: split and {name} wrote different captures")
    timer = gnu_time()
    peak = f", split takes {run(commands['split'][0], folder, timer)[2] / 1024:.1f} MiB" if timer else ""
    print(f"{packets} packets, {capture.stat().st_size / 1e6:.0f} MB, {len(SPLIT_FILTERS)} filters, median of {rounds} rounds, "
          f"{os.cpu_count()} processors{peak}")
    for label, times in seen.items():
        print(f"{label:22} {statistics.median(times):6.2f} s")


def spent(words):
    """Seconds, and processor seconds, of one run."""
    start = time.perf_counter()
    with subprocess.Popen(words, stdout=subprocess.DEVNULL, stderr=subprocess.DEVNULL) as process:
        # What its children took is known once they were waited for.
        _, status, used = os.wait4(process.pid, 0)
        process.returncode = os.waitstatus_to_exitcode(status)
    if process.returncode != 0:
        sys.exit(f"{words[0]} ended with {process.returncode}")
    return time.perf_counter() - start, used.ru_utime + used.ru_stime


def rejecting(folder, packets, rounds, other):
    """What it costs to reject packets: half are UDP of another port, half ARP."""
    whole, capture, expression = folder / "whole.pcap", folder / "in.pcap", "udp port 53"
    generate(whole, packets)
    subprocess.run([program(), "cut", "-s", "0", "-e", f"not {expression}", str(whole), str(capture)], check=True)
    commands = {"bpftap cut": [program(), "cut", "-s", "0", "-e", expression, str(capture), f"{folder}/cut-out.pcap"]}
    if shutil.which("tcpdump"):
        stay = ["-Z", "root"] if os.geteuid() == 0 else []
        commands["tcpdump"] = ["tcpdump", *stay, "-r", str(capture), "-w", f"{folder}/tcpdump-out.pcap", expression]
    if other:
        commands["beside"] = [other, expression, str(capture), f"{folder}/beside-out.pcap"]
    seen = {name: [] for name in commands}
    for _ in range(rounds):
        for name, words in commands.items():
            seen[name].append(spent(words))
    for out in folder.glob("*-out.pcap"):
        if out.stat().st_size != 24:
            sys.exit(f"{out.name}: more than the header was written")
    print(f"{capture.stat().st_size / 1e6:.0f} MB, all rejected, median of {rounds} interleaved rounds, {os.cpu_count()} processors")
    for name, runs in seen.items():
        wall, used = (1000 * statistics.median(times) for times in zip(*runs))
        counted = f", {instructions_of(commands[name], folder) / 1e6:.1f} million instructions" if shutil.which("valgrind") else ""
        print(f"{name:10} {wall:7.1f} ms, {used:7.1f} ms of a processor{counted}")


def handing_over(folder, rounds):
    """Arrivals per second at a listener, at a pair in one thread and in two, and at a listener under a lock in two."""
    program = handover_program(folder)
    many = 5_000_000
    if shutil.which("valgrind"):
        for way in ["listener", "pair"]:
            count = instructions_of([program, way, "101000"], folder) - instructions_of([program, way, "1000"], folder)
            print(f"user instructions for each arrival of 660 bytes, {way}: {count / 100000:.0f}")
    ways = ["listener", "pair", "threads", "lock"]
    seen = {way: [] for way in ways}
    for _ in range(rounds):
        for way in ways:
            start = time.perf_counter()
            done = subprocess.run([program, way, str(many)], check=True, capture_output=True, text=True)
            seen[way].append((time.perf_counter() - start, int(done.stdout)))
    print(f"{many} arrivals of 660 bytes, median of {rounds} interleaved rounds, {os.cpu_count()} processors")
    for way, runs in seen.items():
        seconds = statistics.median(s for s, _ in runs)
        dropped = statistics.median(d for _, d in runs)
        print(f"{way:10} {many / seconds / 1e6:8.2f} million a second, {100 * dropped / many:5.1f} % dropped")


def hostile():
    """Name, text and exit status of expressions near the limit of 8,192 bytes, each meant to be slow or deep."""
    deep = "(" * 64
    ors = " or ".join(["1"] * 1600)
    yield "ip", "ip", 0
    yield "a chain of words", "ip" + "||ip" * 2047, 1
    yield "a chain of hosts that inherit", "host 10.0.0.1" + " or 10.0.0.1" * 681, 1
    yield "negations", "||".join(["!" * 62 + "ip"] * 124), 0
    yield "negations before a chain", "!" * 64 + "net 1" + "||1" * 2707, 1
    yield "a chain of which all is wanted", "ip" + "&&ip" * 2047, 1
    yield "a chain of a word that is known", "tcp" + "&&tcp" * 1637, 0
    yield "a chain by turns", "ip" + "&&ip||ip" * 1023, 1
    yield "a list before a chain", "port 1" + "".join(f"||{n}" for n in range(1000, 1480)) + "&&tcp" * 1050, 1
    yield "64 levels round a list, each an operand", "ip||(" * 62 + "port 1" + "".join(f"||{n}" for n in range(1000, 1480)) + ")" * 62, 1
    yield "64 levels round a sum, each an operand", "1=1||(" * 62 + "1" + "+1" * 3800 + "=1" + ")" * 62, 0
    yield "a long value before such a chain", "1=1" + "+1" * 3000 + "&&ip" * 540, 1
    yield "short parentheses", "||".join(["(ip)"] * 1365), 1
    yield "64 levels round a chain", deep + "ip" + "||ip" * 2015 + ")" * 64, 1
    yield "a chain of 64 levels", "||".join([deep + "ip" + ")" * 64] * 62), 0
    yield "64 levels that are not closed", deep + "ip" + "||ip" * 2031, 1
    yield "parentheses that are not closed", "(" * 8192, 1
    yield "64 levels that an operator follows", deep + "ip" + "||ip" * 2013 + ")" * 64 + "&1=1", 1
    yield "a group", "port (" + ors + ")", 1
    yield "64 levels of a group", "port " + deep + ors + ")" * 64, 1
    yield "64 levels round a value", deep + "len" + ")" * 64 + "=1", 0
    yield "a chain of additions", "len" + "+len" * 2046 + "=1", 1
    yield "64 levels round a chain of additions", "1=" + deep + "len" + "+len" * 2014 + ")" * 64, 1
    yield "64 levels round values that are not closed", "1=" + deep + "1" + "+1" * 4060, 1
    yield "a chain of values of 64 levels", "1=" + "+".join([deep + "len" + ")" * 64] * 48), 0
    yield "indices that are not closed", "ip[" * 2730, 1
    yield "signs before a value", "1=" + "-" * 8190, 1
    yield "the longest chain of additions", "1=1" + "+1" * 4094, 0
    yield "signs between additions", "1=1" + "+-1" * 2729, 0
    yield "a list of relations", "ip[8]=1" + "||ip[8]=1" * 909, 1
    yield "relations by turns", "ip[8]=1" + "||ip[9]=1||ip[8]=1" * 454, 1
    yield "a list of negations", "!port 1" + "&&!port 1" * 909, 1
    yield "ports of two protocols by turns", "||".join(f"tcp port {n}||udp port {n}" for n in range(1000, 1240)), 0
    yield "negations of such ports", "&&".join(f"!tcp port {n}&&!udp port {n}" for n in range(1000, 1240)), 0
    yield "such ports in another order", "||".join(f"tcp port {n}||udp port {2240 - n}" for n in range(1000, 1270)), 1
    yield "hosts and ports by turns", "||".join(f"host 10.0.0.{n}||port {1000 + n}" for n in range(255)), 1
    yield "sides by turns", "||".join(f"ip dst host 10.0.0.{n}||src host 10.0.1.{n}" for n in range(185)), 0
    yield "ports and bytes by turns", "||".join(f"tcp port {n}||tcp[2:2]={n}" for n in range(1000, 1270)), 1
    yield "a divisor of 0 after all else", "1" + "+1" * 4094 + "/0", 1
    yield "blanks", "ip" + " " * 8190, 0


def expressions(rounds):
    """The slowest shows whether one pass is enough, the small stack that calls do not go too deep."""
    _, most = resource.getrlimit(resource.RLIMIT_STACK)
    resource.setrlimit(resource.RLIMIT_STACK, (STACK, most))
    print(f"bpftap check on a stack of {STACK >> 10} KiB, median of {rounds} interleaved rounds")
    seen = {name: [] for name, _, _ in hostile()}
    for _ in range(rounds):
        for name, text, wanted in hostile():
            seconds, status, _ = run([program(), "check", text])
            if status != wanted:
                sys.exit(f"{name}: status {status} and not {wanted}")
            seen[name].append(seconds)
    for name, text, _ in hostile():
        print(f"{name:40} {len(text):5} bytes {1000 * statistics.median(seen[name]):8.2f} ms")


def main():
    parser = argparse.ArgumentParser(description=__doc__, formatter_class=argparse.RawDescriptionHelpFormatter)
    parser.add_argument("--instructions", action="store_true")
    parser.add_argument("--expressions", action="store_true")
    parser.add_argument("--listener", action="store_true")
    parser.add_argument("--steps", action="store_true")
    parser.add_argument("--explain", action="store_true")
    parser.add_argument("--run", action="store_true")
    parser.add_argument("--replay", action="store_true")
    parser.add_argument("--waiting", action="store_true")
    parser.add_argument("--beside", metavar="PATH", help="another built program, for --waiting, or another filter, for --rejecting")
    parser.add_argument("--handover", action="store_true")
    parser.add_argument("--split", action="store_true")
    parser.add_argument("--rejecting", action="store_true")
    parser.add_argument("--packets", type=int, default=150000)
    parser.add_argument("--rounds", type=int, default=5)
    words = parser.parse_args()
    if words.listener:
        with tempfile.TemporaryDirectory() as name:
            return arrivals(pathlib.Path(name))
    if words.handover:
        with tempfile.TemporaryDirectory() as name:
            return handing_over(pathlib.Path(name), words.rounds)
    if words.replay:
        with tempfile.TemporaryDirectory() as name:
            return rejected_by_replay(pathlib.Path(name))
    if not words.expressions and shutil.which("tcpdump") is None:
        print("tcpdump is missing: only bpftap is measured")
    with tempfile.TemporaryDirectory() as name:
        folder = pathlib.Path(name)
        if words.instructions:
            instructions(folder)
        elif words.steps:
            steps(folder)
        elif words.explain:
            explained(folder)
        elif words.run:
            replays(folder, words.packets, words.rounds)
        elif words.waiting:
            programs = {"this": program(), **({"beside": words.beside} if words.beside else {})}
            waiting(folder, words.packets, words.rounds, programs)
        elif words.split:
            splits(folder, words.packets, words.rounds)
        elif words.rejecting:
            rejecting(folder, words.packets, words.rounds, words.beside)
        elif words.expressions:
            expressions(20 * words.rounds)
        else:
            wall(folder, words.packets, words.rounds)


if __name__ == "__main__":
    main()
