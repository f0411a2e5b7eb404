"""Memory that is refused: each block that a command asks for, if `strace` is there and may trace."""
import concurrent.futures
import os
import platform
import re
import subprocess

from .common import ARP_RECORD, HEADER, IP, IP_RECORD, KIND, LIMIT, PROGRAM, TCP_RECORD, UDP_RECORD, Scene, Seen, can_trace, case, words_of

# So each block of memory is a call of mmap of its own, and one that grows beyond a page is a new block. A static program has musl, which takes
# many blocks by one call.
BLOCKS = {**os.environ, "GLIBC_TUNABLES": "glibc.malloc.mmap_threshold=0"}
LEAST_BLOCKS = 1 if KIND == "static" else 30
# The call that opens a file, and the C library's words for a lack of memory.
OPEN = "open" if KIND == "static" and platform.machine() == "x86_64" else "openat"
NO_MEMORY = "Out of memory" if KIND == "static" else "Cannot allocate memory"

# If mmap refuses, the C library asks brk, and then mmap once more.
OTHER_WAYS = ["brk:retval=0", "mremap:error=ENOMEM"]

# Which calls of mmap are refused, from one on: only this block, or it and all after it.
ONCE, FOR_GOOD = (lambda call: f"{call}..{call + 1}"), (lambda call: f"{call}+")

OUTPUTS = ["out.pcap", "all.pcap"]
FILES = {"in.pcap": HEADER + ARP_RECORD + IP_RECORD + TCP_RECORD + UDP_RECORD, "ip.bpf": IP, "lines.txt": "64 out.pcap arp\n64 all.pcap\n",
         "bad.txt": "64 out.pcap\n64 all.pcap prot 80\n", "word.txt": "0 0 64 96 2 out.pcap prot 80\n",
         "small.txt": "64 128 tcp\n64 95\n", "listeners.txt": "64 128 tcp or arp\n", "script.txt": "arrive\narrive\nread 0\narrive\n"}

EXPRESSION = "'not (udp port 53 and len > 40) or tcp[tcpflags] & tcp-syn != 0'"

COMMANDS = [
    f"check -d {EXPRESSION}",
    f"check -x {EXPRESSION}",
    "check -x 'not port 80 and tcp or port (1 or 2) or -len = ip[1]'",
    "check -f ip.bpf",
    f"explain -e {EXPRESSION} in.pcap",
    "explain -f ip.bpf in.pcap",
    f"explain -p 2 -e {EXPRESSION} in.pcap",
    "explain -p 2 -f ip.bpf in.pcap",
    f"explain -q -e {EXPRESSION} in.pcap",
    f"compare {EXPRESSION} arp in.pcap in.pcap",
    f"compare -f ip.bpf {EXPRESSION} in.pcap",
    f"cut -s 64 -c -e {EXPRESSION} in.pcap out.pcap",
    "cut -s 64 -c -f ip.bpf in.pcap out.pcap",
    "cut -s 64 --bytes 24-84 -e arp in.pcap out.pcap",
    "split lines.txt in.pcap",
    "split --json lines.txt in.pcap",
    "steps listeners.txt script.txt in.pcap",
    "steps -v listeners.txt script.txt in.pcap",
    "steps -v --json listeners.txt script.txt in.pcap",
]

FAULTS = ["--hints check 'src prot 17'", "--hints cut -s 0 in.pcap none/out.pcap", "--hints check tcp port 80", "--hints explain tcp in.pcap",
          "--hints split bad.txt in.pcap", "--hints run word.txt in.pcap", "--hints steps small.txt script.txt in.pcap"]


def traced(scene, words, which=None):
    """What the program prints if these calls of mmap are refused, the files then, and the calls."""
    refused = [] if which is None else [f"mmap:error=ENOMEM:when={which}", *OTHER_WAYS]
    injected = [word for one in refused for word in ("-e", f"inject={one}")]
    scene.start(FILES)
    calls = scene.folder / "calls"
    command = ["strace", "-qq", "-o", calls, "-e", "trace=mmap,brk,mremap", *injected, PROGRAM, *words_of(words)]
    done = subprocess.run(command, cwd=scene.folder, stdin=subprocess.DEVNULL, capture_output=True, timeout=LIMIT, env=BLOCKS)
    found = [line for line in calls.read_text().splitlines() if line.startswith("mmap(")]
    return Seen(done.stdout, done.stderr, done.returncode), [scene.read(name) or b"" for name in OUTPUTS], found


def first_block(calls):
    """Which call is the program's first: after those that load the C library, and one more that initialises it. Of a static one it is the first."""
    loading = [number for number, call in enumerate(calls, 1) if "MAP_PRIVATE|MAP_ANONYMOUS, -1, 0" not in call]
    return max(loading) + 2 if KIND == "dynamic" else 1


def refusals(folder, words, which):
    """What the program does undisturbed, and then with each block refused in turn; the last run asks for no more."""
    folder.mkdir()
    scene = Scene(folder)
    seen, files, calls = traced(scene, words)
    runs, call = [(0, False, seen, files)], first_block(calls)
    while len(runs) == 1 or runs[-1][1]:
        seen, files, calls = traced(scene, words, which(call))
        runs.append((call, any("INJECTED" in one for one in calls), seen, files))
        call += 1
    return runs


def sweep(scene, commands, which):
    """For each of some commands its runs, several commands at a time."""
    if not can_trace():
        return scene.leave("strace can't trace here")
    with concurrent.futures.ThreadPoolExecutor(4) as pool:
        started = [pool.submit(refusals, scene.folder / str(number), words, which) for number, words in enumerate(commands)]
        for words, one in zip(commands, started):
            yield words, one.result()


# Out of memory, for printing and for a capture; of an expression of `compare`, and of one of several captures, with a line that names it. With `--json` it is an object; that of a
# capture is a line if there is no memory for an object.
WANTING = rb'bpftap: NoMemory\n(?:  EXPR[12]:\n)?|{"fault":"NoMemory","numbers":\[\]}\n'
WANTING_CAPTURE = rb'bpftap: Capture \d+ NoMemory\n(?:  in.pcap\n)?|{"fault":"Capture NoMemory","numbers":\[\d+\],"file":"in.pcap"}\n'


def is_wanting(seen):
    """Whether out of memory is reported, with status 1, and nothing else: for printing, for a capture, or for both."""
    return re.fullmatch(rb"%b|(%b)?(%b)" % (WANTING, WANTING, WANTING_CAPTURE), seen.err) is not None and seen.status == 1


def lines_of(seen):
    """What was printed. If memory for a later capture was refused, the counts of those before it follow, and are left out."""
    return re.sub(rb"\d+ packets: .*\n$", b"", seen.out) if b"Capture" in seen.err else seen.out


def check_beginning(scene, what, part, whole):
    """What was printed and written is a prefix of what it is undisturbed."""
    (seen, files), (wanted, texts) = part, whole
    printed = lines_of(seen)
    scene.check(f"printed {what}", wanted.out[: len(printed)], printed)
    scene.check(f"written {what}", [text[: len(one)] for one, text in zip(files, texts)], files)


@case
def refused_memory_is_reported(scene):
    """All memory from a block on is refused: that is reported, with status 1, and what was printed and written is a prefix."""
    for words, [(_, _, whole, texts), *runs] in sweep(scene, COMMANDS, FOR_GOOD):
        scene.check(f"blocks of {words}", len(runs) > LEAST_BLOCKS, True)
        for call, is_refused, seen, files in runs:
            what = f"by {words}, refused from call {call}"
            scene.check(f"reported {what}", is_wanting(seen) if is_refused else seen == whole, True)
            check_beginning(scene, what, (seen, files), (whole, texts))


@case
def refused_memory_changes_no_answer(scene):
    """One block is refused, and later ones are not: that is reported, or all is as it is undisturbed."""
    for words, [(_, _, whole, texts), *runs] in sweep(scene, COMMANDS, ONCE):
        for call, _, seen, files in runs:
            what = f"by {words}, call {call} refused"
            scene.check(f"reported {what}", is_wanting(seen) or (seen, files) == (whole, texts), True)
            check_beginning(scene, what, (seen, files), (whole, texts))


def call_on(scene, words, name, part):
    """Which call of this name, from 1, is the first that has a part in its line; the program runs undisturbed."""
    calls = scene.folder / "calls"
    command = ["strace", "-qq", "-o", calls, "-e", f"trace={name}", PROGRAM, *words_of(words)]
    subprocess.run(command, cwd=scene.folder, stdin=subprocess.DEVNULL, capture_output=True, timeout=LIMIT)
    return next(number for number, line in enumerate(calls.read_text().splitlines(), 1) if part in line)


# Words, a file that they read, and a part of its first line.
READ_WHOLE = [
    ("check -f ip.bpf", "ip.bpf", "4\\n40 0"),
    ("explain -f ip.bpf in.pcap", "ip.bpf", "4\\n40 0"),
    ("cut -s 0 -f ip.bpf in.pcap out.pcap", "ip.bpf", "4\\n40 0"),
    ("split lines.txt in.pcap", "lines.txt", "64 out.pcap"),
    ("steps listeners.txt script.txt in.pcap", "listeners.txt", "64 128 tcp"),
    ("steps listeners.txt script.txt in.pcap", "script.txt", "arrive"),
    ("steps listeners.txt script.txt in.pcap", "in.pcap", "\\324\\303"),
    ("run word.txt in.pcap", "word.txt", "0 0 64 96"),
]


@case
def memory_that_the_system_wants_is_a_fault_of_the_file(scene):
    """The system has no memory to open or read a file: the file is reported, with status 3, and the reason is a hint."""
    if not can_trace():
        return scene.leave("strace can't trace here")
    scene.start(FILES)
    refused = [(words, path, OPEN, f'"{path}"') for words, path, _ in READ_WHOLE]
    refused += [(words, path, "read", part) for words, path, part in READ_WHOLE]
    refused += [(f"{words} in.pcap{out}", "in.pcap", OPEN, '"in.pcap"') for words, out in [("cut -s 0", " out.pcap"), ("explain -e ip", "")]]
    for words, path, name, part in refused:
        number = call_on(scene, words, name, part)
        scene.start(FILES)
        inject = f"strace -qq -o calls -e trace={name} -e inject={name}:error=ENOMEM:when={number}"
        seen = scene.run(f"--hints {words}", first=f'exec {inject} "$0" "$@"')
        wanted = f"bpftap: Device {path}\n  {NO_MEMORY} (os error 12)\n"
        scene.check(f"standard error of {words}, {name} of {path} refused", (seen.out, seen.err.decode(), seen.status), (b"", wanted, 3))


# Words that read a text from standard input, and what is printed if it is one line of 16 MiB.
TEXTS = [
    ("check -f /dev/stdin", "TextTooLong"), ("explain -f /dev/stdin in.pcap", "TextTooLong"), ("compare -f /dev/stdin ip in.pcap", "TextTooLong"),
    ("cut -s 0 -f /dev/stdin in.pcap out.pcap", "TextTooLong"), ("split /dev/stdin in.pcap", "Lines 1"), ("run /dev/stdin in.pcap", "Listeners 1"),
    ("steps /dev/stdin script.txt in.pcap", "Listeners 1"), ("steps listeners.txt /dev/stdin in.pcap", "Script 1"),
]
MOST = 1 << 24


@case
def a_text_is_read_up_to_its_bound(scene):
    """In 64 MB a LISTING, LINES, LISTENERS or SCRIPT is refused if it is a pipe that never ends, or a file of 1 GB; one of 16 MiB is read whole."""
    scene.start({**FILES, "most.txt": b"a" * MOST})
    with open(scene.folder / "long.txt", "wb") as long:
        long.truncate(1 << 30)
    for words, fault in TEXTS:
        scene.expect(words, 1, f"bpftap: {fault}\n", streams="< most.txt", first="ulimit -v 65536")
        for streams in ["< long.txt", "< <(exec yes aaaaaaaaaaaaaaaaaaaaaaaaaaaaaaaaaaaaaaaaaaaaaaaaaaaaaaaaaaaaa)"]:
            wanted = f"bpftap: TextTooLong\n  /dev/stdin has more than {MOST} bytes\n"
            scene.expect(f"--hints {words}", 1, wanted, streams=streams, first="ulimit -v 65536")
    # A byte more than the bound.
    with open(scene.folder / "most.txt", "ab") as most:
        most.write(b"a")
    scene.expect("split most.txt in.pcap", 1, "bpftap: TextTooLong\n")


@case
def hints_say_nothing_else(scene):
    """One block is refused: that is reported, or the fault, and no hint that an undisturbed run lacks."""
    for words, [(_, _, whole, _), *runs] in sweep(scene, FAULTS, ONCE):
        for call, _, seen, _ in runs:
            first, *hints = seen.err.splitlines()
            same = (first, seen.status) == (whole.err.splitlines()[0], whole.status)
            scene.check(f"standard error of {words}, call {call} refused", is_wanting(Seen(b"", first + b"\n", seen.status)) or same, True)
            others = [hint for hint in hints if hint not in whole.err.splitlines()]
            scene.check(f"hints of {words}, call {call} refused", others, [])
            scene.check(f"printed by {words}, call {call} refused", seen.out, b"")
