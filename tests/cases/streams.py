"""Standard streams that are closed or full: no file of a command gets what is printed there."""
import itertools
import os
import select
import shutil
import subprocess

from .common import ALL, HEADER, IP, LIMIT, PROGRAM, TCP_RECORD, TORN, UDP_RECORD, WHOLE, Seen, as_bytes, can_trace, case, fault_lines, header, words_of
from .steps import EXPLAINED, REPORT

FILES = {
    "all.bpf": ALL, "l.txt": "32 64\n", "s.txt": "arrive\n", "r.txt": "0 0 0 1048576 2 out.pcap\n",
    "whole.pcap": WHOLE, "torn.pcap": TORN,
}
PART = "24-54 of 54 packets 1 kept 1 bytes 54 Clean whole.pcap\n"
FULL = "Device standard output"
UNKNOWN = "Device /dev/stdout"
RAN = "interface 0 listener 0 received 1 matched 1 dropped 0 written 1 Clean\n"

# The words, what is printed, the faults, the status, and OUT.
COMMANDS = [
    ("cut -s 0 -f all.bpf whole.pcap out.pcap", "", [], 0, {"out.pcap": WHOLE}),
    ("cut -s 0 -f all.bpf torn.pcap out.pcap", "", ["TornRecord 1"], 2, {"out.pcap": WHOLE}),
    ("check ip", IP, [], 0, {}),
    ("check 'tcp and 80'", "", ["NoQualifier 8"], 1, {}),
    ("steps l.txt s.txt whole.pcap", REPORT, [], 0, {}),
    ("steps -v l.txt s.txt torn.pcap", EXPLAINED + REPORT, ["Capture 0 TornRecord 1"], 2, {}),
    ("run r.txt whole.pcap", RAN, [], 0, {"out.pcap": WHOLE}),
    ("run r.txt torn.pcap", RAN, ["Interface 0 Capture 0 TornRecord 1"], 2, {"out.pcap": WHOLE}),
]


# The program in a system without /dev and /proc, in place of which there is nothing, with redirections in a shell's notation.
HIDING = 'for hidden in /dev /proc; do mount -t tmpfs none $hidden || exit 99; done; exec "$0" "$@"'
OWN = ["unshare", "--mount"] if os.geteuid() == 0 else ["unshare", "--user", "--map-root-user", "--mount"]


def can_hide():
    """Whether `unshare` is there, and /dev and /proc may be hidden."""
    return shutil.which("unshare") is not None and subprocess.run([*OWN, "bash", "-c", HIDING, "true"], capture_output=True).returncode == 0


def hidden(streams=""):
    """The commands after which a scene runs the program where nothing is in /dev and /proc."""
    return f"exec {' '.join(OWN)} bash -c '{HIDING} {streams}' \"$0\" \"$@\""


def closings():
    """Each combination of closed standard streams: its redirections, and whether output and error are among them."""
    streams = ["<&-", ">&-", "2>&-"]
    for closed in itertools.product([False, True], repeat=3):
        yield " ".join(text for text, is_closed in zip(streams, closed) if is_closed), closed[1], closed[2]


def check_closings(scene, commands, call):
    """What each combination of closed streams changes of what is printed and reported, and of the files. `call` says how redirections are made."""
    for streams, no_out, no_err in closings():
        for words, printed, faults, status, files in commands:
            scene.start(FILES)
            before = scene.files()
            if no_out and printed:
                printed, faults, status = "", [FULL, *faults], 3
            scene.expect(words, status, "" if no_err else fault_lines(*faults), printed, **call(streams))
            scene.check(f"files after {words} {streams}", scene.files(), {**before, **files})


@case
def no_file_gets_what_is_printed(scene):
    """With each combination of closed streams OUT has only the packets, and the status says what is not printed."""
    check_closings(scene, COMMANDS, lambda streams: {"streams": streams})


# The same where `/dev/stdout` leads nowhere: no file can be compared with standard output.
HIDDEN = [(words, "", [UNKNOWN], 3, {}) if words.startswith(("steps", "run")) else (words, *rest) for words, *rest in COMMANDS]


@case
def nothing_gets_what_is_printed_without_dev(scene):
    """So it is where /dev and /proc are not there, as in a new root, and commands that print beside files are refused."""
    if not can_hide():
        return scene.leave("/dev and /proc can't be hidden")
    check_closings(scene, HIDDEN, lambda streams: {"first": hidden(streams)})


@case
def nothing_is_done_if_a_closed_stream_is_not_kept(scene):
    """One of the three opens that take the numbers of closed streams is refused: its stream is reported, with status 3, and nothing is done."""
    if not can_trace():
        return scene.leave("strace can't trace here")
    for streams, _, no_err in closings():
        for call, name in enumerate(["/dev/stdin", "/dev/stdout", "/dev/stderr"], 1):
            tracing = f"strace -qq -o /dev/null -P / -e trace=open,openat -e inject=open,openat:error=EMFILE:when={call}"
            first = f"exec {tracing} bash -c 'exec \"$0\" \"$@\" {streams}' \"$0\" \"$@\""
            for words in ["run r.txt whole.pcap", "check ip"]:
                scene.start(FILES)
                before = scene.files()
                scene.expect(words, 3, "" if no_err else fault_lines(f"Device {name}"), first=first)
                scene.check(f"files after {words} {streams}, open {call} refused", scene.files(), before)


@case
def a_closed_stream_is_no_out(scene):
    """An OUT that is named as a stream which is closed can't be made: that is reported, with status 3."""
    scene.put({**FILES, "stdout.txt": "0 /dev/stdout\n", "ran.txt": "0 0 0 1048576 2 /dev/stdout\n"})
    scene.put({"part.txt": scene.run("cut -s 0 --bytes 24-54 whole.pcap part.pcap").out})
    for words in ["cut -s 0 whole.pcap", "cut -s 0 torn.pcap", "cut -s 0 --bytes 24-54 whole.pcap", "join part.txt"]:
        for path in ["/dev/stdout", "/dev/fd/1", "/proc/self/fd/1"]:
            scene.expect(f"{words} {path}", 3, fault_lines(f"Device {path}"), streams=">&-")
    scene.expect("cut -s 0 -w /dev/stdout whole.pcap whole.pcap", 3, fault_lines("Device /dev/stdout"), streams=">&-")
    scene.expect("split stdout.txt whole.pcap", 3, fault_lines("Device /dev/stdout"), streams=">&-")
    scene.expect("run ran.txt whole.pcap", 3, fault_lines(FULL), streams=">&-")
    scene.expect("cut -s 0 whole.pcap /dev/stderr", 3, streams="2>&-")
    scene.expect("cut -s 0 /dev/stdin out.pcap", 3, fault_lines("Device /dev/stdin"), streams="<&-")
    # Nothing is lost where nothing was asked for.
    scene.expect("cut -s 0 whole.pcap /dev/null", streams=">&-")


@case
def no_file_gets_help(scene):
    """If standard output does not take help, that is reported, and the help goes nowhere else."""
    scene.put(FILES)
    before = scene.files()
    for streams, no_out, no_err in closings():
        seen = scene.run("--help", streams)
        wanted = (as_bytes(fault_lines(FULL)) if no_out and not no_err else b"", 3 if no_out else 0)
        scene.check(f"--help {streams}", (seen.err, seen.status), wanted)
        if not no_out:
            scene.check(f"printed by --help {streams}", b"Examples:\n" in seen.out, True)
        scene.check(f"files after --help {streams}", scene.files(), before)


@case
def a_full_device_is_reported(scene):
    """What a full device does not take is reported with status 3, and other faults after it."""
    scene.put({**FILES, "two.txt": "0 0 64 1048576 2 tcp.pcap tcp\n0 0 0 1048576 2 all.pcap\n"})
    scene.put({"tu.pcap": HEADER + TCP_RECORD + UDP_RECORD})
    for words in ["check ip", "steps l.txt s.txt whole.pcap"]:
        scene.expect(words, 3, fault_lines(FULL), streams=">/dev/full")
    scene.expect("run two.txt tu.pcap torn.pcap", 3, fault_lines(FULL, "Interface 0 Capture 1 TornRecord 1"), streams=">/dev/full")
    scene.check("one OUT", scene.read("tcp.pcap"), header(64) + TCP_RECORD)
    scene.check("the other OUT", scene.read("all.pcap"), HEADER + TCP_RECORD + UDP_RECORD + WHOLE[24:])


@case
def a_pipe_that_nobody_reads_is_not_reported(scene):
    """What a broken pipe does not take ends with status 3 and is not reported, not even for an OUT of `cut`; other faults are."""
    scene.put(FILES)
    steps = ["steps l.txt s.txt whole.pcap", "steps -v l.txt s.txt whole.pcap"]
    for words in ["--help", "check ip", *steps, "run r.txt whole.pcap"]:
        scene.check(f"{words} |", scene.run_unread(words), Seen(b"", b"", 3))
    scene.check("OUT", scene.read("out.pcap"), WHOLE)
    for words in ["cut -s 0 whole.pcap /dev/stdout", "--hints cut -s 0 -c torn.pcap /dev/stdout", "--hints cut -s 0 whole.pcap /dev/fd/1"]:
        scene.check(f"{words} |", scene.run_unread(words), Seen(b"", b"", 3))
    torn = as_bytes(fault_lines("Capture 0 TornRecord 1"))
    scene.check("steps of a torn capture |", scene.run_unread("steps l.txt s.txt torn.pcap"), Seen(b"", torn, 3))


@case
def a_fifo_whose_reader_has_gone_is_an_output_that_failed(scene):
    """An OUT of `cut` that is no standard output is reported, with its reason: a fifo takes 64 KiB, and then nobody reads it any more."""
    scene.put({"long.pcap": WHOLE[:24] + WHOLE[24:] * 4000})
    os.mkfifo(scene.folder / "fifo")
    reader = os.open(scene.folder / "fifo", os.O_RDONLY | os.O_NONBLOCK)
    words = [PROGRAM, "--hints", "cut", "-s", "0", "long.pcap", "fifo"]
    with subprocess.Popen(words, cwd=scene.folder, stdout=subprocess.PIPE, stderr=subprocess.PIPE) as cutting:
        found, _, _ = select.select([reader], [], [], LIMIT)
        os.close(reader)
        out, err = cutting.communicate(timeout=LIMIT)
    wanted = fault_lines("Device fifo") + "  Broken pipe (os error 32)\n"
    scene.check("standard error", (bool(found), out, err.decode(), cutting.returncode), (True, b"", wanted, 3))


def refused_once(scene, words, call):
    """What is printed, and the status, if this call of write fails, counted from 1, and no later one."""
    inject = f"strace -qq -o calls -e trace=write -e inject=write:error=ENOSPC:when={call}"
    return scene.run(words, first=f'exec {inject} "$0" "$@"')


# Words that print all at once, and how many writes come before: those of OUT.
PRINTED_ONCE = [
    ("check ip", 0), ("check -x ip", 0), ("explain -e ip whole.pcap", 0), ("explain -p 0 -e ip whole.pcap", 0), ("compare ip arp whole.pcap", 0),
    ("steps l.txt s.txt whole.pcap", 0), ("steps -v l.txt s.txt whole.pcap", 0), ("split lines.txt whole.pcap", 1),
]


@case
def nothing_is_printed_after_a_failed_write(scene):
    """One write of standard output fails, and later ones would not: that is reported, and nothing is printed then."""
    scene.put({**FILES, "lines.txt": "0 out.pcap\n"})
    if not can_trace():
        return scene.leave("strace can't trace here")
    for words, before in PRINTED_ONCE:
        seen = refused_once(scene, words, before + 1)
        scene.check(f"{words}, one write refused", seen, Seen(b"", as_bytes(fault_lines(FULL)), 3))


@case
def no_hint_comes_without_its_fault(scene):
    """The line of a fault is not taken, and later ones would be: no hint comes then, and the status says the fault."""
    scene.put(FILES)
    if not can_trace():
        return scene.leave("strace can't trace here")
    for words, status in [("check 'src prot 17'", 1), ("cut -s 0 none.pcap out.pcap", 3), ("steps none.txt s.txt whole.pcap", 3),
                          ("check -f none.bpf", 3), ("explain -e ip torn.pcap", 2)]:
        # What was explained, the counts, and then the line.
        writes = 3 if status == 2 else 1
        seen = refused_once(scene, f"--hints {words}", writes)
        scene.check(f"{words}, its line refused", (seen.err, seen.status), (b"", status))


# Words whose OUT, or a file of theirs that is read, is a file that a stream goes to; the stream, and the fault.
SHARED = [
    ("run r.txt whole.pcap", ">>out.pcap", "out.pcap"),
    ("run r.txt whole.pcap", ">>./out.pcap", "out.pcap"),
    ("run r.txt whole.pcap", ">>whole.pcap", "whole.pcap"),
    ("run r.txt torn.pcap + torn.pcap whole.pcap", ">>whole.pcap", "whole.pcap"),
    ("run r.txt whole.pcap", ">>r.txt", "r.txt"),
    ("run stdout.txt whole.pcap", ">>out.pcap", "/dev/stdout"),
    ("run stdout.txt whole.pcap", "", "/dev/stdout"),
    ("steps l.txt s.txt whole.pcap", ">>l.txt", "l.txt"),
    ("steps l.txt s.txt whole.pcap", ">>s.txt", "s.txt"),
    ("steps l.txt s.txt torn.pcap whole.pcap", ">>./whole.pcap", "whole.pcap"),
    ("explain -f all.bpf whole.pcap", ">>all.bpf", "all.bpf"),
    ("explain -e ip whole.pcap", ">>whole.pcap", "whole.pcap"),
    ("explain -e ip torn.pcap whole.pcap", ">>whole.pcap", "whole.pcap"),
    ("compare ip arp whole.pcap", ">>whole.pcap", "whole.pcap"),
    ("check -f all.bpf", ">>all.bpf", "all.bpf"),
    ("check -d -f ./all.bpf", ">>all.bpf", "./all.bpf"),
    ("explain -c -e ip whole.pcap", ">>whole.pcap", "whole.pcap"),
    ("info whole.pcap", ">>whole.pcap", "whole.pcap"),
    ("parts 2 whole.pcap", ">>whole.pcap", "whole.pcap"),
    ("join part.txt out.pcap", ">>whole.pcap", "whole.pcap"),
    ("cut -s 0 --bytes 24-54 whole.pcap out.pcap", ">>out.pcap", "out.pcap"),
    ("split lines.txt whole.pcap", ">>out.pcap", "out.pcap"),
]
SHARED_FILES = {**FILES, "stdout.txt": "0 0 0 1048576 2 /dev/stdout\n", "lines.txt": "0 out.pcap\n", "part.txt": PART, "out.pcap": "kept"}


# Words whose OUT, or FILE of `-p`, is standard input by each of its names, and what the fault names.
FED_BACK = [
    ("cut -s 0 whole.pcap /dev/stdin", "/dev/stdin"), ("cut -s 0 whole.pcap /dev/fd/0", "/dev/fd/0"), ("cut -s 0 -w /proc/self/fd/0 whole.pcap whole.pcap", "/proc/self/fd/0"),
    ("cut -s 0 /dev/stdin /dev/fd/0", "/dev/fd/0"), ("split stdin.txt whole.pcap", "/dev/stdin"), ("run fed.txt whole.pcap", "/dev/stdin"),
    ("steps -p /dev/stdin l.txt s.txt whole.pcap", "/dev/stdin"), ("compare -w /dev/stdin ip arp", "/dev/stdin"),
]


@case
def no_output_is_standard_input(scene):
    """An OUT that is the pipe or the file of standard input is refused at once, and nothing is written there."""
    scene.put({**FILES, "stdin.txt": "0 /dev/stdin\n", "fed.txt": "0 0 0 1048576 2 /dev/stdin\n", "kept.pcap": "kept"})
    before = scene.files()
    for words, path in FED_BACK:
        reader, writer = os.pipe()
        # Its writer lives on, so that a call that reads what it has written would wait for more.
        done = subprocess.run([PROGRAM, *words_of(words)], cwd=scene.folder, stdin=reader, capture_output=True, timeout=LIMIT)
        waiting = select.select([reader], [], [], 0)[0]
        os.close(reader), os.close(writer)
        scene.check(f"{words} from a pipe", (done.stdout, done.stderr.decode(), done.returncode, waiting), (b"", fault_lines(f"SameFile {path}"), 1, []))
        scene.expect(words, 1, fault_lines(f"SameFile {path}"), streams="<> kept.pcap")
        scene.check(f"files after {words}", scene.files(), before)
    scene.expect("--hints cut -s 0 whole.pcap kept.pcap", 1, fault_lines("SameFile kept.pcap") + "  standard input comes from that file: name another OUT\n",
                 streams="< kept.pcap")
    # A device loses nothing.
    scene.expect("cut -s 0 whole.pcap /dev/null", streams="< /dev/null")


@case
def commands_that_print_are_refused_without_proc(scene):
    """Where nothing is in /dev and /proc, no command prints into a file that it reads or writes."""
    if not can_hide():
        return scene.leave("/dev and /proc can't be hidden")
    scene.put(SHARED_FILES)
    before = scene.files()
    for words, streams, _ in SHARED:
        scene.expect(words, 3, fault_lines(UNKNOWN), first=hidden(streams))
        scene.check(f"files after {words} {streams}", scene.files(), before)


@case
def a_stream_that_is_not_known_is_refused(scene):
    """The system does not say where standard output goes: that is reported, with status 3, and nothing is printed or written."""
    if not can_trace():
        return scene.leave("strace can't trace here")
    scene.put(SHARED_FILES)
    before = scene.files()
    for words in ["explain -c -e ip whole.pcap", "split lines.txt whole.pcap"]:
        for error in ["EIO", "EACCES"]:
            inject = f"strace -qq -o /dev/null -P /dev/stdout -e trace=statx -e inject=statx:error={error}"
            scene.expect(words, 3, fault_lines(UNKNOWN), first=f'exec {inject} "$0" "$@"')
            scene.check(f"files after {words}, {error}", scene.files(), before)


@case
def an_interrupted_look_is_taken_again(scene):
    """A signal interrupts one call of statx after the other: all is as it is undisturbed."""
    if not can_trace():
        return scene.leave("strace can't trace here")
    for words in ["cut -s 0 whole.pcap out.pcap", "explain -e ip whole.pcap", "cut -s 0 --bytes 24-54 whole.pcap out.pcap", "parts 1 whole.pcap",
                  "join part.txt out.pcap", "run r.txt whole.pcap"]:
        scene.start({**FILES, "part.txt": PART})
        whole = scene.run(words, first='exec strace -qq -o calls -e trace=statx "$0" "$@"')
        written, calls = scene.read("out.pcap"), len(scene.read("calls").splitlines())
        scene.check(f"calls of {words}", calls > 3, True)
        for call in range(1, calls + 1):
            scene.start({**FILES, "part.txt": PART})
            seen = scene.run(words, first=f'exec strace -qq -o calls -e trace=statx -e inject=statx:error=EINTR:when={call} "$0" "$@"')
            scene.check(f"{words}, call {call} of statx interrupted", (seen, scene.read("out.pcap")), (whole, written))


@case
def a_stream_is_a_file_too(scene):
    """Standard output goes to no OUT and to no file that is read, and standard error to no OUT."""
    scene.put(SHARED_FILES)
    before = scene.files()
    for words, streams, path in SHARED:
        scene.expect(words, 1, fault_lines(f"SameFile {path}"), streams=streams)
        scene.check(f"files after {words} {streams}", scene.files(), before)
    for words in ["run r.txt whole.pcap", "cut -s 0 whole.pcap out.pcap", "cut -s 0 whole.pcap /dev/stderr"]:
        path = words.split()[-1] if words.startswith("cut") else "out.pcap"
        scene.expect(words, 1, streams="2>out.pcap")
        scene.check(f"{words} 2>out.pcap", scene.read("out.pcap"), as_bytes(fault_lines(f"SameFile {path}")))
    # A cut prints nothing, so that its OUT may be what standard output goes to.
    scene.expect("cut -s 0 whole.pcap /dev/stdout", streams=">out.pcap")
    scene.check("cut to standard output", scene.read("out.pcap"), WHOLE)
    scene.expect("cut -s 0 whole.pcap out.pcap", streams=">out.pcap")
    scene.check("cut to the file of standard output", scene.read("out.pcap"), WHOLE)
