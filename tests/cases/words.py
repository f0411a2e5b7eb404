"""The words of the command line: those that are no command, and those that ask for help or the version."""
from .common import HEADER, TCP_RECORD, VERSION, WHOLE, case, fault_lines, words_of
from .manual import commands

WRONG = [
    "",
    "run",
    "run listeners.txt",
    "dump",
    "cut",
    "cut -s 0 in.pcap",
    "cut -s 0 -f x in.pcap",
    "cut -s 262145 -f x in.pcap out.pcap",
    "cut -s +5 -f x in.pcap out.pcap",
    "cut -s '' -f x in.pcap out.pcap",
    "cut -s 99999999999 -f x in.pcap out.pcap",
    "cut -s 0 -f x -o middle in.pcap out.pcap",
    "cut -s 0 -f x -u milli in.pcap out.pcap",
]


@case
def bad_usage_ends_with_one(scene):
    """Words that are no command print nothing, are reported and end with status 1."""
    for words in WRONG:
        seen = scene.run(words)
        scene.check(f"standard error of {words!r}", seen.err != b"", True)
        scene.check(f"printed of {words!r}, and its status", (seen.out, seen.status), (b"", 1))
        scene.check(f"files after {words!r}", scene.files(), {})


# Words that ask for help or the version, and a part of it.
HELP = [
    ("--version", f"bpftap {VERSION}, proved in the logic ".encode()),
    ("-V", f"bpftap {VERSION}, ".encode()),
    ("--help", b"Examples:\n"),
    ("help cut", b"[default: little]"),
    ("help filter", b"Filter expressions say which packets are wanted."),
    ("cut -h", b"[default: micro]"),
    ("run -h", b"INTERFACE FLUSH SNAP CAPACITY SPARES OUT EXPRESSION"),
]


@case
def help_ends_with_none(scene):
    """Help and the version are printed, nothing is reported, and the status is 0."""
    for words, part in HELP:
        seen = scene.run(words)
        scene.check(f"{part!r} in {words!r}", part in seen.out, True)
        scene.check(f"standard error of {words!r}, and its status", (seen.err, seen.status), (b"", 0))


@case
def help_has_a_page_of_the_language(scene):
    """`help expressions` prints at least twenty examples, and each of them compiles."""
    seen = scene.run("help expressions")
    scene.check("standard error and status", (seen.err, seen.status), (b"", 0))
    lines = seen.out.decode().partition("Examples:\n")[2].partition("\n\n")[0].splitlines()
    examples = [line[2:48].rstrip() for line in lines]
    scene.check("at least twenty", len(examples) >= 20, True)
    for example in examples:
        checked = scene.run(["check", example])
        scene.check(f"check {example!r}", (checked.err, checked.status), (b"", 0))


# Commands that there are not, and a part of the hint on each.
POINTED = [
    ("count in.pcap", b"bpftap explain -c"), ("filter tcp in.pcap out.pcap", b"bpftap cut"), ("read in.pcap", b"bpftap explain"),
    ("merge a.pcap b.pcap", b"mergecap"), ("print in.pcap", b"tcpdump -nr IN"), ("show", b"tcpdump -nr IN"), ("dump x", b"tcpdump -nr IN"),
    ("hexdump in.pcap", b"bpftap explain -p PLACE -e '' IN"), ("diff a b", b"bpftap compare EXPR1 EXPR2 IN"), ("version", b"bpftap --version"),
    ("head in.pcap", b"editcap -r -F nsecpcap IN OUT 1-N"), ("assemble x", b"bpftap check -f FILE"),
    ("disassemble x", b"bpftap check -d -f FILE"), ("completions bash", b"./install"), ("search tcp in.pcap", b"bpftap explain -l -e EXPR IN"),
    ("parse in.pcap", b"bpftap explain -e EXPR IN"), ("decode in.pcap", b"tcpdump -nr IN"), ("packets in.pcap", b"bpftap info IN"),
    ("stat in.pcap", b"bpftap info IN"), ("repair in.pcap", b"bpftap info IN"), ("dot ip", b"bpftap check --dot EXPR"), ("draw ip", b"bpftap check --dot EXPR"),
    ("slice in.pcap", b"editcap -A START -B STOP"), ("trim in.pcap", b"editcap -A START -B STOP"), ("sort in.pcap", b"reordercap IN OUT"),
    ("export in.pcap", b"bpftap explain --json -e EXPR IN"), ("hex in.pcap", b"-p PLACE -e '' IN"), ("bytes in.pcap", b"-p PLACE -e '' IN"),
    ("expressions", b"bpftap help expressions"), ("language", b"bpftap help expressions"), ("help merge", b"mergecap"),
    ("sniff", b"tcpdump -i INTERFACE -w OUT"), ("anonymize in.pcap", b"tcprewrite"), ("anonymise in.pcap", b"tcprewrite"),
]

WITHOUT_OPTION = "captures are words without an option: IN, and for cut OUT after it, or after -w"

PIECES = "in pieces: editcap -c PACKETS -F nsecpcap IN OUT, or -i SECONDS in place of -c PACKETS"

# Words that are refused or that a file fails by, the status, and the hints below all else.
WORDS_OF_OTHERS = [
    ("cut -s 0 -F x in.pcap out.pcap", 1, ['to read an expression from a file: -e "$(cat FILE)", or for check "$(cat FILE)"']),
    ("cut -s 0 -F nsecpcap in.pcap out.pcap", 1, ["OUT is a classic savefile: leave this option out"]),
    ("explain -F x in.pcap", 1, ['to read an expression from a file: -e "$(cat FILE)", or for check "$(cat FILE)"']),
    ("check -F x", 1, ['to read an expression from a file: -e "$(cat FILE)", or for check "$(cat FILE)"']),
    ("cut -s 0 -A 2026-11-24 in.pcap out.pcap", 1,
     ["to keep packets between two times: editcap -A START -B STOP -F nsecpcap IN OUT"]),
    ("explain -r in.pcap", 1, [WITHOUT_OPTION]),
    ("explain -e ip -w out.pcap in.pcap", 1, ["cut writes a capture: bpftap cut -s 0 -e EXPR IN OUT"]),
    ("cut -s 0 in.pcap -w out.pcap", 0, []),
    ("compare -w out.pcap -z tcp udp", 1, []),
    ("explain -m 10 -e ip in.pcap", 1, ["to keep the first N packets: editcap -r -F nsecpcap IN OUT 1-N"]),
    ("cut -s 0 -G 60 in.pcap out.pcap", 1, [PIECES]),
    ("cut -s 0 -W 10 in.pcap out.pcap", 1, [PIECES]),
    ("explain -d -e ip in.pcap", 1, ["to print a program: bpftap check -d EXPR"]),
    ("compare -x ip tcp", 1, ["to print an expression as it was read: bpftap check -x EXPR"]),
    ("explain --dot -e ip in.pcap", 1, ["to draw a program: bpftap check --dot EXPR | dot -Tsvg > OUT"]),
    ("cut -v -s 0 in.pcap out.pcap", 1, ["what a filter rejects: write not (EXPR) for EXPR; packets that are too short for a test are in neither"]),
    # These have the option themselves: it is another one that there is not.
    ("check -d -z ip", 1, []),
    ("check -x -z ip", 1, []),
    ("check --dot -z ip", 1, []),
    ("steps -v -z a.txt b.txt in.pcap", 1, []),
    ("explain -nn -e ip in.pcap", 1, ["addresses are never looked up: leave this option out"]),
    ("cut in.pcap out.pcap", 1, ["-s 0 keeps packets whole"]),
    ("cut -c -s 0 -e ip in.pcap", 1, ["to count only: bpftap explain -c -e EXPR IN, or give /dev/null as OUT"]),
    ("cut -s 0 -e ip in.pcap", 1, []),
    ("split", 1, []),
    ("cut -c 10 -s 0 -e ip in.pcap out.pcap", 1,
     ["-c takes no number: it counts packets", "to keep the first N packets: editcap -r -F nsecpcap IN OUT 1-N"]),
    ("cut -s 0 -e ip - out.pcap", 3,
     ["`-` is the name of a file here: standard input is /dev/stdin, standard output /dev/stdout"]),
    ("check -f -", 3, ["`-` is the name of a file here: standard input is /dev/stdin, standard output /dev/stdout"]),
    ("cut -s 0 -e ip in.pcap -", 0, ["the packets are in a file named `-`: standard output is /dev/stdout"]),
    ("cut --json -s 0 -e ip in.pcap -", 0, []),
]


@case
def words_of_other_tools_have_hints(scene):
    """An option of tcpdump, a missing one, a number after `-c` and a `-` have the way below all else; without hints nothing is added."""
    for words, status, hints in WORDS_OF_OTHERS:
        scene.start({"in.pcap": WHOLE})
        plain, hinted = scene.run(words), scene.run(f"--hints {words}")
        scene.check(f"status of {words}", (plain.status, hinted.status), (status, status))
        below = [line.strip() for line in hinted.err.decode().splitlines() if line.startswith("  ")]
        wanted = [line for line in below if line in hints]
        scene.check(f"hints of {words}", wanted, hints)
        ways = [line for line in below if line in ALL_HINTS]
        scene.check(f"no other hints of {words}", ways, hints)
        scene.check(f"{words} without hints", [line for line in plain.err.decode().splitlines() if line.strip() in ALL_HINTS], [])


ALL_HINTS = {line for _, _, hints in WORDS_OF_OTHERS for line in hints}


# Words that are refused, and where `--hints` is put: before the command, after it, and last.
HINTED = ["check 'src prot 17'", "explain -e ip none.pcap", "cut -s 0 -e ip none.pcap out.pcap", "check -F x", "cut in.pcap out.pcap"]


@case
def hints_are_asked_for_anywhere(scene):
    """`--hints` comes before or after the command, and prints the same; after `--` it is an expression. It goes with each help."""
    for words in HINTED:
        plain = scene.run(words)
        split = words_of(words)
        seen = [scene.run(["--hints", *split]), scene.run([split[0], "--hints", *split[1:]]), scene.run([*split, "--hints"])]
        scene.check(f"{words} in three places", seen, [seen[0]] * 3)
        scene.check(f"more lines than those of {words}", seen[0].err.startswith(plain.err) and seen[0].err != plain.err, True)
    scene.expect("check -- --hints", 1, fault_lines("BadWord 2"))
    for words in ["help expressions", "help cut", "cut -h", "--version"]:
        plain = scene.run(words)
        for asked in [f"--hints {words}", f"{words} --hints"]:
            scene.check(asked, scene.run(asked), plain)


@case
def unknown_commands_are_pointed_to_a_way(scene):
    """An unknown command that other tools have is pointed to what does the same, whether hints are wanted or not."""
    for words, part in POINTED:
        plain, hinted = scene.run(words), scene.run(f"--hints {words}")
        scene.check(f"status of {words}", (plain.status, hinted.status), (1, 1))
        scene.check(f"{words} without hints", b"\n  tip: " in plain.err and part in plain.err, True)
        scene.check(f"{words} with hints", hinted.err, plain.err)


@case
def a_signed_snapshot_length_has_the_usage_of_cut(scene):
    """A snapshot length with a sign is reported together with the usage of `cut`."""
    seen = scene.run("cut -s +5 -f x in.pcap out.pcap")
    scene.check("the usage", b"Usage: bpftap cut [OPTIONS]" in seen.err, True)
    scene.check("printed, and the status", (seen.out, seen.status), (b"", 1))


# Words with control characters, and how these are printed.
CONTROLLING = [
    (["x\x1b[31m"], "'x\\u{1b}[31m'"),
    (["check", "ip", "\x1b]0;title\x07"], "'\\u{1b}]0;title\\u{7}'"),
    (["check", "ip", "a\nbpftap: Device x"], "'a\\nbpftap: Device x'"),
    (["cut", "-s", "0", "-o", "lit\ttle", "in.pcap", "out.pcap"], "'lit\\ttle'"),
    (["--\u009b31m"], "'--\\u{9b}31m'"),
]


@case
def no_word_controls_the_terminal(scene):
    """What is printed of refused words has their control characters escaped, as in paths."""
    for words, part in CONTROLLING:
        for asked in [[], ["--hints"]]:
            seen = scene.run([*asked, *words])
            printed = seen.err.decode()
            scene.check(f"{part} of {words!r}", part in printed, True)
            controls = [one for one in printed if ord(one) < 32 and one != "\n" or 127 <= ord(one) < 160]
            scene.check(f"control characters of {words!r}", controls, [])
            scene.check(f"a line of another kind of {words!r}", "\nbpftap" in printed, False)
            scene.check(f"printed of {words!r}, and its status", (seen.out, seen.status), (b"", 1))


# Words whose expression begins with `-`: after -e it is taken for options.
DASHED = ["explain -e '-1 = len' in.pcap", "cut -s 0 -e '-len < 5' in.pcap out.pcap", "--hints cut -e -1 -s 0 in.pcap out.pcap"]


@case
def an_expression_that_begins_with_a_minus_has_a_tip(scene):
    """A tip says how to give it: in parentheses, or after `-e=`; and so it is taken."""
    for words in DASHED:
        seen = scene.run(words)
        printed = seen.err.decode()
        scene.check(f"standard error of {words}", "in parentheses, as -e '(-1 + len > 60)', or write -e='-1 + len > 60'" in printed, True)
        scene.check(f"no other tip of {words}", "use '-- " in printed, False)
        scene.check(f"usage of {words}", f"Usage: bpftap {words.removeprefix('--hints ').split()[0]} " in printed, True)
        scene.check(f"printed of {words}, and its status", (seen.out, seen.status), (b"", 1))
    scene.put({"in.pcap": HEADER + TCP_RECORD})
    for words in ["-e '(-1 + len > 60)'", "-e='-1 + len > 60'", "-e'-1 + len > 60'"]:
        seen = scene.run(f"explain {words} in.pcap")
        scene.check(f"explain {words}", (seen.err, seen.status), (b"", 0))
        scene.expect(f"cut -s 0 {words} in.pcap out.pcap")


@case
def a_word_that_is_no_text_is_reported(scene):
    """A word that is not UTF-8 is refused."""
    scene.refuse(["check", b"\xff"], 1, "a word of the command line is not UTF-8")


@case
def help_that_cannot_be_printed_is_reported(scene):
    """Standard output fails after 3 bytes of the help, or before the first: status 3."""
    # A file that may not grow beyond 3 bytes plays a device that breaks there.
    seen = scene.run_into(3, "--help")
    scene.check("3 bytes", (seen.out, seen.err.decode(), seen.status), (b"Fil", fault_lines("Device standard output"), 3))
    scene.expect("--help", 3, fault_lines("Device standard output"), streams=">/dev/full")


@case
def help_fits_100_columns(scene):
    """No line of help is too long for a terminal: of the program, of a command, or of the language."""
    for words in ["--help", "help expressions", *(f"{command} --help" for command in commands(scene) if command != "help")]:
        lines = scene.run(words).out.decode().splitlines()
        scene.check(words, (len(lines) > 10, [line for line in lines if len(line) > 100]), (True, []))
