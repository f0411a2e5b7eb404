"""`bpftap check`: an expression is one word, and its listing is printed or its fault reported."""
from .common import IP, case

ACCEPTED = ["check ''", "check 'tcp or udp'", "check '(-1 = 1)'", "check -- '-1 = 1'"]

# Blanks at both ends of the word are counted.
REFUSED = [
    ("check 'tcp and 80'", "NoQualifier 8"),
    ("check ' tcp and 80'", "NoQualifier 9"),
    ("check 'port 80 and '", "Syntax 12"),
]

# No word, two words, and one that looks like an option.
WRONG = ["check", "check tcp udp", "check -1"]


def is_listing(text):
    """Whether a text is the number of lines that follow and these, each of four numbers."""
    count, *lines = text.decode().splitlines() or [""]
    is_instruction = [len(line.split()) == 4 and line.replace(" ", "").isdigit() for line in lines]
    return count == str(len(lines)) and lines != [] and all(is_instruction)


@case
def an_accepted_expression_is_printed(scene):
    """A listing is printed, nothing is reported, and the status is 0."""
    for words in ACCEPTED:
        seen = scene.run(words)
        scene.check(f"listing of {words}", is_listing(seen.out), True)
        scene.check(f"standard error of {words}, and its status", (seen.err, seen.status), (b"", 0))
    scene.expect("check ip", out=IP)


@case
def a_refused_expression_is_reported(scene):
    """The fault is reported with its place in the word, nothing is printed, and the status is 1."""
    for words, fault in REFUSED:
        scene.refuse(words, 1, fault)


# Expressions that begin with `-`, and how they are printed as they were read; one that has it elsewhere is printed as it is.
DASHED = [("-1 = 1", "(-1 = 1)"), ("-len < 5 and tcp", "(-len < 5 and tcp)"), ("(-1 = 1)", "(-1 = 1)"), ("1 = -1", "1 = -1")]


@case
def what_was_read_can_be_given_back(scene):
    """An expression that begins with `-` is printed in parentheses, and a command takes that, with the same program."""
    for text, read in DASHED:
        scene.expect(["check", "-x", "--", text], out=f"{read}\n")
        scene.expect(["check", "-x", read], out=f"{read}\n")
        scene.check(f"programs of {text}", scene.run(["check", read]), scene.run(["check", "--", text]))


@case
def a_line_of_any_length_goes_out_whole(scene):
    """A path of this many bytes is reported as it is."""
    for length in (496, 497, 1000):
        scene.refuse(["check", "-f", "x" * length], 3, "Device " + "x" * length)


@case
def other_numbers_of_words_have_the_usage(scene):
    """If there is not exactly one word, the usage of `check` is reported, nothing is printed, and the status is 1."""
    for words in WRONG:
        seen = scene.run(words)
        scene.check(f"usage after {words}", b"Usage: bpftap check" in seen.err, True)
        scene.check(f"printed of {words}, and its status", (seen.out, seen.status), (b"", 1))


@case
def help_has_an_example(scene):
    """The help of `check` is printed with an example, nothing is reported, and the status is 0."""
    seen = scene.run("check --help")
    scene.check("the example", b"bpftap check 'tcp dst port 80 or 443'" in seen.out, True)
    scene.check("standard error, and the status", (seen.err, seen.status), (b"", 0))
