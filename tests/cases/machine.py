"""The filter machine: what the program of a listing answers, by `explain -f`, and what is wrong with a listing, by `check -f`."""
from .common import HEADER, UDP_RECORD, case, fault_lines

# The frame of 38 bytes, whose length on the wire is 1,500.
FRAME = HEADER + UDP_RECORD[:12] + (1500).to_bytes(4, "little") + UDP_RECORD[16:]

# A program for each of the 49 codes, and what it answers.
EACH_CODE = [
    ("2\n32 0 0 26\n22 0 0 0", 167772161), ("2\n40 0 0 12\n22 0 0 0", 2048), ("2\n48 0 0 23\n22 0 0 0", 17),
    ("3\n1 0 0 4\n64 0 0 26\n22 0 0 0", 167772162), ("3\n1 0 0 20\n72 0 0 14\n22 0 0 0", 53),
    ("3\n1 0 0 1\n80 0 0 10\n22 0 0 0", 5), ("2\n0 0 0 7\n22 0 0 0", 7), ("3\n1 0 0 9\n135 0 0 0\n22 0 0 0", 9),
    ("5\n0 0 0 3\n2 0 0 4\n0 0 0 0\n96 0 0 4\n22 0 0 0", 3),
    ("6\n0 0 0 6\n2 0 0 5\n0 0 0 1\n97 0 0 5\n135 0 0 0\n22 0 0 0", 6), ("2\n128 0 0 0\n22 0 0 0", 1500),
    ("3\n129 0 0 0\n135 0 0 0\n22 0 0 0", 1500), ("3\n177 0 0 14\n135 0 0 0\n22 0 0 0", 20),
    ("5\n0 0 0 8\n2 0 0 0\n0 0 0 1\n96 0 0 0\n22 0 0 0", 8), ("4\n1 0 0 11\n3 0 0 15\n96 0 0 15\n22 0 0 0", 11),
    ("3\n0 0 0 40\n4 0 0 2\n22 0 0 0", 42), ("4\n0 0 0 40\n1 0 0 3\n12 0 0 0\n22 0 0 0", 43),
    ("3\n0 0 0 40\n20 0 0 1\n22 0 0 0", 39), ("4\n0 0 0 40\n1 0 0 41\n28 0 0 0\n22 0 0 0", 4294967295),
    ("3\n0 0 0 65536\n36 0 0 65537\n22 0 0 0", 65536), ("4\n0 0 0 6\n1 0 0 7\n44 0 0 0\n22 0 0 0", 42),
    ("3\n0 0 0 47\n52 0 0 10\n22 0 0 0", 4), ("4\n0 0 0 47\n1 0 0 9\n60 0 0 0\n22 0 0 0", 5),
    ("3\n0 0 0 12\n68 0 0 10\n22 0 0 0", 14), ("4\n0 0 0 12\n1 0 0 3\n76 0 0 0\n22 0 0 0", 15),
    ("3\n0 0 0 12\n84 0 0 10\n22 0 0 0", 8), ("4\n0 0 0 12\n1 0 0 6\n92 0 0 0\n22 0 0 0", 4),
    ("3\n0 0 0 5\n100 0 0 3\n22 0 0 0", 40), ("4\n0 0 0 1\n1 0 0 31\n108 0 0 0\n22 0 0 0", 2147483648),
    ("3\n0 0 0 40\n116 0 0 3\n22 0 0 0", 5), ("4\n0 0 0 2147483648\n1 0 0 31\n124 0 0 0\n22 0 0 0", 1),
    ("3\n0 0 0 17\n148 0 0 5\n22 0 0 0", 2), ("4\n0 0 0 17\n1 0 0 6\n156 0 0 0\n22 0 0 0", 5),
    ("3\n0 0 0 12\n164 0 0 10\n22 0 0 0", 6), ("4\n0 0 0 12\n1 0 0 7\n172 0 0 0\n22 0 0 0", 11),
    ("3\n0 0 0 1\n132 0 0 0\n22 0 0 0", 4294967295), ("4\n0 0 0 1\n5 0 0 1\n0 0 0 2\n22 0 0 0", 1),
    ("4\n0 0 0 5\n21 0 1 5\n6 0 0 1\n6 0 0 2", 1), ("5\n0 0 0 5\n1 0 0 6\n29 0 1 0\n6 0 0 1\n6 0 0 2", 2),
    ("4\n0 0 0 5\n37 0 1 5\n6 0 0 1\n6 0 0 2", 2), ("5\n0 0 0 5\n1 0 0 4\n45 0 1 0\n6 0 0 1\n6 0 0 2", 1),
    ("4\n0 0 0 5\n53 0 1 5\n6 0 0 1\n6 0 0 2", 1), ("5\n0 0 0 5\n1 0 0 6\n61 0 1 0\n6 0 0 1\n6 0 0 2", 2),
    ("4\n0 0 0 5\n69 0 1 2\n6 0 0 1\n6 0 0 2", 2), ("5\n0 0 0 5\n1 0 0 4\n77 0 1 0\n6 0 0 1\n6 0 0 2", 1),
    ("1\n6 0 0 96", 96), ("2\n0 0 0 95\n22 0 0 0", 95), ("5\n0 0 0 3\n7 0 0 0\n0 0 0 1\n135 0 0 0\n22 0 0 0", 3),
    ("3\n1 0 0 2\n135 0 0 0\n22 0 0 0", 2),
]

# Numbers wrap, and loads do not.
BOUNDS = [
    # a sum, and a negation, modulo 2 ^ 32
    ("3\n0 0 0 4294967295\n4 0 0 2\n22 0 0 0", 1), ("3\n0 0 0 1\n132 0 0 0\n22 0 0 0", 4294967295),
    ("3\n0 0 0 0\n132 0 0 0\n22 0 0 0", 0),
    # shifts by 32 and more
    ("3\n0 0 0 1\n100 0 0 32\n22 0 0 0", 0), ("4\n0 0 0 1\n1 0 0 32\n108 0 0 0\n22 0 0 0", 0),
    ("3\n0 0 0 4294967295\n116 0 0 4294967295\n22 0 0 0", 0),
    # scratch memory keeps its cells, and begins with zeros
    ("5\n0 0 0 9\n2 0 0 15\n0 0 0 0\n96 0 0 15\n22 0 0 0", 9), ("3\n0 0 0 1\n96 0 0 7\n22 0 0 0", 0),
    # X + k is no sum modulo 2 ^ 32
    ("3\n1 0 0 4294967295\n80 0 0 1\n22 0 0 0", 0),
    # the last byte, and the first past the end, of the frame's 38
    ("2\n48 0 0 37\n6 0 0 9", 9), ("2\n48 0 0 38\n6 0 0 9", 0), ("2\n40 0 0 36\n6 0 0 9", 9),
    ("2\n40 0 0 37\n6 0 0 9", 0), ("2\n32 0 0 34\n6 0 0 9", 9), ("2\n32 0 0 35\n6 0 0 9", 0),
    ("2\n177 0 0 38\n6 0 0 9", 0),
    # X begins as 0, and a division or modulo by it ends the run
    ("2\n60 0 0 0\n6 0 0 9", 0), ("2\n156 0 0 0\n6 0 0 9", 0), ("3\n0 0 0 7\n156 0 0 0\n22 0 0 0", 0),
    # a remainder of the greatest number, and by it
    ("3\n0 0 0 4294967295\n148 0 0 2\n22 0 0 0", 1), ("3\n0 0 0 7\n148 0 0 4294967295\n22 0 0 0", 7),
    ("4\n0 0 0 4294967295\n1 0 0 4294967295\n156 0 0 0\n22 0 0 0", 0),
    # an exclusive or of equal numbers, and with all ones
    ("4\n0 0 0 4294967295\n1 0 0 4294967295\n172 0 0 0\n22 0 0 0", 0),
    ("3\n0 0 0 1\n164 0 0 4294967295\n22 0 0 0", 4294967294),
    # comparisons are unsigned
    ("4\n0 0 0 4294967295\n37 0 1 1\n6 0 0 1\n6 0 0 2", 1),
]

# Listings, and the first fault of the program; none if it is one.
PROGRAMS = [
    ("3\n40 0 0 12\n21 0 1 2048\n6 0 0 1", "Program JumpOut 1"), ("4\n40 0 0 12\n21 0 1 2048\n6 0 0 1\n6 0 0 0", None),
    ("4\n40 0 0 12\n21 1 0 2048\n6 0 0 1\n6 0 0 0", None),
    ("4\n40 0 0 12\n21 2 0 2048\n6 0 0 1\n6 0 0 0", "Program JumpOut 1"),
    ("2\n52 0 0 0\n6 0 0 0", "Program ZeroDivisor 0"), ("2\n60 0 0 0\n6 0 0 0", None),
    ("2\n148 0 0 0\n6 0 0 0", "Program ZeroDivisor 0"), ("2\n148 0 0 1\n6 0 0 0", None), ("2\n156 0 0 0\n6 0 0 0", None),
    ("2\n164 0 0 0\n6 0 0 0", None), ("2\n172 0 0 0\n6 0 0 0", None), ("2\n96 0 0 16\n6 0 0 0", "Program Cell 0"),
    ("2\n97 0 0 16\n6 0 0 0", "Program Cell 0"), ("2\n2 0 0 16\n6 0 0 0", "Program Cell 0"),
    ("2\n3 0 0 16\n6 0 0 0", "Program Cell 0"), ("2\n2 0 0 15\n6 0 0 0", None), ("1\n0 0 0 1", "Program NoReturn"),
    ("2\n6 0 0 1\n0 0 0 1", "Program NoReturn"), ("0", "Program Empty"),
    # codes beside the known ones
    ("2\n180 0 0 5\n6 0 0 0", "Program UnknownCode 0"), ("2\n149 0 0 5\n6 0 0 0", "Program UnknownCode 0"),
    ("2\n0 0 0 1\n14 0 0 0", "Program UnknownCode 1"), ("2\n256 0 0 0\n6 0 0 0", "Program UnknownCode 0"),
    ("2\n160 0 0 0\n6 0 0 0", "Program UnknownCode 0"),
    # the first of two, before the want of a return
    ("2\n96 0 0 16\n52 0 0 0", "Program Cell 0"),
    # fields that aren't used may have any value
    ("1\n6 255 255 4294967295", None),
]

# Listings, and what is wrong with their lines.
LISTINGS = [
    ("", "BadLine 1"), ("\n", "BadLine 1"), ("\n\n", "BadLine 1"), ("2\n6 0 0 1", "Count"), ("2\n6 0 0 1\n", "Count"),
    ("0\n6 0 0 1\n", "Count"), ("1\n6 0 0 4294967296", "BadLine 2"), ("1\n6 0 0 4294967295", None),
    ("4294967296", "BadLine 1"), ("4294967295", "Count"), ("1\n65536 0 0 0", "BadLine 2"),
    ("1\n65535 0 0 0", "Program UnknownCode 0"), ("1\n6 256 0 0", "BadLine 2"), ("1\n6 0 256 0", "BadLine 2"),
    ("1\n6 255 255 0", None),
    # with and without a last line's end, and an empty line
    ("1\n6 0 0 1\n", None), ("1\n6 0 0 1\n\n", "BadLine 3"), ("\n1\n6 0 0 1", "BadLine 1"),
    # spaces, carriage returns, signs
    ("1\n6 0 0 1 ", "BadLine 2"), ("1\n 6 0 0 1", "BadLine 2"), ("1\n6  0 0 1", "BadLine 2"),
    ("1\n6\t0 0 1", "BadLine 2"), ("1\r\n6 0 0 1", "BadLine 1"), ("1\n6 0 0 1\r\n", "BadLine 2"),
    ("1+\n6 0 0 1", "BadLine 1"), ("1\n6 0 0 +1", "BadLine 2"), ("1\n6 0 0 -1", "BadLine 2"), ("1\n6 0 0", "BadLine 2"),
    ("1\n6 0 0 1 1", "BadLine 2"), ("1\n6 0 0 0x1", "BadLine 2"),
    # leading zeros
    ("01\n06 00 000 007", None), ("1\n6 0 0 00000000000000000000000000007", None),
    # the order
    ("2\n6 0 0 x", "BadLine 2"), ("3\n255 0 0 0", "Count"), ("0x\ny", "BadLine 1"), ("2\n6 0 0 1\ny\nz", "BadLine 3"),
]


def answers(scene, listing, want):
    """The program of a listing answers so of the first packet."""
    scene.put({"program.bpf": listing})
    seen = scene.run("explain -f program.bpf -p 0 in.pcap")
    answer = seen.out.splitlines()[-1:]
    scene.check(f"answer of {listing[:80]!r}", (answer, seen.err, seen.status), ([b"answer %d" % want], b"", 0))


def keeps(scene, want):
    """The program keeps as many bytes of the first packet as it returns, or all, and nothing if it returns 0."""
    kept = min(want, len(UDP_RECORD) - 16)
    record = FRAME[24:32] + kept.to_bytes(4, "little") + FRAME[36:40 + kept] if want else b""
    scene.expect("cut -s 0 -f program.bpf in.pcap out.pcap")
    scene.check(f"kept by an answer of {want}", scene.read("out.pcap"), HEADER + record)


def has_fault(scene, listing, fault):
    """A listing is refused with this fault, or is printed as one is written: without leading zeros."""
    scene.put({"program.bpf": listing})
    if fault is None:
        lines = [" ".join(str(int(word)) for word in line.split(" ")) for line in listing.rstrip("\n").split("\n")]
        scene.expect("check -f program.bpf", out="\n".join(lines) + "\n")
    else:
        scene.expect("check -f program.bpf", 1, fault_lines(fault))


@case
def each_code_does_what_the_manual_says(scene):
    """A program for each of the 49 codes, and numbers at their bounds."""
    scene.start({"in.pcap": FRAME})
    for listing, want in EACH_CODE + BOUNDS:
        answers(scene, listing, want)
        keeps(scene, want)


@case
def an_ethertype_listing_keeps_ipv4_and_no_other_frame(scene):
    """Frames that are whole, and the first 14 and 13 bytes of one."""
    listing = "4\n40 0 0 12\n21 0 1 2048\n6 0 0 262144\n6 0 0 0\n"
    frame = FRAME[40:]
    for data, want in [(frame, 262144), (frame[:14], 262144), (frame[:13], 0), (frame[:12] + b"\x08\x06", 0)]:
        lengths = len(data).to_bytes(4, "little") + (38).to_bytes(4, "little")
        scene.start({"in.pcap": FRAME[:32] + lengths + data})
        answers(scene, listing, want)


@case
def the_first_fault_of_a_program_is_reported(scene):
    """With the place of its instruction; fields that are not used may have any value."""
    for listing, fault in PROGRAMS:
        has_fault(scene, listing, fault)


@case
def bad_lines_are_reported_before_counts_and_counts_before_programs(scene):
    """By the number of the line, from 1."""
    for listing, fault in LISTINGS:
        has_fault(scene, listing, fault)
    has_fault(scene, b"1\n6 0 0 \xff", "BadLine 2")
    has_fault(scene, "4\n40 0 0 12\n21 0 1 2048\n6 0 0 262144\n6 255 255 4294967295", None)


@case
def at_most_512_instructions(scene):
    """A jump to the last one, and one past it; listings that are longer are read to their end."""
    scene.start({"in.pcap": FRAME})
    between = "0 0 0 0\n" * 510
    answers(scene, f"512\n5 0 0 510\n{between}6 0 0 7\n", 7)
    for place in (511, 4294967295):
        has_fault(scene, f"512\n5 0 0 {place}\n{between}6 0 0 7\n", "Program JumpOut 0")
    has_fault(scene, f"513\n5 0 0 510\n{between}6 0 0 7\n6 0 0 7\n", "Program TooMany")
    lines = "6 0 0 0\n" * 512
    has_fault(scene, f"512\n{lines}", None)
    has_fault(scene, f"513\n{lines}6 0 0 0\n", "Program TooMany")
    has_fault(scene, f"513\n{lines}x", "BadLine 514")
