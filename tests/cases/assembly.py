"""Programs by hand: `-f` reads assembly and images, and `check -f` is an assembler.

The forms are those that Linux's Documentation/networking/filter.rst (bpf_asm) and bpfc(8) give, and the numbers of instructions are
worked out by hand from bpf(4). What libpcap and tcpdump print stands in `tests/vectors`."""
import random
import re

from .common import IP, ROOT, case, fault_lines
from .machine import FRAME

VECTORS = ROOT / "tests" / "vectors"

# Programs, and what bpf(4) gives for them.
PROGRAMS = [
    # ARP
    ("ldh [12]\njne #0x806, drop\nret #-1\ndrop: ret #0\n", "40 0 0 12|21 0 1 2054|6 0 0 4294967295|6 0 0 0"),
    # TCP over IPv4
    ("ldh [12]\njne #0x800, drop\nldb [23]\njneq #6, drop\nret #-1\ndrop: ret #0\n",
     "40 0 0 12|21 0 3 2048|48 0 0 23|21 0 1 6|6 0 0 4294967295|6 0 0 0"),
    # TCP to or from port 22, but no fragments after the first
    ("""
      ldh [12]
      jeq #0x800, ipv4, drop    ; IPv4
ipv4: ldb [23]
      jneq #6, drop             /* TCP */
      ldh [20]
      jset #0x1fff, drop
      ldx 4*([14]&0xf)
      ldh [x + 14]
      jeq #22, keep
      ldh [x + 16]
      jneq #22, drop
keep: ret #262144
drop: ret #0
""", "40 0 0 12|21 0 10 2048|48 0 0 23|21 0 8 6|40 0 0 20|69 6 0 8191|177 0 0 14|72 0 0 14|21 2 0 22|72 0 0 16|21 0 1 22|6 0 0 262144|6 0 0 0"),
    # ICMP, one in four by the length
    ("ldh [12]\njne #0x800, drop\nldb [23]\njneq #1, drop\nld len\nmod #4\njneq #1, drop\nret #-1\ndrop: ret #0\n",
     "40 0 0 12|21 0 6 2048|48 0 0 23|21 0 4 1|128 0 0 0|148 0 0 4|21 0 1 1|6 0 0 4294967295|6 0 0 0"),
]

# Each instruction in each of its forms.
FORMS = [
    ("ld [12]", "32 0 0 12"), ("ldh [12]", "40 0 0 12"), ("ldb [12]", "48 0 0 12"),
    ("ld [x + 12]", "64 0 0 12"), ("ldh [x+12]", "72 0 0 12"), ("ldb [ %x + 12 ]", "80 0 0 12"),
    ("ld #12", "0 0 0 12"), ("ldi #12", "0 0 0 12"), ("ldx #12", "1 0 0 12"), ("ldxi #12", "1 0 0 12"),
    ("ld M[3]", "96 0 0 3"), ("ldx M[3]", "97 0 0 3"), ("st M[3]", "2 0 0 3"), ("stx M[3]", "3 0 0 3"),
    ("ld len", "128 0 0 0"), ("ld #len", "128 0 0 0"), ("ld #pktlen", "128 0 0 0"), ("ldx #len", "129 0 0 0"), ("ldx len", "129 0 0 0"),
    ("ldx 4*([14]&0xf)", "177 0 0 14"), ("ldxb 4 * ( [14] & 15 )", "177 0 0 14"),
    ("add #12", "4 0 0 12"), ("add x", "12 0 0 0"), ("sub #12", "20 0 0 12"), ("sub %x", "28 0 0 0"), ("mul #12", "36 0 0 12"),
    ("mul x", "44 0 0 0"), ("div #12", "52 0 0 12"), ("div x", "60 0 0 0"), ("or #12", "68 0 0 12"), ("or x", "76 0 0 0"),
    ("and #12", "84 0 0 12"), ("and x", "92 0 0 0"), ("lsh #12", "100 0 0 12"), ("lsh x", "108 0 0 0"), ("rsh #12", "116 0 0 12"),
    ("rsh x", "124 0 0 0"), ("mod #12", "148 0 0 12"), ("mod x", "156 0 0 0"), ("xor #12", "164 0 0 12"), ("xor x", "172 0 0 0"),
    ("neg", "132 0 0 0"), ("tax", "7 0 0 0"), ("txa", "135 0 0 0"), ("ret #12", "6 0 0 12"), ("ret a", "22 0 0 0"), ("ret %a", "22 0 0 0"),
    ("ret", "22 0 0 0"), ("ja on", "5 0 0 1"), ("jmp on", "5 0 0 1"), ("ja 2", "5 0 0 1"),
    ("jeq #12, on, end", "21 1 2 12"), ("jeq x, on, end", "29 1 2 0"), ("jgt #12, on, end", "37 1 2 12"), ("jgt x, on, end", "45 1 2 0"),
    ("jge #12, on, end", "53 1 2 12"), ("jge x, on, end", "61 1 2 0"), ("jset #12, on, end", "69 1 2 12"), ("jset x, on, end", "77 1 2 0"),
    ("jeq #12, on", "21 1 0 12"), ("jne #12, on", "21 0 1 12"), ("jneq %x, on", "29 0 1 0"), ("jlt #12, on", "53 0 1 12"),
    ("jle #12, on", "37 0 1 12"), ("jlt x, on", "61 0 1 0"), ("jle x, on, end", "45 2 1 0"), ("jeq #12 jt 2 jf 3", "21 1 2 12"),
    # numbers
    ("ld #010", "0 0 0 8"), ("ld #0x10", "0 0 0 16"), ("ld #0Xff", "0 0 0 255"), ("ld #0", "0 0 0 0"), ("ld #4294967295", "0 0 0 4294967295"),
    ("ld #0xffffffff", "0 0 0 4294967295"), ("ld #-1", "0 0 0 4294967295"), ("ld #-2147483648", "0 0 0 2147483648"), ("ld [-16]", "32 0 0 4294967280"),
    # comments, blanks, labels and places
    ("\tld\t#12\t\r", "0 0 0 12"), ("ld #12;on", "0 0 0 12"), ("/* ; */ ld /**/ #12 /* x */ ; /*", "0 0 0 12"), ("first: ld #12", "0 0 0 12"),
    ("(000) ld #12", "0 0 0 12"), ("(0) first: ld #12", "0 0 0 12"), ("first:\nld #12", "0 0 0 12"), ("first:\n\n;\nother: ld #12", "0 0 0 12"),
]

# Texts, and the first thing that is wrong with them.
FAULTY = [
    ("ld #12 @", "BadByte 1"), ("ret #0\nret #0 /* open", "BadByte 2"), ("\xff", "BadByte 1"), ("ret #0 / 1", "BadByte 1"),
    ("ld #08\nret #0", "BadNumber 1"), ("ret #4294967296", "BadNumber 1"), ("ret #-2147483649", "BadNumber 1"), ("ret #0x", "BadNumber 1"),
    ("ret #1a", "BadNumber 1"), ("(00a) ret #0", "UnknownName 1"), ("l" * 33 + ": ret #0", "LongLabel 1"),
    ("move #12", "UnknownName 1"), ("# comment\nret #0", "UnknownName 1"), ("ret #0\nRET #0", "UnknownName 2"), ("#0", "UnknownName 1"),
    ("ldh #12", "BadOperand 1"), ("ld", "BadOperand 1"), ("ld [12", "BadOperand 1"), ("ld [x + 12", "BadOperand 1"), ("ld x", "BadOperand 1"),
    ("ret x", "BadOperand 1"), ("tax #0", "BadOperand 1"), ("ret #0 ret #0", "BadOperand 1"), ("ldx 5*([14]&0xf)", "BadOperand 1"),
    ("ldx 4*([14]&0xe)", "BadOperand 1"), ("ld 12", "BadOperand 1"), ("add [12]", "BadOperand 1"), ("jeq on, end", "BadOperand 1"),
    ("jeq #12", "BadOperand 1"), ("jeq #12,", "BadOperand 1"), ("jeq #12, a, b, c", "BadOperand 1"), ("ja", "BadOperand 1"),
    ("jeq #12 jt 1", "BadOperand 1"), ("ret #0\nx: ret #0", "UnknownName 2"), ("st #3", "BadOperand 1"), ("ld #rand", "BadOperand 1"),
    ("on: ret #0\non: ret #0", "LabelTwice 2"), ("on: on: ret #0", "UnknownName 1"),
    ("(000) ret #0\n(002) ret #0", "BadPlace 2"), ("(001) ret #0", "BadPlace 1"),
    ("ja on\nret #0", "NoLabel 1"), ("jeq #1, on, end\nend: ret #0", "NoLabel 1"),
    ("on: ret #0\nja on\nret #0", "JumpBack 2"), ("on: ja on\nret #0", "JumpBack 1"), ("ja 0\nret #0", "JumpBack 1"),
    ("ret #0\njeq #1 jt 1 jf 2\nret #0", "JumpBack 2"),
    ("jeq #1, on\n" + "neg\n" * 256 + "on: ret #0", "JumpTooFar 1"),
    # the order: by themselves, then as a whole, then the program
    ("ja on\nld #08\nret #0", "BadNumber 2"), ("ja on\nld @", "BadByte 2"), ("ret #0\nld M[16]", "Program Cell 1"),
    ("ld M[16]\nja on", "NoLabel 2"), ("ld #1", "Program NoReturn"), (";\n", "Program Empty"), ("on:", "Program Empty"),
    ("ja on\nret #0\non:", "Program JumpOut 0"), ("ja 7\nret #0", "Program JumpOut 0"), ("div #0\nret a", "Program ZeroDivisor 0"),
    ("ret #0\n" * 513, "Program TooMany"), (";" * 65537, "TextTooLong"),
]

# What follows each of the forms above.
REST = "ret #0\non: ret #1\nend: ret #2\n"
REST_LISTING = ["6 0 0 0", "6 0 0 1", "6 0 0 2"]


def listing(insns):
    """The listing of instructions."""
    return "".join(f"{line}\n" for line in [len(insns), *insns])


def plain(text):
    """A listing, in which the fields that instructions do not use are 0."""
    first, *lines = text.splitlines()
    insns = []
    for line in lines:
        code, jt, jf, k = map(int, line.split())
        branches = code in (21, 29, 37, 45, 53, 61, 69, 77)
        unused = code in (12, 28, 44, 60, 76, 92, 108, 124, 156, 172, 132, 7, 135, 22, 128, 129, 29, 45, 61, 77)
        insns.append(f"{code} {jt if branches else 0} {jf if branches else 0} {0 if unused else k}")
    return listing(insns)


@case
def programs_of_the_manuals_are_assembled(scene):
    """ARP, TCP, TCP of port 22 and a sample of ICMP, as a person writes them."""
    for text, insns in PROGRAMS:
        scene.put({"program.bpf": text})
        scene.expect("check -f program.bpf", out=listing(insns.split("|")))


@case
def each_instruction_has_its_forms(scene):
    """All 49 codes, and all spellings."""
    for text, insn in FORMS:
        scene.put({"program.bpf": f"{text}\n{REST}"})
        scene.check(text, scene.run("check -f program.bpf").out.decode(), listing([insn, *REST_LISTING]))


@case
def the_first_fault_of_assembly_is_reported(scene):
    """With its line."""
    for text, fault in FAULTY:
        scene.put({"program.bpf": text.encode("latin-1")})
        seen = scene.run("check -f program.bpf")
        scene.check(f"fault of {text[:60]!r}", (seen.out, seen.err.decode(), seen.status), (b"", fault_lines(fault), 1))


@case
def what_tcpdump_prints_is_read(scene):
    """The images of `tests/vectors` are read as the programs that they are of."""
    for name in "codes", "expression":
        scene.expect(["check", "-f", VECTORS / f"{name}.image"], out=plain((VECTORS / f"{name}.listing").read_text()))
    for block in (VECTORS / "expressions.txt").read_text().split("tcpdump ")[1:]:
        expression, _, prints = block.partition("\n")
        want, image = re.fullmatch(r"([^(]*)(\(000\).*)", prints, re.S).groups()
        scene.put({"image.txt": image})
        scene.check(expression, scene.run("check -f image.txt").out.decode(), plain(want))


def random_program(choose):
    """A valid program, as a listing in which unused fields are 0."""
    size = choose.randint(1, 40)
    insns = []
    for place in range(size - 1):
        left = size - place - 2
        code = choose.choice([32, 40, 48, 64, 72, 80, 0, 1, 96, 97, 128, 129, 177, 2, 3, 4, 12, 20, 28, 36, 44, 52, 60, 68, 76, 84, 92, 100,
                              108, 116, 124, 148, 156, 164, 172, 132, 5, 21, 29, 37, 45, 53, 61, 69, 77, 6, 22, 7, 135])
        k = choose.choice([0, 1, 9, 2**31 - 1, 2**31, 2**32 - 1, choose.randrange(2**32)])
        if code in (96, 97, 2, 3):
            k %= 16
        if code in (52, 148):
            k = max(k, 1)
        if code == 5:
            k = choose.randint(0, left)
        insns.append(f"{code} {choose.randint(0, left)} {choose.randint(0, left)} {k}")
    return plain(listing([*insns, choose.choice(["6 0 0 0", "22 0 0 0"])]))


@case
def images_are_read_as_what_they_are_of(scene):
    """Random programs of all codes are printed as images, which are read as them again, and so are their listings."""
    choose = random.Random(66)
    for _ in range(60):
        program = random_program(choose)
        scene.put({"program.bpf": program})
        image = scene.run("check -d -f program.bpf").out
        scene.put({"image.txt": image})
        scene.check(f"program of {image!r}", scene.run("check -f image.txt").out.decode(), program)
        scene.check("image of its image", scene.run("check -d -f image.txt").out, image)


@case
def digits_in_front_are_a_listing(scene):
    """A text that begins with a digit is a listing, with the faults of one; and one that has nothing but blanks."""
    for text, fault in [("2\n6 0 0 x\n", "BadLine 2"), ("1 ; ret\n", "BadLine 1"), (" 1\n6 0 0 0\n", "BadLine 1"), ("\n", "BadLine 1"), ("", "BadLine 1")]:
        scene.put({"program.bpf": text})
        scene.refuse("check -f program.bpf", 1, fault)
    scene.put({"ip.bpf": IP})
    scene.expect("check -f ip.bpf", out=IP)


@case
def a_program_is_printed_as_an_array_of_c(scene):
    """`-dd` prints what `tcpdump -dd` prints: here of ARP, as Linux's page of bpf_asm has it; `-ddd` prints the listing."""
    scene.put({"program.bpf": PROGRAMS[0][0]})
    scene.expect("check -dd -f program.bpf", out=(
        "{ 0x28, 0, 0, 0x0000000c },\n{ 0x15, 0, 1, 0x00000806 },\n{ 0x6, 0, 0, 0xffffffff },\n{ 0x6, 0, 0, 0x00000000 },\n"))
    scene.expect("check -ddd -f program.bpf", out=listing(PROGRAMS[0][1].split("|")))
    scene.expect("check -d -d ip", out=(
        "{ 0x28, 0, 0, 0x0000000c },\n{ 0x15, 0, 1, 0x00000800 },\n{ 0x6, 0, 0, 0x00040000 },\n{ 0x6, 0, 0, 0x00000000 },\n"))


# A second line that is refused, its cause, and the hint below it.
ADVICE = [
    ("ret #1 /* end", "BadByte", "no word, number or sign: a comment begins with `;`, or is `/* .. */` on one line"),
    ("ret #08", "BadNumber", "write a number as 12, -1, 014 (octal) or 0xc, from -2147483648 to 4294967295"),
    ("L" * 33 + ": ret #1", "LongLabel", "a label has at most 32 bytes"),
    ("RET #1", "UnknownName", "no instruction has this name, or this label is a word of assembly: names are in small letters, comments begin with `;`"),
    ("one: ret #1", "LabelTwice", "an earlier line has this label: choose another"),
    ("(005) ret #1", "BadPlace", "the number in parentheses counts the instructions before it: a line is missing or repeated, so print the image again"),
    ("ja nowhere", "NoLabel", "no line begins with this label and a colon"),
    ("ja one", "JumpBack", "a jump leads to a later line: the machine has no loops"),
]


@case
def assembly_is_advised_by_its_cause(scene):
    """A line of assembly that is refused is shown with what to do."""
    for line, cause, said in ADVICE:
        scene.start({"bad.asm": f"one: ld #1\n{line}\nret #0\n"})
        scene.expect("--hints check -f bad.asm", 1, f"bpftap: {cause} 2\n  line 2 is: {line}\n  {said}\n")


@case
def each_command_takes_assembly(scene):
    """`cut`, `explain`, `compare` and `check` read it, and a hint shows the line that is refused."""
    scene.start({"in.pcap": FRAME, "program.bpf": "ldh [12]\njne #0x800, drop\nret #20\ndrop: ret #0\n", "bad.bpf": "ldh [12]\nret #x\n"})
    scene.expect("cut -s 0 -f program.bpf in.pcap out.pcap")
    scene.check("kept", len(scene.read("out.pcap")), 24 + 16 + 20)
    seen = scene.run("explain -f program.bpf in.pcap")
    scene.check("explained", seen.out.decode().splitlines()[-1], "1 packets: 1 Yes, 0 No, 0 Abort")
    seen = scene.run("compare -f program.bpf ip in.pcap")
    scene.check("compared", seen.out.decode().splitlines()[-1], "1 packets: 0 differ, 0 accepted by the first alone, 0 by the second")
    scene.put({"linux.bpf": "ldb [vlanp]\nret #0\n"})
    seen = scene.run("--hints check -f linux.bpf")
    scene.check("hints of an extension", (seen.err.decode(), seen.status), (
        "bpftap: BadOperand 1\n  line 1 is: ldb [vlanp]\n"
        "  this is an extension of Linux: tcpdump -y EN10MB -ddd EXPR, without -i, makes a program that has none\n", 1))
    for words in "cut -s 0 -f bad.bpf in.pcap out.pcap", "explain -f bad.bpf in.pcap", "compare -f bad.bpf ip in.pcap", "check -f bad.bpf":
        seen = scene.run(f"--hints {words}")
        scene.check(f"hints of {words}", (seen.err.decode(), seen.status), (
            "bpftap: BadOperand 2\n  line 2 is: ret #x\n  write a number as #3, a jump as `jeq #3, LABEL` (`a` and `x` are registers, no labels), a comment after `;`: docs/ASSEMBLY.md has the operands of each name\n", 1))
