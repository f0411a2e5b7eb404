"""`bpftap compare` without a capture: two expressions decided for every packet, and the packet that shows a difference."""
import os
import random
import subprocess
import sys

from .common import IP, PROGRAM, ROOT, VETH, case, fault_lines

sys.path.insert(0, str(ROOT / "bench"))
import filters
import meaning

SAME, CAPTURED, SHORT, DIFFER = "same", "same as captured", "differ only where one aborts", "differ"
STATUS = {SAME: 0, CAPTURED: 0, SHORT: 4, DIFFER: 4}

# Each pair with the answer that follows from docs/LANGUAGE.md, written down by hand. An `and` accepts if both sides do, whatever comes
# first; an `or` whose first side needs a byte that was not captured aborts.
PAIRS = {
    SAME: [
        ("tcp", "ip proto 6"), ("udp", "ip proto 17"), ("icmp", "ip proto 1"), ("sctp", "ip proto 132"), ("ip", "ether proto 0x800"),
        ("arp", "ether proto 0x806"), ("rarp", "ether proto 0x8035"), ("tcp", "ip and tcp"), ("tcp and ip", "tcp"), ("tcp or udp", "udp or tcp"),
        ("not not tcp", "tcp"), ("not (tcp or udp)", "not udp and not tcp"), ("not (tcp and less 100)", "not tcp or not less 100"),
        ("less 100", "not greater 101"), ("greater 100", "not less 99"), ("less 100 or greater 101", ""), ("ip or arp", "arp or ip"),
        ("ip and arp", "tcp and udp"), ("not (ip and not ip)", "not (arp and not arp)"), ("less 100 and greater 101", "ip and not ip"),
        ("tcp and less 100", "less 100 and tcp"), ("tcp or arp", "arp or tcp"), ("host 10.0.0.1 and tcp", "tcp and host 10.0.0.1"),
        ("src and dst host 10.0.0.1", "dst host 10.0.0.1 and src host 10.0.0.1"), ("host 10.0.0.1", "src host 10.0.0.1 or dst host 10.0.0.1"),
        ("port 80", "tcp port 80 or udp port 80 or sctp port 80"), ("port 80", "src port 80 or dst port 80"),
        ("tcp port 80", "tcp src port 80 or tcp dst port 80"), ("src portrange 80-90", "src portrange 80-85 or src portrange 86-90"),
        ("dst portrange 1-3", "dst port 1 or 2 or 3"), ("tcp dst portrange 0-65535", "tcp and dst portrange 0-65535"),
        ("src net 10.0.0.0/8", "src net 10.0.0.0/9 or src net 10.128.0.0/9"), ("ether broadcast", "ether dst ff:ff:ff:ff:ff:ff"),
        ("ether host 1:2:3:4:5:6", "ether src 1:2:3:4:5:6 or ether dst 1:2:3:4:5:6"), ("ether src 1:2:3:4:5:6", "not not ether src 1:2:3:4:5:6"),
        ("ether multicast and ether broadcast", "ether broadcast"), ("ether multicast or ether broadcast", "ether multicast"),
        ("src port 80 or 443", "src port 443 or 80"), ("dst port 53 and udp", "udp dst port 53"), ("net 10.0.0.0/8 and tcp", "tcp and net 10.0.0.0/8"),
        ("", "less 100 or not less 100"), ("ip[0] & 15 = 5", "5 = 15 & ip[0]"), ("ip[9] = 6", "ip proto 6"), ("ether[0] & 1 = 0", "not ether multicast"),
        ("tcp[13] & 3 = 1 + 2", "tcp[tcpflags] & (tcp-fin | tcp-syn) = 3"), ("ether[12:2] = 0x800", "ip"), ("tcp[0:2] = 80", "tcp src port 80"),
        ("tcp[2:2] > 1023", "tcp dst portrange 1024-65535"), ("ip[12:4] & 0xff000000 = 0x0a000000", "ip src net 10.0.0.0/8"),
        ("ip[0] >= 64 and ip[0] <= 79", "ip[0] & 0xf0 = 0x40"), ("arp[6:2] = 1", "arp[6] = 0 and arp[7] = 1"),
        ("len = 100", "less 100 and greater 100"), ("100 < len", "greater 101"), ("len != 100", "less 99 or greater 101"),
        ("ip[0] & 15 = 5 and tcp dst port 80", "tcp dst port 80 and ip[0] & 15 = 5"),
        # Fields that are compared with one another.
        ("ip[12:4] = ip[16:4]", "ip[12:4] - ip[16:4] = 0"), ("tcp[8:4] > tcp[4:4]", "tcp[4:4] < tcp[8:4]"), ("len - 14 != ip[2:2]", "len != ip[2:2] + 14"),
        ("udp[4:2] != ip[2:2] - ((ip[0] & 15) << 2)", "ip[2:2] - 4 * (ip[0] % 16) != udp[4:2]"),
        # What one field shifts or multiplies another one by.
        ("ip[12:4] << (ip[8] & 31) = 256", "(ip[12:4] << (ip[8] & 31)) - 256 = 0"), ("ip[12:4] >> ip[8] > 9", "9 < ip[12:4] >> ip[8]"),
        ("(ip[6:2] & 0x1fff) << ip[1] != 1", "1 != (ip[6:2] & 0x1fff) << ip[1]"), ("ip[2:2] * ip[9] = 6", "6 = ip[9] * ip[2:2]"),
        # The same tree twice, whatever it calculates, and however deep it is.
        (" or ".join(["tcp"] * 1150), " or ".join(["tcp"] * 1150)),
        ("ip[2:2] - ((ip[0] & 15) << 2) != 0", "(ip[2:2] - ((ip[0] & 15) << 2)) != 0"), ("ip[8] / 64 * 64 = ip[8]", "ip[8] / 64 * 64 = ip[8]"),
    ],
    CAPTURED: [
        ("ip", "ip and greater 14"), ("arp", "arp and greater 14"), ("tcp", "tcp and greater 24"), ("tcp", "tcp and not less 23"),
        ("ether broadcast", "ether broadcast and greater 6"), ("tcp or (ip and less 20)", "tcp"), ("less 5 and ip", "ip and not ip"),
        ("ip[0] = 69", "ip[0] = 69 and len >= 15"),
    ],
    SHORT: [
        ("port 80 or 443", "port 443 or 80"), ("host 10.0.0.1 or 10.0.0.2", "host 10.0.0.2 or 10.0.0.1"),
        ("host 10.0.0.1", "dst host 10.0.0.1 or src host 10.0.0.1"), ("port 53", "dst port 53 or src port 53"), ("ip or less 100", "less 100 or ip"),
        ("tcp or less 100", "less 100 or tcp"), ("portrange 80-90", "portrange 80-85 or portrange 86-90"),
        ("net 10.0.0.0/8", "net 10.0.0.0/9 or net 10.128.0.0/9"), ("ether broadcast or ether multicast", "ether multicast"),
        ("not (ip and not ip)", ""), ("ip or not ip", ""), ("ip[0] = 69 or ip[40] = 2", "ip[40] = 2 or ip[0] = 69"),
    ],
    DIFFER: [
        ("tcp", "udp"), ("ip", "arp"), ("rarp", "arp"), ("net 10.0.0.0/8", "net 10.0.0.0/9"), ("src portrange 80-90", "src portrange 80-91"),
        ("less 100", "less 101"), ("greater 100", "greater 101"), ("less 100", "greater 100"), ("src host 10.0.0.1", "src host 10.0.0.2"),
        ("ether multicast", "ether broadcast"), ("port 80", "tcp port 80"), ("port 53", "udp port 53"), ("host 10.0.0.1", "ip host 10.0.0.1"),
        ("tcp port 80", "tcp dst port 80"), ("not tcp and udp", "not (tcp and udp)"), ("tcp or udp and less 100", "tcp or (udp and less 100)"),
        ("not port 80 or 443", "not (port 80 or 443)"), ("tcp", "tcp portrange 0-65535"), ("ip", "ip and greater 60"), ("ip", ""),
        ("arp", "arp and host 10.0.0.1"), ("src net 10.0.0.0/8", "src net 10.0.0.0/8 and not src host 10.0.0.1"), ("icmp or tcp", "tcp"),
        ("ether src 1:2:3:4:5:6", "ether dst 1:2:3:4:5:6"), ("ether host 1:2:3:4:5:6", "ether src 1:2:3:4:5:6"),
        ("src host 10.0.0.1 and dst host 10.0.0.2", "host 10.0.0.1 and host 10.0.0.2"), ("src and dst port 53", "port 53"),
        ("ip proto 6", "ether proto 0x806"), ("not ip", "arp"), ("not arp", "ip or rarp"), ("tcp and not port 22", "not port 22"),
        ("udp port 53 or arp", "udp port 53 and arp"), ("ip[0] = 69", "ip[0] & 15 = 5"), ("len < 100", "less 100"), ("ip[9] > 5", "5 > ip[9]"),
        ("tcp[13] = 2", "tcp[13] & 2 != 0"), ("udp[2:2] = 53", "tcp[2:2] = 53"), ("tcp[13] & 2 = 0", "not tcp[13] & 2 != 0"),
    ],
}


# What a rewrite may do to an expression, so that it still accepts the same packets of every captured length.
REWRITES = {
    "twice": lambda expr: f"({expr}) and ({expr})",
    "not not": lambda expr: f"not (not ({expr}))",
    "never more": lambda expr: f"({expr}) or (tcp and udp and ({expr}))",
}


def printed(scene, first, second, *options):
    """The answer, and the lines after it. The status is that of the answer, and nothing is reported."""
    seen = scene.run(["compare", *options, first, second])
    lines = seen.out.decode().splitlines()
    answer = "not decided" if lines and lines[0].startswith("not decided: ") else "".join(lines[:1])
    scene.check(f"{first!r} and {second!r}", (seen.status, seen.err), ({**STATUS, "not decided": 5}.get(answer), b""))
    return answer, lines[1:]


def witness_in(capture):
    """The captured bytes and the length on the wire of the one packet of a savefile."""
    captured, wire = (int.from_bytes(capture[at : at + 4], "little") for at in (32, 36))
    return capture[40 : 40 + captured], wire


def dump_of(frame):
    """The lines that `tcpdump -XX` prints of a frame."""
    for at in range(0, len(frame), 16):
        row = frame[at : at + 16]
        groups = "".join(f" {row[n : n + 2].hex()}" for n in range(0, len(row), 2))
        characters = "".join(chr(byte) if 33 <= byte <= 126 else "." for byte in row)
        yield f"\t0x{at:04x}: {groups:<40}  {characters}"


def check_witness(scene, first, second, answer, lines):
    """A packet is shown exactly if there is a difference; OUT has it, and `explain` says of it what was printed."""
    out = scene.read("out.pcap")
    scene.check(f"a packet of {first!r} and {second!r}", (out is not None, len(lines) > 0), (answer in (SHORT, DIFFER),) * 2)
    if out is None:
        return None
    frame, wire = witness_in(out)
    head = f"len {wire} captured {len(frame)} "
    shown = [scene.run(["explain", "-e", expr, "out.pcap"]).out.decode().splitlines()[0].partition(head)[2] for expr in (first, second)]
    line = f"{head}first {shown[0]} second {shown[1]}"
    scene.check(f"the packet of {first!r} and {second!r}", lines, [line, *dump_of(frame)])
    words = {text.split(" ")[0] for text in shown}
    scene.check(f"the answers of {first!r} and {second!r}", words, {"Yes", "No" if answer == DIFFER else "Abort"})
    scene.check(f"captured bytes of {first!r} and {second!r}", len(frame) <= wire, True)
    return frame, wire


@case
def pairs_have_the_answer_that_follows_from_the_language(scene):
    """Each is decided as written down by hand, in both orders; -q says the same by its status, and -w writes the packet that is printed."""
    for wanted, pairs in PAIRS.items():
        for first, second in pairs:
            scene.start({})
            answer, lines = printed(scene, first, second, "-w", "out.pcap")
            scene.check(f"{first!r} and {second!r}", answer, wanted)
            check_witness(scene, first, second, answer, lines)
            scene.expect(["compare", "-q", second, first], STATUS[wanted])


@case
def rewrites_of_an_expression_are_the_same(scene):
    """Each expression of bench/filters.py with up to four members, against a rewrite of itself: none is said to differ."""
    scene.start({})
    decided = 0
    exprs = [expr for expr in filters.EXPRESSIONS if expr.count(" or ") + expr.count(" and ") <= 3]
    for n, expr in enumerate(exprs):
        name = list(REWRITES)[n % len(REWRITES)]
        answer, _ = printed(scene, expr, REWRITES[name](expr))
        scene.check(f"{expr!r} {name}", answer in (SAME, "not decided"), True)
        decided += answer == SAME
    scene.check("many are decided", decided > 40, True)


def is_accepted(tree, frame, wire):
    return meaning.answer_of(tree, frame, wire) is True


@case
def random_pairs_are_decided_as_they_mean(scene):
    """`same` is not contradicted by frames that are cut at each byte; each packet that is shown has the answers of the tables of LANGUAGE."""
    rng = random.Random(67)
    seen = set()
    for _ in range(60):
        first = meaning.expression(rng, 1)
        second = meaning.changed(rng, first)
        texts = [meaning.text_of(tree) for tree in (first, second)]
        if any(scene.run(["check", "--", text]).status for text in texts):
            continue
        scene.start({})
        answer, lines = printed(scene, *(f"({text})" for text in texts), "-w", "out.pcap")
        seen.add(answer)
        found = check_witness(scene, *(f"({text})" for text in texts), answer, lines)
        if found:
            wanted = {True, False if answer == DIFFER else None}
            scene.check(f"the meaning of {texts}", {meaning.answer_of(tree, *found) for tree in (first, second)}, wanted)
        if answer not in (SAME, CAPTURED):
            continue
        for _ in range(20):
            whole = meaning.frame(rng)
            wire = rng.choice([len(whole), 60, 1500])
            cuts = [whole[:length] for length in range(len(whole) + 1) if answer == SAME or length <= wire]
            parted = [cut.hex() for cut in cuts if is_accepted(first, cut, wire) != is_accepted(second, cut, wire)]
            scene.check(f"frames that part {texts}", parted, [])
    scene.check("an answer of each kind", seen >= {SAME, SHORT, DIFFER}, True)


def listings():
    """Expressions, and what tcpdump 4.99.3 with libpcap 1.10.3 prints of them by `-ddd -y EN10MB`."""
    lines = (ROOT / "tests" / "vectors" / "listings.txt").read_text().splitlines()
    while lines:
        count = int(lines[1])
        yield lines[0].removeprefix("tcpdump "), "".join(f"{line}\n" for line in lines[1 : 2 + count])
        del lines[: 2 + count]


# Expressions that tcpdump reads as ones for IPv6 too.
ALSO_IPV6 = {"tcp", "udp", "sctp", "not (tcp or udp)", "tcp or arp", "udp and less 100", "port 80"}


@case
def programs_of_tcpdump_are_what_their_expressions_mean(scene):
    """Each is the same on every packet, unless its expression is one for IPv6 too; then a frame of IPv6 shows the difference."""
    for expr, listing in listings():
        scene.start({"tcpdump.bpf": listing})
        seen = scene.run(["compare", "-w", "out.pcap", "-f", "tcpdump.bpf", expr])
        wanted = DIFFER if expr in ALSO_IPV6 else SAME
        scene.check(f"tcpdump's {expr!r}", (seen.out.decode().partition("\n")[0], seen.status, seen.err), (wanted, STATUS[wanted], b""))
        scene.expect(["compare", "-q", "-f", "tcpdump.bpf", expr], STATUS[wanted])
        out = scene.read("out.pcap")
        scene.check(f"the frame of {expr!r}", out and witness_in(out)[0][12:14].hex(), "86dd" if wanted == DIFFER else None)


@case
def a_listing_of_another_expression_differs(scene):
    """The line of the packet has what the program answers, where its run ended, and the instruction there."""
    scene.start({"ip.bpf": IP})
    scene.expect("compare -f ip.bpf ip", out="same\n")
    seen = scene.run("compare -f ip.bpf arp")
    lines = seen.out.decode().splitlines()
    scene.check("arp and ip", (lines[0], seen.status, lines[1].partition(" first ")[2]), (DIFFER, 4, "No arp second Yes 262144 at 2: ret #262144"))


@case
def what_is_not_decided_is_status_5(scene):
    """A product of two addresses is too much; -q prints nothing; a fault goes before the answer."""
    product = "5\n32 0 0 26\n7 0 0 0\n32 0 0 30\n44 0 0 0\n22 0 0 0\n"
    scene.start({"ip.bpf": IP, "product.bpf": product})
    before = scene.files()
    much = "not decided: too large, with a product of two fields\n"
    scene.expect("compare -f product.bpf 'ether[26:4] * ether[30:4] != 0'", 5, out=much)
    scene.expect("compare -q -f product.bpf 'ether[26:4] * ether[30:4] != 0'", 5)
    scene.expect("compare -w out.pcap -f product.bpf 'ether[26:4] * ether[30:4] != 0'", 5, out=much)
    scene.check("no packet", scene.files(), before)
    scene.expect("compare ip arp", 3, fault_lines("Device standard output"), streams=">/dev/full")
    scene.expect("compare -f ip.bpf ip", 3, fault_lines("Device standard output"), streams=">/dev/full")
    scene.expect("compare 'port http' arp", 1, fault_lines("BadWord 5") + "  EXPR1:\n")
    scene.expect("compare arp 'port http'", 1, fault_lines("BadWord 5") + "  EXPR2:\n")
    scene.refuse("compare -f none.bpf arp", 3, "Device none.bpf")


@case
def what_is_not_decided_has_its_cause(scene):
    """What in the filters is too large, by their form; an offset below 0 is one past 2^31."""
    deep = " or ".join(["tcp"] * 1001)
    scene.start({})
    for first, second, cause in [
        ("ip[2:2] * ip[4:2] = 12", "12 = ip[2:2] * ip[4:2]", "too large, with a product of two fields"),
        ("ip[2:2] / ip[9] = 3", "3 = ip[2:2] / ip[9]", "too large, with a division by a field"),
        ("ip[ip[2:2]] = 1", "1 = ip[ip[2:2]]", "too large, with bytes at an offset that is calculated"),
        ("ip[ip[8] - 1] = 1", "1 = ip[ip[8] - 1]", "a byte at offset 131072 or later may be looked at"),
        (deep, "ip proto 6", "an expression has too many levels"),
    ]:
        scene.expect(["compare", first, second], 5, out=f"not decided: {cause}\n")


# What asks for a byte so far away that no packet here has it, where its bits would come first: in the places of a shift, in a factor and in
# an index. An offset below 0 is one past 2^31.
FAR = [
    ("1 << ether[2000000000] = 5", "ip"), ("ether[ether[-1]] = 1", "ip"), ("tcp[tcp[-40]] = 1", "tcp"), ("len * ether[2000000000] = 5", "ip"),
    ("ip[12:4] >> ether[60000000] = 1", "ip"), ("ip[ip[-20]] = 1", "not ip[ip[-20]] != 1"), ("udp[udp[0 - 100]] = 1", "udp"),
    ("ether[len << ether[100000000]] = 1", "ip"), ("ip", "ether[1 << ether[3000000000:4]] = 1"), ("arp[arp[-15]] = 2", "arp"),
    ("ether[ether[4294967290:4] + 1] = 1", "ip"), ("tcp[tcp[1000000000] * 2] = 3", "3 = tcp[tcp[1000000000] * 2]"),
]

# The same in programs: the byte is in X, and shifts A, is multiplied by it, or is the index of a load.
FAR_PROGRAMS = ["4\n48 0 0 60000000\n7 0 0 0\n108 0 0 0\n22 0 0 0\n", "4\n48 0 0 2000000000\n7 0 0 0\n44 0 0 0\n22 0 0 0\n",
                "4\n32 0 0 4000000000\n7 0 0 0\n80 0 0 0\n22 0 0 0\n"]


@case
def far_bytes_take_no_memory(scene):
    """Each is answered at once, in 400 MB of addresses: nothing is as large as an offset."""
    far, limit = "not decided: a byte at offset 131072 or later may be looked at\n", "ulimit -v 400000"
    for first, second in FAR:
        scene.start({})
        scene.expect(["compare", first, second], 5, out=far, first=limit)
        scene.expect(["compare", second, first], 5, out=far, first=limit)
    for listing in FAR_PROGRAMS:
        scene.start({"far.bpf": listing})
        scene.expect("compare -f far.bpf ip", 5, out=far, first=limit)


def spent(scene, words):
    """The first line that the program prints, how many seconds of a processor it took, and how many megabytes."""
    began = subprocess.Popen([PROGRAM, *words], cwd=scene.folder, stdout=subprocess.PIPE)
    line = began.stdout.read().decode().partition("\n")[0]
    began.stdout.close()
    _, _, used = os.wait4(began.pid, 0)
    began.returncode = 0
    return line, used.ru_utime + used.ru_stime, used.ru_maxrss / 1024


def assigning(cells):
    """A program that writes each of these cells or does not, by a bit of the packet, and then adds them up."""
    writes = [line for cell in range(cells) for line in (f"48 0 0 {cell}", "69 0 2 1", f"0 0 0 {cell + 1}", f"2 0 0 {cell}")]
    sums = [line for cell in range(cells) for line in (f"97 0 0 {cell}", "12 0 0 0")]
    insns = [*writes, "0 0 0 0", *sums, "21 0 1 5", "6 0 0 1", "6 0 0 0"]
    return "".join(f"{line}\n" for line in [len(insns), *insns])


@case
def what_is_given_up_is_within_bounds(scene):
    """What is too large for one attempt and the sixteen after it, for a table of places, or for operations on constants, which take no
    steps, is given up within twice the time that docs/SPEED.md names, and within its memory."""
    scene.start({"many.bpf": assigning(11)})
    constants = " or ".join(f"1{'/1' * 61} = {n}" for n in range(60))
    for words in (
        ["ip[8] * len < tcp[6:2]", "not ip[8] * len >= tcp[6:2]"], ["ip[2:2] * ip[4:2] = 12", "12 = ip[2:2] * ip[4:2]"],
        [f"port 1 or {constants}", f"port 1 or not not ({constants})"], ["-f", "many.bpf", "ip"],
    ):
        line, seconds, megabytes = spent(scene, ["compare", *words])
        scene.check(f"{words}"[:80], (line.partition(":")[0], seconds < 6, megabytes < 100), ("not decided", True, True))


@case
def a_small_stack_suffices(scene):
    """256 KiB are enough, for fields that are compared with one another, for texts of thousands of signs or words in a row, for texts that
    ask for a thousand bytes each, for 64 nested brackets, and to print how two texts of a thousand words differ."""
    chance = random.Random(256)
    wide = [" or ".join(f"ether[{4 * n}:4] = {chance.randrange(1 << 32)}" for n in range(250)) for _ in range(2)]
    scene.start({})
    signs, words = "1+" * 4090, "ip||" * 2040
    pairs = [("tcp", "udp"), ("ip[12:4] = ip[16:4]", "ip[12:4] - ip[16:4] = 0"), (signs + "1=0", signs + "1=2"), (signs + "1=0",) * 2,
             (words + "tcp", words + "udp"), (words + "tcp",) * 2, wide]
    seen = [scene.run(["compare", "-q", *pair], first="ulimit -s 256") for pair in pairs]
    scene.check("statuses", [ended.status for ended in seen[:-1]], [4, 0, 5, 0, 5, 0])
    scene.check("of a thousand bytes", seen[-1].status in (4, 5), True)
    brackets = ["(" * 64 + "len" + ")" * 64 + " = 1", "ip[" * 64 + "0" + "]" * 64 + " = 1"]
    read = [scene.run(["compare", *pair], first="ulimit -s 256") for text in brackets for pair in ((text, "tcp"), ("tcp", text))]
    scene.check("of 64 brackets", [ended.status for ended in read], [4, 4, 5, 5])
    many = [" or ".join([word] * 1000) for word in ("tcp", "udp")]
    shown = scene.run(["compare", *many], first="ulimit -s 256")
    scene.check("of a thousand words", (shown.out.split(b"\n")[0], shown.status), (b"differ", 4))


@case
def a_packet_is_written_for_explain(scene):
    """OUT is a savefile of one packet that `explain -p 0` goes on with; it is made only if there is a difference, and may not be lost."""
    scene.start({"ip.bpf": IP})
    scene.expect("compare -q -w out.pcap tcp udp", 4)
    out = scene.read("out.pcap")
    scene.check("its header", out[:24], bytes.fromhex("d4c3b2a1 02000400 00000000 00000000 00000400 01000000"))
    scene.check("its time, and its length", (out[24:32], len(out)), (bytes(8), 40 + len(witness_in(out)[0])))
    scene.check("explained in full", scene.run("explain -p 0 -e tcp out.pcap").status, 0)
    scene.check("differs there", scene.run("compare -q tcp udp out.pcap").status, 4)
    scene.start({"ip.bpf": IP})
    scene.expect("compare -q -w out.pcap tcp 'ip proto 6'", 0)
    scene.check("no packet", scene.read("out.pcap"), None)
    scene.expect("compare -q -w none/out.pcap tcp udp", 3, fault_lines("Device none/out.pcap"))
    scene.refuse("compare -w ip.bpf -f ip.bpf tcp", 1, "SameFile ip.bpf")
    scene.check("the listing", scene.read("ip.bpf"), IP.encode())
    seen = scene.run(f"compare -w out.pcap tcp udp {VETH}")
    scene.check("-w beside a capture", (b"-w OUT goes without IN" in seen.err, seen.out, seen.status), (True, b"", 1))
