"""`bpftap explain`, `check -x` and `cut -c`: what decided of each packet, one packet in full, and counts."""
import re
import subprocess

from .common import ALL, ARP_RECORD, HEADER, IP, IP_RECORD, TCP_RECORD, TORN, UDP_RECORD, VETH, WHOLE, case, fault_lines, records

MIXED = HEADER + ARP_RECORD + IP_RECORD + TCP_RECORD + UDP_RECORD

ARP_HEAD = "place 0 time 1.000000000 len 14 captured 14 "
IP_HEAD = "place 1 time 2.000000000 len 14 captured 14 "
TCP_HEAD = "place 2 time 1.000000000 len 38 captured 38 "
UDP_HEAD = "place 3 time 2.000000000 len 38 captured 38 "


def lines(*ends):
    """The lines of the four packets, by what follows their lengths, and the line of the counts."""
    *packets, counts = ends
    heads = [ARP_HEAD, IP_HEAD, TCP_HEAD, UDP_HEAD]
    return "".join(f"{head}{end}\n" for head, end in zip(heads, packets)) + f"4 packets: {counts}\n"


# An expression, what follows the lengths of each packet, and the counts.
EXPLAINED = [
    ("", ["Yes the empty expression"] * 4 + ["4 Yes, 0 No, 0 Abort"]),
    ("arp", ["Yes arp", "No arp", "No arp", "No arp", "1 Yes, 3 No, 0 Abort"]),
    ("not tcp", ["Yes not tcp", "Abort not tcp, byte 23 is not captured", "No not tcp", "Yes not tcp", "2 Yes, 1 No, 1 Abort"]),
    ("udp or arp", ["Yes arp", "Abort udp, byte 23 is not captured", "No arp", "Yes udp", "2 Yes, 1 No, 1 Abort"]),
    ("not (len / 0x0e = 1)", ["No not ((len / 14) = 1)"] * 2 + ["Yes not ((len / 14) = 1)"] * 2 + ["2 Yes, 2 No, 0 Abort"]),
    ("1 / (len - 38) = 0", ["Yes (1 / (len - 38)) = 0"] * 2 + ["Abort (1 / (len - 38)) = 0, the divisor is 0"] * 2
     + ["2 Yes, 0 No, 2 Abort"]),
    ("tcp port 80 or 53", ["No tcp port 53", "Abort tcp port 80, byte 23 is not captured", "Yes tcp port 53", "No tcp port 53",
                           "1 Yes, 2 No, 1 Abort"]),
]


@case
def each_packet_is_explained(scene):
    """The part that decided is named, with `not` before it if it is under one, and an Abort has its cause."""
    scene.start({"in.pcap": MIXED})
    for expr, ends in EXPLAINED:
        scene.expect(["explain", "-e", expr, "in.pcap"], out=lines(*ends))


@case
def a_listing_is_explained(scene):
    """The number that a program returns comes with the place and the name of the instruction; a run without a return is an Abort."""
    # The last byte of an IPv4 frame's first 14 is there; byte 23 is not.
    protocol = "4\n48 0 0 23\n21 0 1 6\n6 0 0 96\n6 0 0 0\n"
    scene.start({"in.pcap": MIXED, "ip.bpf": IP, "protocol.bpf": protocol})
    yes, no = "Yes 262144 at 2: ret #262144", "No 0 at 3: ret #0"
    scene.expect("explain -f ip.bpf in.pcap", out=lines(no, yes, yes, yes, "3 Yes, 1 No, 0 Abort"))
    abort = "Abort 0 at 0: ldb [23]"
    scene.expect("explain -f protocol.bpf in.pcap", out=lines(abort, abort, "Yes 96 at 2: ret #96", no, "1 Yes, 1 No, 2 Abort"))


@case
def the_program_answers_the_snapshot_length(scene):
    """`-s` is the snapshot length that the program of the expression returns, 0 the greatest; a listing has its own, and the lines are
    the same."""
    scene.start({"in.pcap": WHOLE, "ip.bpf": IP})
    for length, answer in [("96", 96), ("0", 262144), ("1", 1)]:
        seen = scene.run(f"explain -s {length} -p 0 -e ip in.pcap")
        scene.check(f"answer with -s {length}", seen.out.decode().splitlines()[-1], f"answer {answer}")
        scene.check(f"line with -s {length}", scene.run(f"explain -s {length} -e ip in.pcap"), scene.run("explain -e ip in.pcap"))
    scene.check("a listing", scene.run("explain -s 96 -f ip.bpf in.pcap"), scene.run("explain -f ip.bpf in.pcap"))


@case
def the_counts_are_those_of_cut(scene):
    """On the real capture as many packets are accepted as `cut` writes, and each has a line."""
    for expr in ("tcp port 80 or 8080", "arp or icmp", "not udp"):
        seen = scene.run(["explain", "-e", expr, str(VETH)])
        *packets, counts = seen.out.decode().splitlines()
        accepted = sum(" Yes " in line for line in packets)
        scene.check(f"lines of {expr}", (len(packets), counts.split(" Yes")[0]), (253, f"253 packets: {accepted}"))
        scene.expect(["cut", "-s", "0", "-c", "-e", expr, str(VETH), "out.pcap"], err=f"{accepted} of 253 packets\n")


@case
def a_listing_of_tcpdump_is_explained(scene):
    """A program of tcpdump accepts the packets that the expression accepts here, and is printed as tcpdump prints it."""
    if not scene.has("tcpdump"):
        return
    for expr in ("udp port 53 or arp", "tcp[13] & 2 != 0"):
        numbers, names = (
            subprocess.run(["tcpdump", option, "-r", str(VETH), expr], capture_output=True).stdout for option in ("-ddd", "-d"))
        scene.put({"tcpdump.bpf": numbers})
        scene.expect("check -d -f tcpdump.bpf", out=names)
        by_listing = scene.run(["explain", "-f", "tcpdump.bpf", str(VETH)]).out.splitlines()
        by_expression = scene.run(["explain", "-e", expr, str(VETH)]).out.splitlines()
        scene.check(f"counts of {expr}", by_listing[-1], by_expression[-1])
        answers = [[line.split()[8] for line in lines[:-1]] for lines in (by_listing, by_expression)]
        scene.check(f"answers of {expr}", answers[0], answers[1])


WHOLE_PACKET = TCP_HEAD + """Yes tcp port 53
places count from 0; tcpdump and Wireshark count packets from 1, and this is packet 3 there

expression: udp or tcp port 53 or arp

No         udp
           ether[12:2] = 0x800 (ethertype: IPv4)
           ether[23] = 0x6 (protocol: TCP)
Yes        tcp port 53
           ether[12:2] = 0x800 (ethertype: IPv4)
           ether[23] = 0x6 (protocol: TCP)
           ether[20:2] = 0x0 (flags and fragment offset)
           ether[14] = 0x45 (version and IHL)
           ether[34:2] = 0x35 (source port: 53)
not asked  arp

bytes, with those marked that the expression looked at:
\t0x0000:  ffff ffff ffff 0001 0203 0405 0800 4500  ..............E.
\t                                       ^^^^ ^^
\t0x0010:  0018 0000 0000 4006 0000 0a00 0001 0a00  ......@.........
\t                   ^^^^   ^^
\t0x0020:  0002 0035 0035                           ...5.5
\t              ^^^^

program, with the registers after each instruction:
"""


@case
def one_packet_is_explained_in_full(scene):
    """Each primitive with its own answer and what it looked at, those that are not asked, and the run."""
    scene.start({"in.pcap": MIXED, "ip.bpf": IP})
    seen = scene.run(["explain", "-p", "2", "-e", "udp or tcp port 53 or arp", "in.pcap"])
    text = seen.out.decode()
    scene.check("the packet", text[: len(WHOLE_PACKET)], WHOLE_PACKET)
    scene.check("the end", (text.splitlines()[-1], seen.err, seen.status), ("answer 262144", b"", 0))
    seen = scene.run("explain -p 1 -f ip.bpf in.pcap").out.decode().splitlines()[-4:]
    scene.check("the run", [" ".join(line.split()) for line in seen], [
        "(000) ldh [12] A 0x800 X 0x0", "(001) jeq #0x800 jt 2 jf 3 A 0x800 X 0x0", "(002) ret #262144 A 0x800 X 0x0", "answer 262144"])
    seen = scene.run(["explain", "-p", "1", "-e", "not tcp", "in.pcap"]).out.decode()
    scene.check("what is missing", "Abort      tcp, byte 23 is not captured\n" in seen and "ether[23] is not captured (protocol)\n" in seen, True)
    broken = "the last instruction was not carried out: a byte that it loads is not captured\nanswer 0\n"
    scene.check("the run that broke off", seen.endswith(broken), True)
    scene.put({"divided.bpf": "2\n60 0 0 0\n6 0 0 9\n"})
    seen = scene.run("explain -p 0 -f divided.bpf in.pcap").out.decode()
    scene.check("a division", seen.endswith("the last instruction was not carried out: its divisor is 0\nanswer 0\n"), True)


# Expressions that are read and have no program, as `check` says, with what is printed of the four packets by the tables of LANGUAGE.
FIRST, LAST = "(ip[0:2] + len) > 0", "(ip[119:2] + len) > 119"
LONG = " or ".join(f"ip[{at}:2] + len > {at}" for at in range(120))
DEEP = "1+(" * 16 + "1+1" + ")" * 16 + " = 18"
UNCOMPILED = [
    (LONG, "TooLong", [f"No {LAST}", f"Abort {FIRST}, byte 14 is not captured", f"Yes {FIRST}", f"Yes {FIRST}", "2 Yes, 1 No, 1 Abort"]),
    (DEEP, "TooDeep", ["Yes " + "(1 + " * 17 + "1" + ")" * 17 + " = 18"] * 4 + ["4 Yes, 0 No, 0 Abort"]),
    ("ip" + "||ip" * 599, "TooLong", ["No ip", "Yes ip", "Yes ip", "Yes ip", "3 Yes, 1 No, 0 Abort"]),
]


@case
def expressions_without_a_program_are_explained(scene):
    """An expression that is read is explained, also if it is too long or too deep to compile: only the run of `-p` is left out, and said so."""
    scene.start({"in.pcap": MIXED})
    for expr, fault, ends in UNCOMPILED:
        scene.refuse(["check", "--", expr], 1, fault)
        scene.expect(["explain", "-e", expr, "in.pcap"], out=lines(*ends))
        scene.expect(["explain", "-q", "-e", expr, "in.pcap"])
        answers = scene.run(["explain", "--json", "-e", expr, "in.pcap"]).out.decode().splitlines()[:-1]
        scene.check(f"answers of {fault} in JSON", [re.search('"answer":"([a-z]*)"', line)[1].capitalize() for line in answers],
                    [end.split()[0] for end in ends[:-1]])
        seen = scene.run(["explain", "-p", "1-2", "-e", expr, "in.pcap"])
        first, *others = seen.out.decode().split(f"\nthe expression has no program: {fault}\n")
        heads = [text.splitlines()[0] for text in (first, others[0])]
        scene.check(f"packets of {fault} in full", (heads, others[1:], seen.err, seen.status),
                    ([IP_HEAD + ends[1], TCP_HEAD + ends[2]], [""], b"", 0))
        scene.check(f"no run of {fault}", "registers" in seen.out.decode(), False)


def dumped(scene, words):
    """The bytes that `explain -p` shows, without the lines of marks."""
    lines = scene.run(words).out.decode().splitlines(keepends=True)
    return "".join(line for line in lines if line.startswith("\t0x"))


@case
def the_bytes_are_those_of_tcpdump(scene):
    """The bytes of a packet, an odd number of them and more than 65,536 among them, as `tcpdump -XX` prints them."""
    if not scene.has("tcpdump"):
        return
    long = bytes(range(256)) * 257 + b"odd"
    size = len(long).to_bytes(4, "little")
    record = bytes.fromhex("01000000 00000000") + size + size + long
    scene.start({"in.pcap": MIXED + record})
    printed = subprocess.run(["tcpdump", "-XX", "-r", "in.pcap"], cwd=scene.folder, capture_output=True).stdout.decode()
    wanted = [""]
    for line in printed.splitlines(keepends=True):
        if line.startswith("\t0x"):
            wanted[-1] += line
        elif wanted[-1]:
            wanted.append("")
    for place, text in enumerate(wanted):
        scene.check(f"bytes of packet {place}", dumped(scene, f"explain -p {place} -e tcp in.pcap"), text)
    scene.check("packets of tcpdump", len(wanted), 5)


@case
def faults_are_reported(scene):
    """A place that does not exist, a torn capture, two filters, and bad usage."""
    scene.start({"in.pcap": WHOLE, "torn.pcap": TORN, "all.bpf": ALL})
    scene.refuse("explain -p 1 -e ip in.pcap", 1, "NoPacket 1")
    scene.refuse("explain -p 1 -e ip torn.pcap", 2, "TornRecord 1")
    scene.refuse("explain -e ip -f all.bpf in.pcap", 1, "FilterTwice")
    scene.refuse("explain -e 'port http' none.pcap", 1, "BadWord 5")
    scene.refuse("explain -e ip none.pcap", 3, "Device none.pcap")
    line = "place 0 time 2.000000000 len 14 captured 14 Yes ip\n1 packets: 1 Yes, 0 No, 0 Abort\n"
    scene.expect("explain -e ip torn.pcap", 2, fault_lines("TornRecord 1"), line)
    scene.expect("explain -e ip in.pcap", 3, fault_lines("Device standard output"), streams=">/dev/full")
    snap, place = "-s takes a number from 0 to 262144", "-p takes a number from 0 to 18446744073709551615"
    for words, said in [
        ("explain in.pcap", "<-e <EXPR>|-f <LISTING>>"), ("explain -p +1 -e ip in.pcap", place), ("explain -p -1 -e ip in.pcap", place),
        ("explain -p x -e ip in.pcap", place), ("explain -p 1- -e ip in.pcap", place), ("explain -p 2-1 -e ip in.pcap", place),
        ("explain -p 0-1-2 -e ip in.pcap", place), ("explain -s 262145 -e ip in.pcap", snap), ("explain -s -1 -e ip in.pcap", snap),
    ]:
        seen = scene.run(words)
        reported = (said in seen.err.decode(), b"Usage: bpftap explain" in seen.err, b"tip:" in seen.err)
        scene.check(f"standard error of {words}", (reported, seen.out, seen.status), ((True, True, False), b"", 1))


def each_line(scene, words, names):
    """The lines of the packets of these captures, each explained by itself, and the sums of their counts."""
    printed, sums = "", [0, 0, 0, 0]
    for name in names:
        *packets, counts = scene.run([*words, name]).out.decode().splitlines(keepends=True)
        printed += "".join(packets)
        sums = [one + int(other) for one, other in zip(sums, re.findall(r"\d+", counts))]
    return printed + "{} packets: {} Yes, {} No, {} Abort\n".format(*sums)


@case
def several_captures_are_explained(scene):
    """One after the other, with places of each and the counts of all; the first fault ends it, with what was read before it."""
    scene.start({"in.pcap": MIXED, "one.pcap": WHOLE, "torn.pcap": TORN, "empty.pcap": HEADER, "text.pcap": "a text of more than the 24 bytes of a header"})
    words = ["explain", "-e", "not tcp"]
    names = ["in.pcap", "one.pcap", "empty.pcap", str(VETH), "in.pcap"]
    scene.expect([*words, *names], out=each_line(scene, words, names))
    torn = each_line(scene, words, ["in.pcap", "torn.pcap"])
    scene.expect([*words, "in.pcap", "torn.pcap", "one.pcap"], 2, fault_lines("Capture 1 TornRecord 1"), torn)
    scene.expect([*words, "in.pcap", "text.pcap", "one.pcap"], 1, fault_lines("Capture 1 NotSavefile"), each_line(scene, words, ["in.pcap"]))
    scene.expect([*words, "in.pcap", "none.pcap", "one.pcap"], 3, fault_lines("Device none.pcap"), each_line(scene, words, ["in.pcap"]))
    scene.expect([*words, "text.pcap", "in.pcap"], 1, fault_lines("Capture 0 NotSavefile"))
    scene.expect([*words, "empty.pcap", "text.pcap"], 1, fault_lines("Capture 1 NotSavefile"), "0 packets: 0 Yes, 0 No, 0 Abort\n")
    shown = [scene.run([*words, "-p", "0", name]).out.decode() for name in ("in.pcap", "one.pcap")]
    scene.expect([*words, "-p", "0", "in.pcap", "one.pcap"], out="".join(shown))
    scene.expect([*words, "-p", "2", "one.pcap", "in.pcap"], 1, fault_lines("NoPacket 2\n  one.pcap"), scene.run([*words, "-p", "2", "in.pcap"]).out.decode())


@case
def a_range_of_packets_is_explained_in_full(scene):
    """`-p FIRST-LAST` prints what `-p` prints of each place, as far as the capture has it; then its fault, if it has one."""
    scene.start({"in.pcap": MIXED, "one.pcap": WHOLE, "torn.pcap": TORN, "ip.bpf": IP})
    for words in (["-e", "not tcp"], ["-f", "ip.bpf"]):
        for name, last in (("in.pcap", len(records(MIXED)) - 1), (str(VETH), 9)):
            shown = [scene.run(["explain", "-p", str(place), *words, name]).out.decode() for place in range(last + 1)]
            for first, end in ((0, 0), (0, 1), (1, 2), (0, last), (last, last)):
                scene.expect(["explain", "-p", f"{first}-{end}", *words, name], out="".join(shown[first : end + 1]))
            if name == "in.pcap":
                scene.expect(["explain", "-p", f"1-{2 ** 64 - 1}", *words, name], out="".join(shown[1:]))
                scene.expect(["explain", "-p", f"{last + 1}-{last + 2}", *words, name], 1, fault_lines(f"NoPacket {last + 1}"))
    one = scene.run("explain -p 0 -e ip one.pcap").out.decode()
    scene.expect("explain -p 0-1 -e ip torn.pcap", 2, fault_lines("TornRecord 1"), one)
    scene.expect("explain -p 0-0 -e ip torn.pcap", out=one)
    scene.expect("explain -p 1-2 -e ip torn.pcap", 2, fault_lines("TornRecord 1"))
    scene.expect("explain -p 0-5 -e ip one.pcap torn.pcap one.pcap", 2, fault_lines("Capture 1 TornRecord 1"), one + one)
    scene.expect("explain -p 0-5 -e ip one.pcap none.pcap", 3, fault_lines("Device none.pcap"), one)
    scene.expect("explain -p 0-5 -e ip one.pcap", 3, fault_lines("Device standard output"), streams=">/dev/full")


# Words after `explain -q`, the status, and the line of a fault.
ASKED = [
    ("-e arp in.pcap", 0, None), ("-e udp in.pcap", 0, None), ("-e 'len > 38' in.pcap", 4, None), ("-e rarp in.pcap", 4, None),
    # An Abort is no match.
    ("-e 'tcp and icmp' one.pcap", 4, None), ("-e ip empty.pcap", 4, None),
    ("-f ip.bpf in.pcap", 0, None), ("-f protocol.bpf one.pcap", 4, None), ("-f none.bpf in.pcap", 4, None),
    # A match before a fault ends the reading, and a fault before one has its status.
    ("-e ip torn.pcap", 0, None), ("-e arp torn.pcap", 2, "TornRecord 1"), ("-e ip text.pcap", 1, "NotSavefile"),
    ("-e ip gone.pcap", 3, "Device gone.pcap"),
    ("-e udp one.pcap in.pcap", 0, None), ("-e rarp one.pcap in.pcap", 4, None), ("-e udp in.pcap gone.pcap", 0, None),
    ("-e rarp one.pcap torn.pcap in.pcap", 2, "Capture 1 TornRecord 1"), ("-e udp gone.pcap in.pcap", 3, "Device gone.pcap"),
    ("-e 'port http' in.pcap", 1, "BadWord 5"),
]


@case
def the_status_says_whether_a_packet_is_accepted(scene):
    """`-q` prints nothing: 0 where a packet is accepted, 4 where none is, and a fault's status where it comes first."""
    protocol = "4\n48 0 0 23\n21 0 1 6\n6 0 0 96\n6 0 0 0\n"
    scene.start({"in.pcap": MIXED, "one.pcap": WHOLE, "torn.pcap": TORN, "empty.pcap": HEADER, "text.pcap": "a text of more than the 24 bytes of a header",
                 "ip.bpf": IP, "protocol.bpf": protocol, "none.bpf": "1\n6 0 0 0\n"})
    for words, status, fault in ASKED:
        scene.expect(f"explain -q {words}", status, fault_lines(fault) if fault else "")
    scene.expect("explain -q -e arp in.pcap", 0, streams=">/dev/full")
    for expr in ("tcp port 8080", "udp port 53", "arp", "icmp6", "not ip", "tcp[13] & 4 != 0"):
        counts = scene.run(["explain", "-e", expr, str(VETH)])
        if counts.status == 0:
            wanted = 4 if b" 0 Yes," in counts.out.splitlines()[-1] else 0
            scene.expect(["explain", "-q", "-e", expr, str(VETH)], wanted)
    seen = scene.run("explain -q -p 0 -e ip in.pcap")
    scene.check("-q with -p", (b"cannot be used with" in seen.err, seen.out, seen.status), (True, b"", 1))


@case
def an_expression_is_printed_as_it_was_read(scene):
    """What is inherited is written out, on one line, even if the program is too long."""
    for expr, read in [("tcp port 80 or 8080", "tcp port 80 or tcp port 8080"), ("", ""), ("1=1", "1 = 1")]:
        scene.expect(["check", "-x", expr], out=read + "\n")
    scene.expect(["check", "-x", "ip" + "||ip" * 2047], out="ip" + " or ip" * 2047 + "\n")
    scene.refuse("check -x 'tcp and 80'", 1, "NoQualifier 8")
    for words in ("check -x -d ip", "check -x -f all.bpf"):
        seen = scene.run(words)
        scene.check(f"usage after {words}", (b"Usage: bpftap check" in seen.err, seen.status), (True, 1))


@case
def packets_are_counted(scene):
    """`cut -c` prints how many of the packets were written, after a torn record too, and nothing if a device failed."""
    scene.start({"in.pcap": MIXED, "torn.pcap": TORN})
    scene.expect("cut -s 0 -c -e arp in.pcap out.pcap", err="1 of 4 packets\n")
    scene.expect("cut -s 0 -c torn.pcap out.pcap", 2, fault_lines("TornRecord 1") + "1 of 1 packets\n")
    scene.expect("cut -s 0 -c in.pcap none/out.pcap", 3, fault_lines("Device none/out.pcap"))
