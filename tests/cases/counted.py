"""`bpftap explain -c`, `-l` and bounds: counts that were worked out by hand, and those of tcpdump where it is installed."""
import json
import subprocess

from .common import ARP_RECORD, HEADER, IP, IP_RECORD, TCP_RECORD, TORN, UDP_RECORD, VETH, WHOLE, case, fault_lines

MIXED = HEADER + ARP_RECORD + IP_RECORD + TCP_RECORD + UDP_RECORD
TEXT = "a text of more than the 24 bytes of a header"
# A listing that aborts on the two frames of 14 bytes, and accepts TCP.
PROTOCOL = "4\n48 0 0 23\n21 0 1 6\n6 0 0 96\n6 0 0 0\n"
# An expression that is read, and for which a program is too long.
LONG = "ip" + "||ip" * 2040

# A filter, and how many of the four packets it answers Yes, No and Abort; and the one packet of WHOLE, an IPv4 frame of 14 bytes.
COUNTED = [
    (["-e", ""], (4, 0, 0), (1, 0, 0)),
    (["-e", "arp"], (1, 3, 0), (0, 1, 0)),
    (["-e", "not tcp"], (2, 1, 1), (0, 0, 1)),
    (["-e", "udp or arp"], (2, 1, 1), (0, 0, 1)),
    (["-e", "1 / (len - 38) = 0"], (2, 0, 2), (1, 0, 0)),
    (["-e", "tcp port 80 or 53"], (1, 2, 1), (0, 0, 1)),
    (["-e", LONG], (3, 1, 0), (1, 0, 0)),
    (["-e", f"not ({LONG})"], (1, 3, 0), (0, 1, 0)),
    (["-f", "ip.bpf"], (3, 1, 0), (1, 0, 0)),
    (["-f", "protocol.bpf"], (1, 1, 2), (0, 0, 1)),
]


def text_of(counts):
    return "{} packets: {} Yes, {} No, {} Abort\n".format(sum(counts), *counts)


def object_of(counts):
    return {"packets": sum(counts)} | dict(zip(("yes", "no", "abort"), counts))


def start(scene):
    scene.start({"in.pcap": MIXED, "one.pcap": WHOLE, "torn.pcap": TORN, "empty.pcap": HEADER, "text.pcap": TEXT, "ip.bpf": IP, "protocol.bpf": PROTOCOL})


@case
def each_capture_is_counted(scene):
    """A line for each capture after its path, and of several their sum; the same as objects."""
    start(scene)
    for words, mixed, one in COUNTED:
        total = tuple(a + b for a, b in zip(mixed, one))
        scene.expect(["explain", "-c", *words, "in.pcap"], out="in.pcap " + text_of(mixed))
        scene.expect(["explain", "-c", *words, "one.pcap", "in.pcap"], out=f"one.pcap {text_of(one)}in.pcap {text_of(mixed)}{text_of(total)}")
        seen = scene.run(["explain", "-c", "--json", *words, "in.pcap", "one.pcap"])
        wanted = [{"file": "in.pcap"} | object_of(mixed), {"file": "one.pcap"} | object_of(one), object_of(total)]
        objects = [json.loads(line) for line in seen.out.splitlines()]
        scene.check(f"last members of {words[1][:40]}", [list(one)[-1] for one in objects], ["instructions"] * 3)
        scene.check(f"objects of {words[1][:40]}", [{name: one[name] for name in one if name != "instructions"} for one in objects], wanted)
    scene.expect("explain -c -e ip empty.pcap", out="empty.pcap " + text_of((0, 0, 0)))


# A filter, and how many instructions its program takes for the four packets and for the one: each run was followed by hand.
TAKEN = [
    (["-e", ""], 4, 1), (["-e", "arp"], 12, 3), (["-e", "not tcp"], 16, 3), (["-e", "udp or arp"], 17, 3), (["-e", "1 / (len - 38) = 0"], 24, 7),
    (["-e", LONG], None, None), (["-e", f"not ({LONG})"], None, None), (["-f", "ip.bpf"], 12, 3), (["-f", "protocol.bpf"], 8, 1),
]


@case
def instructions_are_summed(scene):
    """The objects have how many instructions the program took, null if there is none, and the last one the sum; as many as the runs of `-p` have."""
    start(scene)
    for words, mixed, one in TAKEN:
        seen = scene.run(["explain", "-c", "--json", *words, "in.pcap", "one.pcap"])
        total = None if mixed is None else mixed + one
        scene.check(f"instructions of {words[1][:40]}", [json.loads(line)["instructions"] for line in seen.out.splitlines()], [mixed, one, total])
    scene.expect("explain -c --json -e arp in.pcap", out='{"file":"in.pcap","packets":4,"yes":1,"no":3,"abort":0,"instructions":12}\n')
    scene.expect("explain -c --json -e arp one.pcap empty.pcap", out=(
        '{"file":"one.pcap","packets":1,"yes":0,"no":1,"abort":0,"instructions":3}\n{"file":"empty.pcap","packets":0,"yes":0,"no":0,"abort":0,"instructions":0}\n'
        '{"packets":1,"yes":0,"no":1,"abort":0,"instructions":3}\n'))
    # Up to the fault, and of no capture whose header is refused.
    seen = scene.run("explain -c --json -e arp torn.pcap")
    scene.check("of a torn capture", (json.loads(seen.out)["instructions"], seen.status), (3, 2))
    for expr in ("tcp port 8080", "tcp port 80 or 53", "ip[8] < 3 and not udp"):
        runs = [json.loads(line)["run"]["instructions"] for line in scene.run(["explain", "--json", "-p", "0-252", "-e", expr, str(VETH)]).out.splitlines()]
        counted = json.loads(scene.run(["explain", "-c", "--json", "-e", expr, str(VETH)]).out)
        scene.check(f"runs of {expr}", (len(runs), counted["instructions"]), (253, sum(runs)))


@case
def captures_with_an_accepted_packet_are_listed(scene):
    """`-l` prints their paths, and ends with 4 if there is none; an Abort is no match."""
    start(scene)
    files = ["in.pcap", "empty.pcap", "one.pcap"]
    for words, mixed, one in COUNTED:
        listed = [name for name, counts in (("in.pcap", mixed), ("one.pcap", one)) if counts[0]]
        scene.expect(["explain", "-l", *words, *files], 0 if listed else 4, out="".join(f"{name}\n" for name in listed))
    scene.expect("explain -l -e rarp in.pcap one.pcap", 4)
    scene.expect("explain -l --json -e udp one.pcap in.pcap", out='{"file":"in.pcap"}\n')
    # Each is read up to its first match.
    scene.expect("explain -l -e ip torn.pcap in.pcap", out="torn.pcap\nin.pcap\n")
    scene.expect("explain -l -e arp in.pcap torn.pcap in.pcap", 2, fault_lines("Capture 1 TornRecord 1"), "in.pcap\n")


# Bounds on how many of the five packets of in.pcap and one.pcap `ip` accepts, of which there are four, and the status.
BOUNDS = [
    ("--exactly 4", 0), ("--exactly 3", 4), ("--exactly 5", 4), ("--at-least 4", 0), ("--at-least 5", 4), ("--at-least 0", 0), ("--at-most 4", 0), ("--at-most 3", 4),
    ("--at-least 2 --at-most 4", 0), ("--at-least 4 --at-most 4", 0), ("--at-least 1 --at-most 3", 4), ("--at-most 18446744073709551615", 0),
    ("--exactly 0", 4),
]


@case
def bounds_decide_the_status(scene):
    """With `-q` nothing is printed, with `-c` the counts; the status says whether the number of accepted packets is within the bounds."""
    start(scene)
    counts = f"in.pcap {text_of((3, 1, 0))}one.pcap {text_of((1, 0, 0))}{text_of((4, 1, 0))}"
    for bounds, status in BOUNDS:
        scene.expect(f"explain -q {bounds} -e ip in.pcap one.pcap", status)
        scene.expect(f"explain -c {bounds} -e ip in.pcap one.pcap", status, out=counts)
    scene.expect("explain -q --exactly 0 -e rarp in.pcap")
    scene.expect("explain -q --exactly 120 -e 'tcp port 8080' " + str(VETH))
    scene.expect("explain -q --exactly 2 -f ip.bpf torn.pcap", 2, fault_lines("TornRecord 1"))
    scene.expect("explain -q --exactly 1 -e ip in.pcap", 4, streams=">/dev/full")


@case
def an_abort_is_not_accepted(scene):
    """A bound is on the packets that are answered Yes: `not tcp` accepts two of four, and aborts on one. With none accepted `--at-most` holds."""
    start(scene)
    for bound, status in (("--exactly 2", 0), ("--exactly 3", 4), ("--at-least 3", 4), ("--at-most 2", 0)):
        scene.expect(f"explain -q {bound} -e 'not tcp' in.pcap", status)
    scene.expect("explain -q --at-most 5 -e rarp in.pcap")
    scene.expect("explain -q --at-most 0 -e rarp in.pcap")
    scene.expect("explain -q --at-least 1 -e 'not tcp' one.pcap", 4)


@case
def no_capture_or_listing_takes_the_counts(scene):
    """Standard output that goes to a capture or to the listing is refused, and the file stays as it is."""
    start(scene)
    scene.expect("explain -c -e ip in.pcap", 1, fault_lines("SameFile in.pcap"), streams=">>in.pcap")
    scene.expect("explain -l -e ip one.pcap in.pcap", 1, fault_lines("SameFile in.pcap"), streams=">>in.pcap")
    scene.expect("explain -c -f ip.bpf in.pcap", 1, fault_lines("SameFile ip.bpf"), streams=">>ip.bpf")
    scene.check("what is left", (scene.read("in.pcap"), scene.read("ip.bpf")), (MIXED, IP.encode()))


@case
def faults_come_before_the_answer(scene):
    """The first fault ends the reading; the packets before it are counted. Nothing is printed of a capture whose header is refused."""
    start(scene)
    scene.expect("explain -c -e ip torn.pcap in.pcap", 2, fault_lines("Capture 0 TornRecord 1"), f"torn.pcap {text_of((1, 0, 0))}{text_of((1, 0, 0))}")
    scene.expect("explain -c -e ip in.pcap text.pcap one.pcap", 1, fault_lines("Capture 1 NotSavefile"), f"in.pcap {text_of((3, 1, 0))}{text_of((3, 1, 0))}")
    scene.expect("explain -c -e ip text.pcap", 1, fault_lines("NotSavefile"))
    scene.expect("explain -c -e ip text.pcap in.pcap", 1, fault_lines("Capture 0 NotSavefile"))
    scene.expect("explain -c -e ip in.pcap gone.pcap", 3, fault_lines("Device gone.pcap"), f"in.pcap {text_of((3, 1, 0))}{text_of((3, 1, 0))}")
    scene.expect("explain -c -e ip in.pcap", 3, fault_lines("Device standard output"), streams=">/dev/full")
    scene.expect("explain -l -e ip in.pcap", 3, fault_lines("Device standard output"), streams=">/dev/full")
    scene.refuse("explain -c -e 'port http' in.pcap", 1, "BadWord 5")
    scene.refuse("explain -c -e ip -f ip.bpf in.pcap", 1, "FilterTwice")
    scene.refuse("explain -l -f none.bpf in.pcap", 3, "Device none.bpf")


# Arguments that do not go together, and what is said of them.
REFUSED = [
    ("-c -q -e ip in.pcap", "cannot be used with"), ("-c -p 0 -e ip in.pcap", "cannot be used with"), ("-l -q -e ip in.pcap", "cannot be used with"),
    ("--exactly 1 -e ip in.pcap", "go with -q or -c"), ("-l --at-least 1 -e ip in.pcap", "go with -q or -c"),
    ("-q --exactly x -e ip in.pcap", "take a number from 0"), ("-q --exactly -1 -e ip in.pcap", "take a number from 0"),
    ("-q --exactly 18446744073709551616 -e ip in.pcap", "take a number from 0"), ("-q --exactly 1 --at-most 2 -e ip in.pcap", "--exactly goes without"),
    ("-q --at-least 3 --at-most 2 -e ip in.pcap", "--at-least takes no greater number"), ("-c -s 262145 -e ip in.pcap", "-s takes a number"),
    ("-c in.pcap", "<-e <EXPR>|-f <LISTING>>"),
]


@case
def arguments_that_do_not_go_together_are_refused(scene):
    """Each with what is wanted, and the usage of `explain`."""
    start(scene)
    for words, said in REFUSED:
        seen = scene.run(f"explain {words}")
        reported = (said in seen.err.decode(), b"Usage: bpftap explain" in seen.err)
        scene.check(f"standard error of {words}", (reported, seen.out, seen.status), ((True, True), b"", 1))


@case
def the_counts_are_those_of_tcpdump(scene):
    """On the real capture as many packets are accepted as tcpdump prints."""
    if not scene.has("tcpdump"):
        return
    for expr in ("tcp port 80 or 8080", "arp or icmp", "not udp", "tcp[tcpflags] & tcp-syn != 0", "ip[8] < 5"):
        printed = subprocess.run(["tcpdump", "-n", "-r", str(VETH), expr], capture_output=True).stdout.splitlines()
        accepted = sum(not line.startswith(b"\t") for line in printed)
        scene.expect(["explain", "-q", "--exactly", str(accepted), "-e", expr, str(VETH)])
        scene.check(f"Yes of {expr}", json.loads(scene.run(["explain", "-c", "--json", "-e", expr, str(VETH)]).out)["yes"], accepted)


@case
def frames_that_no_filter_looks_into_are_named(scene):
    """A hint has their number, as after the lines of `explain`; there is none for a listing, nor if only the status answers."""
    ipv6 = bytes.fromhex("01000000 00000000 0e000000 0e000000 ffffffffffff 000102030405 86dd")
    scene.start({"in.pcap": MIXED + ipv6, "ip.bpf": IP})
    hint = b"1 of 5 frames is IPv6 or VLAN"
    for words, wanted in [("-c -e arp", True), ("-c -f ip.bpf", False), ("-c -e ''", False), ("-q --exactly 1 -e arp", False), ("-l -e arp", False)]:
        scene.check(f"hint of {words}", hint in scene.run(f"--hints explain {words} in.pcap").err, wanted)
