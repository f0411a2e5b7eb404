"""`bpftap compare`: the packets that two filters treat differently, their counts, and `-q`."""
import random
import subprocess

from .common import IP, TORN, VETH, WHOLE, case, fault_lines
from .explain import ARP_HEAD, FIRST, IP_HEAD, LONG, MIXED, TCP_HEAD, UDP_HEAD, UNCOMPILED

# Two filters, the lines of packets that they treat differently, and the counts.
COMPARED = [
    ("arp", "arp", [], "4 packets: 0 differ, 0 accepted by the first alone, 0 by the second"),
    ("", "arp", [IP_HEAD + "first Yes the empty expression second No arp", TCP_HEAD + "first Yes the empty expression second No arp",
                 UDP_HEAD + "first Yes the empty expression second No arp"],
     "4 packets: 3 differ, 3 accepted by the first alone, 0 by the second"),
    ("arp or tcp", "ip proto 17 or tcp",
     [ARP_HEAD + "first Yes arp second No tcp", UDP_HEAD + "first No tcp second Yes ip proto 17"],
     "4 packets: 2 differ, 1 accepted by the first alone, 1 by the second"),
    # An Abort rejects as a No does, so the second packet is treated alike here.
    ("tcp", "tcp and 1 = 1", [], "4 packets: 0 differ, 0 accepted by the first alone, 0 by the second"),
    ("ip", "not tcp",
     [ARP_HEAD + "first No ip second Yes not tcp", IP_HEAD + "first Yes ip second Abort not tcp, byte 23 is not captured",
      TCP_HEAD + "first Yes ip second No not tcp"],
     "4 packets: 3 differ, 2 accepted by the first alone, 1 by the second"),
]


def text(*lines):
    return "".join(f"{line}\n" for line in lines)


@case
def differing_packets_are_printed(scene):
    """A line for each packet that one filter accepts and the other does not, with both answers, and the counts."""
    scene.start({"in.pcap": MIXED, "ip.bpf": IP})
    for first, second, lines, counts in COMPARED:
        scene.expect(["compare", first, second, "in.pcap"], out=text(*lines, counts))
        same = "0 differ" in counts
        scene.expect(["compare", "-q", first, second, "in.pcap"], 0 if same else 4)
    line = ARP_HEAD + "first Yes arp second No 0 at 3: ret #0"
    seen = scene.run("compare -f ip.bpf arp in.pcap").out.decode().splitlines()
    scene.check("a listing", (seen[0], seen[-1]), (line, "4 packets: 4 differ, 1 accepted by the first alone, 3 by the second"))
    scene.expect("compare -s 96 -f ip.bpf ip in.pcap", out="4 packets: 0 differ, 0 accepted by the first alone, 0 by the second\n")


@case
def expressions_without_a_program_are_compared(scene):
    """Expressions that are read are compared and decided, also if one is too long or too deep to compile."""
    scene.start({"in.pcap": MIXED, "ip.bpf": IP})
    line = IP_HEAD + f"first Abort {FIRST}, byte 14 is not captured second Yes ip"
    counts = "4 packets: 1 differ, 0 accepted by the first alone, 1 by the second"
    scene.expect(["compare", LONG, "ip", "in.pcap"], out=text(line, counts))
    scene.expect(["compare", "-q", LONG, "ip", "in.pcap"], 4)
    scene.expect(["compare", "-q", "-f", "ip.bpf", LONG, "in.pcap"], 4)
    for expr, fault, _ in UNCOMPILED:
        scene.refuse(["check", "--", expr], 1, fault)
        scene.expect(["compare", expr, expr], out="same\n")
    scene.expect(["compare", UNCOMPILED[2][0], "ip"], out="same\n")
    scene.expect(["compare", "-f", "ip.bpf", UNCOMPILED[2][0]], out="same\n")


def differences(first, second):
    """What `compare` prints, by the lines that `explain` prints of both filters."""
    lines, only = [], [0, 0]
    pairs = list(zip(first[:-1], second[:-1]))
    for one, other in pairs:
        head, answers = one.split(" ")[:8], [" ".join(line.split(" ")[8:]) for line in (one, other)]
        accepted = [answer.startswith("Yes ") for answer in answers]
        if accepted[0] != accepted[1]:
            only[accepted[1]] += 1
            lines.append(f"{' '.join(head)} first {answers[0]} second {answers[1]}")
    lines.append(f"{len(pairs)} packets: {sum(only)} differ, {only[0]} accepted by the first alone, {only[1]} by the second")
    return lines


FILTERS = ["tcp", "tcp port 8080", "tcp dst port 8080", "udp", "ip", "arp", "not tcp", "len > 60", "icmp or arp", "tcp[13] & 2 != 0", "",
           "ether[100] = 0", "port 5353 or 80", "ip[8] = 64", "1 / (len - 98) = 0"]


@case
def what_differs_is_what_explain_says(scene):
    """On the real capture, whole and cut short, and on two of them: the lines are those of `explain` of both filters."""
    scene.start({})
    scene.expect(["cut", "-s", "40", str(VETH), "short.pcap"])
    explained = {}
    for name in (str(VETH), "short.pcap"):
        for expr in FILTERS:
            explained[name, expr] = scene.run(["explain", "-e", expr, name]).out.decode().splitlines()
    chosen = random.Random(65)
    for _ in range(60):
        first, second = chosen.choice(FILTERS), chosen.choice(FILTERS)
        both = []
        for name in (str(VETH), "short.pcap"):
            wanted = differences(explained[name, first], explained[name, second])
            both.append(wanted)
            scene.expect(["compare", first, second, name], out=text(*wanted))
            scene.expect(["compare", "-q", first, second, name], 4 if len(wanted) > 1 else 0)
        numbers = [[int(word) for word in lines[-1].split() if word.isdigit()] for lines in both]
        packets, differ, one, other = (sum(parts) for parts in zip(*numbers))
        counts = f"{packets} packets: {differ} differ, {one} accepted by the first alone, {other} by the second"
        scene.expect(["compare", first, second, str(VETH), "short.pcap"], out=text(*both[0][:-1], *both[1][:-1], counts))


@case
def faults_end_a_comparison(scene):
    """The first fault ends it, after the lines and counts of what was read before it; `-q` may have its answer before."""
    scene.start({"in.pcap": MIXED, "one.pcap": WHOLE, "torn.pcap": TORN, "text.pcap": "a text of more than the 24 bytes of a header", "ip.bpf": IP})
    line = "place 0 time 2.000000000 len 14 captured 14 first Yes ip second No arp\n"
    counts = "1 packets: 1 differ, 1 accepted by the first alone, 0 by the second\n"
    scene.expect("compare ip arp torn.pcap", 2, fault_lines("TornRecord 1"), line + counts)
    scene.expect("compare ip arp one.pcap text.pcap in.pcap", 1, fault_lines("Capture 1 NotSavefile"), line + counts)
    scene.expect("compare ip arp one.pcap none.pcap", 3, fault_lines("Device none.pcap"), line + counts)
    scene.expect("compare ip arp text.pcap one.pcap", 1, fault_lines("Capture 0 NotSavefile"))
    scene.expect("compare ip arp one.pcap", 3, fault_lines("Device standard output"), streams=">/dev/full")
    scene.expect("compare 'port http' arp in.pcap", 1, fault_lines("BadWord 5") + "  EXPR1:\n")
    scene.expect("compare arp 'tcp port https' in.pcap", 1, fault_lines("BadWord 9") + "  EXPR2:\n")
    scene.expect("compare -f ip.bpf 'port http' in.pcap", 1, fault_lines("BadWord 5"))
    for words, status, fault in [
        ("ip arp torn.pcap", 4, None), ("ip ip torn.pcap", 2, "TornRecord 1"), ("ip arp in.pcap none.pcap", 4, None),
        ("ip ip in.pcap none.pcap", 3, "Device none.pcap"), ("ip ip in.pcap one.pcap", 0, None), ("ip ip text.pcap", 1, "NotSavefile"),
    ]:
        scene.expect(f"compare -q {words}", status, fault_lines(fault) if fault else "")
    for words in ("compare", "compare ip", "compare -w out.pcap ip arp in.pcap", "compare -f ip.bpf -w out.pcap ip in.pcap", "compare -s x ip arp in.pcap", "compare -s -1 ip ip in.pcap"):
        seen = scene.run(words)
        scene.check(f"standard error of {words}", (b"Usage: bpftap compare" in seen.err, seen.out, seen.status), (True, b"", 1))


@case
def a_listing_of_tcpdump_is_compared(scene):
    """Where libpcap's meaning is ours no packet differs."""
    if not scene.has("tcpdump"):
        return
    for expr in ("udp port 53 or arp", "tcp[13] & 2 != 0"):
        scene.put({"tcpdump.bpf": subprocess.run(["tcpdump", "-ddd", "-r", str(VETH), expr], capture_output=True).stdout})
        scene.expect(["compare", "-q", "-f", "tcpdump.bpf", expr, str(VETH)])
