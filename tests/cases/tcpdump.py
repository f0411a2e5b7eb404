"""The real capture of `examples/`: what each command keeps of it is what tcpdump keeps."""
import os
import subprocess
import sys

from .common import LIMIT, PROGRAM, ROOT, VETH, case, header, records


class Packet:
    """A packet of Ethernet, and of IPv4 and ARP in it: as much as the expressions below ask of it."""

    def __init__(self, record):
        self.wire = int.from_bytes(record[12:16], "little")
        frame = record[16:]
        self.receiver = frame[:6]
        self.ether_type = frame[12:14].hex()
        self.protocol = frame[23] if self.ether_type == "0800" else None
        sender = {"0800": 26, "0806": 28}[self.ether_type]
        self.sender = ".".join(str(byte) for byte in frame[sender : sender + 4])
        ports = 14 + 4 * (frame[14] % 16)
        self.ports = {frame[ports : ports + 2].hex(), frame[ports + 2 : ports + 4].hex()}


# Expressions, how many of the 253 packets tcpdump 4.99.3 keeps (`tcpdump -r veth.pcap EXPR`), and which these are.
TCPDUMP = [
    ("", 253, lambda packet: True),
    ("tcp", 122, lambda packet: packet.protocol == 6),
    ("udp", 75, lambda packet: packet.protocol == 17),
    ("arp", 7, lambda packet: packet.ether_type == "0806"),
    ("icmp", 49, lambda packet: packet.protocol == 1),
    ("udp port 5353", 67, lambda packet: packet.protocol == 17 and "14e9" in packet.ports),
    ("ether broadcast", 7, lambda packet: packet.receiver == b"\xff" * 6),
    ("ether multicast", 10, lambda packet: packet.receiver[0] % 2 == 1),
    ("greater 100", 96, lambda packet: packet.wire >= 100),
    ("src host 192.0.2.1", 131, lambda packet: packet.sender == "192.0.2.1"),
]


def kept(is_kept, snap):
    """The records of the packets that are kept of the capture, each cut to the snapshot length."""
    for record in records(VETH.read_bytes()):
        if is_kept(Packet(record)):
            data = record[16 : 16 + snap]
            yield record[:8] + len(data).to_bytes(4, "little") + record[12:16] + data


@case
def as_many_are_meant_as_tcpdump_keeps(scene):
    """What the other cases take for kept are as many packets as tcpdump keeps."""
    for expr, count, is_kept in TCPDUMP:
        scene.check(f"{expr!r}", len(list(kept(is_kept, 96))), count)


@case
def a_cut_has_what_tcpdump_keeps(scene):
    """`cut -e` writes the packets of each expression, whole or cut."""
    for expr, _, is_kept in TCPDUMP:
        for words, snap in [("0", 262144), ("96", 96)]:
            scene.expect(["cut", "-s", words, "-e", expr, VETH, "cut.pcap"])
            scene.check(f"cut -s {words} -e {expr!r}", scene.read("cut.pcap"), header(snap) + b"".join(kept(is_kept, snap)))


@case
def steps_counts_what_tcpdump_keeps(scene):
    """A listener of `steps` for each expression counts its packets."""
    scene.put({"ten.txt": "".join(f"0 1048576 {expr}\n" for expr, _, _ in TCPDUMP), "arrivals.txt": "arrive\n" * 300})
    seen = scene.run(["steps", "ten.txt", "arrivals.txt", VETH])
    printed = [line for line in seen.out.decode().splitlines() if line.startswith("listener")]
    wanted = [f"listener {l} received 253 matched {count} dropped 0" for l, (_, count, _) in enumerate(TCPDUMP)]
    scene.check("counts", printed, wanted)
    scene.check("standard error, and the status", (seen.err, seen.status), (b"", 0))


@case
def run_writes_what_tcpdump_keeps(scene):
    """A listener of `run` for each expression writes its packets, cut, if the buffers have room for all."""
    seen = run_all(scene, 1048576)
    wanted = [f"interface 0 listener {l} received 253 matched {count} dropped 0 written {count} Clean"
              for l, (_, count, _) in enumerate(TCPDUMP)]
    scene.check("reports", seen, wanted)
    for n, (expr, _, is_kept) in enumerate(TCPDUMP):
        scene.check(f"file of {expr!r}", scene.read(f"out{n}.pcap"), header(96) + b"".join(kept(is_kept, 96)))


@case
def small_buffers_lose_packets_and_count_them(scene):
    """With small buffers each file has as many of its packets as its report says, in order, and the rest is counted as
    dropped."""
    for n, line in enumerate(run_all(scene, 2048)):
        expr, count, is_kept = TCPDUMP[n]
        words = line.split()
        received, matched, dropped, written = (int(words[place]) for place in (5, 7, 9, 11))
        scene.check(f"counts of {expr!r}", (received, matched, dropped + written), (253, count, count))
        scene.check(f"end of {expr!r}", words[12:], ["Clean"])
        seen, rest = records(scene.read(f"out{n}.pcap")), kept(is_kept, 96)
        scene.check(f"packets of {expr!r}", len(seen), written)
        scene.check(f"order of {expr!r}", all(one in rest for one in seen), True)


def run_all(scene, room):
    """The reports of a run with a listener of so much room for each expression, which keeps 96 bytes and is flushed."""
    scene.put({"many.txt": "".join(f"0 3 96 {room} 1 out{n}.pcap {expr}\n" for n, (expr, _, _) in enumerate(TCPDUMP))})
    seen = scene.run(["run", "many.txt", VETH])
    scene.check(f"standard error, and the status, with {room}", (seen.err, seen.status), (b"", 0))
    reports = seen.out.decode().splitlines()
    scene.check(f"reports with {room}", len(reports), len(TCPDUMP))
    return reports


# What libpcap 1.10.3 says of expressions that are read here, as LANGUAGE lists them.
REFUSED = {
    "8 / (0 + 2) = 4": "division by zero",
    "31 / ether[0:2] = 1": "division by zero",
    "31 / (ip[0] + 1) = 1": "division by zero",
    "8 % (0 + 3) = 2": "modulus by zero",
    "1 << (40 - 39) = 2": "shift by more than 31 bits",
    "1 << ip[40] = 1": "shift by more than 31 bits",
    "ip[0:4] = 010000000000": "can't parse filter expression: syntax error",
    "ip[0:4] = 017777777777": "can't parse filter expression: syntax error",
}
# What its optimiser turns into another filter.
OPTIMISED = "ip and (tcp port 22 or tcp port 21 and tcp port 80 or tcp port 22 or tcp port 65535)"


@case
def libpcap_differs_where_the_page_says(scene):
    """tcpdump refuses these expressions, which are read here; and its optimiser changes the meaning of one, which `compare` finds."""
    if not scene.has("tcpdump"):
        return
    version = subprocess.run(["tcpdump", "--version"], capture_output=True, text=True, timeout=LIMIT)
    if "libpcap version 1.10.3" not in version.stdout + version.stderr:
        scene.leave("tcpdump has another libpcap than 1.10.3")
        return
    page = (ROOT / "docs" / "LANGUAGE.md").read_text()
    for text, fault in REFUSED.items():
        words = ["tcpdump", "-y", "EN10MB", "-d", text]
        seen = subprocess.run(words, capture_output=True, text=True, timeout=LIMIT)
        scene.check(f"tcpdump on {text}", (seen.stderr.splitlines()[-1:], seen.returncode), ([f"tcpdump: {fault}"], 1))
        scene.check(f"bpftap on {text}", scene.run(["check", text]).status, 0)
    said = ["8 / (0 + 2) = 4", "31 / ether[0:2] = 1", "1 << (40 - 39) = 2", "1 << ip[40] = 1", "017777777777", OPTIMISED]
    scene.check("on the page", [text for text in said if text not in page], [])
    for words, status in [([], 4), (["-O"], 0)]:
        listing = subprocess.run(["tcpdump", *words, "-y", "EN10MB", "-ddd", OPTIMISED], capture_output=True, timeout=LIMIT).stdout
        scene.put({"listing": listing})
        scene.check(f"compared, tcpdump {words}", scene.run(["compare", "-q", "-f", "listing", OPTIMISED]).status, status)


@case
def packets_and_bytes_are_those_of_tcpdump(scene):
    """`bench/filters.py --figures` counts as many packets and bytes in what `cut -e` writes as in what tcpdump does."""
    done = subprocess.run(
        [sys.executable, ROOT / "bench" / "filters.py", "--figures"], cwd=scene.folder, capture_output=True, text=True,
        env={**os.environ, "BPFTAP": PROGRAM})
    wanted = ["23 expressions, 0 of them differ from tcpdump"]
    scene.check("figures", (done.stdout.splitlines(), done.stderr, done.returncode), (wanted, "", 0))
