"""64 frames of the real capture, the first 46 bytes of each: the commands keep the frames that tcpdump keeps."""
from .common import HEADER, VETH, case, header, records

# The places of these frames in the capture.
PLACES = [*range(8), 15, *range(25, 44), 50, 51, *range(53, 61), 63, 73, 83, 93, 103, *range(115, 121), *range(123, 129), 227, 236,
          *range(245, 252)]

# An expression, and the frames that tcpdump 4.99.3 with libpcap 1.10.3 keeps by it, the first one in the lowest bit:
# `tcpdump -r IN -w OUT EXPR` over a capture of these frames.
KEPT = [
    ("ip", 0xffff_ffff_0fff_fffc),
    ("arp", 0x0000_0000_f000_0003),
    ("not arp and not icmp", 0xffff_ffff_0000_0000),
    ("tcp", 0x01fe_0000_0000_0000),
    ("udp port 5353", 0xf000_4fff_0000_0000),
    ("tcp port 8080", 0x01fe_0000_0000_0000),
    ("tcp src port 8080", 0x0164_0000_0000_0000),
    ("tcp dst portrange 8000-9000", 0x009a_0000_0000_0000),
    ("host 192.0.2.255", 0x0e00_0000_0000_0000),
    ("src host 192.0.2.2", 0x0165_c02a_4e38_e3aa),
    ("arp dst host 192.0.2.2", 0x0000_0000_8000_0001),
    ("ip net 192.0.2.0/24 and not tcp", 0xfe01_ffff_0fff_fffc),
    ("dst net 224.0.0.0/4", 0x7000_0000_0000_0000),
    ("port 5353 or port 8080", 0xf1fe_4fff_0000_0000),
    ("udp portrange 5000-6000", 0xf000_4fff_0000_0000),
    ("icmp and greater 200", 0x0000_0000_06db_6c00),
    ("less 60", 0xfe00_0005_f000_0003),
    ("ether broadcast", 0x0e00_0000_3000_0001),
    ("ether multicast and not broadcast", 0x7000_0000_0000_0000),
    ("ip multicast", 0x7000_0000_0000_0000),
    ("ether src 2:0:0:0:0:b or ether proto \\arp", 0x0165_c02a_fe38_e3ab),
    ("host 192.0.2.1 and not (tcp port 8080 or icmp)", 0xfe01_ffff_f000_0003),
    ("src and dst portrange 5000-6000", 0x8000_4fff_0000_0000),
    ("proto 17 and less 100", 0xfe00_007f_0000_0000),
]


def frames():
    """For each frame its length on the wire, and the bytes of it that are captured."""
    every = records(VETH.read_bytes())
    return [(int.from_bytes(every[place][12:16], "little"), every[place][16:62]) for place in PLACES]


def record(place, wire, data):
    """The record of a frame; its time in seconds is its place."""
    return b"".join(number.to_bytes(4, "little") for number in (place, 0, len(data), wire)) + data


def capture():
    """The frames as a capture."""
    return HEADER + b"".join(record(place, *frame) for place, frame in enumerate(frames()))


def is_kept(kept, place):
    return kept >> place & 1 == 1


def kept_records(kept, snap):
    """The records of the frames of these bits, each cut to a snapshot length."""
    return [record(place, wire, data[:snap]) for place, (wire, data) in enumerate(frames()) if is_kept(kept, place)]


@case
def a_cut_keeps_what_tcpdump_keeps(scene):
    """The program of each expression keeps the frames that tcpdump keeps, and `explain` answers Yes only for these."""
    scene.start({"in.pcap": capture()})
    scene.check("frames", (len(PLACES), len(KEPT)), (64, 24))
    for expr, kept in KEPT:
        scene.expect(["cut", "-s", "0", "-e", expr, "in.pcap", "out.pcap"])
        scene.check(f"{expr}", scene.read("out.pcap"), HEADER + b"".join(kept_records(kept, 262144)))
        lines = scene.run(["explain", "-e", expr, "in.pcap"]).out.decode().splitlines()[:-1]
        scene.check(f"explained {expr}", [line.split(" ")[8] == "Yes" for line in lines], [is_kept(kept, place) for place in range(64)])


def put_listeners(scene, form):
    """The capture, and a line of LISTENERS for each expression."""
    lines = "".join(form.format(l=l, expr=expr) + "\n" for l, (expr, _) in enumerate(KEPT))
    scene.start({"in.pcap": capture(), "listeners.txt": lines, "script.txt": "arrive\n" * 64})


@case
def steps_counts_and_holds_what_tcpdump_keeps(scene):
    """A listener of `steps` for each expression, which nobody reads."""
    put_listeners(scene, "40 8192 {expr}")
    wanted = ""
    for l, (_, kept) in enumerate(KEPT):
        wanted += f"listener {l} received 64 matched {kept.bit_count()} dropped 0\nheld\n"
        for place, (wire, _) in enumerate(frames()):
            if is_kept(kept, place):
                wanted += f"capture 0 place {place} time {place}.000000000 len {wire} kept 40\n"
    scene.expect("steps listeners.txt script.txt in.pcap", out=wanted)


@case
def run_writes_what_cut_writes(scene):
    """A listener of `run` for each expression, whose buffers have room for all that it keeps."""
    put_listeners(scene, "0 0 40 8192 2 out{l}.pcap {expr}")
    counts = [kept.bit_count() for _, kept in KEPT]
    wanted = [f"interface 0 listener {l} received 64 matched {n} dropped 0 written {n} Clean\n" for l, n in enumerate(counts)]
    scene.expect("run listeners.txt in.pcap", out="".join(wanted))
    for l, (expr, kept) in enumerate(KEPT):
        scene.expect(["cut", "-s", "40", "-e", expr, "in.pcap", "cut.pcap"])
        scene.check(f"cut by {expr}", scene.read("cut.pcap"), header(40) + b"".join(kept_records(kept, 40)))
        scene.check(f"written by {expr}", scene.read(f"out{l}.pcap"), scene.read("cut.pcap"))


@case
def small_buffers_lose_packets_and_count_them(scene):
    """What is written is part of what `cut` writes, in its order, and is as much as is matched and not dropped."""
    put_listeners(scene, "0 {l} 40 72 1 out{l}.pcap {expr}")
    seen = scene.run("run listeners.txt in.pcap")
    scene.check("standard error, and the status", (seen.err, seen.status), (b"", 0))
    lines = seen.out.decode().splitlines()
    scene.check("lines", len(lines), len(KEPT))
    for l, ((expr, kept), line) in enumerate(zip(KEPT, lines)):
        received, matched, dropped, written = (int(line.split(" ")[place]) for place in (5, 7, 9, 11))
        scene.check(f"counts of {expr}", (received, matched, dropped + written), (64, kept.bit_count(), kept.bit_count()))
        found, rest = records(scene.read(f"out{l}.pcap")), iter(kept_records(kept, 40))
        scene.check(f"packets of {expr}", len(found), written)
        scene.check(f"order of {expr}", all(one in rest for one in found), True)
