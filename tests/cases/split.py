"""`bpftap split`: what is refused before a file is opened, what each OUT has, and what is printed and reported."""
from .common import ARP_RECORD, HEADER, IP_RECORD, ROOT, TCP_RECORD, TORN, UDP_RECORD, VETH, case, fault_lines, header, records
from .stepping import DEEP

T, U = TCP_RECORD, UDP_RECORD
CAPTURES = {
    "t.pcap": HEADER + T, "tu.pcap": HEADER + T + U, "torn.pcap": TORN, "empty.pcap": "", "bad.pcap": "0123456789abcdef01234567",
    "kept.pcap": "kept"}

# The lines of LINES, the captures, and the fault.
REFUSED = [
    ("0", "t.pcap", "Lines 1"),
    ("0  tcp", "t.pcap", "Lines 1"),
    ("262145 kept.pcap", "t.pcap", "Lines 1"),
    ("0 kept.pcap\n\n", "t.pcap", "Lines 2"),
    # Two lines with one OUT.
    ("0 kept.pcap\n64 kept.pcap tcp\n", "none.pcap", "Lines 2"),
    # A bad line goes before an expression, and that before a path.
    ("0 kept.pcap tcp and 80\nx", "none.pcap", "Lines 2"),
    ("0 new.pcap\n0 t.pcap tcp and 80", "t.pcap", "Expression 1 NoQualifier 8"),
    # 1,025 lines: a bad line goes before that, and that before an expression and a path.
    ("".join(f"0 {n}.pcap\n" for n in range(1025)), "none.pcap", "TooMany"),
    ("".join(f"0 {n}.pcap tcp and 80\n" for n in range(1025)), "none.pcap", "TooMany"),
    ("".join(f"0 {n % 1024}.pcap\n" for n in range(1025)), "none.pcap", "Lines 1025"),
    ("0 t.pcap\n" + "".join(f"0 {n}.pcap\n" for n in range(3000)) + "x\n", "t.pcap", "Lines 3002"),
    # 1,024 lines are read: the next fault is reported, an expression's, or that of the first capture.
    ("".join(f"0 {n}.pcap\n" for n in range(1023)) + "0 last.pcap tcp and 80\n", "none.pcap", "Expression 1023 NoQualifier 8"),
    ("".join(f"0 {n}.pcap\n" for n in range(1024)), "empty.pcap", "Capture 0 ShortHeader"),
    # An OUT that is a file that is read, or the OUT of another line.
    ("0 t.pcap\n", "t.pcap", "SameFile t.pcap"),
    ("0 new.pcap\n0 ./kept.pcap\n", "t.pcap tu.pcap kept.pcap", "SameFile ./kept.pcap"),
    ("0 kept.pcap\n0 ./kept.pcap\n", "t.pcap", "SameFile ./kept.pcap"),
    ("0 lines.txt\n", "t.pcap", "SameFile lines.txt"),
    ("0 ./none.pcap\n", "t.pcap none.pcap", "SameFile ./none.pcap"),
    # The header of the first capture.
    ("0 kept.pcap\n0 new.pcap\n", "empty.pcap t.pcap", "Capture 0 ShortHeader"),
    ("0 kept.pcap\n0 new.pcap\n", "bad.pcap", "Capture 0 NotSavefile"),
    # The first bad line, and then the first bad expression
    *((lines, "none.pcap", fault) for lines, fault in [
        ("0 ", "Lines 1"), ("0  ip", "Lines 1"), ("\n0 a.pcap", "Lines 1"), ("x a.pcap", "Lines 1"), (" 0 a.pcap", "Lines 1"),
        ("262145 a.pcap ip\n", "Lines 1"), ("0 a.pcap\n\n0 b.pcap\n", "Lines 2"), (b"0 \xff", "Lines 1"),
        ("0 a.pcap\n0 b.pcap\n0 a.pcap ip\n", "Lines 3"), ("0 a.pcap tcp and 80\n0 a.pcap\n", "Lines 2"),
        ("0 a.pcap tcp and 80", "Expression 0 NoQualifier 8"),
        ("0 a.pcap\n0 b.pcap ip or\n0 c.pcap tcp and 80", "Expression 1 Syntax 5"),
        (f"0 a.pcap {DEEP}", "Compile 0 TooDeep"), ("0 a.pcap \u00a0", "Expression 0 BadByte 0")]),
]


@case
def no_file_is_touched_where_a_split_is_refused(scene):
    """Nothing is made or changed before the header of the first capture was read."""
    scene.put(CAPTURES)
    for lines, captures, fault in REFUSED:
        scene.put({"lines.txt": lines})
        scene.refuse(f"split lines.txt {captures}", 1, fault)
    scene.refuse("split none.txt none.pcap", 3, "Device none.txt")
    scene.put({"lines.txt": "0 kept.pcap"})
    scene.refuse("split lines.txt none.pcap", 3, "Capture 0 Device")


# Filters, and how many packets of the real capture each keeps.
FILTERS = [("udp port 5353", 67), ("tcp port 8080", 120), ("icmp", 49), ("arp", 7), ("not ip", 0), ("", 253)]


@case
def each_out_is_what_cut_writes(scene):
    """For one capture and for three, in two forms, each OUT has the bytes of `cut` of all of them."""
    lines = "".join(f"{64 * n} {n}.pcap {expr}\n" for n, (expr, _) in enumerate(FILTERS))
    scene.put({"lines.txt": lines})
    big = ROOT / "examples" / "veth-big-nano.pcap"
    for options, order, unit in [("", "little", "micro"), ("-o big -u nano", "big", "nano")]:
        for captures in ([VETH], [VETH, big, VETH]):
            seen = scene.run(["split", *options.split(), "lines.txt", *captures])
            scene.check("standard error, and the status", (seen.err, seen.status), (b"", 0))
            counts = [line.split() for line in seen.out.decode().splitlines()]
            scene.check("names and all", [(name, of) for name, _, _, of in counts],
                        [(f"{n}.pcap", str(253 * len(captures))) for n in range(len(FILTERS))])
            for n, (expr, _) in enumerate(FILTERS):
                whole = b""
                for capture in captures:
                    words = ["cut", "-s", str(64 * n), "-e", expr, "-o", order, "-u", unit, capture, "cut.pcap"]
                    scene.check(f"cut of {expr}", scene.run(words).status, 0)
                    text = scene.read("cut.pcap")
                    whole += text if not whole else text[24:]
                scene.check(f"{expr} of {len(captures)}", scene.read(f"{n}.pcap"), whole)
    # What tcpdump keeps of one capture (tests/vectors), by its counts.
    kept = [(expr, count) for expr, count in FILTERS if expr != "not ip"]
    scene.put({"lines.txt": "".join(f"0 {n}.pcap {expr}\n" for n, (expr, _) in enumerate(kept))})
    printed = "".join(f"{n}.pcap {count} of 253\n" for n, (_, count) in enumerate(kept))
    scene.expect(["split", "lines.txt", VETH], out=printed)


@case
def counts_need_no_file(scene):
    """Several lines may have `/dev/null` as OUT: each has its count. Any other OUT stands in one line."""
    scene.put({**CAPTURES, "lines.txt": "0 /dev/null tcp\n0 udp.pcap udp\n0 /dev/null\n64 /dev/null arp\n"})
    counts = "/dev/null 2 of 3\nudp.pcap 1 of 3\n/dev/null 3 of 3\n/dev/null 0 of 3\n"
    scene.expect("split lines.txt tu.pcap t.pcap", out=counts)
    scene.check("udp", scene.read("udp.pcap"), HEADER + U)
    scene.put({"lines.txt": "0 /dev/null\n0 kept.pcap\n0 /dev/null\n0 kept.pcap\n"})
    scene.refuse("split lines.txt t.pcap", 1, "Lines 4")
    scene.put({"lines.txt": "0 /dev/null tcp\n0 kept.pcap\n0 /dev/null\n"})
    # A device loses nothing, so it may be read too: it has no header.
    scene.expect("split lines.txt t.pcap /dev/null", 1, fault_lines("Capture 1 ShortHeader"), "/dev/null 1 of 1\nkept.pcap 1 of 1\n/dev/null 1 of 1\n")
    scene.check("before that", scene.read("kept.pcap"), HEADER + T)


@case
def captured_bytes_are_cut_by_their_own_line(scene):
    """A packet of which less was captured than it had on the wire keeps that length, and each line cuts for itself."""
    short = bytes.fromhex("03000000 00000000 0e000000 ea050000") + IP_RECORD[16:]
    scene.put({"in.pcap": HEADER + short + T, "lines.txt": "10 ten.pcap\n0 all.pcap\n20 tcp.pcap tcp\n"})
    scene.expect("split lines.txt in.pcap", out="ten.pcap 2 of 2\nall.pcap 2 of 2\ntcp.pcap 1 of 2\n")
    scene.check("all", scene.read("all.pcap"), HEADER + short + T)
    ten = bytes.fromhex("03000000 00000000 0a000000 ea050000") + short[16:26]
    ten_of_tcp = bytes.fromhex("01000000 00000000 0a000000 26000000") + T[16:26]
    scene.check("ten", scene.read("ten.pcap"), header(10) + ten + ten_of_tcp)
    scene.check("tcp", [len(record) for record in records(scene.read("tcp.pcap"))], [36])


@case
def a_fault_of_a_capture_ends_the_reading(scene):
    """What was read before it is written, and no later capture is read."""
    scene.put({**CAPTURES, "lines.txt": "0 all.pcap\n0 udp.pcap udp\n"})
    for captures, fault, status, packets in [
            ("tu.pcap torn.pcap t.pcap", "Capture 1 TornRecord 1", 2, [T, U, IP_RECORD]),
            ("t.pcap empty.pcap tu.pcap", "Capture 1 ShortHeader", 1, [T]),
            ("t.pcap bad.pcap tu.pcap", "Capture 1 NotSavefile", 1, [T]),
            ("t.pcap none.pcap tu.pcap", "Capture 1 Device", 3, [T]),
            ("t.pcap . tu.pcap", "Capture 1 Device", 3, [T])]:
        udp = [packet for packet in packets if packet == U]
        out = f"all.pcap {len(packets)} of {len(packets)}\nudp.pcap {len(udp)} of {len(packets)}\n"
        scene.expect(f"split lines.txt {captures}", status, fault_lines(fault), out)
        scene.check(f"all of {captures}", scene.read("all.pcap"), HEADER + b"".join(packets))
        scene.check(f"udp of {captures}", scene.read("udp.pcap"), HEADER + b"".join(udp))


@case
def a_failed_out_ends_only_itself(scene):
    """An OUT that cannot be made, or takes no more, is reported; the others have all their packets, and the greatest status
    counts."""
    scene.put({**CAPTURES, "lines.txt": "0 none/out.pcap\n0 all.pcap\n0 /dev/full udp\n"})
    failed = fault_lines("Device none/out.pcap", "Device /dev/full")
    scene.expect("split lines.txt tu.pcap", 3, failed, "all.pcap 2 of 2\n")
    scene.check("all", scene.read("all.pcap"), HEADER + T + U)
    scene.expect("split lines.txt torn.pcap", 3, failed + fault_lines("Capture 0 TornRecord 1"), "all.pcap 1 of 1\n")
    # If standard output fails, all OUT are written all the same.
    scene.put({"lines.txt": "0 all.pcap\n"})
    scene.expect("split lines.txt tu.pcap t.pcap", 3, fault_lines("Device standard output"), streams="> /dev/full")
    scene.check("all.pcap after a failed output", scene.read("all.pcap"), HEADER + T + U + T)


@case
def streams_are_captures_too(scene):
    """LINES and a capture may be pipes, and an OUT a pipe that another program reads."""
    scene.put(CAPTURES)
    scene.put({"lines.txt": "0 out.pcap"})
    scene.expect("split lines.txt /dev/stdin t.pcap", out="out.pcap 3 of 3\n", streams="< tu.pcap")
    scene.check("of standard input", scene.read("out.pcap"), HEADER + T + U + T)
    scene.expect("split /dev/stdin tu.pcap", out="a.pcap 1 of 2\n", streams="<<< '0 a.pcap tcp'")
    # An empty LINES reads the captures, whose faults are reported.
    scene.put({"lines.txt": ""})
    scene.expect("split lines.txt tu.pcap torn.pcap", 2, fault_lines("Capture 1 TornRecord 1"))


@case
def only_a_header_is_written_if_no_packet_matches(scene):
    """An OUT is made, with its header, even if no packet came."""
    scene.put({"in.pcap": HEADER, "arp.pcap": HEADER + ARP_RECORD, "lines.txt": "64 ip.pcap ip\n"})
    scene.expect("split lines.txt in.pcap arp.pcap", out="ip.pcap 0 of 1\n")
    scene.check("header", scene.read("ip.pcap"), header(64))


# Big-endian, in nanoseconds: a UDP frame of 1,514 bytes at 2.000001999, of which 38 were captured; and how its record is written.
BIG_NANO = bytes.fromhex("a1b23c4d 00020004 00000000 00000000 00040000 00000001")
BIG_UDP = bytes.fromhex("00000002 000007cf 00000026 000005ea") + U[16:]
LITTLE_UDP = bytes.fromhex("02000000 01000000 26000000 ea050000") + U[16:]
SHORT_UDP = bytes.fromhex("02000000 01000000 14000000 ea050000") + U[16:36]


@case
def each_part_has_its_packets_of_all_captures(scene):
    """For captures in each form, each line applies its snapshot length and its expression; a blank may end a line without one."""
    captures = {"0.pcap": HEADER + T + ARP_RECORD, "1.pcap": BIG_NANO + BIG_UDP, "2.pcap": HEADER + T}
    scene.start({**captures, "lines.txt": "0 tcp.pcap tcp\n020 udp.pcap udp\n0 all.pcap \n"})
    scene.expect("split lines.txt 0.pcap 1.pcap 2.pcap", out="tcp.pcap 2 of 4\nudp.pcap 1 of 4\nall.pcap 4 of 4\n")
    for name, wanted in [("tcp.pcap", HEADER + T + T), ("udp.pcap", header(20) + SHORT_UDP),
                         ("all.pcap", HEADER + T + ARP_RECORD + LITTLE_UDP + T)]:
        scene.check(name, scene.read(name), wanted)
    # A line without an expression, and one whose expression has several words
    scene.start({"in.pcap": HEADER + T + U, "lines.txt": "0 a.pcap\n064 b.pcap \n96 c.pcap udp port 53\n"})
    scene.expect("split lines.txt in.pcap", out="a.pcap 2 of 2\nb.pcap 2 of 2\nc.pcap 1 of 2\n")
    for name, wanted in [("a.pcap", HEADER + T + U), ("b.pcap", header(64) + T + U), ("c.pcap", header(96) + U)]:
        scene.check(name, scene.read(name), wanted)
