"""`bpftap cut` over captures of each form: what is read of them, where they end, and how they are written."""
from .common import ALL, ARP_RECORD, HEADER, IP, IP_RECORD, case, fault_lines, header

NANO_HEADER = bytes.fromhex("4d3cb2a1") + HEADER[4:]
BIG_HEADER = bytes.fromhex("a1b2c3d4 00020004 00000000 00000000 00040000 00000001")
BIG_NANO_HEADER = bytes.fromhex("a1b23c4d") + BIG_HEADER[4:]


def fields(*numbers, order="little"):
    return b"".join(number.to_bytes(4, order) for number in numbers)


# A record of two bytes, in both byte orders, and one with more captured than there was on the wire.
TWO, BIG_TWO, ODD = fields(1, 5, 2, 60) + b"\7\10", fields(1, 5, 2, 60, order="big") + b"\7\10", fields(0, 0, 2, 1) + b"\7\10"

# The first bytes of a capture, and its fault: nothing is written.
REFUSED = [
    (b"", "ShortHeader"), (HEADER[:23], "ShortHeader"), (b"no savefile", "ShortHeader"),
    (bytes.fromhex("0a0d0d0a") + HEADER[4:], "NotSavefile"),
    # Another magic number, which libpcap knows, with a version that is wrong too
    (bytes.fromhex("34cdb2a1 0900") + HEADER[6:], "NotSavefile"),
    # Each half of the version, and the halves exchanged, with another link type too
    (HEADER[:4] + bytes.fromhex("03000400") + HEADER[8:], "Version"),
    (HEADER[:4] + bytes.fromhex("02000300") + HEADER[8:], "Version"),
    (HEADER[:4] + bytes.fromhex("04000200") + HEADER[8:20] + fields(9), "Version"),
    # Another link type, and Ethernet with a check sequence of four bytes
    (HEADER[:20] + fields(113), "LinkType"), (HEADER[:20] + bytes.fromhex("01000024"), "LinkType"),
]

# A capture, its records as little-endian nanoseconds, the fault, and the status.
READ = [
    (HEADER, b"", [], 0),
    # Reserved fields of any content, and the least and the greatest snapshot length
    (HEADER[:8] + bytes(range(1, 9)) + bytes(4) + HEADER[20:], b"", [], 0),
    (HEADER[:16] + bytes.fromhex("ffffffff") + HEADER[20:] + TWO, fields(1, 5000, 2, 60) + TWO[16:], [], 0),
    # Records that are whole and torn, in both byte orders
    (HEADER + TWO, fields(1, 5000, 2, 60) + TWO[16:], [], 0),
    (HEADER + TWO + TWO[:7], fields(1, 5000, 2, 60) + TWO[16:], ["TornRecord 1"], 2),
    (HEADER + TWO + TWO[:17], fields(1, 5000, 2, 60) + TWO[16:], ["TornRecord 1"], 2),
    (HEADER + TWO[:17], b"", ["TornRecord 0"], 2),
    (BIG_HEADER[:19] + b"\x09" + BIG_HEADER[20:] + BIG_TWO * 2, (fields(1, 5000, 2, 60) + TWO[16:]) * 2, [], 0),
    (BIG_HEADER + BIG_TWO + BIG_TWO[:17], fields(1, 5000, 2, 60) + TWO[16:], ["TornRecord 1"], 2),
    # More captured than there was on the wire, and than the header's snapshot length
    (HEADER[:16] + fields(1) + HEADER[20:] + ODD, ODD, [], 0),
    # 999,999 and 1,000,000 microseconds, the latter also with a captured length of 262,145, and that length on its own
    (HEADER + fields(9, 999999, 0, 0), fields(9, 999999000, 0, 0), [], 0),
    (HEADER + fields(9, 1000000, 0, 0), b"", ["BadFraction 0"], 2),
    (HEADER + fields(9, 1000000, 262145, 0), b"", ["BadFraction 0"], 2),
    (HEADER + fields(1, 0, 262145, 262145), b"", ["TooLong 0"], 2),
    (HEADER + TWO + fields(1, 1000000, 0, 0), fields(1, 5000, 2, 60) + TWO[16:], ["BadFraction 1"], 2),
    # 999,999,999 and 1,000,000,000 nanoseconds
    (NANO_HEADER + fields(9, 999999999, 0, 0), fields(9, 999999999, 0, 0), [], 0),
    (NANO_HEADER + fields(9, 1000000000, 0, 0), b"", ["BadFraction 0"], 2),
    # 262,144 bytes, and one more
    (HEADER + fields(0, 0, 262144, 0) + b"\7" * 262144, fields(0, 0, 262144, 0) + b"\7" * 262144, [], 0),
    (HEADER + fields(0, 0, 262145, 0) + b"\7" * 262145, b"", ["TooLong 0"], 2),
]

# Each form at its limits: the words for it, its magic number, its byte order and the greatest fraction.
FORMS = [
    ("-o little -u micro", "d4c3b2a1", "little", 999999), ("-o big -u micro", "a1b2c3d4", "big", 999999),
    ("-o little -u nano", "4d3cb2a1", "little", 999999999), ("-o big -u nano", "a1b23c4d", "big", 999999999),
]


def greatest(magic, order, fraction, snap):
    """A capture of one packet with each field at its greatest."""
    two = (2).to_bytes(2, order) + (4).to_bytes(2, order)
    packet = fields(4294967295, fraction, 1, 4294967295, order=order) + b"\7"
    return bytes.fromhex(magic) + two + bytes(8) + fields(snap, 1, order=order) + packet


@case
def a_header_is_looked_at_in_order(scene):
    """Its length, its magic number, its version and its link type; OUT is not made."""
    for text, fault in REFUSED:
        scene.start({"in.pcap": text})
        scene.refuse("cut -s 0 in.pcap out.pcap", 1, fault)


@case
def packets_before_a_fault_are_written(scene):
    """Each record that is whole, in nanoseconds, and then the fault."""
    for text, packets, faults, status in READ:
        scene.start({"in.pcap": text})
        scene.expect("cut -s 0 -u nano in.pcap out.pcap", status, fault_lines(*faults))
        scene.check(f"written of {text[:60].hex()}", scene.read("out.pcap"), NANO_HEADER + packets)


@case
def each_form_is_read_and_written_at_its_limits(scene):
    """From each form to each form; a fraction of a microsecond is written as its whole ones."""
    for _, magic, order, fraction in FORMS:
        scene.start({"in.pcap": greatest(magic, order, fraction, 4294967295)})
        for words, other, other_order, other_fraction in FORMS:
            scene.expect(f"cut -s 0 {words} in.pcap out.pcap")
            kept = min(fraction, other_fraction)
            if fraction < other_fraction:
                kept = fraction * 1000
            wanted = greatest(other, other_order, kept, 262144)
            scene.check(f"{magic} written with {words}", scene.read("out.pcap"), wanted)


@case
def the_least_of_three_lengths_is_kept(scene):
    """The snapshot length, the program's answer and what was captured."""
    text = HEADER + ARP_RECORD + IP_RECORD
    scene.start({"in.pcap": text, "five.bpf": "1\n6 0 0 5\n", "ip.bpf": IP, "all.bpf": ALL})
    for words, wanted in [
        ("-s 0 -f ip.bpf", HEADER + IP_RECORD), ("-s 0 -f all.bpf", text),
        ("-s 10 -f five.bpf", header(10) + b"".join(one[:8] + fields(5, 14) + one[16:21] for one in (ARP_RECORD, IP_RECORD))),
    ]:
        scene.expect(f"cut {words} in.pcap out.pcap")
        scene.check(f"cut {words}", scene.read("out.pcap"), wanted)


@case
def a_packet_without_data_is_written_in_each_order_and_unit(scene):
    """Five microseconds are 5,000 nanoseconds, and 999,999,999 nanoseconds are 999,999 microseconds."""
    big = BIG_NANO_HEADER[:16] + fields(96, 1, 1, 999999999, 0, 60, order="big")
    scene.start({"big.pcap": big, "in.pcap": HEADER + fields(1, 5, 0, 0)})
    for words, wanted in [
        ("-s 96 -o big -u nano big.pcap", big), ("-s 96 big.pcap", header(96) + fields(1, 999999, 0, 60)),
        ("-s 0 -o big -u nano in.pcap", BIG_NANO_HEADER + fields(1, 5000, 0, 0, order="big")),
        ("-s 0 -o big in.pcap", BIG_HEADER + fields(1, 5, 0, 0, order="big")),
        ("-s 0 -u nano in.pcap", NANO_HEADER + fields(1, 5000, 0, 0)),
    ]:
        scene.expect(f"cut {words} out.pcap")
        scene.check(f"cut {words}", scene.read("out.pcap"), wanted)
