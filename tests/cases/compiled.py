"""Expressions from their text to their program: what it answers beside what decided, and what it looks like."""
from .common import HEADER, IP, ROOT, VETH, case, fault_lines, header

UDP_FRAME = bytes.fromhex("ffffffffffff 000102030405 0800 45000018 00000000 40110000 0a000001 0a000002 00350035")

# An ARP request: 10.0.0.1 asks for 10.0.0.2.
ARP_FRAME = bytes.fromhex("ffffffffffff 000102030405 0806 0001080006040001 000102030405 0a000001 000000000000 0a000002")


def changed(place, *numbers):
    """The UDP frame with other bytes from a place on."""
    return UDP_FRAME[:place] + bytes(numbers) + UDP_FRAME[place + len(numbers) :]


LATER, FIRST = changed(20, 0, 1), changed(20, 0x20, 0)

# A frame of the numbers from 1 on.
COUNTING = bytes(range(1, 17))

TWELVE = "port (1 or 2 or 3 or 4 or 5 or 6 or 7 or 8 or 9 or 10 or 11 or 12)"
THIRTEEN = "port (1 or 2 or 3 or 4 or 5 or 6 or 7 or 8 or 9 or 10 or 11 or 12 or 13)"

# An expression, a packet, and what is answered: worked out by hand.
WORKED = [
    # A byte past the end aborts under a negation too.
    ("not tcp", UDP_FRAME[:20], "Abort"), ("not arp", UDP_FRAME[:20], "Yes"),
    # A test of an address needs all six of its bytes.
    ("ether host 0:1:2:3:4:5", bytes(range(10)), "Abort"), ("ether dst host 0:1:2:3:4:5", bytes(range(10)), "Yes"),
    # The first member needs its destination before a later one is asked: a frame without it is rejected, even if a later member has the
    # source.
    ("src host 10.0.0.9 or 10.0.0.1", UDP_FRAME[:30], "Yes"), ("host 10.0.0.9 or 10.0.0.1", UDP_FRAME[:30], "Abort"),
    ("host 10.0.0.1 or 10.0.0.9", UDP_FRAME[:30], "Yes"), ("host 10.0.0.9 or 10.0.0.1", UDP_FRAME, "Yes"),
    # A protocol word that is not there leaves open whether an address is.
    ("(arp and host 10.0.0.9) or (arp and host 10.0.0.1)", UDP_FRAME[:30], "No"), ("host 10.0.0.9 and arp or udp", UDP_FRAME[:30], "Abort"),
    # `and` binds as `or` does.
    ("udp or tcp and arp", UDP_FRAME, "No"),
    # A later fragment has no port.
    ("port 53", UDP_FRAME, "Yes"), ("port 53", LATER, "No"), ("not port 53", LATER, "Yes"), ("port 53", FIRST, "Yes"),
    ("src and dst port 53", UDP_FRAME, "Yes"), ("src and dst port 53", ARP_FRAME, "No"),
    ("dst net 10.0.0.0 mask 255.255.255.252", UDP_FRAME, "Yes"), ("dst net 10.0.0.0 mask 255.255.255.252", ARP_FRAME, "Yes"),
    ("host 10.0.0.2", UDP_FRAME, "Yes"), ("host 10.0.0.2", ARP_FRAME, "Yes"),
    ("src host 10.0.0.2", UDP_FRAME, "No"), ("src host 10.0.0.2", ARP_FRAME, "No"),
    ("ether proto \\ip or ether proto \\rarp", UDP_FRAME, "Yes"), ("ether proto \\ip or ether proto \\rarp", ARP_FRAME, "No"),
    ("not ip multicast", UDP_FRAME, "Yes"), ("not ip multicast", ARP_FRAME, "Yes"),
    ("greater 39", UDP_FRAME, "No"), ("greater 39", ARP_FRAME, "Yes"),
    # Weight 480 compiles, and weight 520 may, if it fits; so does a chain of 272.
    (TWELVE, UDP_FRAME, "No"), (TWELVE, changed(36, 0, 12), "Yes"), (TWELVE, changed(36, 0, 1), "Yes"),
    (THIRTEEN, UDP_FRAME, "No"), (THIRTEEN, changed(36, 0, 13), "Yes"),
    ("ip" + "||ip" * 271, UDP_FRAME, "Yes"), ("ip" + "||ip" * 271, ARP_FRAME, "No"),
    ("", b"", "Yes"),
    ("arp[6:2] = 1", ARP_FRAME, "Yes"), ("rarp[6:2] = 1", ARP_FRAME, "No"),
    ("udp[0:2] = 53", LATER, "No"), ("ip[0] = 0x45", LATER, "Yes"),
]

# Relations, and what they answer of the UDP frame; their negations answer the opposite, and an Abort stays one.
RELATIONS = [
    # Accessors read past their headers.
    ("udp[0:2] = 53", "Yes"), ("ip[0] & 15 = 5", "Yes"), ("ether[12:2] = 0x800", "Yes"), ("ip[12:4] = 0x0a000001", "Yes"),
    # A layer that is not there is a No; all layers come before all values, and an index needs its layers too.
    ("tcp[tcpflags] & tcp-syn != 0", "No"), ("icmp[0] = 0", "No"), ("arp[0] = udp[4]", "No"), ("udp[4] = arp[0]", "No"),
    ("ip[tcp[0]] = 0", "No"),
    # A byte past the end aborts, on either side.
    ("udp[4] = 0", "Abort"), ("udp[3] = 53", "Yes"), ("udp[3:2] = 0", "Abort"), ("ether[38] < len", "Abort"),
    ("len < ether[38]", "Abort"),
    # Only the length of a header wraps: one before the header of UDP, and twenty.
    ("udp[4294967295] = 2", "Yes"), ("udp[4294967276] = 0x45", "Yes"), ("ip[4294967295] = 0", "Abort"),
    ("ether[4294967295] = 0", "Abort"), ("udp[0 - 1] = 2", "Yes"), ("ip[0 - 1] = 0", "Abort"), ("ether[0 - 1] = 0", "Abort"),
    # Indices are computed.
    ("ether[len - 1] = 53", "Yes"), ("ip[ip[0] & 15] = 0", "Yes"), ("udp[len - 36:2] = 53", "Yes"),
    # Arithmetic is modulo 2 ^ 32.
    ("len = 38", "Yes"), ("(len - 8) / 10 = 3", "Yes"), ("1 << 32 = 0", "Yes"), ("(-1 = 4294967295)", "Yes"),
    ("(-len = 4294967258)", "Yes"), ("0 - 1 > 4294967294", "Yes"), ("6 ^ (3 & 1) = 7", "Yes"), ("2 | (2 ^ 2) = 2", "Yes"),
    # Right sides are nested as deep as the scratch memory.
    ("1+(" * 15 + "1+1" + ")" * 15 + " = 17", "Yes"), ("16 = " + "1+(" * 14 + "1+1" + ")" * 14, "Yes"),
]

# A packet of which nothing was captured, by its original length.
DIVIDED = [
    ("10 / (len - 60) = 1", 60, "Abort"), ("10 / (len - 60) = 1", 70, "Yes"), ("10 / (len - 60) = 1", 50, "No"),
    ("7 % (len - 60) = 1", 60, "Abort"), ("7 % (len - 60) = 1", 62, "Yes"), ("7 % (len - 60) = 1", 67, "No"),
]

# An expression, the length of the UDP frame on the wire, and whether it is accepted.
ACCEPTED = [
    ("udp[0:2] = 53", 38, True), ("ip[0] & 15 = 5", 38, True), ("ether[12:2] = 0x800", 38, True),
    ("(len - 8) / 10 = 3", 38, True), ("(len = 38)", 38, True), ("tcp[tcpflags] & tcp-syn != 0", 38, False),
    ("not tcp[tcpflags] & tcp-syn != 0", 38, True), ("udp[4] = 0", 38, False), ("not udp[4] = 0", 38, False),
    ("udp[4294967295] = 2", 38, True), ("ip[4294967295] = 0", 38, False), ("not ip[4294967295] = 0", 38, False),
    ("1 << 32 = 0", 38, True), ("(-1 = 4294967295)", 38, True), ("0 - 1 > 4294967294", 38, True),
    ("6 ^ 3 & 1 = 7", 38, True), ("2 | 2 ^ 2 = 2", 38, True), ("10 / (len - 60) = 1", 60, False),
    ("not 10 / (len - 60) = 1", 60, False), ("10 / (len - 60) = 1", 70, True), ("not 10 / (len - 60) = 1", 70, False),
    ("10 / (len - 60) = 1", 50, False), ("not 10 / (len - 60) = 1", 50, True), ("7 % (len - 60) = 1", 60, False),
    ("not 7 % (len - 60) = 1", 60, False), ("7 % (len - 60) = 1", 62, True), ("udp and udp[0:2] = udp[2:2]", 38, True),
    ("ip[8] >= 64 and ip[9] == 17", 38, True), ("ether[0] & 1 != 0 and ip[16] < 224", 38, True),
    ("icmp[icmptype] = icmp-echo or port 53", 38, True), ("arp[7] = 1", 38, False), ("not arp[7] = 1", 38, True),
    (TWELVE + " or len + 1 = 0", 38, False), (TWELVE + " or len + 1 = 0", 4294967295, True),
]

# 16 bytes wait in the scratch memory while the next one is read; and a chain from the left needs one word, however long it is.
FULL = [
    ("4294967288 = " + "".join(f"ether[{n}]-(" for n in range(14)) + "ether[14]-ether[15]" + ")" * 14, "Yes"),
    ("ether[1]" + "+ether[1]" * 7 + " = ether[3]" + "+ether[3]" * 3, "Yes"),
]

# Frames for each branch of each primitive.
FRAMES = [
    # UDP, 10.0.0.1 port 53 to 10.0.0.2 port 53
    "ffffffffffff 000102030405 0800 4500001800000000 4011 0000 0a000001 0a000002 00350035",
    # TCP, 10.0.0.3 port 80 to 10.0.0.1 port 443
    "000102030405 060708090a0b 0800 4500002800000000 4006 0000 0a000003 0a000001 005001bb 0000000000000000 50020000",
    # SCTP, to a multicast address
    "01005e000001 000102030405 0800 4500002000000000 4084 0000 0a000001 e0000001 00350050 00000000",
    # UDP after a header of 24 bytes
    "000102030405 060708090a0b 0800 4600001c00000000 4011 0000 0a000001 0b000001 01010100 00500035",
    # a header that claims to have no bytes, and one that claims 60
    "000102030405 060708090a0b 0800 4000001800000000 4006 0000 0a000001 0a000002 00350035",
    "000102030405 060708090a0b 0800 4f00001800000000 4006 0000 0a000001 0a000002 00350035",
    # a first and a later fragment of TCP
    "000102030405 060708090a0b 0800 4500002800002000 4006 0000 0a000001 0a000002 00350050",
    "000102030405 060708090a0b 0800 4500002800000001 4006 0000 0a000001 0a000002 00350050",
    # ICMP
    "060708090a0b 000102030405 0800 4500002400000000 4001 0000 0a000002 0a000001 0800f7ff 00000000",
    # ARP and RARP
    "ffffffffffff 000102030405 0806 0001080006040001 000102030405 0a000001 000000000000 0a000002",
    "ffffffffffff 000102030405 8035 0001080006040003 000102030405 0a000002 000102030405 0a000003",
    # IPv6
    "333300000001 000102030405 86dd 6000000000081140 00000000000000000000000000000001",
]

# Lists of each kind, also after another test, after a test of what they share, under `not`, and beside other lists. A frame is cut between
# the source and the destination of the first member, and the second member has the source.
LISTS = [
    "host 10.0.0.2 or 10.0.0.1", "host 9.9.9.9 or 10.0.0.3 or 10.0.0.2 or 8.8.8.8", "ip host 9.9.9.9 or 10.0.0.2",
    "arp host 9.9.9.9 or 10.0.0.2", "rarp host 10.0.0.3 or 10.0.0.1", "src host 9.9.9.9 or 10.0.0.3 or 10.0.0.1",
    "dst host 10.0.0.1 or 224.0.0.1", "src host 9.9.9.9 or 10.0.0.2 or 8.8.8.8", "dst host 10.0.0.3 or 10.0.0.2",
    "src net 11.0.0.0/8 or 10.0.0.0/8 or 9.0.0.0/8", "src and dst host 10.0.0.1 or 10.0.0.2",
    "net 11.0.0.0/8 or 9.0.0.0/8", "net 11.0.0.0/8 or 10.0.0.0/8 or 10.0.0.0/16 or 224.0.0.0/16",
    "(host 9.9.9.9 or 10.0.0.2 or 8.8.8.8) and port 80", "(src host 10.0.0.1 or 10.0.0.2) and not udp",
    "not (dst net 11.0.0.0/8 or 224.0.0.0/8) and not tcp", "port 9 or 80 or 53", "tcp port 443 or 80",
    "udp src port 80 or 53", "sctp dst port 53 or 80", "portrange 1-2 or portrange 400-500 or portrange 79-81",
    "ip proto 17 or 132 or 1", "tcp or udp or icmp", "ether proto 0x806 or 0x8035 or 0x86dd", "arp or rarp",
    "tcp and (port 9 or 443)", "ip and (host 9.9.9.9 or 10.0.0.2) and (port 9 or 80)",
    "not (host 9.9.9.9 or 10.0.0.3 or 8.8.8.8) and not (port 80 or 81)",
    "ip or host 9.9.9.9 or 10.0.0.2 or port 1 or 2 or 3 or host 8.8.8.8 or 7.7.7.7",
    "host 9.9.9.9 or (port 80 or 53) or host 10.0.0.2 or src host 10.0.0.1 or 10.0.0.3 or ip host 10.0.0.1",
    "ip[8] = 1 or ip[8] = 64 or ip[8] = 255", "udp[0:2] = 53 or udp[0:2] = 80",
    "ether[12:2] = 0x800 or ether[12:2] = 0x806", "arp[6:2] = 1 or arp[6:2] = 2",
    "tcp[2:2] = 80 or ip[8] = 64 or tcp[2:2] = 443 or tcp[2:2] = 9",
    "not host 9.9.9.9 and not host 10.0.0.2 and not host 8.8.8.8", "tcp and not port 9 and not port 443",
    "not ip[9] = 17 and not ip[9] = 1 and not port 80 and not port 53",
    # members of two kinds by turns, of which one settles the other
    "tcp port 9 or udp port 80 or tcp port 443 or udp port 53",
    "not tcp port 9 and not udp port 80 and not tcp port 443 and not udp port 53",
    "src host 9.9.9.9 or ip dst host 10.0.0.2 or src host 10.0.0.1 or ip dst host 224.0.0.1",
    "host 9.9.9.9 or net 11.0.0.0/8 or host 10.0.0.2 or net 224.0.0.0/8",
    "not host 9.9.9.9 and not net 11.0.0.0/8 and not host 10.0.0.2 and not net 224.0.0.0/8",
    "tcp port 9 or tcp[2:2] = 443 or tcp port 80 or tcp[2:2] = 53",
    # of which all of one kind are asked before the other, and one has what the other asks for
    "ip dst host 9.9.9.9 or src host 10.0.0.3 or ip dst host 10.0.0.1 or src host 10.0.0.2",
    "ip host 9.9.9.9 or dst host 8.8.8.8 or ip host 10.0.0.2 or dst host 10.0.0.3",
    "not ip dst host 9.9.9.9 and not src host 10.0.0.3 and not ip dst host 10.0.0.2 and not src host 10.0.0.1",
    "udp port 9 or tcp port 443 or udp port 80 or tcp port 53 or udp port 1",
    "sctp dst port 9 or udp src port 53 or sctp dst port 80 or udp src port 80",
    "not udp port 9 and not tcp port 9 and not udp port 80 and not tcp port 443",
    "tcp port 443 or tcp[2:2] = 443 or tcp portrange 50-60 or tcp[0:2] = 53 or tcp[0:2] = 80",
    "udp port 9 or udp[0:2] = 9 or udp[2:2] = 80 or udp port 80 or udp[1:2] = 9",
    # of TCP and of UDP, for the same ports in the same order, which are one list
    "tcp port 9 or udp port 9 or tcp port 443 or udp port 443 or tcp port 53 or udp port 53",
    "udp port 443 or tcp port 443 or udp port 80 or tcp port 80", "udp port 9 or tcp port 9 or udp port 53 or tcp port 53 or udp port 1 or tcp port 1",
    "tcp portrange 50-60 or udp portrange 50-60 or tcp port 443 or udp port 443",
    "udp src port 9 or tcp src port 9 or udp src port 80 or tcp src port 80",
    "tcp dst port 443 or udp dst port 443 or tcp dst port 50 or udp dst port 50",
    "not (udp port 80 or tcp port 80 or udp port 9 or tcp port 9)",
    "not tcp port 9 and not udp port 9 and not tcp port 443 and not udp port 443",
    "tcp and (tcp port 9 or udp port 9 or tcp port 443 or udp port 443)", "ip and (udp port 9 or tcp port 9 or udp port 80 or tcp port 80)",
    "(tcp port 9 or udp port 9 or tcp port 53 or udp port 53) and src host 10.0.0.1 or 10.0.0.3",
    "tcp port 9 or udp port 9 or tcp port 443 or udp port 443 or ip proto 17 or ip proto 1",
    "(tcp port 9 or udp port 9 or tcp port 443 or udp port 443) or sctp port 53 or 80",
    "host 9.9.9.9 or 10.0.0.2 or (udp port 9 or tcp port 9 or udp port 443 or tcp port 443)",
    # in another order, with one more port or another side of one of them, and of TCP and SCTP, which are two
    "tcp port 443 or udp port 53 or tcp port 53 or udp port 443", "udp port 53 or tcp port 53 or udp port 80 or tcp port 80 or udp port 9",
    "tcp port 443 or udp port 443 or tcp port 53 or udp port 53 or tcp port 80",
    "tcp port 9 or udp port 9 or tcp portrange 440-450 or udp port 443", "tcp src port 80 or udp dst port 80 or tcp src port 53 or udp dst port 53",
    "tcp port 80 or sctp port 80 or tcp port 53 or sctp port 53", "sctp port 9 or udp port 9 or sctp port 53 or udp port 53",
    # Ethernet hosts; no frame has the last four bytes of one after the first two of another
    "ether src 0:1:2:3:4:6 or 0:1:2:3:4:5 or 0:1:9:3:4:5", "ether src 9:9:2:3:4:5 or 9:9:2:3:4:6",
    "ether src 9:9:2:3:4:5 or 9:9:2:3:4:6 or 0:1:2:3:4:6 or 0:1:2:3:4:7",
    "ether dst ff:ff:0:0:0:1 or ff:ff:ff:ff:ff:ff", "ether dst 9:9:ff:ff:ff:ff or 9:9:ff:ff:ff:fe",
    "ether host 9:9:ff:ff:ff:ff or 9:9:2:3:4:5", "ether host 0:1:2:3:4:6 or 0:1:2:3:4:7 or 0:1:2:3:4:5",
    "ether host 33:33:0:0:0:2 or 33:33:0:0:0:1", "ether src 0:1:2:3:4:6 or host 9.9.9.9 or ether src 0:1:2:3:4:5 or host 10.0.0.2",
    "not ether host 0:1:2:3:4:6 and not ether host 9:9:2:3:4:5 and not ether host 0:1:2:3:4:7",
    # Ethernet hosts of any addresses; one that has the last four bytes of another may come after a third one
    "ether src 0:1:9:9:9:9 or 9:9:2:3:4:5 or 0:1:2:3:4:5", "ether src 9:9:2:3:4:5 or 8:8:2:3:4:5 or 0:1:2:3:4:5",
    "ether src 8:8:2:3:4:5 or 7:7:9:9:9:9 or 0:1:2:3:4:5 or 6:6:2:3:4:5", "ether dst 9:9:ff:ff:ff:ff or 8:8:9:9:9:9 or 7:7:0:0:0:1 or ff:ff:ff:ff:ff:ff",
    "ether host 9:9:2:3:4:5 or 8:8:9:9:9:9 or 6:7:8:9:a:b", "ether src 9:9:2:3:4:5 or 8:8:9:9:9:9 or ip", "not ether src 9:9:2:3:4:5 and not ether src 8:8:9:9:9:9",
    "(ether src 9:9:2:3:4:5 or 8:8:9:9:9:9) or ether dst 7:7:ff:ff:ff:ff or ether src 0:1:2:3:4:5", "ether src 9:9:2:3:4:5 or 8:8:9:9:9:9 or ether[8:4] = 0x2030405",
    "ether src 9:9:2:3:4:5 or ether[8:4] = 0x8090a0b or ether src 0:1:9:9:9:9", "(ether src 9:9:2:3:4:5 or 0:1:9:9:9:9 or 8:8:8:9:a:b) and port 80",
    # a protocol word, and a host or port after it
    "(ip and host 9.9.9.9) or (ip and host 10.0.0.2) or (ip and host 10.0.0.3)", "(arp and host 10.0.0.2) or (arp and dst host 9.9.9.9) or (arp and src host 10.0.0.1)",
    "(rarp and net 11.0.0.0/8) or (rarp and net 10.0.0.0/8)", "(tcp and port 9) or (tcp and port 443) or tcp port 53", "(udp and src port 9) or (udp and src port 53)",
    "(sctp and portrange 70-80) or (sctp and port 9)", "(tcp and port 9) or (udp and port 9) or (tcp and port 53) or (udp and port 53)",
    "not (ip and host 9.9.9.9) and not (ip and host 10.0.0.2)", "not (tcp and dst port 80) and not (udp and dst port 53)", "(ip and host 9.9.9.9) or host 10.0.0.2 or (arp and host 10.0.0.1)",
    "(udp and host 10.0.0.1) or (udp and host 10.0.0.2)", "(arp and port 53) or (arp and port 80)",
    "ip proto 1 or ether proto 0x806 or ip proto 17 or ether proto 0x8035",
    "not ip proto 1 and not ether proto 0x806 and not ip proto 17 and not ether proto 0x8035",
    # relations that load their number once, though they are no list
    "len = 60 or len = 38 or len > 45", "ip[8] != 64 and ip[8] != 1 and ip[9] != 6", "ip[8] > 64 or ip[8] < 2 or ip[9:2] >= 0x1100",
    "ip[6] & 32 != 0 or ip[6] & 64 = 0 or ip[8] & 1 = 0", "not ip[8] < 64 and not ip[8] > 64", "ether[6:4] != 1 and ether[6:4] != 0x10203 and tcp",
]

# The words before a list, the words before the number of each member, how many members, and how many instructions they take.
SIZES = [
    ("host ", "10.0.0.", 100, 315), ("src host ", "10.0.0.", 100, 115), ("dst net ", "10.0.", 100, 115),
    ("net ", "10.0.", 30, 107), ("port ", "", 200, 416), ("tcp port ", "", 200, 414), ("ip proto ", "", 100, 115),
    ("", "ip[8] = ", 100, 110), ("ether src ", "0:1:2:3:4:", 100, 115), ("ether dst ", "0:1:2:3:4:", 100, 115),
    ("ether host ", "0:1:2:3:4:", 100, 220), ("net ", "10.0.", 100, 319), ("dst port ", "", 100, 115),
    ("ether proto ", "0x90", 100, 115), ("", "portrange 10-10", 100, 416), ("dst port ", "", 480, 494), ("", "tcp[4:4] = ", 400, 412),
    ("", "len = ", 100, 103), ("port ", "", 248, 512), ("tcp port ", "", 249, 512), ("dst port ", "", 498, 512), ("", "tcp[4:4]=", 500, 512), ("", "ip[8]=", 504, 512),
]

# Two members by turns, how many numbers each has, how many they are together, and how many instructions they take.
BY_TURNS = [
    ("tcp port {}", "udp port {}", 4, 17), ("udp port {}", "tcp port {}", 10, 23), ("tcp port {}", "udp port {}", 30, 43),
    ("udp port {}", "tcp port {}", 100, 113), ("tcp src port {}", "udp src port {}", 100, 62),
    ("udp portrange {0}-7{0}", "tcp portrange {0}-7{0}", 30, 74),
    ("host 10.0.0.{}", "port {}", 30, 110), ("host 10.0.0.{}", "net 10.{}.0.0/16", 30, 135),
    ("ip dst host 10.0.0.{}", "src host 10.0.0.{}", 4, 15), ("ip dst host 10.0.0.{}", "src host 10.0.0.{}", 30, 41),
    ("tcp port {}", "tcp[2:2] = {}", 30, 44), ("ether proto 0x8{:02}", "ip proto {}", 30, 20), ("ether proto 0x8{:02}", "ip proto {}", 100, 55),
    ("port {}", "portrange {0}-7{0}", 30, 110), ("ether src 0:1:2:3:4:{}", "host 10.0.0.{}", 30, 80),
    ("ip[8] = {}", "tcp[2:2] = {}", 30, 45), ("ether src {0}:1:2:3:4:{0}", "ether src 0:{0}:{0}:3:4:5", 100, 307),
    ("ether dst {0}:1:2:3:4:{0}", "ether dst 0:{0}:{0}:3:4:5", 30, 94), ("(ip and host 10.0.0.{})", "(ip and host 10.0.1.{})", 30, 67),
    ("(tcp and port {})", "(udp and port {})", 30, 43), ("(tcp and dst port {})", "(tcp and dst port 1{})", 100, 115),
]

# Each word of the language without relations, and each kind of identifier.
WORDS = [
    "", " \n", "tcp", "ip or arp or rarp or tcp or udp or icmp or sctp", "tcp dst port 20 or 21", "not (net 10.0.0.0/8)",
    "net 10.0.0.0 mask 255.0.0.255", "src or dst net 172.16/12", "arp dst host 10.0.0.1 and rarp src host 10.0.0.2",
    "ip src and dst 10.0.0.1", "ether src 0:1:2:3:4:5 || ether dst host 5:4:3:2:1:0", "udp portrange 0x400-65535",
    "sctp src port (1 or 2 and not 3)", "proto \\icmp or ip proto (\\tcp or \\udp) and 255",
    "ether proto \\ip or \\arp or \\rarp or 1501", "broadcast && !multicast", "ether broadcast or ether multicast",
    "ip multicast", "less 60 or greater 4294967295", "host 10.0.0.1 and (port 80 or 443) or 53",
]

# An expression, and what `check` prints of it.
PRINTED = [
    ("", "1\n6 0 0 262144\n"), ("ip", "4\n40 0 0 12\n21 0 1 2048\n6 0 0 262144\n6 0 0 0\n"),
    ("ip multicast", "6\n40 0 0 12\n21 0 3 2048\n48 0 0 30\n53 0 1 224\n6 0 0 262144\n6 0 0 0\n"),
    ("not less 60", "4\n128 0 0 0\n37 0 1 60\n6 0 0 262144\n6 0 0 0\n"),
    # one of IPv4 is asked first, and is none of these
    ("arp or rarp", "6\n40 0 0 12\n21 3 0 2048\n21 1 0 2054\n21 0 1 32821\n6 0 0 262144\n6 0 0 0\n"),
]

# Lists by turns, and lists kind by kind of which they have the programs.
IN_TURN = [
    ("tcp port 80 or tcp[2:2] = 80 or tcp[0:2] = 80", "tcp port 80"),
    ("udp port 1 or tcp port 2 or udp port 3 or tcp port 4", "udp port (1 or 3) or tcp port (2 or 4)"),
    ("ip dst host 1.1.1.1 or src host 2.2.2.2 or ip dst host 3.3.3.3 or src host 4.4.4.4",
     "ip dst host 1.1.1.1 or ip dst host 3.3.3.3 or src host (2.2.2.2 or 4.4.4.4)"),
    ("(ip and host 1.1.1.1) or (ip and host 2.2.2.2)", "ip host (1.1.1.1 or 2.2.2.2)"), ("(udp and port 1) or (udp and port 2)", "udp port (1 or 2)"),
]

# Expressions, and what tcpdump 4.99.3 with libpcap 1.10.3 prints of them for Ethernet and a snapshot length of 262,144; `tcp or udp`,
# for which libpcap has IPv6 too, as its `ip and (tcp or udp)`.
AS_TCPDUMP = ROOT / "tests" / "vectors" / "programs.txt"

# The codes of the instructions that are loads at a place, and those that test for the first fragment of TCP, and read a byte of it.
HALF, BYTE, ACCEPT = 40, 48, [6, 6]
IS_IP, IS_PROTOCOL, IS_FIRST = [HALF, 21], [BYTE, 21], [HALF, 69]
FIRST_OF_TCP = IS_IP + IS_PROTOCOL + IS_FIRST
BEHIND_HEADER = [177, 80, 21]

# An expression, and the codes of its instructions.
CODES = [
    # Constants and literal indices take no instruction.
    ("ether[12:2] = 0x800", [HALF, 21]), ("ip[0] & 15 = 5", IS_IP + [BYTE, 84, 21]), ("(len - 8) / 10 = 3", [128, 20, 52, 21]),
    ("len + 0 = 3", [128, 4, 21]),
    # A number that was loaded is compared again, with whatever sign.
    ("len < 60 or len > 100", [128, 53, 37]), ("ip[8] != 1 and ip[8] != 2", IS_IP + [BYTE, 21, 21]),
    ("ether[0] & 1 = 0 and ether[0] & 2 = 0 and ether[0] < 9", [BYTE, 69, 69, 53]), ("ip[8] = 1 and ip[9] = 1", IS_IP + [BYTE, 21, BYTE, 21]),
    # A layer that was tested is not tested again. For IPv4 only the type is known; later fragments are not left out by `tcp`.
    ("tcp[0] = 0 and tcp[1] = 0", FIRST_OF_TCP + BEHIND_HEADER * 2),
    ("ip[0] = 0 and tcp[0] = 0", IS_IP + [BYTE, 21] + IS_PROTOCOL + IS_FIRST + BEHIND_HEADER),
    ("tcp and tcp[0] = 0", FIRST_OF_TCP + BEHIND_HEADER),
    # It is tested once within a relation.
    ("ip[0] = ip[1]", IS_IP + [BYTE, 2, BYTE, 7, 96, 29]),
    # A packet of IPv4 reaches the second relation after its type; one of another type passes it.
    ("not tcp[0] = 0 and tcp[0] = 0", FIRST_OF_TCP + BEHIND_HEADER + IS_PROTOCOL + IS_FIRST + BEHIND_HEADER),
    ("tcp[0] = 0 or tcp[1] = 0", FIRST_OF_TCP + BEHIND_HEADER + IS_PROTOCOL + IS_FIRST + BEHIND_HEADER),
]


def capture(*packets):
    """A capture of packets: the bytes of each, and its length on the wire."""
    lengths = [len(data).to_bytes(4, "little") + wire.to_bytes(4, "little") for data, wire in packets]
    return HEADER + b"".join(bytes(8) + both + data for both, (data, _) in zip(lengths, packets))


def cuts_of_frames():
    """Each frame, cut at each byte, with its own length on the wire."""
    for text in FRAMES:
        frame = bytes.fromhex(text)
        yield from ((frame[:end], len(frame)) for end in range(len(frame) + 1))


def answers(scene, expr, packet, wire, want):
    """An expression answers so of a packet: by what decided, and by its program, which answers 96 or 0."""
    scene.put({"one.pcap": capture((packet, wire))})
    seen = scene.run(["explain", "-s", "96", "-p", "0", "-e", expr, "one.pcap"])
    first, last = seen.out.decode().splitlines()[:: max(1, seen.out.count(b"\n") - 1)] or ["", ""]
    program = "answer 96" if want == "Yes" else "answer 0"
    scene.check(f"{expr[:80]!r} at {wire}", (first.split(" ")[8:9], last, seen.err, seen.status), ([want], program, b"", 0))


def both_answer(scene, expr, packet, wire, want):
    """A relation and its negation, which gives the opposite answer."""
    answers(scene, expr, packet, wire, want)
    answers(scene, f"not ({expr})", packet, wire, {"Yes": "No", "No": "Yes", "Abort": "Abort"}[want])


def program_of(scene, expr):
    """The instructions of an expression's program, as `check` prints it, with the line of their number."""
    count, *lines = scene.run(["check", "--", expr]).out.decode().splitlines() or ["none"]
    instructions = [tuple(map(int, line.split(" "))) for line in lines]
    scene.check(f"instructions of {expr[:80]!r}", count, str(len(instructions)))
    return instructions


@case
def worked_examples(scene):
    """What each expression answers of a frame."""
    for expr, packet, want in WORKED:
        answers(scene, expr, packet, len(packet), want)


@case
def relations_decide_as_worked_out(scene):
    """By their programs too, and their negations."""
    for expr, want in RELATIONS:
        both_answer(scene, expr, UDP_FRAME, len(UDP_FRAME), want)
    for expr, wire, want in DIVIDED:
        both_answer(scene, expr, b"", wire, want)
    for expr, want in FULL:
        answers(scene, expr, COUNTING, len(COUNTING), want)


@case
def a_program_accepts_as_worked_out(scene):
    """What each expression keeps of the UDP frame, whatever its length on the wire."""
    for expr, wire, is_accepted in ACCEPTED:
        scene.put({"one.pcap": capture((UDP_FRAME, wire))})
        record = capture((UDP_FRAME, wire))[24:] if is_accepted else b""
        scene.expect(["cut", "-s", "96", "-e", expr, "one.pcap", "out.pcap"])
        scene.check(f"{expr!r} at {wire}", scene.read("out.pcap"), header(96) + record)


@case
def every_list_on_frames_cut_at_each_byte(scene):
    """The program of a list accepts the packets of which what decided says Yes, and no other."""
    packets = list(cuts_of_frames())
    scene.start({"in.pcap": capture(*packets)})
    for expr in LISTS:
        lines = scene.run(["explain", "-e", expr, "in.pcap"]).out.decode().splitlines()[:-1]
        scene.check(f"packets of {expr!r}", len(lines), len(packets))
        accepted = [packet for packet, line in zip(packets, lines) if line.split(" ")[8] == "Yes"]
        scene.expect(["cut", "-s", "0", "-e", expr, "in.pcap", "out.pcap"])
        scene.check(f"{expr!r}", scene.read("out.pcap"), capture(*accepted))


@case
def long_lists_fit(scene):
    """How many instructions the members of a list take."""
    for words, prefix, count, most in SIZES:
        size = len(program_of(scene, words + " or ".join(f"{prefix}{number}" for number in range(count))))
        scene.check(f"{words}, {size} instructions", 0 < size <= most, True)


@case
def lists_by_turns_fit(scene):
    """How many instructions the members of two kinds by turns take, and their negation."""
    for first, second, count, most in BY_TURNS:
        expr = " or ".join((first, second)[n % 2].format(n // 2) for n in range(count))
        sizes = [len(program_of(scene, whole)) for whole in (expr, f"not ({expr})")]
        scene.check(f"{count} of {first} and {second}, {sizes} instructions", all(0 < size <= most for size in sizes), True)


@case
def lists_by_turns_are_asked_kind_by_kind(scene):
    """If the answers stay the same, members by turns compile to the program of the lists, one kind after the other."""
    for by_turns, by_kind in IN_TURN:
        scene.check(by_turns, program_of(scene, by_turns), program_of(scene, by_kind))


@case
def a_program_is_printed(scene):
    """Instruction by instruction, as it is worked out and as tcpdump has it."""
    compared = [block.split("\n", 1) for block in AS_TCPDUMP.read_text().split("tcpdump ")[1:]]
    scene.check("expressions that are compared with tcpdump", len(compared), 15)
    for expr, listing in PRINTED + compared:
        scene.expect(["check", "--", expr], out=listing)


@case
def each_printed_listing_is_the_program(scene):
    """It is read again as itself, and accepts the packets of the real capture that the expression does."""
    for expr in WORDS:
        listing = scene.run(["check", "--", expr])
        scene.check(f"standard error of {expr!r}, and its status", (listing.err, listing.status), (b"", 0))
        scene.put({"printed.bpf": listing.out})
        scene.expect("check -f printed.bpf", out=listing.out)
        for option, filter in [("-e", expr), ("-f", "printed.bpf")]:
            scene.expect(["cut", "-s", "0", option, filter, str(VETH), f"out{option}.pcap"])
        scene.check(f"packets of {expr!r}", scene.read("out-f.pcap"), scene.read("out-e.pcap"))


@case
def a_listing_that_is_not_taken_is_reported(scene):
    """Standard output that has no room, or for five bytes."""
    for room in (0, 5):
        seen = scene.run_into(room, "check ip")
        wanted = (IP.encode()[:room], fault_lines("Device standard output").encode(), 3)
        scene.check(f"with room for {room}", (seen.out, seen.err, seen.status), wanted)


@case
def instructions_are_those_that_are_needed(scene):
    """No test is made twice, and no mask of ones is laid over an address."""
    for expr, codes in CODES:
        scene.check(f"codes of {expr!r}", [code for code, *_ in program_of(scene, expr)], codes + ACCEPT)
    for more, tests in [(0, 1), (16, 1), (17, 2)]:
        program = program_of(scene, "tcp" + " and greater 1" * more + " and tcp[13] = 2")
        scene.check(f"tests for TCP with {more} between", sum((code, k) == (21, 6) for code, _, _, k in program), tests)
    for expr, mask, found in [("ip src host 10.0.0.1", 0xffffffff, 0), ("ip src net 10.0.0.0/8", 0xff000000, 1)]:
        scene.check(f"masks of {expr!r}", sum((code, k) == (84, mask) for code, _, _, k in program_of(scene, expr)), found)
    scene.check("the empty expression", len(program_of(scene, "")), 1)


@case
def a_jump_is_long_where_it_must_be(scene):
    """A jump reaches over 255 instructions."""
    for expr in ["port 53", "not (arp or rarp) and host 10.0.0.1", "tcp[tcpflags] & tcp-syn != 0"]:
        scene.check(f"long jumps of {expr!r}", [code for code, *_ in program_of(scene, expr) if code == 5], [])
    program = program_of(scene, "greater 1" + "&&greater 1" * 127)
    scene.check("128 tests", (len(program), sum(code == 5 for code, *_ in program)), (131, 0))
    # A return that is out of reach is emitted again where the jump leads, but the code before another test is not.
    long = "greater 1" + "&&greater 1" * 128
    scene.check("129 tests", sum(code == 5 for code, *_ in program_of(scene, long)), 0)
    scene.check("129 tests before another", sum(code == 5 for code, *_ in program_of(scene, f"({long}) or arp")), 1)


@case
def what_does_not_fit_is_refused(scene):
    """A chain of 2,048, a value that is nested too deep, wherever it is, and one that is too deep and too long."""
    for snap in ("1", "262144"):
        scene.refuse(["check", "-s", snap, "ip" + "||ip" * 2047], 1, "TooLong")
    deep = "1+(" * 16 + "1+1" + ")" * 16
    for expr in [f"{deep} = 17", f"{deep} = 18", f"17 = {'1+(' * 15 + '1+1' + ')' * 15}", f"not (ip or {deep} = 18)",
                 "1+(" * 59 + "1+1" + ")" * 59 + " = 61"]:
        scene.refuse(["check", "--", expr], 1, "TooDeep")
    scene.refuse(["check", "ether[1]" + "+ether[1]" * 300 + " = 0"], 1, "TooLong")
    # One member more than 512 instructions have.
    for words, count in [("port", 249), ("tcp port", 250), ("dst port", 499)]:
        scene.refuse(["check", f"{words} ({' or '.join(map(str, range(count)))})"], 1, "TooLong")
