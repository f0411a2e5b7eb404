"""Which tree a text reads as: `check -x` prints it as a canonical text, which by a law that is proved no other tree has."""
from .common import case

# A text, and its tree as a text.
TREES = [
    ("ip", "ip"), ("arp", "arp"), ("rarp", "rarp"), ("tcp", "tcp"), ("udp", "udp"), ("icmp", "icmp"), ("sctp", "sctp"),
    ("broadcast", "ether broadcast"), ("ether broadcast", "ether broadcast"), ("multicast", "ether multicast"),
    ("ether multicast", "ether multicast"), ("ip multicast", "ip multicast"), ("less 60", "less 60"),
    ("less 0", "less 0"), ("greater 4294967295", "greater 4294967295"),
    # Hosts
    ("host 10.0.0.1", "host 10.0.0.1"), ("ip 10.0.0.1", "ip host 10.0.0.1"), ("src 10.0.0.1", "src host 10.0.0.1"),
    ("arp dst host 10.0.0.1", "arp dst host 10.0.0.1"), ("rarp src and dst 10.0.0.1", "rarp src and dst host 10.0.0.1"),
    ("ether 0:1:2:3:4:5", "ether host 00:01:02:03:04:05"),
    ("ether dst host 0:1:2:3:4:5", "ether dst host 00:01:02:03:04:05"),
    # Nets
    ("net 10", "net 10.0.0.0/8"), ("src net 255", "src net 255.0.0.0/8"), ("ip net 10.1", "ip net 10.1.0.0/16"),
    ("arp net 10.1.2", "arp net 10.1.2.0/24"), ("rarp net 10.1.2.3", "rarp host 10.1.2.3"),
    ("net 0.0.0.0/0", "net 0.0.0.0/0"), ("dst net 10.0/8", "dst net 10.0.0.0/8"), ("net 10.0.0.1/32", "host 10.0.0.1"),
    ("net 10.1 mask 255.255.0.0", "net 10.1.0.0/16"), ("net 10.0.0.1 mask 255.0.0.255", "net 10.0.0.1 mask 255.0.0.255"),
    # Ports
    ("port 0", "port 0"), ("port 65535", "port 65535"), ("tcp dst port 20", "tcp dst port 20"),
    ("udp src or dst port 53", "udp port 53"), ("sctp src and dst port 9", "sctp src and dst port 9"),
    ("portrange 30-20", "portrange 20-30"), ("portrange 0-65535", "portrange 0-65535"),
    ("tcp portrange 7-7", "tcp port 7"), ("udp src portrange 20-30", "udp src portrange 20-30"),
    ("dst and src portrange 20-30", "src and dst portrange 20-30"),
    # Numbers of protocols
    ("proto 0", "ip proto 0"), ("ip proto 255", "ip proto 255"), ("proto \\icmp", "ip proto 1"),
    ("proto \\tcp", "ip proto 6"), ("ip proto \\udp", "ip proto 17"), ("ether proto 1501", "ether proto 1501"),
    ("ether proto 65535", "ether proto 65535"), ("ether proto \\ip", "ether proto 2048"),
    ("ether proto \\arp", "ether proto 2054"), ("ether proto \\rarp", "ether proto 32821"),
    # Both words bind alike, from the left.
    ("", ""), (" \t\r\n", ""), ("not tcp", "not tcp"), ("tcp or udp and arp", "(tcp or udp) and arp"),
    # An identifier inherits across parentheses, a group and a negation.
    ("(port 1) and 2", "port 1 and port 2"), ("port (1 or 2) or 3", "port 1 or port 2 or port 3"),
    ("not port 80 or 443", "not port 80 or port 443"), ("port (80 or not 53)", "port 80 or not port 53"),
    # Comparisons, operators, layers and sizes
    ("len = 2", "len = 2"), ("len == 2", "len = 2"), ("len != 2", "len != 2"), ("len < 2", "len < 2"),
    ("len > 2", "len > 2"), ("len <= 2", "len <= 2"), ("len >= 2", "len >= 2"), ("1 + 2 = 3", "(1 + 2) = 3"),
    ("1 - 2 = 3", "(1 - 2) = 3"), ("1 * 2 = 3", "(1 * 2) = 3"), ("1 / 2 = 3", "(1 / 2) = 3"),
    ("1 % 2 = 3", "(1 % 2) = 3"), ("1 & 2 = 3", "(1 & 2) = 3"), ("1 ^ 2 = 3", "(1 ^ 2) = 3"),
    ("1 | 2 = 3", "(1 | 2) = 3"), ("1 << 2 = 3", "(1 << 2) = 3"), ("1 >> 2 = 3", "(1 >> 2) = 3"),
    ("ether[0] = 1", "ether[0] = 1"), ("ip[0] = 1", "ip[0] = 1"), ("arp[0:1] = 1", "arp[0] = 1"),
    ("rarp[0:2] = 1", "rarp[0:2] = 1"), ("tcp[0:4] = 1", "tcp[0:4] = 1"), ("udp[0:0x4] = 1", "udp[0:4] = 1"),
    ("icmp [ 0 : 02 ] = 1", "icmp[0:2] = 1"), ("10 - 4 - 3 = len", "(10 - 4 - 3) = len"),
    ("len = 1 + 2 * 3", "len = (1 + (2 * 3))"), ("-1 = 4294967295", "(-1 = 4294967295)"), ("(tcp-syn) < icmptype", "2 < 0"),
]

# Texts, and their readings, for all that is printed in another form than it is written, and for what is joined.
PRINTED = [
    ("", ""), ("sctp", "sctp"), ("tcp port 80 or 8080", "tcp port 80 or tcp port 8080"),
    ("src portrange 0x20-30", "src portrange 30-32"), ("udp src and dst port 53", "udp src and dst port 53"),
    ("sctp dst port 7", "sctp dst port 7"), ("portrange 7-7", "port 7"), ("host 10.0.0.1", "host 10.0.0.1"),
    ("arp dst net 10.1", "arp dst net 10.1.0.0/16"), ("rarp src or dst 10.0.0.1", "rarp host 10.0.0.1"),
    ("net 10", "net 10.0.0.0/8"), ("net 0.0/0", "net 0.0.0.0/0"),
    ("net 10.0.0.1 mask 255.0.0.255", "net 10.0.0.1 mask 255.0.0.255"),
    ("ether src 1:2:a:BB:c:ff", "ether src host 01:02:0a:bb:0c:ff"), ("proto \\udp", "ip proto 17"),
    ("ether proto \\arp", "ether proto 2054"), ("broadcast", "ether broadcast"), ("multicast", "ether multicast"),
    ("ip multicast", "ip multicast"), ("less 010", "less 8"), ("greater 4294967295", "greater 4294967295"),
    ("ip or arp or tcp", "ip or arp or tcp"), ("ip or (arp or tcp)", "ip or (arp or tcp)"),
    ("ip or arp and tcp", "(ip or arp) and tcp"), ("ip and arp or tcp", "(ip and arp) or tcp"),
    ("ip && !arp", "ip and not arp"), ("not not ip", "not not ip"), ("not (ip or arp)", "not (ip or arp)"),
    ("port (80 or not 443)", "port 80 or not port 443"), ("not tcp[0] = 1", "not (tcp[0] = 1)"), ("len > 60", "len > 60"),
    ("tcp[tcpflags] & tcp-syn != 0", "(tcp[13] & 2) != 0"), ("1 + 2 * 3 - 4 == len", "(1 + (2 * 3) - 4) = len"),
    ("(1 - 2) - 3 < 4", "(1 - 2 - 3) < 4"), ("1 - (2 - 3) >= 4", "(1 - (2 - 3)) >= 4"),
    ("8 / (4 / 2) != 1", "(8 / (4 / 2)) != 1"), ("-(-1 + len) <= - -1", "(-(-1 + len) <= --1)"),
    ("ip[ip[0:1]:2] % 7 << 1 | 2 ^ 3 >> 4 > 0", "(((ip[ip[0]:2] % 7) << 1) | (2 ^ (3 >> 4))) > 0"),
    ("icmp[len / 2:4] > 0", "icmp[len / 2:4] > 0"),
    ("ether[0] + arp[1:2] = rarp[2:4] + udp[3]", "(ether[0] + arp[1:2]) = (rarp[2:4] + udp[3])"),
    ("not port 80 and tcp or port (1 or 2)", "(not port 80 and tcp) or (port 1 or port 2)"), ("-len = ip[1]", "(-len = ip[1])"),
]

# Two texts that read as the same tree, the second with each phrase written out.
READINGS = [
    ("tcp dst port 20 or 21", "tcp dst port 20 or tcp dst port 21"),
    ("not host 10.0.0.1 and 10.0.0.2", "not host 10.0.0.1 and host 10.0.0.2"),
    ("host 10.0.0.1 and (port 80 or 443) or 53", "(host 10.0.0.1 and (port 80 or port 443)) or port 53"),
    ("port (80 or not 443)", "port 80 or not port 443"), ("dst or src host 10.0.0.1", "src or dst host 10.0.0.1"),
    ("portrange 30-20", "portrange 20-30"),
    # and, or and not
    ("tcp or udp and arp", "(tcp or udp) and arp"), ("tcp and udp or arp and ip", "((tcp and udp) or arp) and ip"),
    ("tcp or (udp and arp)", "tcp or ((udp) and (arp))"), ("not tcp and udp", "(not tcp) and udp"),
    ("not tcp or not udp and arp", "((not tcp) or (not udp)) and arp"), ("tcp && udp || !arp", "tcp and udp or not arp"),
    ("! ! tcp", "not not tcp"), ("not (not (tcp))", "not not tcp"), ("not(tcp)and(udp)", "(not tcp) and udp"),
    ("((tcp))", "tcp"), (" \t(tcp)\r\nor udp\n", "tcp or udp"),
    # Without a direction both are meant, without a type a host.
    ("host 10.0.0.1", "src or dst host 10.0.0.1"), ("src 10.0.0.1", "src host 10.0.0.1"),
    ("dst or src 10.0.0.1", "host 10.0.0.1"), ("ip 10.0.0.1", "ip src or dst host 10.0.0.1"),
    ("arp dst 10.0.0.1", "arp dst host 10.0.0.1"), ("rarp src || dst 10.0.0.1", "rarp host 10.0.0.1"),
    ("ether 1:2:3:4:5:6", "ether host 01:02:03:04:05:06"), ("ether src 1:2:3:4:5:6", "ether src host 1:2:3:4:5:6"),
    ("src && dst 10.0.0.1", "dst and src host 10.0.0.1"), ("tcp port 80", "tcp src or dst port 80"),
    ("portrange 1-2", "dst or src portrange 1-2"), ("ip proto 6", "proto 6"),
    # A direction is read as long as possible, and a direction differs from a term.
    ("not src and dst port 80", "not (dst and src port 80)"),
    ("src port 80 and dst port 53", "(src port 80) and (dst port 53)"),
    ("src 10.0.0.1 or dst 10.0.0.2", "(src host 10.0.0.1) or (dst host 10.0.0.2)"),
    ("tcp or src or dst port 80", "tcp or (port 80)"), ("tcp and dst and src port 80", "tcp and (src and dst port 80)"),
    # Plain words, if what follows belongs to no phrase
    ("ip and multicast", "(ip) and (ether multicast)"), ("ip or ip multicast", "(ip) or (ip multicast)"),
    ("tcp and (udp)", "(tcp) and (udp)"),
    # Numbers, addresses and names
    ("port 0120", "port 80"), ("net 0xa", "net 10"), ("net 012", "net 10.0.0.0/8"), ("net 10", "net 10.0.0.0/8"),
    ("net 10.1", "net 10.1.0.0/16"), ("net 10.1", "net 10.1 mask 255.255.0.0"),
    ("net 10.1.2", "net 10.1.2.0 mask 255.255.255.0"), ("net 10.1.2.3", "net 10.1.2.3/32"),
    ("net 10.0/8", "net 10.0.0.0/8"), ("net 0.0/0", "net 0.0.0.0 mask 0.0.0.0"),
    ("net 172.16 / 12", "net 172.16.0.0 mask 255.240.0.0"), ("net 010.08", "net 10.8"),
    ("tcp portrange 0x1e - 024", "tcp portrange 20-30"), ("proto \\tcp", "proto 6"), ("proto \\udp", "ip proto 17"),
    ("ip proto \\icmp", "proto 1"), ("ether proto \\ip", "ether proto 0x800"), ("ether proto \\arp", "ether proto 0x806"),
    ("ether proto \\rarp", "ether proto 0x8035"), ("less 0x3c", "less 60"), ("broadcast", "ether broadcast"),
    ("multicast", "ether multicast"),
    # Each identifier of a group takes its phrase.
    ("port (80)", "port 80"), ("port (1 or 2 and 3)", "(port 1 or port 2) and port 3"),
    ("port ((1 or 2) and (3))", "(port 1 or port 2) and port 3"),
    ("port (1 or (2 and 3))", "port 1 or (port 2 and port 3)"), ("port (not (1 or 2))", "not (port 1 or port 2)"),
    ("port (not not 1)", "not not port 1"), ("not port (1 or 2)", "not (port 1 or port 2)"),
    ("tcp src port (1 or 2)", "tcp src port 1 or tcp src port 2"),
    ("ip (10.0.0.1 or 10.0.0.2)", "ip host 10.0.0.1 or ip host 10.0.0.2"),
    ("src (10.0.0.1 and not 10.0.0.2)", "src host 10.0.0.1 and not src host 10.0.0.2"),
    ("ether (1:2:3:4:5:6 or 6:5:4:3:2:1)", "ether host 1:2:3:4:5:6 or ether host 6:5:4:3:2:1"),
    ("net (10 or 172.16/12 or 192.168.0.0 mask 255.255.0.0)", "net 10 or net 172.16/12 or net 192.168"),
    ("proto (6 or \\udp)", "proto 6 or proto 17"),
    ("ether proto (\\ip or \\arp)", "ether proto 0x800 or ether proto 0x806"),
    ("tcp and port (80 or 443)", "tcp and (port 80 or port 443)"),
    ("port (80 or 443) and tcp", "(port 80 or port 443) and tcp"),
    # An identifier without a phrase inherits from the nearest primitive to its left.
    ("port 1 or 2 or 3", "port 1 or port 2 or port 3"), ("port (80 or 443) or 53", "port 80 or port 443 or port 53"),
    ("(port 80) or 443", "port 80 or port 443"),
    ("(tcp dst port 20 or (21)) and 22", "(tcp dst port 20 or tcp dst port 21) and tcp dst port 22"),
    ("port 80 or (443 and (not 53))", "port 80 or (port 443 and (not port 53))"),
    ("not port 80 and 443", "(not port 80) and port 443"),
    ("not (net 10 or 11) and 12", "not (net 10 or net 11) and net 12"), ("port 80 or not 443", "port 80 or not port 443"),
    ("port 80 or host 10.0.0.1 or 10.0.0.2", "port 80 or host 10.0.0.1 or host 10.0.0.2"),
    ("host 10.0.0.1 or port 80 or 443", "host 10.0.0.1 or port 80 or port 443"),
    ("tcp and port 80 or 443", "(tcp and port 80) or port 443"),
    ("src 10.0.0.1 or 10.0.0.2", "src host 10.0.0.1 or src host 10.0.0.2"),
    ("ether src 1:2:3:4:5:6 or 6:5:4:3:2:1", "ether src host 1:2:3:4:5:6 or ether src host 6:5:4:3:2:1"),
    ("net 10 or 11.0/8 or 12.0.0.0 mask 255.0.0.0", "net 10 or net 11 or net 12"),
    ("sctp src and dst port 1 or 2", "sctp src and dst port 1 or sctp src and dst port 2"),
    ("ip proto 6 or \\udp", "ip proto 6 or ip proto 17"),
    ("ether proto \\ip or 0x806", "ether proto \\ip or ether proto \\arp"),
]

# Two texts that read as the same tree, the second with parentheses around each value that has an operator.
RELATIONS = [
    # Operators of one precedence, from the left
    ("8 - 4 - 2 = 2", "((8 - 4) - 2) = 2"), ("8 - 4 + 2 = 6", "((8 - 4) + 2) = 6"),
    ("8 / 4 / 2 = 1", "((8 / 4) / 2) = 1"), ("8 / 4 * 2 = 4", "((8 / 4) * 2) = 4"),
    ("8 * 4 / 2 = 16", "((8 * 4) / 2) = 16"), ("8 % 5 * 2 = 6", "((8 % 5) * 2) = 6"),
    ("2 * 8 % 5 = 1", "((2 * 8) % 5) = 1"), ("8 % 5 / 2 = 1", "((8 % 5) / 2) = 1"),
    ("16 >> 2 << 1 = 8", "((16 >> 2) << 1) = 8"), ("16 << 1 >> 2 = 8", "((16 << 1) >> 2) = 8"),
    ("7 & 5 & 4 = 4", "((7 & 5) & 4) = 4"), ("7 ^ 5 ^ 4 = 6", "((7 ^ 5) ^ 4) = 6"),
    ("1 | 2 | 4 = 7", "((1 | 2) | 4) = 7"),
    # Each precedence beside the next one, on either side
    ("1 + 2 * 3 = 7", "(1 + (2 * 3)) = 7"), ("1 * 2 + 3 = 5", "((1 * 2) + 3) = 5"),
    ("9 - 8 / 4 = 7", "(9 - (8 / 4)) = 7"), ("9 - 8 % 5 = 6", "(9 - (8 % 5)) = 6"),
    ("9 % 5 - 4 = 0", "((9 % 5) - 4) = 0"), ("1 << 2 + 1 = 8", "(1 << (2 + 1)) = 8"),
    ("1 + 1 << 2 = 8", "((1 + 1) << 2) = 8"), ("9 - 1 >> 2 = 2", "((9 - 1) >> 2) = 2"),
    ("8 >> 3 - 1 = 2", "(8 >> (3 - 1)) = 2"), ("1 & 1 << 1 = 0", "(1 & (1 << 1)) = 0"),
    ("1 << 1 & 2 = 2", "((1 << 1) & 2) = 2"), ("6 ^ 3 & 1 = 7", "(6 ^ (3 & 1)) = 7"),
    ("3 & 1 ^ 6 = 7", "((3 & 1) ^ 6) = 7"), ("2 | 2 ^ 2 = 2", "(2 | (2 ^ 2)) = 2"),
    ("2 ^ 2 | 2 = 2", "((2 ^ 2) | 2) = 2"), ("1 | 2 & 2 = 3", "(1 | (2 & 2)) = 3"),
    ("1 | 2 ^ 3 & 4 << 5 + 6 * 7 = 8", "(1 | (2 ^ (3 & (4 << (5 + (6 * 7)))))) = 8"),
    ("1 * 2 + 3 << 4 & 5 ^ 6 | 7 = 8", "((((((1 * 2) + 3) << 4) & 5) ^ 6) | 7) = 8"),
    ("1 + 2 * 3 - 4 = 5 << 6 + 7", "((1 + (2 * 3)) - 4) = (5 << (6 + 7))"),
    # A unary minus belongs only to the value after it.
    ("-1 + 2 = 1", "((-(1)) + 2) = 1"), ("-2 * 3 = 0", "((-2) * 3) = 0"), ("2 * -3 = 0", "(2 * (-3)) = 0"),
    ("2 - -3 = 5", "(2 - (-3)) = 5"), ("2--3 = 5", "(2 - (-3)) = 5"), ("- - 1 = 1", "(-(-1)) = 1"),
    ("-len = 0", "(-(len)) = 0"), ("-(1 + 2) = 0", "-((1 + 2)) = 0"), ("-ip[0] + 1 = 0", "((-(ip[0])) + 1) = 0"),
    # Parentheses leave no node.
    ("(len = 38)", "len = 38"), ("((len)) = ((38))", "len = 38"), ("((len) = (38))", "len = 38"),
    ("((1) + 1) = 2", "1 + 1 = 2"), ("((1) + 1 = 2)", "1 + 1 = 2"), ("(((1) + 1) = 2)", "1 + 1 = 2"),
    # Named values are numbers.
    ("tcp[tcpflags] & tcp-syn != 0", "(tcp[13] & 2) != 0"), ("tcp[tcpflags]&tcp-syn-1=0", "(tcp[13] & (2 - 1)) = 0"),
    ("icmp[icmptype] = icmp-echo", "icmp[0] = 8"), ("icmp[icmpcode] = icmp-timxceed", "icmp[1] = 11"),
    # An index is a value, and has one byte without a size.
    ("ip[0] = 5", "ip[0:1] = 5"), ("ip[2 + 1 * 4:2] = 1", "ip[(2 + (1 * 4)):2] = 1"),
    ("ether[-1 & 7] = 1", "ether[((-1) & 7)] = 1"),
    ("tcp[tcp[12] >> 4 << 2:4] = 0x47455420", "tcp[((tcp[12:1] >> 4) << 2):4] = 1195725856"),
    ("ip[len - 1] = udp[len]", "ip[(len - 1)] = udp[len]"), ("udp[0:2]=53", "udp [ 0 : 2 ] == 065"),
    # Relations among other terms
    ("not len = 1 and tcp or 2 < len", "((not (len = 1)) and (tcp)) or (2 < len)"),
    ("tcp and 1 + 1 = 2", "(tcp) and ((1 + 1) = 2)"), ("port 80 or 443 = 1", "(port 80) or ((443) = 1)"),
    ("port 80 or (443) = 1", "(port 80) or (443 = 1)"), ("port 80 or (443 = 1)", "(port 80) or (443 = 1)"),
    ("len = 1 or port 80 or 443", "(len = 1 or port 80) or port 443"), ("(tcp) and (len) = 1", "tcp and len = 1"),
    ("!ip[0] = 5", "not (ip[0] = 5)"), ("80 = 1 || not 80 != 1", "(80 = 1) or (not (80 != 1))"),
]

# Divisors that are no number 0, though they may turn out as one.
DIVISORS = [
    "len / 1 = 1", "len / -0 = 1", "len % (-0) = 1", "len / (0 + 0) = 1", "len % (0 * 1) = 1", "len / icmpcode = 1",
    "len / ip[0] = 1", "len / len % len = 1", "0 / 1 = 0 % 1", "len * 0 + 0 - 0 << 0 & 0 ^ 0 | 0 = 0",
]

# How many signs, the text before the signs, the sign, the text after it, what closes each, and the text after that.
SIXTY_FOUR_OPEN = [
    (64, "", "(", "len", ")", " = 1"), (64, "", "(", "len = 1", ")", ""), (64, "", "-", "1", "", " = 1"),
    (64, "", "ip[", "0", "]", " = 1"), (32, "", "-(", "len", ")", " = 1"), (32, "", "(ip[", "len", "])", " = 1"),
    (64, "1 = ", "(", "1", ")", ""), (64, "1 = ", "ip[", "0", "]", ""), (64, "1 / ", "(", "1", ")", " = 1"),
    (64, "", "!", "len = 1", "", ""), (63, "", "(", "(len) + 1 = 1", ")", ""), (63, "", "!", "1 = -1", "", ""),
]


def nested(times, sign, inner, closing):
    """A sign this many times, the text after the signs, and what closes each."""
    return sign * times + inner + closing * times


def read(scene, text):
    """What a text is read as, and that nothing is reported."""
    seen = scene.run(["check", "-x", "--", text])
    scene.check(f"standard error of {text[:80]!r}, and the status", (seen.err, seen.status), (b"", 0))
    return seen.out.decode()


def prints(scene, text, wanted):
    """A text is printed as the other one, and that one as itself."""
    scene.check(f"{text[:80]!r}", read(scene, text), wanted + "\n")
    if len(wanted) <= 8192:
        scene.check(f"{wanted[:80]!r} once more", read(scene, wanted), wanted + "\n")


@case
def a_text_is_printed_as_its_tree(scene):
    """Each primitive, what is joined and inherited, and each part of a relation."""
    for text, wanted in TREES + PRINTED:
        prints(scene, text, wanted)


@case
def two_texts_read_as_one_tree(scene):
    """Both are printed alike."""
    for text, other in READINGS + RELATIONS:
        scene.check(f"{text!r} and {other!r}", read(scene, text), read(scene, other))


@case
def a_divisor_may_turn_out_as_0(scene):
    """It is read, unless it is written as 0."""
    for text in DIVISORS:
        read(scene, text)


@case
def sixty_four_open_signs_are_read(scene):
    """Signs that are closed count no more."""
    for times, before, sign, inner, closing, after in SIXTY_FOUR_OPEN:
        read(scene, before + nested(times, sign, inner, closing) + after)
    for times, sign, inner, closing, wanted in [
        (64, "(", "tcp", ")", "tcp"), (64, "!", "tcp", "", "not " * 64 + "tcp"), (32, "!(", "tcp", ")", "not " * 32 + "tcp"),
        (63, "(", "port (80 or 53)", ")", "port 80 or port 53"), (62, "!", "port (!80)", "", "not " * 62 + "not port 80"),
    ]:
        prints(scene, nested(times, sign, inner, closing), wanted)
    prints(scene, nested(64, "(", "tcp", ")") + " and " + nested(64, "(", "udp", ")"), "tcp and udp")
    one, two = (nested(64, "(", number, ")") for number in "12")
    prints(scene, f"{nested(64, '(', 'len', ')')} = {one} + {two}", "len = (1 + 2)")
    read(scene, "!ip" + "&&!ip" * 99)


@case
def parentheses_that_would_be_too_many_are_left_out(scene):
    """64 signs may be open: the parentheses that would be more are not printed."""
    for text in ["not " * 64 + "len > 1", "not " * 63 + "1 - (2 + 3) = 4", "ip or ip and " * 33 + "ip"]:
        prints(scene, text, text)


@case
def long_texts_are_read_to_their_end(scene):
    """The longest chains that 8,192 bytes have room for, and blanks."""
    prints(scene, "net 1" + "||1" * 2729, "net 1.0.0.0/8" + " or net 1.0.0.0/8" * 2729)
    prints(scene, "1" + "+1" * 4094 + "=1 ", "(1" + " + 1" * 4094 + ") = 1")
    each = "not " * 64 + "net 1.0.0.0/8"
    prints(scene, "!" * 64 + "net 1" + ("||" + "!" * 64 + "1") * 120, each + (" or " + each) * 120)
    prints(scene, "tcp" + " " * 8189, "tcp")
