"""The fault of a text that is no expression, and its place: `check` reports it, with status 1."""
from .common import case, fault_lines

# Texts with a place that has no token.
FAILING_TOKENS = [
    ("tcp é", "BadByte 4"), ("tcpé", "BadByte 3"), ("tcé", "BadWord 0"), ("tcép", "BadWord 0"),
    ("tcp # udp", "BadByte 4"), ("tcp \f udp", "BadByte 4"), ("len $ 2", "BadByte 4"), ("1:2:3:4:5:6.", "BadByte 11"),
    (".5", "BadByte 0"), ("TCP", "BadWord 0"), ("tcp length", "BadWord 4"), ("tcp2", "BadWord 0"),
    ("tcp-synx", "BadWord 4"), ("\\", "BadWord 0"), ("tcp \\sctp", "BadWord 4"), ("\\tcpx", "BadWord 0"),
    ("\\ tcp", "BadWord 0"), ("0:1:2:3:4:5g", "BadNumber 10"), ("a:b:c:d:e", "BadWord 0"), ("08 = 8", "BadNumber 0"),
    ("4294967296", "BadNumber 0"), ("040000000000", "BadNumber 0"), ("0x", "BadNumber 0"), ("0x1g", "BadNumber 0"),
    ("0x100000000", "BadNumber 0"), ("12a", "BadNumber 0"), ("tcp 1.2.3.256", "BadNumber 4"),
    ("1.2.3.4.5", "BadNumber 0"), ("1.2.", "BadNumber 0"), ("1..2", "BadNumber 0"), ("1.0002", "BadNumber 0"),
    ("1.0xa", "BadNumber 0"), ("# 08 xyz", "BadByte 0"), ("08 #", "BadNumber 0"),
]

# Texts that break off, or go on as no expression does.
BROKEN_OFF = [
    ("and", "Syntax 0"), ("or tcp", "Syntax 0"), ("not", "Syntax 3"), ("not and", "Syntax 4"), ("tcp and", "Syntax 7"),
    ("tcp and or udp", "Syntax 8"), ("tcp and not", "Syntax 11"), ("tcp udp", "Syntax 4"), ("tcp not udp", "Syntax 4"),
    ("port 80 and", "Syntax 11"), ("port 80 443", "Syntax 8"), ("port 80 port 443", "Syntax 8"), ("port 80)", "Syntax 7"),
    (")", "Syntax 0"), ("()", "Syntax 1"), ("(", "Syntax 1"), ("(tcp", "Syntax 4"), ("(tcp udp)", "Syntax 5"),
    ("(tcp))", "Syntax 5"), ("tcp)", "Syntax 3"), ("port", "Syntax 4"), ("port and", "Syntax 5"),
    ("port not 80", "Syntax 5"), ("port tcp", "Syntax 5"), ("port (", "Syntax 6"), ("port ()", "Syntax 6"),
    ("port (80", "Syntax 8"), ("port (80 and)", "Syntax 12"), ("port (not)", "Syntax 9"), ("port (80 443)", "Syntax 9"),
    ("port (port 80)", "Syntax 6"), ("port ((80) or (443)", "Syntax 19"), ("port ((80)", "Syntax 10"),
    ("port ((80 443))", "Syntax 10"), ("port (80))", "Syntax 9"), ("port (80) 443", "Syntax 10"), ("ether", "Syntax 5"),
    ("ether tcp", "Syntax 6"), ("src", "Syntax 3"), ("src or dst", "Syntax 10"), ("ip src", "Syntax 6"),
    ("src or", "Syntax 4"), ("src or host 10.0.0.1", "Syntax 4"), ("src or src 10.0.0.1", "Syntax 4"),
    ("src src 10.0.0.1", "Syntax 4"), ("src or dst or host 10.0.0.1", "Syntax 11"), ("src tcp port 80", "Syntax 4"),
    ("port src 80", "Syntax 5"), ("host net 10", "Syntax 5"), ("proto tcp", "Syntax 6"), ("ip proto sctp", "Syntax 9"),
    ("ip broadcast", "Syntax 3"), ("tcp broadcast", "Syntax 4"), ("arp multicast", "Syntax 4"),
    ("src broadcast", "Syntax 4"), ("ip src multicast", "Syntax 7"), ("ip multicast multicast", "Syntax 13"),
    ("ip not 10.0.0.1", "Syntax 3"), ("less", "Syntax 4"), ("less tcp", "Syntax 5"), ("less 10.0", "Syntax 5"),
    ("less -1", "Syntax 5"), ("greater", "Syntax 7"), ("greater (60)", "Syntax 8"), ("portrange", "Syntax 9"),
    ("portrange 20", "Syntax 12"), ("portrange 20 30", "Syntax 13"), ("portrange 20-", "Syntax 13"),
    ("portrange 20-30-40", "Syntax 15"), ("portrange (20-30)", "Syntax 10"), ("portrange 10.0-30", "Syntax 10"),
    ("host portrange 20-30", "Syntax 5"), ("tcp port portrange 20-30", "Syntax 9"), ("net /8", "Syntax 4"),
    ("net 10/8", "Syntax 6"), ("net 10 mask 255.0.0.0", "Syntax 7"), ("net 10.0.0.0/", "Syntax 13"),
    ("net 10.0.0.0/255.0.0.0", "Syntax 13"), ("net 10.0.0.1/tcp", "Syntax 13"), ("net 10.0.0.0 mask", "Syntax 17"),
    ("net 10.0.0.0 mask 8", "Syntax 18"), ("net 10.0.0.0/8/8", "Syntax 14"), ("port 10.0.0.1 / tcp", "Syntax 16"),
    ("host 10.0.0.1 10.0.0.2", "Syntax 14"), ("tcp mask 255.0.0.0", "Syntax 4"), ("mask", "Syntax 0"), (":", "Syntax 0"),
    ("]", "Syntax 0"), ("[0]", "Syntax 0"), ("= 1", "Syntax 0"), ("tcp and = 1", "Syntax 8"),
    ("port 80 or [0]", "Syntax 11"), ("host 10.0.0.1 [0]", "Syntax 14"), ("port 80 and  ", "Syntax 13"),
    ("not \t", "Syntax 5"), ("(tcp\r\n", "Syntax 6"), ("portrange 20- ", "Syntax 14"),
    ("net 10.0.0.0 mask ", "Syntax 18"),
]

# Identifiers that have nothing to inherit.
UNQUALIFIED = [
    ("80", "NoQualifier 0"), ("10.0.0.1", "NoQualifier 0"), ("1:2:3:4:5:6", "NoQualifier 0"), ("\\tcp", "NoQualifier 0"),
    ("not 80", "NoQualifier 4"), ("(80)", "NoQualifier 1"), ("70000 and tcp", "NoQualifier 0"),
    ("10.0.0.1 / tcp", "NoQualifier 0"), ("tcp and 80", "NoQualifier 8"), ("ip or 10.0.0.1", "NoQualifier 6"),
    ("arp or 10.0.0.1", "NoQualifier 7"), ("rarp or 10.0.0.1", "NoQualifier 8"), ("sctp or 80", "NoQualifier 8"),
    ("not tcp and 80", "NoQualifier 12"), ("(tcp) and 80", "NoQualifier 10"),
    ("port 80 and tcp or 443", "NoQualifier 19"), ("port (80 or 443) and (udp or 53)", "NoQualifier 29"),
    ("port 80 and not (443 or icmp) and 53", "NoQualifier 34"), ("broadcast or 10.0.0.1", "NoQualifier 13"),
    ("ether broadcast or 1:2:3:4:5:6", "NoQualifier 19"), ("multicast or 80", "NoQualifier 13"),
    ("ether multicast or 80", "NoQualifier 19"), ("ip multicast or 10.0.0.1", "NoQualifier 16"),
    ("port 80 and less 60 or 443", "NoQualifier 23"), ("port 80 and greater 60 or 443", "NoQualifier 26"),
    ("portrange 20-30 and 40", "NoQualifier 20"), ("port 10 or tcp portrange 20-30 or 40", "NoQualifier 34"),
]

# Phrases that are not in the table, refused as soon as they are read.
BAD_QUALIFIERS = [
    ("tcp host 10.0.0.1", "BadQualifier 0"), ("udp 10.0.0.1", "BadQualifier 0"), ("icmp src 10.0.0.1", "BadQualifier 0"),
    ("tcp or sctp host 10.0.0.1", "BadQualifier 7"), ("tcp 80", "BadQualifier 0"), ("tcp \\tcp", "BadQualifier 0"),
    ("icmp 10.0.0.1/33", "BadQualifier 0"), ("udp (53)", "BadQualifier 0"), ("tcp ()", "BadQualifier 0"),
    ("tcp host", "BadQualifier 0"), ("tcp src", "BadQualifier 0"), ("tcp src or host 10.0.0.1", "BadQualifier 0"),
    ("not tcp src or dst", "BadQualifier 4"), ("ether net 10", "BadQualifier 0"), ("tcp net 10", "BadQualifier 0"),
    ("udp src net 10", "BadQualifier 0"), ("icmp net 10", "BadQualifier 0"), ("sctp net 10", "BadQualifier 0"),
    ("ether port 80", "BadQualifier 0"), ("ip port 80", "BadQualifier 0"), ("arp dst port 80", "BadQualifier 0"),
    ("rarp port 80", "BadQualifier 0"), ("icmp port 80", "BadQualifier 0"), ("ether portrange 20-30", "BadQualifier 0"),
    ("ip portrange 20-30", "BadQualifier 0"), ("arp src portrange 20-30", "BadQualifier 0"),
    ("rarp portrange tcp", "BadQualifier 0"), ("icmp portrange", "BadQualifier 0"),
    ("tcp or icmp portrange 20-30", "BadQualifier 7"), ("tcp proto 6", "BadQualifier 0"),
    ("arp proto 6", "BadQualifier 0"), ("rarp proto 6", "BadQualifier 0"), ("udp proto 6", "BadQualifier 0"),
    ("icmp proto 6", "BadQualifier 0"), ("sctp proto 6", "BadQualifier 0"), ("src proto 6", "BadQualifier 0"),
    ("ip dst proto 6", "BadQualifier 0"), ("src or dst proto \\tcp", "BadQualifier 0"),
    ("ether src proto \\ip", "BadQualifier 0"), ("port 80 and dst and src proto 6", "BadQualifier 12"),
]

# Identifiers of a kind that their type does not take.
BAD_IDENTIFIERS = [
    ("host 10.0", "BadIdentifier 5"), ("host 10.0.0", "BadIdentifier 5"), ("host 80", "BadIdentifier 5"),
    ("host \\tcp", "BadIdentifier 5"), ("host 1:2:3:4:5:6", "BadIdentifier 5"), ("host 10.0.0.1/32", "BadIdentifier 5"),
    ("host 10.0.0.1/33", "BadIdentifier 5"), ("host 10.0.0.1/8", "BadIdentifier 5"),
    ("host 10.0.0.1 mask 255.0", "BadIdentifier 5"), ("arp 1:2:3:4:5:6", "BadIdentifier 4"), ("ip 80", "BadIdentifier 3"),
    ("src 80", "BadIdentifier 4"), ("ether host 10.0.0.1", "BadIdentifier 11"), ("ether 80", "BadIdentifier 6"),
    ("ether dst \\ip", "BadIdentifier 10"), ("net 1:2:3:4:5:6", "BadIdentifier 4"), ("net \\ip", "BadIdentifier 4"),
    ("net 10.0.0.0 mask 255.0", "BadIdentifier 18"), ("net 10.0.0.1 mask 255.255.255", "BadIdentifier 18"),
    ("port 10.0.0.1", "BadIdentifier 5"), ("port 1:2:3:4:5:6", "BadIdentifier 5"), ("port \\tcp", "BadIdentifier 5"),
    ("port 10.0.0.0/8", "BadIdentifier 5"), ("port 10.0.0.1/8", "BadIdentifier 5"),
    ("port 10.0.0.0 mask 255.0", "BadIdentifier 5"), ("proto 10.0 mask 255.0", "BadIdentifier 6"),
    ("tcp port 10.0 mask 255.0.0.0", "BadIdentifier 9"), ("proto \\ip", "BadIdentifier 6"),
    ("proto 10.0.0.1", "BadIdentifier 6"), ("ip proto \\rarp", "BadIdentifier 9"),
    ("proto 1:2:3:4:5:6", "BadIdentifier 6"), ("ether proto \\tcp", "BadIdentifier 12"),
    ("ether proto \\udp", "BadIdentifier 12"), ("ether proto \\icmp", "BadIdentifier 12"),
    ("ether proto 1:2:3:4:5:6", "BadIdentifier 12"), ("ether proto 10.0", "BadIdentifier 12"),
    # What follows the address does not matter if no address fits.
    ("port 10.0.0.0/33", "BadIdentifier 5"), ("proto 10.0.0.0/33", "BadIdentifier 6"),
    ("ether proto 10.0/33", "BadIdentifier 12"), ("ether host 10.0.0.1/33", "BadIdentifier 11"),
    ("proto 10.0.0.1/8", "BadIdentifier 6"), ("ether proto 10.0.0.1/8", "BadIdentifier 12"),
    ("ether host 10.0.0.1/8", "BadIdentifier 11"), ("host 10.0.0.1 mask 255.0.0.0", "BadIdentifier 5"),
    ("port 10.0.0.1 mask 255.0.0.0", "BadIdentifier 5"), ("proto 10.0.0.1 mask 255.0.0.0", "BadIdentifier 6"),
    ("ether proto 10.0.0.1 mask 255.0.0.0", "BadIdentifier 12"),
    ("ether host 10.0.0.1 mask 255.0.0.0", "BadIdentifier 11"), ("port 80 and 10.0.0.1", "BadIdentifier 12"),
    ("host 10.0.0.1 or 80", "BadIdentifier 17"), ("port (80 or 10.0.0.1)", "BadIdentifier 12"),
    ("port (not \\tcp)", "BadIdentifier 10"), ("ether host 1:2:3:4:5:6 or 10.0.0.1", "BadIdentifier 26"),
    ("net 10 or 11.0.0.0 mask 255.0", "BadIdentifier 24"),
]

# Numbers that are out of their range, and net addresses with bits outside their mask.
OUT_OF_RANGE = [
    ("port 65536", "OutOfRange 5"), ("udp dst port 4294967295", "OutOfRange 13"),
    ("port (65535 or 65536)", "OutOfRange 15"), ("port 65535 or 65536", "OutOfRange 14"), ("net 256", "OutOfRange 4"),
    ("net 255 or 256", "OutOfRange 11"), ("net 10.0.0.1/33", "OutOfRange 13"), ("net 0.0/33", "OutOfRange 8"),
    ("proto 256", "OutOfRange 6"), ("ip proto 256", "OutOfRange 9"), ("proto (255 or 256)", "OutOfRange 14"),
    ("ether proto 0", "OutOfRange 12"), ("ether proto 1500", "OutOfRange 12"), ("ether proto 65536", "OutOfRange 12"),
    ("ether proto 1501 or 1500", "OutOfRange 20"), ("portrange 0-65536", "OutOfRange 12"),
    ("portrange 65536-0", "OutOfRange 10"), ("portrange 65536", "OutOfRange 10"),
    ("sctp src portrange 65536-65537", "OutOfRange 19"), ("net 10.0.0.1/8", "NetBits 4"),
    ("net 10.0.0.1/31", "NetBits 4"), ("net 128.0/0", "NetBits 4"), ("net 10.1/15", "NetBits 4"),
    ("net 10.0.0.1 mask 255.255.255.252", "NetBits 4"), ("net 10.1.1.1 mask 255.0.255.255", "NetBits 4"),
    ("net 10.0.0.1/8 and", "NetBits 4"), ("net (10 or 10.0.0.1/24)", "NetBits 11"), ("net 10 or 10.1/8", "NetBits 10"),
]

# The whole text has to be tokens first.
UNLEXED = [
    ("tcp # udp", "BadByte 4"), ("tcp é", "BadByte 4"), (") #", "BadByte 2"), ("tcp host $", "BadByte 9"),
    ("port http", "BadWord 5"), ("tcp udp TCP", "BadWord 8"), ("proto \\sctp", "BadWord 6"), ("08 = 8", "BadNumber 0"),
    ("port 80 443 4294967296", "BadNumber 12"), ("10.0.0.256 #", "BadNumber 0"),
]

# Texts in which a relation breaks off, or goes on as none does.
BROKEN_RELATIONS = [
    ("len", "Syntax 3"), ("tcpflags", "Syntax 8"), ("-1", "Syntax 2"), ("-", "Syntax 1"), ("- = 1", "Syntax 2"),
    ("-tcp = 1", "Syntax 5"), ("- not 1 = 1", "Syntax 2"), ("len =", "Syntax 5"), ("len = ", "Syntax 6"),
    ("len = =", "Syntax 6"), ("len = and tcp", "Syntax 6"), ("len = 1 = 1", "Syntax 8"), ("len = 1 1", "Syntax 8"),
    ("len = 1)", "Syntax 7"), ("len = 1 tcp", "Syntax 8"), ("len = 1 + 2 3", "Syntax 12"), ("len 1", "Syntax 4"),
    ("len and tcp", "Syntax 4"), ("len ! = 1", "Syntax 4"), ("1 +", "Syntax 3"), ("1 + 2", "Syntax 5"),
    ("1 + 2 and tcp", "Syntax 6"), ("1 + = 2", "Syntax 4"), ("1 * / 2 = 1", "Syntax 4"), ("1 + 10.0.0.1 = 1", "Syntax 4"),
    ("1 + not 1 = 1", "Syntax 4"), ("1 <> 2", "Syntax 3"), ("1 => 2", "Syntax 3"), ("* 2 = 2", "Syntax 0"),
    ("+ 2 = 2", "Syntax 0"), ("tcp and % 2 = 2", "Syntax 8"), ("tcp % udp", "Syntax 4"), ("tcp ^ udp", "Syntax 4"),
    # The text after the `)` says what a `(` begins.
    ("(1 + 2) and tcp", "Syntax 6"), ("(len) and tcp", "Syntax 4"), ("(1 + 2", "Syntax 6"), ("(1 + 2 = 3", "Syntax 10"),
    ("(1 = 1) = 1", "Syntax 3"), ("(tcp) & 1 = 1", "Syntax 4"), ("not (tcp) != 1", "Syntax 8"),
    ("(port 80) = 1", "Syntax 1"), ("(1 and 2) = 1", "Syntax 3"), ("((tcp) or udp) + 1 = 1", "Syntax 5"),
    ("() = 1", "Syntax 1"), ("(len = 1) (len = 2)", "Syntax 10"),
    # Accessors
    ("ip[", "Syntax 3"), ("ip[]", "Syntax 3"), ("ip[] = 1", "Syntax 3"), ("ip[:2] = 1", "Syntax 3"), ("ip[0", "Syntax 4"),
    ("ip[0)", "Syntax 4"), ("ip[0 = 1", "Syntax 5"), ("ip[0 1] = 1", "Syntax 5"), ("ip[0]", "Syntax 5"),
    ("ip[0] and tcp", "Syntax 6"), ("ip[0][1] = 1", "Syntax 5"), ("ip[0:", "Syntax 5"), ("ip[0:]", "Syntax 5"),
    ("ip[0:len] = 1", "Syntax 5"), ("ip[0:tcp-fin] = 1", "Syntax 5"), ("ip[0:(2)] = 1", "Syntax 5"),
    ("ip[0:2", "Syntax 6"), ("ip[0:2)", "Syntax 6"), ("ip[0:2:2] = 1", "Syntax 6"), ("ip[0:1 + 1] = 1", "Syntax 7"),
    ("1 + tcp", "Syntax 7"), ("1 + tcp = 2", "Syntax 8"), ("len = (udp)", "Syntax 10"), ("1 + sctp = 2", "Syntax 4"),
    # No relation follows a phrase, and none is in a group.
    ("port (len)", "Syntax 6"), ("port ((1) + 1 = 2)", "Syntax 10"), ("host 10.0.0.1 + 1 = 2", "Syntax 14"),
    ("portrange 1-2 = 3", "Syntax 14"),
]

# Words in place of those that a relation or an accessor would have.
NO_RELATIONS = [
    ("port tcpflags", "Syntax 5"), ("port 80 = 1", "Syntax 8"), ("port 80 - 443", "Syntax 8"),
    ("port 80 or -443", "Syntax 15"), ("port (80 = 1)", "Syntax 9"), ("port (-1)", "Syntax 6"),
    ("less 60 = 1", "Syntax 8"), ("tcp = 1", "Syntax 4"), ("tcp & udp", "Syntax 4"), ("tcp | udp", "Syntax 4"),
    ("tcp-udp", "Syntax 3"), ("tcp == udp", "Syntax 4"), ("10.0.0.1 = 1", "NoQualifier 0"),
    ("1:2:3:4:5:6 = 1", "NoQualifier 0"), ("(1) 2 = 2", "NoQualifier 1"),
]

# `sctp` has no accessor, and relations have no qualifiers to give.
QUALIFIERS = [
    ("sctp[0] = 1", "BadQualifier 0"), ("sctp[", "BadQualifier 0"), ("sctp [tcp", "BadQualifier 0"),
    ("not sctp[0] = 1", "BadQualifier 4"), ("tcp and sctp[0] = 1", "BadQualifier 8"),
    ("1 + sctp[0] = 2", "BadQualifier 4"), ("len = sctp[0]", "BadQualifier 6"), ("-sctp[0] = 1", "BadQualifier 1"),
    ("(sctp[0]) = 1", "BadQualifier 1"), ("ip[sctp[0]] = 1", "BadQualifier 3"), ("tcp src [0] = 1", "BadQualifier 0"),
    ("len = 1 or 80", "NoQualifier 11"), ("port 80 and len = 1 or 443", "NoQualifier 23"),
    ("port 80 and (ip[0] = 5) or 443", "NoQualifier 27"), ("port 80 or not 1 = 1 and 443", "NoQualifier 25"),
]

# Sizes of accessors, at their number.
SIZES = [
    ("ip[0:3] = 1", "OutOfRange 5"), ("ip[0:0] = 1", "OutOfRange 5"), ("ip[0:5] = 1", "OutOfRange 5"),
    ("ip[0:8] = 1", "OutOfRange 5"), ("ip[0:4294967295] = 1", "OutOfRange 5"), ("ip[0:3", "OutOfRange 5"),
    ("ip[0:3:2] = 1", "OutOfRange 5"), ("len = ether[0 : 06]", "OutOfRange 16"),
    ("ip[udp[1 + 2:3]:9] = 1", "OutOfRange 13"),
]

# Divisors that are written or named as 0, at their first token, once they are complete.
DIVIDED_BY_ZERO = [
    ("len / 0 = 1", "DivideByZero 6"), ("len % 0 = 1", "DivideByZero 6"), ("len / 00 = 1", "DivideByZero 6"),
    ("len / 0x0 = 1", "DivideByZero 6"), ("len % 0X00 = 1", "DivideByZero 6"), ("len / (0) = 1", "DivideByZero 6"),
    ("len % ((0)) = 1", "DivideByZero 6"), ("len / icmptype = 1", "DivideByZero 6"),
    ("len % icmp-echoreply = 1", "DivideByZero 6"), ("len / (icmptype) = 1", "DivideByZero 6"),
    ("1 / 0", "DivideByZero 4"), ("1 / 0 / 1 = 1", "DivideByZero 4"), ("1 / 0 * 1 = 1", "DivideByZero 4"),
    ("1 / 1 / 0 = 1", "DivideByZero 8"), ("1 % 1 / 0 = 1", "DivideByZero 8"), ("1 + 2 / 0 = 1", "DivideByZero 8"),
    ("1 / 0 + 1 = 1", "DivideByZero 4"), ("len = 1 / 0", "DivideByZero 10"), ("-1 / 0 = 1", "DivideByZero 5"),
    ("(1 / 0) = 1", "DivideByZero 5"), ("ip[1 / 0] = 1", "DivideByZero 7"), ("tcp and 1 / 0 = 1", "DivideByZero 12"),
    ("1 / 0 tcp", "DivideByZero 4"), ("1 / 0)", "DivideByZero 4"),
    # A fault in the divisor, or at it, goes before.
    ("len / (0", "Syntax 8"), ("len / (0 = 1", "Syntax 9"), ("len / -0", "Syntax 8"), ("len / 0x", "BadNumber 6"),
]

# The text before the signs, how many signs, the sign, the text after it, what closes each, the text after that, and the
# fault.
NESTED = [
    ("", 65, "(", "tcp", ")", "", "TooNested 64"), ("", 65, "(", "", "", "", "TooNested 64"),
    ("", 8192, "(", "", "", "", "TooNested 64"), ("", 65, "!", "tcp", "", "", "TooNested 64"),
    ("", 65, "not ", "tcp", "", "", "TooNested 256"), ("", 65, "(", "len = 1", ")", "", "TooNested 64"),
    ("", 66, "( ", "tcp", ")", "", "TooNested 128"), ("", 33, "!(", "tcp", ")", "", "TooNested 64"),
    ("", 33, "(!", "tcp", ")", "", "TooNested 64"), ("", 64, "(", "!tcp", ")", "", "TooNested 64"),
    ("", 64, "!", "(tcp)", "", "", "TooNested 64"),
    # The parenthesis of a group is one of them, and so is what is open in the group.
    ("", 64, "(", "port (80)", ")", "", "TooNested 69"), ("", 32, "(!", "host (", ")", "", "TooNested 69"),
    ("", 63, "!", "port (!80)", "", "", "TooNested 69"), ("", 63, "!", "port ((80))", "", "", "TooNested 69"),
    # A fault before the 65th sign, or one at it that comes first in the list, is named.
    ("", 64, "(", "port 80(", ")", "", "Syntax 71"), ("", 64, "!", "tcp!", "", "", "Syntax 67"),
    ("", 64, "(", "tcp (", ")", "", "BadQualifier 64"),
    # Signs that are open may be 64.
    ("", 64, "(", "", "", "", "Syntax 64"), ("", 64, "!", "", "", "", "Syntax 64"),
    ("", 64, "(", "tcp and 80", ")", "", "NoQualifier 72"), ("", 65, "(", "len", ")", " = 1", "TooNested 64"),
    ("", 65, "-", "1", "", " = 1", "TooNested 64"), ("", 65, "- ", "", "", "", "TooNested 128"),
    ("", 65, "ip[", "0", "]", " = 1", "TooNested 194"), ("", 65, "ip[", "", "", "", "TooNested 194"),
    ("", 33, "-(", "len", ")", " = 1", "TooNested 64"), ("", 33, "(-", "len", ")", " = 1", "TooNested 64"),
    ("", 33, "ip[(", "0", ")]", " = 1", "TooNested 130"), ("1 = ", 65, "(", "1", ")", "", "TooNested 68"),
    ("1 + ", 65, "(", "1", ")", " = 1", "TooNested 68"), ("1/", 65, "(", "0", ")", " = 1", "TooNested 66"),
    ("1 = ", 65, "-", "1", "", "", "TooNested 68"), ("", 64, "!", "-1 = 1", "", "", "TooNested 64"),
    ("", 64, "!", "(1) = 1", "", "", "TooNested 64"), ("", 64, "!", "ip[0] = 1", "", "", "TooNested 66"),
    ("", 64, "(", "1 = -1", ")", "", "TooNested 68"),
    # What comes before the 65th sign, or comes first in the list at it, is named.
    ("", 64, "!", "sctp[0] = 1", "", "", "BadQualifier 64"), ("", 64, "!", "tcp [0 = 1", "", "", "TooNested 68"),
    ("1 / ", 64, "(", "0", ")", " = 1", "DivideByZero 4"),
    # A group's parenthesis is the first of its levels, so that the 64th `not` is one too many.
    ("port ", 65, "(", "80", "", "", "TooNested 69"), ("port (", 65, "not ", "80", "", "", "TooNested 258"),
]

# A byte this many times, after a text: more than 8,192 bytes, whatever they are.
TOO_LONG = [("tcp", " ", 8190), ("", " ", 8193), ("", "#", 8193), ("", "(", 8193), ("", "x", 8193)]


def refuses(scene, rows):
    """Each text is refused: its fault is reported, with status 1, and nothing is printed."""
    for text, fault in rows:
        scene.expect(["check", "--", text], 1, fault_lines(fault))


@case
def the_first_failing_token_is_reported(scene):
    """A byte, a word or a number that is no token, and a text of several faults, whose tokens go before its grammar."""
    refuses(scene, FAILING_TOKENS)
    refuses(scene, UNLEXED)


@case
def a_token_that_does_not_fit_is_reported(scene):
    """At the token, or at the end of the text."""
    refuses(scene, BROKEN_OFF)
    refuses(scene, BROKEN_RELATIONS)
    refuses(scene, NO_RELATIONS)


@case
def an_identifier_with_nothing_to_inherit_is_reported(scene):
    """At the identifier."""
    refuses(scene, UNQUALIFIED)


@case
def a_phrase_outside_the_table_is_reported(scene):
    """At its first word."""
    refuses(scene, BAD_QUALIFIERS)
    refuses(scene, QUALIFIERS)


@case
def an_identifier_of_the_wrong_kind_is_reported(scene):
    """At the identifier."""
    refuses(scene, BAD_IDENTIFIERS)


@case
def numbers_and_nets_out_of_their_bounds_are_reported(scene):
    """At the number or the address, and a divisor that is 0 at its first token."""
    refuses(scene, OUT_OF_RANGE)
    refuses(scene, SIZES)
    refuses(scene, DIVIDED_BY_ZERO)


@case
def more_than_64_levels_are_too_many(scene):
    """At the sign that is one too many, unless another fault goes before."""
    for before, times, sign, inner, closing, after, fault in NESTED:
        refuses(scene, [(before + sign * times + inner + closing * times + after, fault)])


@case
def a_text_of_8193_bytes_is_too_long(scene):
    """Whatever its bytes are."""
    for first, byte, times in TOO_LONG:
        refuses(scene, [(first + byte * times, "TextTooLong")])
    refuses(scene, [("1" + "+1" * 4094 + "=1  ", "TextTooLong")])
