"""`bpftap steps`: what is printed of each listener, what is explained with `-v`, and what is refused."""
from .common import HEADER, TCP_RECORD, case, fault_lines

# A header in nanoseconds.
NANO_HEADER = bytes.fromhex("4d3cb2a1") + HEADER[4:]


def numbers(*fields):
    return b"".join(field.to_bytes(4, "little") for field in fields)


def zeros(packets):
    """A capture of this many packets of 60 zeros, at second 1, 2, .."""
    return HEADER + b"".join(numbers(second, 0, 60, 60) + bytes(60) for second in range(1, packets + 1))


def nano_capture(*packets):
    """A capture of packets of zeros: second, nanoseconds, captured length and original length of each."""
    return NANO_HEADER + b"".join(numbers(*packet) + bytes(packet[2]) for packet in packets)


ONE = HEADER + TCP_RECORD
TORN = ONE + bytes(7)
SHORT = HEADER[:23]

# Seventeen sums, each the right side of another: one more than the scratch memory has words.
DEEP = "1+(" * 16 + "1+1" + ")" * 16 + " = 17"

KEPT_NONE = "listener 0 received 0 matched 0 dropped 0\nheld\n"
ONE_KEPT = "capture 0 place 0 time 1.000000000 len 38 kept {}\n"


def kept(*places):
    """The lines of packets of 60 zeros, of which 32 bytes are kept."""
    return "".join(f"capture 0 place {place} time {place + 1}.000000000 len 60 kept 32\n" for place in places)


ELEVEN = "arrive\narrive\narrive\narrive\nread 0\narrive\nread 0\narrive\nclose 0\narrive\nread 0\n"

# LISTENERS, SCRIPT, the captures, what is printed, the faults, and the status.
PRINTED = [
    ("10 48 tcp\n", "read 0", [ONE], KEPT_NONE, [], 0),
    ("10 48 tcp\n", "arrive\nflush 0\nread 0\n", [ONE],
     "listener 0 received 1 matched 1 dropped 0\nbatch 0\n" + ONE_KEPT.format(10) + "held\n", [], 0),
    ("10 48 udp\n", "arrive\nflush 0\nread 0\n", [ONE], "listener 0 received 1 matched 0 dropped 0\nheld\n", [], 0),
    # A number may have leading zeros, and the text after the second blank is an expression.
    ("032 0064i \r\n", "read 000", [ONE], KEPT_NONE, [], 0),
    # Both modes, over packets of zeros
    ("32 128i\n", ELEVEN, [zeros(7)], "listener 0 received 6 matched 6 dropped 1\nbatch 0\n" + kept(0) + "batch 1\n" + kept(1, 2)
     + "held\n" + kept(4, 5), [], 0),
    ("32 128\n", ELEVEN, [zeros(7)], "listener 0 received 6 matched 6 dropped 0\nbatch 0\n" + kept(0, 1) + "batch 1\n" + kept(2, 3)
     + "held\n" + kept(4, 5), [], 0),
    # The third of four packets is dropped.
    ("32 64\n", "arrive\narrive\narrive\nread 0\narrive\n", [zeros(4)],
     "listener 0 received 4 matched 4 dropped 1\nbatch 0\n" + kept(0) + "held\n" + kept(1, 3), [], 0),
    # Past the last packet nothing arrives.
    ("32 64\n", "arrive\nflush 0\narrive\nread 0\n", [HEADER], KEPT_NONE, [], 0),
    # A torn capture is reported after the reports, and ends the playlist.
    ("0 262176\n", "arrive\narrive\narrive\n", [TORN, ONE],
     "listener 0 received 1 matched 1 dropped 0\nheld\n" + ONE_KEPT.format(38), ["Capture 0 TornRecord 1"], 2),
    ("64 1000\n", "arrive\n" * 4, [ONE, TORN, ONE, TORN], "listener 0 received 2 matched 2 dropped 0\nheld\n" + ONE_KEPT.format(38)
     + ONE_KEPT.format(38).replace("capture 0", "capture 1"), ["Capture 1 TornRecord 1"], 2),
    # A record's fraction, and its captured length: the lowest byte and the highest
    ("64 1000\n", "arrive", [ONE[:31] + b"\1" + ONE[32:]], KEPT_NONE, ["Capture 0 BadFraction 0"], 2),
    ("64 1000\n", "arrive", [ONE[:32] + b"\x27" + ONE[33:]], KEPT_NONE, ["Capture 0 TornRecord 0"], 2),
    ("64 1000\n", "arrive", [ONE[:35] + b"\1" + ONE[36:]], KEPT_NONE, ["Capture 0 TooLong 0"], 2),
    # The most listeners, and the most captures
    ("32 64\n" * 64, "arrive", [HEADER], "".join(KEPT_NONE.replace("listener 0", f"listener {l}") for l in range(64)), [], 0),
    ("32 64\n", "arrive", [HEADER] * 16, KEPT_NONE, [], 0),
]


def changed(place, byte):
    """The header with one byte changed."""
    return HEADER[:place] + bytes([byte]) + HEADER[place + 1 :]


def second(text, snap=64):
    """Lines of two listeners, the second of an expression."""
    return f"64 1000\n{snap} 1000 {text}\n"


# LISTENERS, SCRIPT, the captures, and the fault: nothing is printed, and the status is 1.
REFUSED = [
    ("10 48 tcp", "arrive\nflush 1\n", [ONE], "NoListener 1"),
    ("10 47 tcp\n", "", [ONE], "Open 0 BadCapacity"),
    ("10 47 tcp\n", "arrive", [ONE], "Open 0 BadCapacity"),
    ("10 1048577 tcp\n", "", [ONE], "Open 0 BadCapacity"),
    ("10 48 tcp and 80\n", "", [ONE], "Expression 0 NoQualifier 8"),
    # A blank before the expression is a part of it.
    ("10 48  tcp and 80\n", "", [ONE], "Expression 0 NoQualifier 9"),
    ("64 1000 tcp and 80\n", "arrive", [ONE, TORN, SHORT], "Capture 2 ShortHeader"),
    ("0 262176\n", "arrive\narrive\narrive\n", [TORN, SHORT], "Capture 1 ShortHeader"),
    (f"10 0 {DEEP}\n", "", [ONE], "Compile 0 TooDeep"),
    ("0 0 tcp and 80\n", "", [ONE], "Expression 0 NoQualifier 8"),
    ("0 0 tcp and 80\n", "arrive\nread 1", [ONE], "NoListener 1"),
    # A bad line goes first, before a file that is none.
    ("32\n", "read\n", [b""], "Listeners 1"),
    ("32 64\r\n", "", [b""], "Listeners 1"),
    ("32 64 tcp\r\n\n", "arrive", [b""], "Listeners 2"),
    ("", "arrive\narrive\r\n", [b""], "Script 2"),
    (b"32 64\n32 64 \xff\n", "", [b""], "Listeners 2"),
    ("32 64 tcp", b"read \xff", [b""], "Script 1"),
    # Each way in which a line is malformed
    *(("", script, [b""], f"Script {line}") for script, line in [
        ("arrives\n", 1), ("arrive\narrive \n", 2), ("arrive\r\n", 1), ("\n", 1), ("read\n", 1), ("read  0\n", 1), ("read +0\n", 1),
        ("close 4294967296\n", 1), ("flush 0 \n", 1)]),
    *((listeners, "", [b""], f"Listeners {line}") for listeners, line in [
        ("262145 96\n", 1), ("32 64\n32 \n", 2), ("32 64 tcp\n\n", 2), ("32  64\n", 1), ("32 18446744073709551616\n", 1), ("32 64I\n", 1),
        ("32 i\n", 1), ("-1 64\n", 1)]),
    # Too many listeners, whatever else is wrong, and the most
    ("32 64\n" * 64 + "32 64", "arrive", [HEADER], "TooMany"),
    ("32 64\n" * 64 + "32 64", "read 65", [HEADER], "TooMany"),
    ("32 64\n" * 64, "read 64", [HEADER], "NoListener 0"),
    ("32 64\n" * 64, "arrive", [SHORT], "Capture 0 ShortHeader"),
    # Each fault of a header
    ("64 1000\n", "arrive", [HEADER, b""], "Capture 1 ShortHeader"),
    ("64 1000\n", "arrive", [HEADER, SHORT], "Capture 1 ShortHeader"),
    *(("64 1000\n", "arrive", [HEADER, changed(place, byte)], f"Capture 1 {fault}") for place, byte, fault in [
        (0, 0xd5, "NotSavefile"), (3, 0xa2, "NotSavefile"), (4, 3, "Version"), (6, 3, "Version"), (20, 113, "LinkType"),
        (23, 4, "LinkType")]),
    # Each fault of a text and of a tree
    *((second(text), "arrive", [HEADER], f"Expression 1 {fault}") for text, fault in [
        ("# 08 xyz", "BadByte 0"), ("tcp udp TCP", "BadWord 8"), ("tcp 1.2.3.256", "BadNumber 4"),
        ("port 80 443 4294967296", "BadNumber 12"), ("tcp and", "Syntax 7"), ("tcp and 80", "NoQualifier 8"),
        ("tcp host 10.0.0.1", "BadQualifier 0"), ("host 10.0", "BadIdentifier 5"), ("net 10.1.1.1 mask 255.0.255.255", "NetBits 4"),
        ("port 65536", "OutOfRange 5"), ("len / 0 = 1", "DivideByZero 6"), ("len % ((0)) = 1", "DivideByZero 6"),
        ("(" * 65, "TooNested 64"), (" " * 8193, "TextTooLong")]),
    (second(DEEP), "arrive", [HEADER], "Compile 1 TooDeep"),
    (second("host 10.0.0.1 and port 53 and " * 60 + "tcp"), "arrive", [HEADER], "Compile 1 TooLong"),
]

EXPLAINED = """step 1 arrive capture 0 place 0 time 1.000000000 len 60
  listener 0 Stored, 0 stored and 64 more are within 64
step 2 arrive capture 0 place 1 time 2.000000000 len 60
  listener 0 Rotated, 64 stored and 64 more exceed 64, and the empty hold takes the 64
step 3 arrive capture 0 place 2 time 3.000000000 len 60
  listener 0 Dropped, 64 stored and 64 more exceed 64; the hold of step 2 with 1 packet is not read
step 4 read 0
  listener 0 read, it takes the hold of step 2 with 1 packet
step 5 flush 0
  listener 0 flushed, the empty hold takes the 64 stored
step 6 flush 0
  listener 0 not flushed, the hold of step 5 with 1 packet is not read
step 7 close 0
  listener 0 closed
step 8 arrive, no packet is left
listener 0 received 3 matched 3 dropped 1
batch 0
capture 0 place 0 time 1.000000000 len 60 kept 32
held
capture 0 place 1 time 2.000000000 len 60 kept 32
"""

# Each answer that the one listener above does not give.
OTHERS_EXPLAINED = """step 1 arrive capture 0 place 0 time 1.000000000 len 60
  listener 0 Passed, the filter rejects it: No arp
  listener 1 Held, 0 stored and 64 more are within 128, and the empty hold takes them at once
  listener 2 Stored, 0 stored and 64 more are within 64
step 2 arrive capture 0 place 1 time 2.000000000 len 60
  listener 0 Passed, the filter rejects it: No arp
  listener 1 Stored, 0 stored and 64 more are within 128
  listener 2 Rotated, 64 stored and 64 more exceed 64, and the empty hold takes the 64
step 3 flush 0
  listener 0 not flushed, nothing is stored
step 4 read 0
  listener 0 nothing read, nothing is held
step 5 read 1
  listener 1 read, it takes the hold of step 1 with 1 packet
step 6 close 1
  listener 1 closed
step 7 flush 1
  listener 1 not flushed, closed
step 8 close 2
  listener 2 closed
step 9 flush 2
  listener 2 not flushed, closed
step 10 read 2
  listener 2 nothing read, closed
step 11 arrive capture 0 place 2 time 3.000000000 len 60
  listener 0 Passed, the filter rejects it: No arp
  listener 1 Closed
  listener 2 Closed
listener 0 received 3 matched 0 dropped 0
held
listener 1 received 2 matched 2 dropped 0
batch 0
capture 0 place 0 time 1.000000000 len 60 kept 32
held
capture 0 place 1 time 2.000000000 len 60 kept 32
listener 2 received 2 matched 2 dropped 0
held
capture 0 place 0 time 1.000000000 len 60 kept 32
capture 0 place 1 time 2.000000000 len 60 kept 32
"""

# An expression aborts at a byte that is not captured, and a packet is rejected for that; so it is under `not`.
ABORTS_EXPLAINED = """step 1 arrive capture 0 place 0 time 1.000000000 len 60
  listener 0 Passed, the filter rejects it: Abort ether[100] = 1, byte 100 is not captured
  listener 1 Passed, the filter rejects it: No not (ether[0] = 0)
listener 0 received 1 matched 0 dropped 0
held
listener 1 received 1 matched 0 dropped 0
held
"""

TWO_EXPLAINED = """step 1 arrive capture 0 place 0 time 1.000000007 len 1500
  listener 0 Stored, 0 stored and 80 more are within 160
step 2 arrive capture 0 place 1 time 2.123456789 len 60
  listener 0 Stored, 80 stored and 40 more are within 160
step 3 arrive capture 1 place 0 time 3.999999999 len 46
  listener 0 Rotated, 120 stored and 80 more exceed 160, and the empty hold takes the 120
step 4 read 0
  listener 0 read, it takes the hold of step 3 with 2 packets
listener 0 received 3 matched 3 dropped 0
batch 0
capture 0 place 0 time 1.000000007 len 1500 kept 45
capture 0 place 1 time 2.123456789 len 60 kept 3
held
capture 1 place 0 time 3.999999999 len 46 kept 45
"""

# LISTENERS, SCRIPT, the captures, and what `-v` prints.
ANSWERED = [
    ("32 64", "arrive\narrive\narrive\nread 0\nflush 0\nflush 0\nclose 0\narrive\n", [zeros(3)], EXPLAINED),
    ("32 64 arp\n32 128i\n32 64\n",
     "arrive\narrive\nflush 0\nread 0\nread 1\nclose 1\nflush 1\nclose 2\nflush 2\nread 2\narrive\n", [zeros(3)], OTHERS_EXPLAINED),
    ("32 64 ether[100] = 1\n32 64 not ether[0] = 0\n", "arrive\n", [zeros(1)], ABORTS_EXPLAINED),
    ("45 160 \r\n", "arrive\narrive\narrive\nread 0\n",
     [nano_capture((1, 7, 47, 1500), (2, 123456789, 3, 60)), nano_capture((3, 999999999, 46, 46))], TWO_EXPLAINED),
]


def put(scene, listeners, script, captures):
    """Puts the files of a call, and returns its words after the options."""
    named = {f"{n}.pcap": capture for n, capture in enumerate(captures)}
    scene.start({"l.txt": listeners, "s.txt": script, **named})
    return " ".join(["l.txt", "s.txt", *named])


@case
def each_listener_is_printed(scene):
    """Its counts, its batches and what is held, in both modes, and the fault of a capture after them."""
    for listeners, script, captures, out, faults, status in PRINTED:
        scene.expect(f"steps {put(scene, listeners, script, captures)}", status, fault_lines(*faults), out)


@case
def the_first_fault_is_reported(scene):
    """By its name and its place, and nothing is printed."""
    for listeners, script, captures, fault in REFUSED:
        scene.refuse(f"steps {put(scene, listeners, script, captures)}", 1, fault)


@case
def each_answer_is_explained(scene):
    """Every step with every listener's answer, before the reports."""
    for listeners, script, captures, out in ANSWERED:
        scene.expect(f"steps -v {put(scene, listeners, script, captures)}", out=out)


@case
def reports_that_are_not_taken_have_a_fault(scene):
    """Standard output has room for this many bytes; the fault of a capture is reported too, and the greatest status counts."""
    for capture, faults in [(HEADER, []), (HEADER + bytes(15), ["Capture 0 TornRecord 0"])]:
        words = put(scene, "32 64", "arrive\nread 0", [capture])
        for option in ("", "-v "):
            for room in (0, 5, 44):
                seen = scene.run_into(room, f"steps {option}{words}")
                wanted = (fault_lines("Device standard output", *faults).encode(), 3)
                scene.check(f"steps {option}into {room} bytes", (seen.err, seen.status), wanted)
