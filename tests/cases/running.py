"""`bpftap run`: which lines are refused, and what each listener prints and writes of captures with faults."""
from .common import HEADER, TCP_RECORD, UDP_RECORD, case, fault_lines, header
from .run import report
from .stepping import DEEP

T, U = TCP_RECORD, UDP_RECORD

# A text of LISTENERS for one interface that is refused, and the fault.
REFUSED = [
    ("\n", "Listeners 1"), ("0", "Listeners 1"), ("0 0 64 4096 2", "Listeners 1"), ("0 0 64 4096 2 ", "Listeners 1"),
    ("0 0 64 4096 2  tcp", "Listeners 1"), (" 0 0 64 4096 2 a tcp", "Listeners 1"),
    ("0  0 64 4096 2 a tcp", "Listeners 1"), ("0 0  64 4096 2 a tcp", "Listeners 1"),
    ("0 0 64  4096 2 a tcp", "Listeners 1"), ("0 0 64 4096  2 a tcp", "Listeners 1"), ("x 0 64 4096 2 a", "Listeners 1"),
    ("+0 0 64 4096 2 a", "Listeners 1"), ("0 -1 64 4096 2 a", "Listeners 1"), ("0 0 +64 4096 2 a", "Listeners 1"),
    ("0 0 64 +4096 2 a", "Listeners 1"), ("0 0 64 4096 +2 a", "Listeners 1"), ("0 0 64 4096 2\ta", "Listeners 1"),
    # There is one interface.
    ("1 0 64 4096 2 a", "Listeners 1"), ("18446744073709551615 0 64 4096 2 a", "Listeners 1"),
    ("18446744073709551616 0 64 4096 2 a", "Listeners 1"), ("0 4294967296 64 4096 2 a", "Listeners 1"),
    ("0 0 262145 4096 2 a", "Listeners 1"), ("0 0 64 18446744073709551616 2 a", "Listeners 1"),
    ("0 0 64 4096 18446744073709551616 a", "Listeners 1"), ("0 0 64 4096I 2 a", "Listeners 1"),
    ("0 0 64 4096ii 2 a", "Listeners 1"), ("0 0 64 4096 i 2 a", "Listeners 1"), ("0 0 64 i 2 a", "Listeners 1"),
    ("0 0 64 i4096 2 a", "Listeners 1"), ("0 0i 64 4096 2 a", "Listeners 1"), (b"0 0 64 4096 2 \xff", "Listeners 1"),
    (b"0 0 64 4096 2 a tcp\xff", "Listeners 1"), ("0 0 64 4096 2 a tcp\n\n", "Listeners 2"),
    # An OUT that is named again.
    ("0 0 64 4096 2 a tcp\n0 0 64 4096 2 b\n0 1 0 96 1 a", "Listeners 3"),
    # A bad line goes before a refused expression, and that before what is out of range.
    ("0 0 64 4096 2 a tcp and 80\n0 0 64 4096 2", "Listeners 2"),
    ("0 0 64 4096 0 a tcp and 80\n", "Expression 0 NoQualifier 8"),
    ("0 0 64 4096 2 a\n0 0 64 4096 2 b tcp #", "Expression 1 BadByte 4"),
    (b"0 0 64 4096 2 a tcp\r\n0 0 64 4096 2 b \xc3\xa9", "Expression 1 BadByte 0"),
    (f"0 0 64 4096 0 a tcp\n0 0 64 4096 2 b {DEEP}\n0 0 64 4096 2 c tcp and", "Compile 1 TooDeep"),
    ("0 0 64 4096 2 a tcp\n0 0 64 4096 0 b", "Open 0 1 BadCapacity"), ("0 0 64 4096 65 a tcp", "Open 0 0 BadCapacity"),
    ("0 0 64 95 2 a tcp", "Open 0 0 BadCapacity"), ("0 0 64 1048577i 2 a tcp", "Open 0 0 BadCapacity"),
]


def put(scene, listeners, interfaces):
    """Puts the files of a call, each capture in its own, and answers its words."""
    scene.start({"listeners.txt": listeners})
    sides = []
    for i, captures in enumerate(interfaces):
        names = [f"{i}-{n}.pcap" for n in range(len(captures))]
        scene.put(dict(zip(names, captures)))
        sides.append(" ".join(names))
    return "run listeners.txt " + " + ".join(sides)


def ends(scene, listeners, interfaces, reports, written, *faults, status=0):
    """A run prints these reports and these faults, and writes this, by the names of its files."""
    scene.expect(put(scene, listeners, interfaces), status, fault_lines(*faults), "".join(reports))
    scene.check(f"written of {listeners}", {name: scene.read(name) for name in written}, written)


@case
def what_is_refused_is_reported_and_nothing_is_done(scene):
    """A bad line goes before a refused expression, and that before what is out of range; no capture's header is looked at."""
    for listeners, fault in REFUSED:
        scene.refuse(put(scene, listeners, [[b""]]), 1, fault)


@case
def as_many_as_may_be(scene):
    """Sixteen interfaces and sixty-four listeners are taken, and one more is not, whatever else is wrong."""
    for listeners, reports in [("", ""), ("15 0 64 96 1 a", report((15, 0), 0, 0))]:
        scene.expect(put(scene, listeners, [[]] * 16), out=reports)
        scene.refuse(put(scene, listeners, [[]] * 17), 1, "TooMany")
    lines = "".join(f"0 0 8 40 1 {l}\n" for l in range(64))
    scene.expect(put(scene, lines, [[HEADER]]), out="".join(report((0, l), 0, 0) for l in range(64)))
    scene.refuse(put(scene, lines + "0 0 8 39 1 64", [[HEADER]]), 1, "TooMany")


@case
def two_captures_are_replayed_to_two_listeners(scene):
    """In either mode, and flushed or not, since no store can fill."""
    for listeners in [
        "0 0 64 1048576 2 t tcp\n0 0 0 1048576 2 all\n",
        "0 0 64 1048576 2 t tcp\n0 0 0 1048576 2 all",
        "0 0 64 1048576i 2 t tcp\n0 0 262144 1048576i 1 all \n",
        "0 1 64 1048576 64 t tcp\n0 2 0 1048576 2 all\n",
        "00 000 064 01048576 02 t tcp\n0 4294967295 0 1048576 2 all",
    ]:
        ends(scene, listeners, [[HEADER + T + U, HEADER + T]], [report((0, 0), 3, 2), report((0, 1), 3, 3)],
             {"t": header(64) + T + T, "all": HEADER + T + U + T})
    one = HEADER + T
    ends(scene, "0 0 64 4096 2 a", [[one, one, one]], [report((0, 0), 3, 3)], {"a": header(64) + T * 3})


def short(record, kept):
    """A record of which this many bytes are kept."""
    return record[:8] + kept.to_bytes(4, "little") + record[12 : 16 + kept]


@case
def each_file_is_that_of_its_line(scene):
    """Lines of two interfaces in turns; each line's snapshot length says how many bytes of a packet are kept."""
    listeners = "1 0 10 4096 2 a\n0 0 20 4096 2 b\n1 0 30 4096 2 c tcp\n0 0 40 4096 2 d udp\n"
    reports = [report((0, 0), 2, 2), report((0, 1), 2, 1), report((1, 0), 1, 1), report((1, 1), 1, 0)]
    ends(scene, listeners, [[HEADER + T + U], [HEADER + U]], reports, {
        "a": header(10) + short(U, 10), "b": header(20) + short(T, 20) + short(U, 20), "c": header(30), "d": header(40) + U})


@case
def a_fault_of_a_capture_ends_its_interface(scene):
    """The other interface goes on; captures are read even without a listener, and the greatest status counts."""
    whole, torn = HEADER + T, HEADER + T + bytes(1)
    both = "1 0 0 1048576 2 b\n0 0 0 1048576 2 a\n"
    reports, written = [report((0, 0), 1, 1), report((1, 0), 1, 1)], {"a": whole, "b": whole}
    unit = whole + bytes.fromhex("00000000 40420f00 00000000 00000000")
    for captures, fault, status in [
        ([whole, b""], "Capture 1 ShortHeader", 1), ([torn, whole], "Capture 0 TornRecord 1", 2),
        ([unit, whole], "Capture 0 BadFraction 1", 2), ([whole, bytes(1)], "Capture 1 ShortHeader", 1),
    ]:
        ends(scene, both, [captures, [whole]], reports, written, f"Interface 0 {fault}", status=status)
    record, header_fault = "Capture 0 TornRecord 1", "Capture 0 ShortHeader"
    ends(scene, "", [[torn], [b""]], [], {}, f"Interface 0 {record}", f"Interface 1 {header_fault}", status=2)
    ends(scene, "", [[b""], [torn]], [], {}, f"Interface 0 {header_fault}", f"Interface 1 {record}", status=2)


@case
def an_interface_may_have_no_packets(scene):
    """The header is written even if no packet came."""
    ends(scene, "1 0 0 1048576 2 a", [[], []], [report((1, 0), 0, 0)], {"a": HEADER})
    ends(scene, "0 0 0 1048576 2 a", [[HEADER]], [report((0, 0), 0, 0)], {"a": HEADER})
