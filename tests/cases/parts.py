"""`bpftap parts`, `cut --bytes` and `join`: the cuts of the parts, joined, beside one cut of the whole, whatever was guessed."""
import os
import random
import re
import resource
import struct

from .common import ARP_RECORD, HEADER, IP_RECORD, TORN, VETH, WHOLE, case, fault_lines, header

OPTIONS = ["-s 0 -e arp", "-s 0", "-s 60 -e 'not arp' -o big -u nano"]


def ranges_of(printed):
    """The ranges that `parts` printed."""
    return [tuple(map(int, line.split("-"))) for line in printed.decode().splitlines()]


def sorted_lines(lines):
    """The lines of parts, by where these begin; of those that begin at one byte the longest first."""
    def key(line):
        first, end = map(int, line.split(" ", 1)[0].split("-"))
        return first, -end
    return "".join(f"{line}\n" for line in sorted(lines, key=key))


def cut_part(scene, options, first, end):
    """Cuts a part, and returns its line, if it has one."""
    seen = scene.run(f"cut --bytes {first}-{end} {options} in.pcap {first}-{end}.pcap")
    lines = seen.out.decode().splitlines()
    scene.check(f"how many lines {first}-{end} has", len(lines), 1)
    fault = re.search(r" bytes \d+ (Clean|\w+ \d+) ", lines[0] if lines else "")[1]
    wanted = (b"", 0) if fault == "Clean" else (fault_lines(fault).encode(), 2)
    scene.check(f"what {first}-{end} reports", (seen.err, seen.status), wanted)
    return lines


def cut_in_parts(scene, options, ranges):
    """Cuts all parts and joins them, and cuts again what `join` asks for. Returns how often that was."""
    lines = [line for first, end in ranges for line in cut_part(scene, options, first, end)]
    for again in range(len(ranges) + 1):
        scene.put({"lines.txt": sorted_lines(lines)})
        seen = scene.run("join lines.txt joined.pcap")
        if seen.status != 4:
            break
        scene.check("no file before all fits", scene.read("joined.pcap"), None)
        for first, end in ranges_of(seen.out):
            lines += cut_part(scene, options, first, end)
    whole = scene.run(f"cut {options} in.pcap whole.pcap")
    scene.check(f"what joining {ranges} prints", (seen.out, seen.err, seen.status), (b"", whole.err, whole.status))
    scene.check(f"joined {ranges}", scene.read("joined.pcap"), scene.read("whole.pcap"))
    return again


@case
def parts_begin_and_end_at_records(scene):
    """Of a real capture each range begins where the one before ends, and at a record; the first one after the header, the last one ends with the file."""
    text = VETH.read_bytes()
    scene.put({"in.pcap": text})
    places, at = set(), 24
    while at < len(text):
        places.add(at)
        at += 16 + struct.unpack_from("<I", text, at + 8)[0]
    for count in (1, 2, 4, 7, 200):
        seen = scene.run(f"parts {count} in.pcap")
        ranges = ranges_of(seen.out)
        scene.check(f"status of {count} parts", (seen.err, seen.status), (b"", 0))
        scene.check(f"places of {count} parts", {first for first, _ in ranges} <= places, True)
        scene.check(f"ends of {count} parts", [end for _, end in ranges], [*[first for first, _ in ranges[1:]], len(text)])
        scene.check(f"the first of {count} parts", ranges[0][0], 24)
        scene.check(f"how many of {count} parts", len(ranges) <= count and (count > 7 or len(ranges) == count), True)


@case
def ranges_are_printed_as_lines_and_objects(scene):
    """A capture of fewer than eight records is one part, also where more are wanted."""
    scene.put({"in.pcap": WHOLE})
    scene.expect("parts 1 in.pcap", out=f"24-{len(WHOLE)}\n")
    scene.expect("parts 3 in.pcap", out=f"24-{len(WHOLE)}\n")
    scene.expect("parts --json 3 in.pcap", out=f'{{"first":24,"end":{len(WHOLE)}}}\n')


@case
def the_line_of_a_part_says_what_it_has(scene):
    """How many packets it has and keeps, how many bytes are written, and how it ends; places count from its first record."""
    two = HEADER + ARP_RECORD + IP_RECORD
    scene.put({"in.pcap": two})
    scene.expect("cut --bytes 24-84 -s 0 -e arp in.pcap out.pcap", out="24-84 of 84 packets 2 kept 1 bytes 54 Clean out.pcap\n")
    scene.check("both", scene.read("out.pcap"), HEADER + ARP_RECORD)
    scene.expect("cut --bytes 54-84 -s 0 -e arp in.pcap out.pcap", out="54-84 of 84 packets 1 kept 0 bytes 24 Clean out.pcap\n")
    scene.expect("cut --bytes 24-24 -s 0 in.pcap out.pcap", out="24-24 of 84 packets 0 kept 0 bytes 24 Clean out.pcap\n")
    scene.expect("cut --bytes 24-70 -c -s 0 in.pcap a b.pcap".replace("a b.pcap", "'a b.pcap'"), 2, fault_lines("TornRecord 1") + "1 of 1 packets\n",
                 "24-70 of 84 packets 1 kept 1 bytes 54 TornRecord 1 a b.pcap\n")


@case
def a_part_that_is_not_written_is_reported(scene):
    """A device that is full at once, and one that takes 100 KiB and then breaks, below what is gathered in front of OUT: the fault names OUT, and
    no line and no count is printed."""
    scene.put({"in.pcap": VETH.read_bytes()})
    words = f"cut --bytes 24-{len(VETH.read_bytes())} -c -s 0 in.pcap"
    scene.expect(f"{words} /dev/full", 3, fault_lines("Device /dev/full"))
    scene.expect(f"{words} out.pcap", 3, fault_lines("Device out.pcap"), first="trap '' XFSZ; ulimit -f 100")
    scene.check("what the device took", scene.read("out.pcap"), VETH.read_bytes()[:102400])


@case
def joined_parts_are_one_cut(scene):
    """Of a real capture, as `parts` guesses."""
    scene.put({"in.pcap": VETH.read_bytes()})
    for options in OPTIONS:
        for count in (1, 3, 9):
            scene.check("guesses that were wrong", cut_in_parts(scene, options, ranges_of(scene.run(f"parts {count} in.pcap").out)), 0)
            (scene.folder / "joined.pcap").unlink()


def capture_of(frames):
    """A capture of these frames, and the places at which their records begin."""
    text, places = HEADER, []
    for n, data in enumerate(frames):
        places.append(len(text))
        text += struct.pack("<IIII", 1700000000 + n // 100, n % 100, len(data), len(data)) + data
    return text, places


def nested_frames(rng, count):
    """Frames that carry a capture of small packets, as it is sent over the net."""
    carried, _ = capture_of([rng.randbytes(rng.randrange(40, 120)) for _ in range(count * 15)])
    return [bytes(54) + carried[at : at + 1460] for at in range(0, len(carried), 1460)]


@case
def guesses_are_right_in_zeros_and_nested_captures(scene):
    """Where packets are zeros, random bytes or parts of a capture, each range begins at a record, and as many are printed as are asked for."""
    rng = random.Random(7)
    zeros = [bytes(rng.randrange(60, 1515)) for _ in range(400)]
    noise = [rng.randbytes(rng.randrange(60, 1515)) for _ in range(400)]
    for name, frames in (("zeros", zeros), ("random bytes", noise), ("a nested capture", nested_frames(rng, 400))):
        text, places = capture_of(frames)
        scene.put({"in.pcap": text})
        ranges = ranges_of(scene.run("parts 7 in.pcap").out)
        scene.check(f"how many parts of {name}", len(ranges), 7)
        scene.check(f"wrong places of {name}", {first for first, _ in ranges} - set(places), set())


def frame(rng):
    return b"\2\0\0\0\0\1\2\0\0\0\0\2\x08\0\x45\0" + bytes(7) + bytes([rng.choice((6, 17))]) + rng.randbytes(rng.randrange(100))


def random_capture(rng, depth=1):
    """A capture whose packets may carry captures, or be zeros."""
    order, nano = rng.choice("<>"), rng.random() < 0.5
    text = struct.pack(order + "IHHIIII", 0xA1B23C4D if nano else 0xA1B2C3D4, 2, 4, 0, 0, 262144, 1)
    for n in range(rng.randrange(1, 60)):
        data = bytes(rng.randrange(14, 300)) if rng.random() < 0.2 else frame(rng)
        if depth and rng.random() < 0.4:
            data += random_capture(rng, 0)[rng.randrange(24) :]
        text += struct.pack(order + "IIII", 1700000000 + n, rng.randrange(10**9 if nano else 10**6), len(data), len(data)) + data
    return text


def spoiled(rng, text):
    """The capture, or torn, or with bytes of a record's header exchanged."""
    kind = rng.random()
    if kind < 0.25:
        return text[: rng.randrange(24, len(text))]
    if kind < 0.4:
        at = rng.randrange(24, len(text) - 4)
        return text[:at] + b"\x7f\xff\xff\xff" + text[at + 4 :]
    return text


def random_ranges(rng, size):
    """Ranges that begin anywhere."""
    inner = sorted({rng.randrange(24, size + 1) for _ in range(rng.randrange(8))} - {24, size}) if size > 24 else []
    return list(zip([24, *inner], [*inner, size]))


def try_random(scene, rng):
    """Cuts a random capture in parts, as guessed or anywhere."""
    text = spoiled(rng, random_capture(rng))
    scene.start({"in.pcap": text})
    guessed = rng.random() < 0.5
    ranges = ranges_of(scene.run(f"parts {rng.randrange(1, 9)} in.pcap").out) if guessed else random_ranges(rng, len(text))
    cut_in_parts(scene, rng.choice(["-s 0 -e tcp", "-s 0", "-s 20 -u nano"]), ranges)


@case
def wrong_guesses_cost_no_packet(scene):
    """Random captures, torn and damaged ones among them and some that carry captures or zeros, in parts that begin anywhere."""
    rng = random.Random(83)
    for _ in range(40):
        try_random(scene, rng)


LINES = [
    "24-54 of 114 packets 1 kept 1 bytes 54 Clean 1.pcap", "54-84 of 114 packets 1 kept 1 bytes 54 Clean 2.pcap",
    "84-114 of 114 packets 1 kept 1 bytes 54 Clean 3.pcap"]
PARTS = {f"{n}.pcap": HEADER + ARP_RECORD for n in (1, 2, 3)}

# Lines, and the fault: a part is missing, in another order, of another capture; or a line has another form.
REFUSED = [
    ("", "MissingPart 24"),
    (LINES[1:], "MissingPart 24"),
    ([LINES[0], LINES[2]], "MissingPart 54"),
    (LINES[:2], "MissingPart 84"),
    ([LINES[0], LINES[2], LINES[1]], "MissingPart 54"),
    ([LINES[0], LINES[1].replace("114", "115"), LINES[2]], "OtherCapture 54"),
    ([LINES[0], LINES[1].replace("bytes 54", "bytes 55"), LINES[2]], "OtherPart 2.pcap"),
    ([LINES[0], LINES[1].replace("2.pcap", "other.pcap"), LINES[2]], "OtherPart other.pcap"),
    ([LINES[0], "x", LINES[2]], "Lines 2"),
    ([LINES[0], LINES[1].replace("2.pcap", "folder"), LINES[2]], "OtherPart folder"),
    ([LINES[0], "x", "y"], "Lines 2"),
    ([LINES[0], LINES[1] + "\n"], "Lines 3"),
    ([LINES[0].replace("packets 1 ", "")], "Lines 1"),
    ([LINES[0].replace("packets 1", f"packets {2**64}")], "Lines 1"),
    ([LINES[0].replace("24-54", "024-54")], "Lines 1"),
    ([LINES[0].replace("Clean", "clean")], "Lines 1"),
    ([LINES[0].replace("Clean", "Device 1")], "Lines 1"),
    ([LINES[0].replace("24-54", "54-24")], "Lines 1"),
]


@case
def parts_that_do_not_belong_together_are_refused(scene):
    """No file is made, nor a part overwritten."""
    scene.put({**PARTS, "other.pcap": header(60) + ARP_RECORD})
    os.mkdir(scene.folder / "folder")
    for lines, fault in REFUSED:
        scene.put({"lines.txt": "".join(f"{line}\n" for line in lines)})
        scene.refuse("join lines.txt out.pcap", 1, fault)
        scene.check(f"no OUT of {fault}", scene.read("out.pcap"), None)
    scene.put({"lines.txt": "".join(f"{line}\n" for line in LINES)})
    scene.refuse("join lines.txt 2.pcap", 1, "SameFile 2.pcap")
    scene.refuse("join lines.txt lines.txt", 1, "SameFile lines.txt")
    scene.refuse("join none.txt out.pcap", 3, "Device none.txt")
    (scene.folder / "3.pcap").unlink()
    scene.refuse("join lines.txt out.pcap", 3, "Device 3.pcap")


@case
def a_part_that_was_cut_twice_is_taken_once(scene):
    """So are a part that lies inside another one, and parts after a bad record."""
    scene.put(PARTS)
    for lines in ([LINES[0], *LINES], [LINES[0], "30-54 of 114 packets 9 kept 9 bytes 9 Clean none.pcap", *LINES[1:]]):
        scene.put({"lines.txt": "".join(f"{line}\n" for line in lines)})
        scene.expect("join lines.txt out.pcap")
        scene.check(f"joined {lines}", scene.read("out.pcap"), HEADER + ARP_RECORD * 3)
    for fault, place in (("BadFraction", 2), ("TooLong", 2)):
        bad = LINES[1].replace("packets 1", "packets 1").replace("Clean", f"{fault} 1")
        scene.put({"lines.txt": f"{LINES[0]}\n{bad}\n{LINES[2]}\n"})
        scene.expect("join lines.txt out.pcap", 2, fault_lines(f"{fault} {place}"))
        scene.check(f"up to {fault}", scene.read("out.pcap"), HEADER + ARP_RECORD * 2)


@case
def a_torn_part_is_no_clean_one(scene):
    """`join` asks for the part again, together with the next one, and takes a torn one only at the end."""
    scene.put(PARTS)
    torn = [line.replace("Clean", "TornRecord 1") for line in LINES]
    for lines, again in (([torn[0], *LINES[1:]], "24-84"), ([LINES[0], torn[1], LINES[2]], "54-114"), (torn, "24-84")):
        scene.put({"lines.txt": "".join(f"{line}\n" for line in lines)})
        scene.expect("join lines.txt out.pcap", 4, out=f"{again}\n")
        scene.check("nothing is made", scene.read("out.pcap"), None)
    scene.put({"lines.txt": f"{LINES[0]}\n{LINES[1]}\n{torn[2]}\n"})
    scene.expect("join lines.txt out.pcap", 2, fault_lines("TornRecord 3"))
    scene.check("a torn end", scene.read("out.pcap"), HEADER + ARP_RECORD * 3)


def line_of(first, end, ended="Clean"):
    """The line of a part of a capture of 1,624 bytes."""
    return f"{first}-{end} of 1624 packets 1 kept 0 bytes 24 {ended} none.pcap\n"


@case
def all_that_is_cut_again_is_printed_at_once(scene):
    """A stretch that ends inside a record is asked for again, longer by half at least, and so is each part after it that ends so."""
    torn = {124, 224, 524, 924}
    lines = [line_of(first, first + 100, "TornRecord 1" if first in torn else "Clean") for first in range(24, 1624, 100)]
    scene.put({"lines.txt": "".join(lines)})
    scene.expect("join lines.txt out.pcap", 4, out="124-324\n524-724\n924-1124\n")
    scene.put({"lines.txt": "".join([lines[0], line_of(124, 324, "TornRecord 2"), *lines[1:]])})
    scene.expect("join lines.txt out.pcap", 4, out="124-524\n524-724\n924-1124\n")
    scene.put({"lines.txt": "".join([lines[0], line_of(124, 524), *lines[1:]])})
    scene.expect("join lines.txt out.pcap", 4, out="524-724\n924-1124\n")


@case
def a_part_is_one_of_a_regular_file(scene):
    """A range outside the file, a pipe, a device and a folder are refused, and so are bad words; OUT is not made."""
    scene.put({"in.pcap": TORN, "empty.pcap": "", "text.pcap": "no savefile, but a text of some length"})
    # A fifo that nobody writes would keep a call that opens it waiting.
    os.mkfifo(scene.folder / "fifo")
    for words in ("parts 2 fifo", "cut --bytes 24-30 -s 0 fifo out.pcap"):
        scene.refuse(words, 1, "NotRegular")
    for bytes_wanted in (f"24-{len(TORN) + 1}", "0-30", f"{len(TORN) + 1}-{len(TORN) + 1}", "23-24"):
        scene.refuse(f"cut --bytes {bytes_wanted} -s 0 in.pcap out.pcap", 1, "BadRange")
    for words in ("parts 2 .", "parts 2 /dev/null", "cut --bytes 24-30 -s 0 /dev/null out.pcap"):
        scene.refuse(words, 1, "NotRegular")
    scene.expect("parts 2 /dev/stdin", 1, fault_lines("NotRegular"), streams="< <(cat in.pcap)")
    scene.expect("parts 2 /dev/stdin", out=f"24-{len(TORN)}\n", streams="< in.pcap")
    scene.refuse("parts 2 empty.pcap", 1, "ShortHeader")
    scene.refuse("parts 2 text.pcap", 1, "NotSavefile")
    scene.refuse("parts 2 none.pcap", 3, "Device none.pcap")
    scene.refuse("cut --bytes 24-30 -s 0 text.pcap out.pcap", 1, "NotSavefile")
    scene.refuse("cut --bytes 24-30 -s 0 in.pcap in.pcap", 1, "SameFile in.pcap")
    for words in ("parts 0 in.pcap", "parts x in.pcap", "parts 1000001 in.pcap", "cut --bytes 30-24 -s 0 in.pcap out.pcap",
                  "cut --bytes 24 -s 0 in.pcap out.pcap", "cut --bytes 24-x -s 0 in.pcap out.pcap", "cut --bytes 24-30 -s 0 -w out.pcap in.pcap in.pcap"):
        seen = scene.run(words)
        scene.check(f"bad words {words}", (seen.out, seen.err[:7], seen.status), (b"", b"error: ", 1))
    scene.check("no OUT", scene.read("out.pcap"), None)


# Words, and the hints below their fault: those on the header of IN and on LINES begin with its path.
HINTS = [
    ("cut --bytes 24-70 -s 0 in.pcap out.pcap", ["the range ends inside this record, and the capture goes on: join prints the range to cut in its place"]),
    ("cut --bytes 24-200 -s 0 in.pcap out.pcap", ["the packets of in.pcap lie from byte 24 to 84"]),
    ("cut --bytes 24-30 -s 0 short.pcap out.pcap", ["short.pcap has 10 bytes, and no whole header"]),
    ("cut --bytes 24-30 -s 0 text.pcap out.pcap", ["text.pcap:", "not a classic pcap file: it starts with 6e 6f 20 73"]),
    ("parts 2 short.pcap", ["short.pcap:", "it has 10 bytes; the header of a capture has 24"]),
    ("parts 2 text.pcap", ["text.pcap:", "not a classic pcap file: it starts with 6e 6f 20 73"]),
    ("join other.txt out.pcap", ["other.txt:", "the line of this part says another size than the first one: did the capture grow? Cut all parts again"]),
    ("join missing.txt out.pcap", ["missing.txt:", "sort LINES by sort -t- -k1,1n -k2,2nr; is a part missing?"]),
    ("join bad.txt out.pcap", [
        "bad.txt:", "line 2 is: x", "its form is: as cut --bytes prints it: FIRST-END of SIZE packets N kept N bytes N Clean FILE"]),
    ("join in.pcap out.pcap", ["in.pcap:", "this is a capture, and no file of lines: IN comes after LINES, LISTENERS and SCRIPT; join takes none, and cut -s 0 -w OUT IN.. joins captures",
                            "a line of the file that is wanted: as cut --bytes prints it: FIRST-END of SIZE packets N kept N bytes N Clean FILE"]),
]


@case
def hints_say_what_is_wrong(scene):
    """Of a range that ends inside a record, one that is not in the capture, a file without a header or with another one, and of LINES: a part of
    another capture, a missing one, a bad line, and a capture in its place."""
    other = "".join(f"{line}\n" for line in (LINES[0], LINES[1].replace("114", "115")))
    scene.put({**PARTS, "in.pcap": HEADER + ARP_RECORD * 2, "short.pcap": HEADER[:10], "text.pcap": "no savefile, but a text of some length",
               "other.txt": other, "missing.txt": f"{LINES[1]}\n", "bad.txt": f"{LINES[0]}\nx\n"})
    for words, hints in HINTS:
        seen = scene.run(f"--hints {words}")
        scene.check(f"hints of {words}", seen.err.decode().splitlines()[1:], [f"  {hint}" for hint in hints])


def processor_time():
    """What the programs that ended have taken of a processor, in seconds: a busy machine makes that little longer."""
    used = resource.getrusage(resource.RUSAGE_CHILDREN)
    return used.ru_utime + used.ru_stime


@case
def how_many_parts_there_are(scene):
    """More than 1,024 only if each has 64 KiB, also where more are wanted than there are bytes; in zeros, where no record seems to begin, one."""
    small, _ = capture_of([bytes([number % 251]) * 60 for number in range(300)])
    scene.put({"in.pcap": small})
    ranges = ranges_of(scene.run("parts 1000000 in.pcap").out)
    scene.check("more than bytes", (len(ranges) > 100, len(ranges) <= 1024), (True, True))
    scene.check("one after the other", [end for _, end in ranges], [*[first for first, _ in ranges[1:]], len(small)])
    with open(scene.folder / "in.pcap", "wb") as made:
        made.write(HEADER)
        made.truncate(1_000_000_000)
    before = processor_time()
    scene.expect("parts 4000 in.pcap", out="24-1000000000\n")
    scene.check("within 10 s of a processor", processor_time() - before < 10, True)
