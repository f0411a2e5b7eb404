"""`bpftap steps -p`: the bars of the picture are what the steps found."""
import random
import re
import xml.etree.ElementTree as tree

from .common import ARP_RECORD, HEADER, IP_RECORD, ROOT, TCP_RECORD, UDP_RECORD, VETH, WHOLE, case, records

STEPS = ROOT / "examples" / "steps"
SVG = "{http://www.w3.org/2000/svg}"
FOUND = re.compile(r"step (\d+) .*: (\d+) stored, (\d+) held")


def lanes(picture):
    """For each listener and step, what its title says that the buffers have, and the heights of its bars by their classes."""
    for lane in tree.fromstring(picture).findall(f"{SVG}g"):
        found = []
        for column in lane.iterfind(f"{SVG}svg/{SVG}g"):
            bars = {bar.get("class"): int(bar.get("height")) for bar in column.findall(f"{SVG}rect")}
            found.append((column.find(f"{SVG}title").text, bars))
        yield found


def explained_loads(explained):
    """The bytes that each step found in the store of each listener, as `steps -v` prints them."""
    step = 0
    for line in explained.splitlines():
        if head := re.match(r"step (\d+) ", line):
            step = int(head[1])
        elif answer := re.match(r"  listener (\d+) (?:Stored|Held|Rotated|Dropped), (\d+) stored", line):
            yield step, int(answer[1]), int(answer[2])


@case
def bars_are_as_high_as_the_loads(scene):
    """In the example each bar of a store is as high as `steps -v` says, and each title says it."""
    files = [STEPS / "listeners.txt", STEPS / "script.txt", VETH]
    seen = scene.run(["steps", "-v", "-p", "steps.svg", *files])
    scene.check("standard error, and the status", (seen.err, seen.status), (b"", 0))
    drawn = list(lanes(scene.read("steps.svg")))
    count = 0
    for line, listener, load in explained_loads(seen.out.decode()):
        title, bars = drawn[listener][line - 1]
        found = FOUND.match(title)
        scene.check(f"step {line}, listener {listener}", (int(found[1]), int(found[2]), bars["store"]), (line, load, load))
        count += 1
    scene.check("some loads were explained", count > 5, True)


# What the expressions of these cases accept, of the bytes of a frame.
ACCEPTS = {
    "": lambda frame: True,
    "icmp": lambda frame: frame[12:14] == b"\x08\x00" and frame[23:24] == b"\x01",
    "arp": lambda frame: frame[12:14] == b"\x08\x06",
    "ip": lambda frame: frame[12:14] == b"\x08\x00",
    "tcp": lambda frame: frame[12:14] == b"\x08\x00" and frame[23:24] == b"\x06",
}


class Buffers:
    """The two buffers of a listener of LISTENERS, counted as bpftap(1) says: the bytes of each."""

    def __init__(self, line):
        snap, capacity, expression = (line.split(" ", 2) + [""])[:3]
        self.snap = int(snap) or 262144
        self.immediate = capacity.endswith("i")
        self.capacity = int(capacity.removesuffix("i"))
        self.accepts = ACCEPTS[expression]
        self.store = self.hold = 0
        self.closed = False

    def arrive(self, frame):
        """The mark of a packet, and the size of its record if it is drawn."""
        if self.closed:
            return "closed", None
        if not self.accepts(frame):
            return "passed", None
        size = 32 + -(-min(self.snap, len(frame)) // 8) * 8
        if self.store + size <= self.capacity:
            self.store += size
            if self.immediate and not self.hold:
                self.turn()
                return "turned", ("record", size)
            return "stored", ("record", size)
        if self.hold:
            return "dropped", ("over", size)
        self.turn()
        self.store = size
        return "turned", ("record", size)

    def turn(self):
        self.hold, self.store = self.store, 0

    def own(self, word):
        """The mark of a step that names this listener."""
        if word == "close":
            self.closed = True
            return "closed"
        if word == "flush" and self.store and not self.hold and not self.closed:
            self.turn()
            return "turned"
        if word == "read" and self.hold and not self.closed:
            self.hold = 0
            return "read"
        return "idle"


def counted(line, script, captures):
    """For each step, what the listener of a line has before it, its mark, if it has one, and the record that is drawn."""
    buffers = Buffers(line[0])
    packets = iter([record[16:] for capture in captures for record in records(capture)])
    for step in script.splitlines():
        before = {"hold": buffers.hold, "store": buffers.store}
        word, _, named = step.partition(" ")
        mark = record = None
        if word == "arrive":
            frame = next(packets, None)
            if frame is not None:
                mark, record = buffers.arrive(frame)
        elif int(named) == line[1]:
            mark = buffers.own(word)
        yield before | ({record[0]: record[1]} if record else {}), mark


def draws_what_is_counted(scene, name, listeners, script, captures):
    """Compares hold, store, record and mark of each column with buffers that are counted here."""
    scene.put({"l.txt": listeners, "s.txt": script})
    for n, capture in enumerate(captures):
        scene.put({f"{n}.pcap": capture})
    seen = scene.run(["steps", "-p", "steps.svg", "l.txt", "s.txt", *(f"{n}.pcap" for n in range(len(captures)))])
    scene.check(f"standard error of {name}, and the status", (seen.err, seen.status), (b"", 0))
    marks = set()
    lines = listeners.splitlines()
    for number, (line, found) in enumerate(zip(lines, lanes(scene.read("steps.svg")), strict=True)):
        wanted = list(counted((line, number), script, captures))
        scene.check(f"columns of {name}, listener {number}", len(found), len(wanted))
        for step, ((title, bars), (heights, mark)) in enumerate(zip(found, wanted), 1):
            drawn = {name: bars.pop(name) for name in ("hold", "store", "record", "over") if name in bars}
            scene.check(f"{name}: step {step}, listener {number}: {title}", (drawn, list(bars)), (heights, [mark] if mark else []))
            marks.add(mark)
    return marks


@case
def each_column_is_what_the_buffers_have(scene):
    """The example and the lesson on drops, 300 steps, and two captures with random steps."""
    example = (STEPS / "listeners.txt").read_text(), (STEPS / "script.txt").read_text()
    draws_what_is_counted(scene, "the example", *example, [VETH.read_bytes()])
    draws_what_is_counted(scene, "the lesson", "64 192 icmp\n", "arrive\n" * 7, [VETH.read_bytes()])
    chance = random.Random(33)
    listeners = "64 192 icmp\n0 262176i arp\n40 288i ip\n96 1024\n"
    words = ["arrive"] * 6 + ["flush", "read", "read"]
    steps = [chance.choice(words) for _ in range(300)]
    script = "".join(step + (f" {chance.randrange(4)}" if step != "arrive" else "") + "\n" for step in steps)
    marks = draws_what_is_counted(scene, "300 steps", listeners, script + "close 0\narrive\nread 0\n", [VETH.read_bytes()])
    frames = [ARP_RECORD, IP_RECORD, TCP_RECORD, UDP_RECORD]
    captures = [HEADER + b"".join(chance.choices(frames, k=20)) for _ in range(2)]
    script = "arrive\n" * 15 + "read 1\n" + "arrive\n" * 30 + "flush 0\nclose 1\n"
    marks |= draws_what_is_counted(scene, "two captures", "0 262176 tcp\n16 200 ip\n14 144i\n", script, captures)
    wanted = {None, "passed", "stored", "turned", "dropped", "closed", "read", "idle"}
    scene.check("all marks were seen", marks, wanted)


@case
def the_example_is_drawn_as_its_page_shows_it(scene):
    """The file beside the example, which was drawn by another program from the table of its page."""
    files = [STEPS / "listeners.txt", STEPS / "script.txt", VETH]
    scene.run(["steps", "-p", "steps.svg", *files])
    scene.check("the picture", scene.read("steps.svg"), (STEPS / "steps.svg").read_bytes())


@case
def the_lesson_is_drawn_as_its_page_shows_it(scene):
    """The file beside the lesson on drops, which was drawn by another program, with buffers that were counted there."""
    scene.put({"l.txt": "64 192 icmp\n", "s.txt": "arrive\n" * 7})
    scene.run(["steps", "-p", "drops.svg", "l.txt", "s.txt", VETH])
    scene.check("the picture", scene.read("drops.svg"), (ROOT / "examples" / "lessons" / "drops.svg").read_bytes())


@case
def a_lane_without_loads_is_as_high_as_others(scene):
    """For a listener that never stores, the whole buffers are drawn, with marks as low as those of another lane."""
    scene.put({"l.txt": "64 192 arp\n64 192 icmp\n", "s.txt": "arrive\n" * 7})
    scene.run(["steps", "-p", "steps.svg", "l.txt", "s.txt", VETH])
    picture = tree.fromstring(scene.read("steps.svg"))
    boxes = [lane.find(f"{SVG}svg").get("viewBox") for lane in picture.findall(f"{SVG}g")]
    scene.check("both lanes", boxes, ["0 0 70 530"] * 2)
    scene.check("no part is drawn only", b"drawn up to" in scene.read("steps.svg"), False)


@case
def the_picture_says_what_it_shows(scene):
    """A title and a description come first, for readers who cannot see it."""
    scene.put({"l.txt": "64 192 icmp\n64 192 arp\n", "s.txt": "arrive\nread 0\narrive\n"})
    scene.run(["steps", "-p", "steps.svg", "l.txt", "s.txt", VETH])
    title, described = list(tree.fromstring(scene.read("steps.svg")))[:2]
    scene.check("a title", (title.tag, title.text), (f"{SVG}title", "bpftap steps: the buffers of each listener, step by step"))
    scene.check("a description", (described.tag, described.text[:25]), (f"{SVG}desc", "Steps: 3. Listeners: 2. E"))


@case
def a_long_expression_is_cut_to_the_page(scene):
    """The line of a lane has at most as many characters, of 7 pixels each, as the page has room for, and the whole expression is its
    title; a short one has no title."""
    long = " or ".join(f"host 192.0.2.{n}" for n in range(40))
    scene.put({"l.txt": f"64 192 {long}\n0 1048576i {long}\n64 192 icmp\n64 1048576 len < 60 and icmp\n", "s.txt": "arrive\n" * 7})
    scene.run(["steps", "-p", "steps.svg", "l.txt", "s.txt", VETH])
    lines = [lane.find(f"{SVG}text") for lane in tree.fromstring(scene.read("steps.svg")).findall(f"{SVG}g")]
    for line in lines[:2]:
        title = line.find(f"{SVG}title")
        shown = title.tail
        scene.check("the whole of it", title.text, long)
        scene.check("what is shown", long.startswith(shown.split("a packet: ")[1].split("..")[0]) and ".." in shown, True)
        scene.check("its length", len(shown) <= 126, True)
    scene.check("a short one", [line.text for line in lines[2:]], [
        "listener 2: two buffers of 192 bytes, at most 64 bytes of a packet: icmp",
        "listener 3: two buffers of 1048576 bytes, at most 64 bytes of a packet: len < 60 and icmp"])


@case
def a_picture_that_cannot_be_made_is_reported(scene):
    """The reports are printed, and FILE is reported with status 3."""
    files = [STEPS / "listeners.txt", STEPS / "script.txt", VETH]
    report = scene.run(["steps", *files]).out
    seen = scene.run(["steps", "-p", "none/steps.svg", *files])
    scene.check("all", (seen.out, seen.err, seen.status), (report, b"bpftap: Device none/steps.svg\n", 3))


@case
def a_file_that_is_read_is_no_picture(scene):
    """FILE is none of the files that are read, by whatever spelling; then nothing is printed, and all files stay."""
    scene.put({"l.txt": "32 64\n", "s.txt": "arrive\n", "in.pcap": WHOLE})
    for path in "l.txt", "./s.txt", "in.pcap":
        scene.refuse(f"steps -p {path} l.txt s.txt in.pcap", 1, f"SameFile {path}")
