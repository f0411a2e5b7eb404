"""`bpftap check --dot`: the graph of a program is followed as a program, and its words are those of the fields."""
import html
import re

from .common import IP, ROOT, TORN, VETH, WHOLE, case, fault_lines

# A line of a box, and one of an arrow.
BOX = re.compile(r'  n(\d+) \[label="([^"]*)"(, style=rounded)?(, penwidth=3)?\];')
ARROW = re.compile(r'  n(\d+) -> n(\d+) \[label="(yes|no|)"(, penwidth=3)?\];')

# The questions of `tcp dst port 443`, and where each answer leads.
TYPE, PROTOCOL, FRAGMENT, PORT = "ethertype = IPv4?", "protocol = TCP?", "later fragment?", "destination port = 443?"
ACCEPT, REJECT = "accept, at most 262144 bytes", "reject"
ASKED = {(TYPE, "yes", PROTOCOL), (TYPE, "no", REJECT), (PROTOCOL, "yes", FRAGMENT), (PROTOCOL, "no", REJECT), (FRAGMENT, "yes", REJECT),
         (FRAGMENT, "no", PORT), (PORT, "yes", ACCEPT), (PORT, "no", REJECT)}


def read_graph(text):
    """The boxes of a graph, by their names: what each says, whether it is marked, and the arrows from it."""
    lines = text.splitlines()
    assert (lines[0], lines[-1]) == ("digraph filter {", "}"), text
    boxes, arrows = {}, []
    for line in lines[2:-1]:
        if found := BOX.fullmatch(line):
            boxes[found[1]] = (found[2], bool(found[4]))
        else:
            found = ARROW.fullmatch(line)
            arrows.append((found[1], found[2], found[3], bool(found[4])))
    return boxes, arrows


@case
def a_graph_says_what_the_program_asks(scene):
    """The boxes and arrows of one program, by hand; the same of its listing; and of the empty expression one box."""
    scene.start({"ip.bpf": IP})
    seen = scene.run("check --dot 'tcp dst port 443'")
    boxes, arrows = read_graph(seen.out.decode())
    scene.check("words and ways", {(boxes[start][0], word, boxes[end][0]) for start, end, word, _ in arrows}, ASKED)
    scene.check("no mark", (any(is_marked for _, is_marked in boxes.values()), any(arrow[3] for arrow in arrows)), (False, False))
    scene.check("status", (seen.err, seen.status), (b"", 0))
    scene.check("empty", list(read_graph(scene.run("check --dot ''").out.decode())[0].values()), [("accept, at most 262144 bytes", False)])
    listed, compiled = (scene.run(words).out for words in ("check --dot -f ip.bpf", "check --dot ip"))
    scene.check("a listing", listed, compiled)
    for expr, words in [("arp dst host 10.0.0.2", "target protocol address = 10.0.0.2?"), ("udp src port 53", "source port = 53?"), ("len > 60", "length on the wire > 60?"),
                        ("ip[8] < 5", "time to live >= 5?"), ("ether multicast", "Ethernet destination, byte 0 & 0x1 != 0?"), ("src host 192.0.2.1", "source address = 192.0.2.1?")]:
        scene.check(f"words of {expr}", words in scene.run(["check", "--dot", expr]).out.decode(), True)


@case
def the_way_of_a_packet_ends_where_explain_says(scene):
    """The marked boxes are one way from the first to an end, which accepts exactly if `explain` answers Yes."""
    scene.start({})
    for expr in ["tcp dst port 80 or 8080", "arp", "not tcp", "host 192.0.2.1 and icmp", "portrange 5000-6000", "ip[8] = 64 and len > 60", ""]:
        answers = [line.split(" ")[8] for line in scene.run(["explain", "-e", expr, str(VETH)]).out.decode().splitlines()[:-1]]
        for place in (0, 2, 50, 120, 251):
            boxes, arrows = read_graph(scene.run(["check", "--dot", "-p", str(place), expr, str(VETH)]).out.decode())
            marked = [name for name, (_, is_marked) in boxes.items() if is_marked]
            way = [(start, end) for start, end, _, is_marked in arrows if is_marked]
            scene.check(f"way of {place} by {expr}", (way, marked[0]), (list(zip(marked, marked[1:])), list(boxes)[0]))
            scene.check(f"end of {place} by {expr}", boxes[marked[-1]][0].startswith("accept"), answers[place] == "Yes")


@case
def a_graph_is_refused(scene):
    """Faults of the filter, of the capture and of the words."""
    scene.start({"in.pcap": WHOLE, "torn.pcap": TORN})
    scene.refuse("check --dot 'tcp and 80'", 1, "NoQualifier 8")
    scene.refuse("check --dot -p 1 ip in.pcap", 1, "NoPacket 1")
    scene.refuse("check --dot -p 1 ip torn.pcap", 2, "TornRecord 1")
    scene.refuse("check --dot -p 0 ip none.pcap", 3, "Device none.pcap")
    scene.expect("check --dot ip", 3, fault_lines("Device standard output"), streams=">/dev/full")
    for words in ["check -p 0 ip in.pcap", "check --dot -p 0 ip", "check --dot ip in.pcap", "check --dot -p x ip in.pcap", "check --dot -d ip", "check --dot --json ip"]:
        seen = scene.run(words)
        scene.check(words, (seen.out, seen.status, seen.err.startswith(b"error: ")), (b"", 1, True))


@case
def the_picture_of_a_lesson_is_its_graph(scene):
    """Each text of the SVG is one of the graph that the lesson's command prints, and what is marked there has thicker lines."""
    lessons = ROOT / "examples" / "lessons"
    expr = re.search(r"check --dot -p 123 '(.*)'", (lessons / "assembly.md").read_text())[1]
    boxes, arrows = read_graph(scene.run(["check", "--dot", "-p", "123", expr, str(VETH)]).out.decode())
    drawn = (lessons / "way.svg").read_text()
    texts = sorted(html.unescape(text) for text in re.findall(r"<text [^>]*>(.*?)</text>", drawn))
    scene.check("texts", texts, sorted([*(words for words, _ in boxes.values()), *(word for _, _, word, _ in arrows)]))
    marked = {*(f"n{name}" for name, (_, is_marked) in boxes.items() if is_marked), *(f"n{start}->n{end}" for start, end, _, is_marked in arrows if is_marked)}
    groups = re.findall(r'<g id="(?:node|edge)\d+".*?<title>(.*?)</title>(.*?)</g>', drawn, re.S)
    scene.check("marks", {html.unescape(title) for title, lines in groups if 'stroke-width="3"' in lines}, marked)
