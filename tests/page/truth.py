"""What the page shows is of the filter and of the capture that it names, and is true of them."""
import re
import urllib.parse

from cases.common import HEADER, VETH, records

# What stands under a filter: its counts, what can be chosen of them, and the packets of the list with their answers.
SHOWN = """
    const texts = (of, what) => [...document.querySelectorAll(of)].map(what), counts = document.getElementById('counts').textContent;
    return [counts, texts('#only option', (option) => option.textContent), texts('.row', (row) => row.children[3].textContent)];"""
# Types another filter, and stops the work that it begins.
TYPE_AND_STOP = """
    const field = document.getElementById('filter');
    field.value = arguments[0];
    field.dispatchEvent(new Event('input'));
    const running = (() => {%s})();
    document.getElementById('stop-packets').click();
    return running;""" % SHOWN


def put_many(visit, name, count, size=60):
    """Puts a capture of this many packets into the scene, each cut to `size` bytes."""
    frames = []
    for frame in records(VETH.read_bytes()):
        kept = min(size, len(frame) - 16)
        frames.append(frame[:8] + kept.to_bytes(4, "little") + frame[12:16 + kept])
    visit.scene.put({name: HEADER + b"".join(frames[number % len(frames)] for number in range(count))})


def choose(visit, only):
    visit.run("const menu = document.getElementById('only'); menu.value = arguments[0]; menu.dispatchEvent(new Event('change'))", only)


def stop_work(visit):
    """While a filter is asked, and when that was stopped, nothing is left of the filter before."""
    put_many(visit, "many.pcap", 142_858)
    visit.open("#e=tcp%20port%2080")
    visit.browser.give_file("file", visit.scene.folder / "many.pcap")
    visit.check_has("a large capture", "counts", "142858 packets: ")
    choose(visit, "No")
    visit.check("all were asked", visit.run(SHOWN)[2][:1], ["No"])
    counts, menu, answers = visit.run(TYPE_AND_STOP, "arp")
    visit.check("while it runs", (counts, menu, answers), ("", ["all", "No", "Yes", "Abort"], []))
    visit.wait("return document.getElementById('counts').textContent !== ''")
    counts, menu, answers = visit.run(SHOWN)
    asked = re.fullmatch(r"Stopped after (\d+) of 142858 packets: (\d+) Yes, (\d+) No, (\d+) Abort", counts)
    visit.check("when it was stopped", asked is not None or counts, True)
    visit.check("what was asked", asked and int(asked[1]), asked and sum(int(asked[number]) for number in (2, 3, 4)))
    visit.check("answers of what was asked", set(answers) <= {"No"}, True)
    visit.filter("arp or icmp")
    visit.check_has("the next filter", "counts", "142858 packets: ")
    visit.check("its answers", set(visit.run(SHOWN)[2]), {"No"})


def stop_reading(visit):
    """A capture that was not read to its end is named, and nothing is left of the one before; of two files the one that was given last is opened."""
    put_many(visit, "many.pcap", 200_000)
    visit.open("#e=icmp&p=2")
    visit.check_has("the example", "counts", "253 packets: 49 Yes")
    visit.run("""
        const taken = document.getElementById('capture-name');
        new MutationObserver(() => document.getElementById('stop-packets').click()).observe(taken, { childList: true });""")
    visit.browser.give_file("file", visit.scene.folder / "many.pcap")
    visit.check_has("it was stopped", "capture-name", "many.pcap: not read")
    counts, menu, answers = visit.run(SHOWN)
    visit.check("nothing of the example", (counts, menu, answers), ("", ["all", "No", "Yes", "Abort"], []))
    left = visit.run("return ['packet-title', 'reason', 'looks', 'bytes'].map((name) => document.getElementById(name).textContent)")
    visit.check("no packet", left, ["No packet chosen", "", "", ""])
    visit.open("#e=ip")
    visit.wait_for("counts", "253 packets")
    visit.run("""
        const give = (name, size, wait) => {
          const data = new DataTransfer(), file = new File([Uint8Array.from(arguments[0]).slice(0, size)], name);
          const bytes = file.arrayBuffer.bind(file);
          file.arrayBuffer = () => new Promise((done) => setTimeout(() => done(bytes()), wait));
          data.items.add(file);
          // A drop that was made hands out a copy.
          Object.defineProperty(data, 'files', { value: [file] });
          document.dispatchEvent(new DragEvent('drop', { dataTransfer: data, bubbles: true, cancelable: true }));
        };
        File.prototype.arrayBuffer = function () {
          const bytes = Blob.prototype.arrayBuffer.bind(this);
          return new Promise((done) => setTimeout(() => done(bytes()), this.name === 'slow.pcap' ? 400 : 0));
        };
        give('slow.pcap', 24, 0);
        give('fast.pcap', 24, 0);""", list(HEADER))
    visit.check_has("the last one", "capture-name", "fast.pcap, 0 packets")
    visit.run("window.passed = false; setTimeout(() => { window.passed = true; }, 600)")
    visit.wait("return window.passed")
    visit.check_has("and not the one that took longer", "capture-name", "fast.pcap, 0 packets")


def keep_last_filter(visit):
    """While what is typed is no expression, all that is shown is of the last filter, dimmed, and says so."""
    visit.open("#e=icmp&o=ip&p=2")
    visit.check_has("the filter", "counts", "253 packets: 49 Yes")
    visit.check_has("compared", "same", "Differ")
    visit.filter("icmp and proot")
    seen = [visit.text(place) for place in ("canonical", "counts", "reason")]
    visit.check("what is shown", seen, ["Still shown: icmp: 6 instructions", "253 packets: 49 Yes, 204 No, 0 Abort",
                                        "Yes icmp: the program answers 262144 after 5 instructions"])
    dim = "return ['listing', 'same', 'packet-list', 'chosen', 'graph-box'].map((name) => getComputedStyle(document.getElementById(name)).opacity)"
    visit.check("dimmed", visit.run(dim), ["0.6"] * 5)
    visit.run("document.querySelectorAll('.row')[1].click()")
    visit.check_has("another packet, of the last filter", "reason", "No icmp")
    visit.filter("icmp and proto 1")
    visit.check_has("a filter again", "canonical", "read as ")
    visit.check("not dimmed", visit.run(dim), ["1"] * 5)
    visit.filter("arp")
    visit.check_has("another filter", "counts", "253 packets: 7 Yes")
    visit.run("location.hash = '#e=proot'")
    visit.check_has("a link with a fault", "fault", "BadWord")
    visit.check("nothing of another filter", [visit.text(place) for place in ("canonical", "counts", "reason", "same", "listing", "graph")], [""] * 6)


# What `compare` cannot decide, each for another cause.
UNDECIDED = [("ether[131072] = 1", "ether[131073] = 1"), ("len" + " + 1" * 70 + " = 3", "ip")]


def read_names(visit):
    """Addresses with colons; fields, values and causes by the program's own texts."""
    visit.open("#e=broadcast&p=31")
    visit.check_has("six bytes", "looks", "Ethernet destination: 02:00:00:00:00:0a")
    look = "return [...document.querySelectorAll('#looks tr')].map((row) => [...row.cells].map((cell) => cell.textContent))"
    visit.check("their number", visit.run(look)[0][1], "0x2000000000a")
    for place, text in [(0, "arp host 192.0.2.1"), (2, "icmp and not icmp[icmptype] = icmp-echo"), (116, "udp port 5353"), (123, "tcp port 8080 or 443")]:
        visit.open(f"#e={urllib.parse.quote(text)}&p={place}")
        visit.check_has(f"packet {place}", "packet-title", f"Packet {place}: ")
        explained = visit.scene.run(["explain", "-p", str(place), "-e", text, VETH]).out.decode()
        wanted = {(look, name.partition(":")[0]) for look, name in re.findall(r"^ +(ether\[[\d:]+\]) = 0x[0-9a-f]+ \((.*)\)$", explained, re.M)}
        visit.wait("return document.querySelectorAll('#looks tr').length > 0")
        visit.check(f"names of {text}", {(row[0], row[2].partition(":")[0]) for row in visit.run(look)}, wanted)
    for first, second in UNDECIDED:
        printed = visit.scene.run(["compare", first, second]).out.decode().splitlines()[0]
        visit.open(f"#e={urllib.parse.quote(first)}&o={urllib.parse.quote(second)}")
        visit.check_has(f"{first} and {second}", "same", printed[0].upper() + printed[1:] + ".")


# A filter, and what the blocks of its program say that are not `reject`.
QUESTIONS = [
    ("ip[6:2] & 0x4000 != 0", ["ethertype = IPv4?", "don't fragment?", "accept: the packet is kept"]),
    ("ip[6:2] & 0x3fff != 0", ["ethertype = IPv4?", "more fragments or later fragment?", "accept: the packet is kept"]),
    ("ip[6:2] & 0x1234 != 0", ["ethertype = IPv4?", "flags and fragment offset & 0x1234 ≠ 0?", "accept: the packet is kept"]),
    ("tcp[13] & 18 = 2", ["ethertype = IPv4?", "protocol = TCP?", "later fragment?", "control bits & (SYN, ACK) = SYN?", "accept: the packet is kept"]),
    ("ip src net 10.0.0.0/8", ["ethertype = IPv4?", "source address in 10.0.0.0/8?", "accept: the packet is kept"]),
    ("ip src host 192.0.2.1", ["ethertype = IPv4?", "source address = 192.0.2.1?", "accept: the packet is kept"]),
    ("icmp[0] = 8", ["ethertype = IPv4?", "protocol = ICMP?", "later fragment?", "type = 8?", "accept: the packet is kept"]),
]


def read_graph(visit):
    """Flags by their names, addresses and nets as they are written; each box says to a screen reader where its answers lead."""
    visit.open("#e=ip")
    for text, wanted in QUESTIONS:
        visit.filter(text)
        titles = visit.run("return [...document.querySelectorAll('#graph .node .title')].map((title) => title.textContent)")
        visit.check(f"questions of {text}", [title for title in dict.fromkeys(titles) if title != "reject"], wanted)
    visit.filter("icmp")
    label = "return [...document.querySelectorAll('#graph [role=list] > [role=listitem]')].map((node) => node.getAttribute('aria-label'))"
    wanted = ["ethertype = IPv4? yes: protocol = ICMP? no: reject", "protocol = ICMP? yes: accept: the packet is kept no: reject",
              "accept: the packet is kept", "reject"]
    visit.check("for a screen reader", visit.run(label), wanted)


def frame_of(type_bytes):
    return bytes.fromhex("01000000 00000000 10000000 10000000 ffffffffffff 000102030405") + type_bytes + b"\0\0"


def see_all_frames(visit):
    """IPv6 and VLAN frames are counted as the program does, and a list above the highest element of a browser scrolls to its end."""
    types = [b"\x86\xdd", b"\x81\0", b"\x88\xa8", b"\x91\0", b"\x08\0", b"\x08\x06"]
    visit.scene.put({"types.pcap": HEADER + b"".join(map(frame_of, types)), "one.pcap": HEADER + frame_of(types[0]),
                     "large.pcap": HEADER + frame_of(types[4]) * 820_000})
    visit.open("#e=ip")
    for name in ("types.pcap", "one.pcap"):
        visit.browser.give_file("file", visit.scene.folder / name)
        visit.check_has(name, "capture-name", f"{name}, ")
        printed = visit.scene.run(["explain", "--hints", "-c", "-e", "ip", name]).err.decode()
        visit.check(f"frames of {name}", f"bpftap: {visit.text('unseen')};" in printed or f"{visit.text('unseen')};" in printed, True)
        visit.check(f"frames of {name}, said", visit.text("unseen").startswith("4 of 6 frames are" if name[0] == "t" else "1 of 1 frames is"), True)
    visit.browser.give_file("file", visit.scene.folder / "large.pcap")
    visit.check_has("820,000 packets", "counts", "820000 packets: 820000 Yes")
    visit.check("none of these", visit.text("unseen"), "")
    visit.run("document.getElementById('packets').focus()")
    visit.press("End")
    visit.check_has("the last one", "packet-title", "Packet 819999: ")
    sight = """
        const box = document.getElementById('packets').getBoundingClientRect(), row = document.getElementById('packet-' + arguments[0]);
        const { top, bottom } = row ? row.getBoundingClientRect() : { top: -1, bottom: -1 };
        return bottom > top && top >= box.top - 1 && bottom <= box.bottom + 1;"""
    visit.check("it is in sight", visit.run(sight, 819_999), True)
    visit.press("ArrowUp", "PageUp", "ArrowDown")
    place = int(re.match(r"Packet (\d+)", visit.text("packet-title"))[1])
    visit.check("others from there", (819_900 < place < 819_999, visit.run(sight, place)), (True, True))
    visit.run("const box = document.getElementById('packets'); box.scrollTop = box.scrollHeight")
    visit.check("by the scroll bar too", visit.wait(sight, 819_999), True)
    visit.run("document.getElementById('packets').scrollTop = 0")
    visit.check("and back", visit.wait(sight, 0), True)


VISITS = [stop_work, stop_reading, keep_last_filter, read_names, read_graph, see_all_frames]
