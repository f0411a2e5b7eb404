"""The page: its module beside the native library, what it is made of, and what a person sees in Chromium and in Firefox."""
import base64
import datetime
import gzip
import json
import os
import random
import re
import statistics
import subprocess
import sys
import time
import urllib.parse

from . import hints, library
from .common import HEADER, IP_RECORD, LIMIT, ROOT, TORN, VETH, case, records

SOURCES = ROOT / "page"
HARNESS = ROOT / "tests" / "page"
sys.path[:0] = [str(SOURCES), str(HARNESS)]
import browsers
import comfort
import forms
import make_page
import truth
from visit import IDLE, PAGE, SPIN, Visit

# Debian's linter looks for its own modules only under Debian's own node.
NODE = {**os.environ, "NODE_PATH": "/usr/share/nodejs"}


def is_there(scene):
    if PAGE is None:
        scene.leave("there is no page: ./build --page makes it")
    return PAGE is not None


def part(name):
    """What the page carries, unpacked: `module` or `example`."""
    found = re.search(rf'<script type="text/plain" id="{name}">([^<]*)</script>', PAGE.read_text())
    return gzip.decompress(base64.b64decode(found[1]))


def printed(scene, words, given=None, **how):
    """What words print, and their status, in the scene's folder."""
    done = subprocess.run(words, cwd=scene.folder, input=given, stdout=subprocess.PIPE, stderr=subprocess.STDOUT, text=True, timeout=10 * LIMIT, **how)
    return done.stdout, done.returncode


@case
def scripts_are_checked(scene):
    """The types of the page's scripts by tsc, and their style by eslint; no module has 300 lines."""
    if scene.has("tsc"):
        scene.check("tsc", printed(scene, ["tsc", "-p", SOURCES]), ("", 0))
    if scene.has("eslint"):
        done = subprocess.run(["eslint", "-f", "unix", "src"], cwd=SOURCES, env=NODE, capture_output=True, text=True, timeout=LIMIT)
        scene.check("eslint", (done.stdout, done.stderr, done.returncode), ("", "", 0))


@case
def page_is_what_its_sources_give(scene):
    """The page is made again from its module and its sources, byte for byte, and is small enough to send; its module asks for nothing."""
    if not is_there(scene):
        return
    scene.start({"module": part("module")})
    said = printed(scene, [sys.executable, "-B", SOURCES / "make_page.py", "module", "again.html"])
    scene.check("made again", said, ("", 0))
    scene.check("the same bytes", scene.read("again.html") == PAGE.read_bytes(), True)
    scene.check("its example", part("example") == VETH.read_bytes(), True)
    scene.check("at most 640 KB", PAGE.stat().st_size <= 640_000, True)
    if scene.has("node"):
        script = 'const m = new WebAssembly.Module(require("fs").readFileSync("module")); console.log(WebAssembly.Module.imports(m).length)'
        scene.check("imports", printed(scene, ["node", "-e", script]), ("0\n", 0))
    kept = ROOT / "out" / "build" / "page" / "library.wasm"
    if kept.is_file() and PAGE.parent.name == "page":
        scene.check("the module that was built", part("module") == kept.read_bytes(), True)


WRONG_MODULES = {
    "an intrinsic of x86": ("declare void @llvm.x86.sse2.pause()", "has intrinsics of x86: llvm.x86.sse2.pause"),
    "another form": ("target triple = \"wasm\"", "the toolchain writes another form"),
}


@case
def other_modules_are_refused(scene):
    """A module in a form that is not known, with an intrinsic of x86 or with imports, and a file that is none: a sentence says so."""
    for name, (text, wanted) in WRONG_MODULES.items():
        scene.check(name, wanted in why(make_page.retargeted, text), True)
    scene.start({"text.bc": "no module"})
    said = why(make_page.module_of, scene.folder / "text.bc", scene.folder, scene.folder)
    scene.check("a text", "is no LLVM module" in said, True)
    imports = b"\0asm\1\0\0\0" + b"\x01\x04\x01\x60\0\0" + b"\x02\x07\x01\x01a\x01b\x00\x00"
    scene.check("an import", "imports" in why(make_page.lower.lowered, imports), True)
    said = why(make_page.wording.found, r"no such (\w+)", "a text", "names of fields")
    scene.check("texts of the program", said, "names of fields have another form, which this does not know")


def why(call, *given):
    """Why a call refuses what it is given."""
    try:
        call(*given)
    except (make_page.Refused, make_page.lower.Unknown, make_page.wording.Unknown) as error:
        return str(error)
    return "nothing was refused"


def spoiled(chance, text):
    at = chance.randrange(len(text) + 1)
    return text[:at] + chance.choice(["(", ")", "[", "!", "é", "9", " prot ", "%"]) + text[at:]


def questions():
    """What the module and the native library are asked: 2,000 expressions, some spoiled, 200 pairs, 300 captures, some spoiled, and steps."""
    chance = random.Random(80)
    texts = [library.expression(chance) for _ in range(2000)]
    texts = [spoiled(chance, text) if number % 8 == 0 else text for number, text in enumerate(texts)]
    frames = records(library.frames())
    packets = [(frame[16:].hex(), int.from_bytes(frame[12:16], "little")) for frame in chance.sample(frames, 12)]
    captures = []
    for number in range(300):
        file = bytearray(HEADER + b"".join(chance.sample(frames, chance.randrange(6))))
        if number % 3:
            file[chance.randrange(len(file))] ^= chance.randrange(1, 256)
        captures.append([bytes(file[: chance.randrange(len(file)) if number % 5 == 0 else None]).hex(), chance.randrange(1, 100)])
    played = VETH.read_bytes()[: 20_000].hex()
    replays = [["64 192 icmp\n0 262176i arp\n", "arrive\n" * 20 + "read 0\nflush 1\nclose 0\n", played], ["x", "", ""], ["64 192 tcp and 80\n", "arrive\n", played]]
    for _ in range(20):
        lines = f"{chance.choice([1, 33, 96])} {chance.randrange(140, 4000)}{chance.choice(['', 'i'])} {chance.choice(['', 'ip', 'udp', 'not tcp'])}\n"
        steps = chance.choices(["arrive", "arrive", "arrive", "read 0", "flush 0"], k=60)
        replays.append([lines, "".join(f"{step}\n" for step in steps), played])
    pairs = [[*pair, 20000] for pair in zip(texts[:200], texts[1:201])]
    return {"packets": packets, "expressions": texts, "pairs": pairs, "captures": captures, "replays": replays}


@case
def module_answers_as_the_native_library(scene):
    """All that the page asks: expressions and their programs, reasons, looks and traces, pairs, captures and steps, beside libbpftap.so."""
    if not is_there(scene) or not library.is_there(scene) or not scene.has("node"):
        return
    scene.start({"module": part("module")})
    asked = questions()
    seen, status = printed(scene, ["node", HARNESS / "module.js", "module"], json.dumps(asked))
    wanted, other = printed(scene, [sys.executable, HARNESS / "native.py", library.LIBRARY], json.dumps(asked))
    scene.check("statuses", (status, other), (0, 0))
    seen, wanted = seen.splitlines(), wanted.splitlines()
    scene.check("lines", (len(seen), len(wanted) > 2500), (len(wanted), True))
    inputs = [*asked["expressions"], *asked["pairs"], *asked["captures"], *asked["replays"]]
    differ = [f"{question}: {one} {other}" for question, one, other in zip(inputs, seen, wanted) if one != other]
    scene.check("that differ", differ[:3], [])
    scene.check("the last lines", seen[len(inputs):], wanted[len(inputs):])


@case
def hints_are_those_of_the_program(scene):
    """What the page prints below the fault of an expression: the lines that the program prints there."""
    if not is_there(scene) or not scene.has("node"):
        return
    scene.start({"module": part("module")})
    asked = {"packets": [], "expressions": [text for text, _, _ in hints.EXPRESSIONS], "pairs": [], "captures": [], "replays": []}
    seen, status = printed(scene, ["node", HARNESS / "module.js", "module"], json.dumps(asked))
    scene.check("status", status, 0)
    for (text, fault, below), line in zip(hints.EXPRESSIONS, seen.splitlines()):
        lines = [line[2:] for line in below.splitlines()]
        carets = [number for number, line in enumerate(lines) if line.strip() == "^"]
        scene.check(text, json.loads(line)[5:], [fault, "\n".join(lines[carets[0] + 1 if carets else 1:])])


@case
def questions_are_given_up(scene):
    """A question that is given up is told to the worker, by a letter without work, and nothing of it comes through; one that is stopped ends it."""
    if not scene.has("node"):
        return
    said, status = printed(scene, ["node", HARNESS / "desk.js"])
    seen = json.loads(said)
    letters = [{"module": "module"}, {"number": 1, "name": "ask", "given": ["ip"]}, {"number": 2}, {"number": 3, "name": "ask", "given": ["arp"]},
               {"number": 4, "name": "ask", "given": ["tcp"]}, "terminated"]
    scene.check("letters", (seen["letters"], status), (letters, 0))
    scene.check("news", seen["news"], ["some of it"])
    scene.check("what came of each", seen["outcome"], [["first", True, False], ["second", "all of it"], ["third", True, True]])


@case
def captures_are_converted(scene):
    """Captures that the page converts, of the kinds that dumpcap, editcap and scapy write: what is in them as a classic one, packed by gzip too;
    torn ones up to there; as cooked.py and editcap convert them, if editcap is there. Others stay as they are, and a sentence says why."""
    if not scene.has("node"):
        return
    made = list(forms.forms())
    files = {f"{number}.in": file for number, (_, file, _) in enumerate(made)} | {f"{number}.gz": gzip.compress(file) for number, (_, file, _) in enumerate(made)}
    torn = {"torn.in": made[0][1][:-20], "torn.cooked": made[-1][1][:-4]}
    refused = {**{name: file for name, (file, _) in forms.REFUSED.items()}, "bad.gz": gzip.compress(b"text")[:-6], "some.pcap": VETH.read_bytes()}
    scene.start({**files, **torn, **refused})
    said, status = printed(scene, ["node", HARNESS / "convert.js", *files, *torn, *refused])
    notes = dict(zip([*files, *torn, *refused], said.splitlines()))
    scene.check("status", status, 0)
    for number, (name, _, wanted) in enumerate(made):
        scene.check(name, (scene.read(f"{number}.in.made"), scene.read(f"{number}.gz.made")), (wanted, wanted))
        scene.check(f"{name}, said", ("It was converted from" in notes[f"{number}.in"], "It was unpacked and converted from" in notes[f"{number}.gz"]), (True, True))
    scene.check("a torn pcapng", scene.read("torn.in.made"), forms.classic((forms.SECOND, 5000, forms.A, 60)))
    scene.check("a torn cooked one", scene.read("torn.cooked.made"), forms.classic())
    scene.check("what is said of them", [notes[name].endswith("It ends inside a packet or block: what comes before is shown.") for name in torn], [True, True])
    for name, (file, wanted) in forms.REFUSED.items():
        scene.check(name, (notes[name], scene.read(f"{name}.made") == file), (f"This page cannot convert it: {wanted}.", True))
    scene.check("a bad gzip", (notes["bad.gz"][:28], scene.read("bad.gz.made") == refused["bad.gz"]), ("This page cannot convert it:", True))
    scene.check("a classic one", (notes["some.pcap"], scene.read("some.pcap.made") == VETH.read_bytes()), ("", True))
    if scene.has("editcap"):
        for number, (name, file, wanted) in enumerate(made):
            if file[:4] == b"\n\r\r\n" and "raw" not in name and "no packets" not in name and "sections" not in name:
                subprocess.run(["editcap", "-F", "nsecpcap", f"{number}.in", f"{number}.edited"], cwd=scene.folder, capture_output=True, timeout=LIMIT)
                scene.check(f"{name} by editcap", scene.read(f"{number}.edited")[24:], wanted[24:])


@case
def refused_memory_is_no_trap(scene):
    """Each allocation of some calls fails in turn: the call returns NoMemory and gives all back. An address above 4 GiB traps, and the library
    goes on anew."""
    if is_there(scene) and scene.has("node"):
        scene.start({"module": part("module")})
        wanted = "enough allocations were refused\nstopped, and went on\n"
        scene.check("refused", printed(scene, ["node", HARNESS / "refused.js", "module"]), (wanted, 0))


class Below(list):
    """The lines that the program prints below a fault, and that of the fault."""
    fault = ""


def plain(text):
    """A hint without its backquotes: the page shows what is between them as code."""
    return text.replace("`", "")


def below_fault(scene, *words):
    fault, *lines = scene.run(["--hints", *words]).err.decode().splitlines()
    # The page names the file beside its button, and not in the hint.
    if lines[:1] == [f"  {words[-1]}:"]:
        del lines[0]
    said = Below(line.removeprefix("  ") for line in lines)
    said.fault = fault
    return said


# Files that are no captures, by what they begin with. Of some the program also says that standard input takes them.
OTHER_FILES = {"in.gz": b"\x1f\x8b\x08", "in.xz": b"\xfd7zXZ\0", "in.snoop": b"snoop\0\0\0", "in.txt": b"some text of no format",
               "wireless.pcap": HEADER[:20] + b"\x69\0\0\0", "usb.pcap": HEADER[:20] + b"\xdc\0\0\0", "checked.pcap": HEADER[:20] + b"\1\0\0\x24",
               "old.pcap": HEADER[:4] + b"\1\0\2\0", "fraction.pcap": HEADER + b"\0\0\0\0\x40\x42\x0f\0",
               "nanos.pcap": b"\x4d\x3c\xb2\xa1" + HEADER[4:] + b"\0\0\0\0\0\xca\x9a\x3b", "long.pcap": HEADER + bytes(8) + b"\1\0\4\0"}
# Captures that end too early.
CUT_FILES = {"short.pcap": HEADER[:10], "torn.pcap": TORN}
# Listeners and scripts that are refused, with a word of help.
STEPS_REFUSED = [("foo\n", "arrive\n"), ("64 192 icmp\n", "arrive\nbla\n"), ("64 192 icmp and proot 17\n", "arrive\n")]


def look_at_packet(visit):
    """A student's question: why is packet 123 of the example accepted by `tcp port 8080 or 443`?"""
    visit.open("#e=tcp%20port%208080%20or%20443&p=123")
    visit.check_has("the answer of packet 123", "reason", "Yes tcp port 8080: the program answers 262144 after 12 instructions")
    visit.check_has("all counted", "counts", "253 packets: 120 Yes, 133 No, 0 Abort")
    visit.check("how it was read", "tcp port 8080 or tcp port 443" in visit.text("canonical"), True)
    explained = visit.scene.run(["explain", "-p", "123", "-e", "tcp port 8080 or 443", VETH]).out.decode()
    wanted = {tuple(found.groups()) for found in re.finditer(r"^ +(ether\[[\d:]+\]) = (0x[0-9a-f]+)(?: \(.*\))?$", explained, re.M)}
    rows = visit.run("return [...document.querySelectorAll('#looks tr')].map((row) => [...row.cells].map((cell) => cell.textContent))")
    visit.check("bytes that the filter looked at", {tuple(row[:2]) for row in rows}, wanted)
    visit.check("a port's name", ["ether[36:2]", "0x1f90", "destination port: 8080"] in rows, True)
    executed = re.findall(r"^\((\d{3})\).* (A 0x[0-9a-f]+ X 0x[0-9a-f]+)$", explained, re.M)
    lines = visit.run("return [...document.querySelectorAll('.insn.way')].map((line) => [line.textContent.slice(1, 4), line.querySelector('.registers').textContent])")
    visit.check("the run with its registers", [tuple(line) for line in lines], executed)
    lit = visit.run("return [...document.querySelectorAll('#graph .node.way .title')].map((title) => title.textContent)")
    visit.check("the way through the graph", (lit[0], lit[-1]), ("ethertype = IPv4?", "accept: the packet is kept"))


def see_marked_bytes(visit):
    """The bytes that are marked in the dump are those that `explain -p` marks."""
    explained = visit.scene.run(["explain", "-p", "123", "-e", "tcp port 8080 or 443", VETH]).out.decode()
    marked = re.findall(r"^\t0x[0-9a-f]+:  (.*)\n(?:\t +([\^ ]+)\n)?", explained, re.M)
    count = sum(marks.count("^") for _, marks in marked) // 2
    visit.check("bytes that are marked", visit.run("return document.querySelectorAll('#bytes b').length") // 2, count)


def get_ready(visit):
    """From the end of the page's text on it takes some 100 ms until it can be used; four times that is a fault, on a busy machine too."""
    took, spun = [], []
    for _ in range(5):
        visit.open("#e=ip")
        took.append(visit.run("return performance.getEntriesByName('ready')[0].startTime - performance.getEntriesByType('navigation')[0].domInteractive"))
        spun.append(visit.run(f"{SPIN} return spin()"))
    took, slow = statistics.median(took), statistics.median(spun)
    visit.check(f"ready within 400 ms, not {took} where a loop takes {slow}", took <= 400 * max(1, slow / IDLE), True)


def type_filters(visit):
    """Typing, a fault with its caret, and how long an answer takes."""
    visit.open()
    visit.filter("icmp and proot 17")
    visit.check("a fault: its caret, its hint and its name", visit.parts("fault"), [" " * 9 + "^", "did you mean proto?", "BadWord 9"])
    visit.filter("ip6")
    visit.check_has("a hint of the command", "fault", "-f f.bpf with cut, check or explain\n(That is for the command bpftap; this page reads expressions only.)")
    visit.filter("icmp and proot 17")
    visit.filter("udp port 5353")
    visit.check_has("another filter", "counts", "253 packets: 67 Yes, 186 No, 0 Abort")
    visit.check("no fault is left", visit.text("fault"), "")
    visit.run("const only = document.getElementById('only'); only.value = 'Yes'; only.dispatchEvent(new Event('change'))")
    places = "return [...document.querySelectorAll('.row')].map((row) => row.dataset.place).join(' ')"
    shown = visit.run(places)
    visit.run("const field = document.getElementById('filter'); field.value = 'udp prot 5353'; field.dispatchEvent(new Event('input'))")
    visit.check("while a filter has a fault, the list has the packets of the one before", (visit.text("fault") != "", visit.run(places)), (True, shown))
    visit.filter("udp port 5353")
    visit.check_has("the filter again", "counts", "253 packets: 67 Yes, 186 No, 0 Abort")
    took, spun = visit.run(SPIN + """
        const field = document.getElementById('filter'), took = [], spun = [];
        for (let n = 0; n < 50; n++) {
          field.value = 'tcp port 80 or udp port 5' + '3'.repeat(n % 3);
          const begun = performance.now();
          field.dispatchEvent(new Event('input'));
          took.push(performance.now() - begun);
          if (n % 5 === 0) spun.push(spin());
        }
        return [took, spun]""")
    took, slow = statistics.median(took), statistics.median(spun)
    visit.check(f"a keystroke's answer within 32 ms, not {took} where a loop takes {slow}", took <= 32 * max(1, slow / IDLE), True)


def use_keys_alone(visit):
    """Everything by keys: the list, the steps of a run, the second filter."""
    visit.open("#e=icmp")
    visit.wait_for("counts", "49 Yes")
    visit.run("document.getElementById('packets').focus()")
    visit.press("ArrowDown", "ArrowDown")
    visit.check_has("two packets further down", "packet-title", "Packet 4")
    visit.press("End")
    visit.check_has("the last packet", "packet-title", "Packet 252")
    visit.press("Home", "ArrowDown", "ArrowDown")
    visit.check_has("the third packet", "packet-title", "Packet 2:")
    visit.press("ArrowLeft")
    visit.check_has("a step back", "step", "Step 4 of 5: (003) jeq #0x1 jt 4 jf 5: A 0x1 X 0x0")
    visit.press("ArrowLeft", "ArrowLeft", "ArrowLeft", "ArrowLeft")
    visit.check_has("the first step", "step", "Step 1 of 5: (000) ldh [12]: A 0x800 X 0x0")
    # From the filter by the tabulator to the second filter.
    visit.run("document.getElementById('filter').focus()")
    visit.press("Tab", "Tab", *"icmp and ip")
    visit.check_has("the second filter, typed", "same", "Same")
    visit.check("the link has it", "o=icmp%20and%20ip" in visit.wait("return location.hash.includes('&o=') && location.hash"), True)


def see_difference(visit):
    """Two filters that differ, and the packet that shows it, opened by a click."""
    visit.open("#e=tcp&o=tcp%20portrange%200-65535")
    visit.check_has("they differ", "same", "Differ")
    visit.check_has("both answers", "same", "Yes tcp")
    visit.click("open-witness")
    visit.check_has("the packet", "capture-name", "the packet that shows the difference, 1 packet")
    visit.check_has("one packet", "counts", "1 packet: 1 Yes, 0 No, 0 Abort")
    visit.check_has("the first filter's answer", "reason", "Yes tcp")


def give_files(visit):
    """A file by its button, by a drop, a torn one, one that is none, and one with 100,000 packets."""
    visit.open("#e=ip")
    visit.scene.put({"one.pcap": HEADER + IP_RECORD, "torn.pcap": TORN, "none.pcap": b"\n\r\r\n" + bytes(100)})
    visit.browser.give_file("file", visit.scene.folder / "one.pcap")
    visit.check_has("a file", "capture-name", "one.pcap, 1 packet")
    visit.browser.give_file("file", visit.scene.folder / "torn.pcap")
    visit.check_has("a torn file", "capture-name", "torn.pcap, 1 packet: TornRecord 1; the packets before it are shown")
    visit.browser.give_file("file", visit.scene.folder / "none.pcap")
    visit.check_has("no capture", "capture-name", "none.pcap, 0 packets: NotSavefile")
    visit.check("what it is, as the program says it", visit.text("capture-hint"), plain(below_fault(visit.scene, "explain", "-e", "ip", "none.pcap")[0]))
    visit.run("""
        const data = new DataTransfer(), bytes = Uint8Array.from(arguments[0]);
        data.items.add(new File([bytes], 'dropped.pcap'));
        document.dispatchEvent(new DragEvent('drop', { dataTransfer: data, bubbles: true, cancelable: true }))""", list(HEADER + 2 * IP_RECORD))
    visit.check_has("a dropped file", "capture-name", "dropped.pcap, 2 packets")
    visit.check("nothing is said of it", visit.text("capture-hint"), "")
    for name, content in {**{name: first + bytes(40) for name, first in OTHER_FILES.items()}, **CUT_FILES}.items():
        visit.scene.put({name: content})
        visit.browser.give_file("file", visit.scene.folder / name)
        visit.check_has(name, "capture-name", f"{name}, {'1 packet' if name == 'torn.pcap' else '0 packets'}: ")
        said = "\n".join(below_fault(visit.scene, "explain", "-e", "ip", name)).replace(", into a file or to /dev/stdin", "")
        visit.check(f"what {name} is", visit.text("capture-hint"), plain(said))
    _, pcapng, _ = next(forms.forms())
    visit.scene.put({"own.pcapng.gz": gzip.compress(pcapng)})
    visit.browser.give_file("file", visit.scene.folder / "own.pcapng.gz")
    visit.check_has("a file that is unpacked and converted", "capture-name", "own.pcapng.gz, 2 packets")
    visit.check("that is said", visit.text("converted"), "It was unpacked and converted from pcapng by this page, which is not part of what is proved.")
    visit.check_has("its packet", "packet-title", "Packet 0: 60 bytes")


def give_files_again(visit):
    """A file that is chosen twice is read twice; one that cannot be read is named; a link of a lesson opens the lesson's capture."""
    visit.open("#k=filters&e=icmp")
    visit.check("a link has this capture", visit.run("return document.getElementById('capture-link').hidden"), True)
    for count in (1, 2):
        visit.scene.put({"one.pcap": HEADER + count * IP_RECORD})
        visit.browser.give_file("file", visit.scene.folder / "one.pcap")
        visit.check_has(f"chosen {count} times", "capture-name", f"one.pcap, {counted(count)}")
    visit.check("a link has another one", visit.run("return document.getElementById('capture-link').hidden"), False)
    visit.wait("return location.hash === '#e=icmp&k=filters'")
    visit.run("const link = document.querySelector('#lesson li a'); link.hash = location.hash; link.click()")
    visit.check_has("the address that is there", "capture-name", "examples/veth.pcap, 253 packets")
    visit.browser.give_file("file", visit.scene.folder / "one.pcap")
    visit.check_has("the file again", "capture-name", "one.pcap, 2 packets")
    visit.run("document.querySelectorAll('#lesson li a')[2].click()")
    visit.check_has("a lesson's link", "capture-name", "examples/veth.pcap, 253 packets")
    visit.check_has("its packet", "packet-title", "Packet 2: 98 bytes")
    visit.run("""
        File.prototype.arrayBuffer = () => Promise.reject(new Error('no such file'));
        const data = new DataTransfer();
        data.items.add(new File([], 'gone.pcap'));
        document.dispatchEvent(new DragEvent('drop', { dataTransfer: data, bubbles: true, cancelable: true }))""")
    visit.check_has("a file that is gone", "capture-hint", "cannot read gone.pcap: ")
    visit.check("why", visit.text("capture-hint").endswith("no such file"), True)


def counted(count):
    return "1 packet" if count == 1 else f"{count} packets"


EXPLAINED = re.compile(r"^place (\d+) time (\d+)\.(\d{9}) len (\d+) captured (\d+) (Yes|No|Abort) (.*)$", re.M)


def read_rows(visit):
    """The rows of the list are the lines of `explain`, for packets that were cut; the times are UTC."""
    visit.open("#e=tcp%20port%208080%20or%20443&c=40&p=0")
    visit.check_has("all counted", "counts", "253 packets: ")
    visit.scene.run(["cut", "-s", "40", "-e", "", VETH, "cut.pcap"])
    wanted = []
    explained = visit.scene.run(["explain", "-e", "tcp port 8080 or 443", "cut.pcap"]).out.decode()
    for place, seconds, nanos, size, captured, verdict, reason in EXPLAINED.findall(explained):
        clock = datetime.datetime.fromtimestamp(int(seconds), datetime.timezone.utc).strftime("%H:%M:%S")
        wanted.append([place, f"{clock}.{nanos[:6]}", f"{size} bytes" if captured == size else f"{captured} of {size} bytes", verdict, reason])
    rows = visit.run("return [...document.querySelectorAll('.row')].map((row) => [...row.children].map((cell) => cell.textContent))")
    visit.check("rows", (rows, len(rows) > 5), (wanted[:len(rows)], True))
    visit.check("the first row", rows[0][:3], ["0", "07:31:58.563134", "40 of 42 bytes"])
    visit.check("the title", visit.text("packet-title"), "Packet 0: 40 of 42 bytes")
    visit.check("how they count", visit.run("return document.body.textContent.includes('counted from 0, times in UTC')"), True)


# Bytes of packets of the example, their values, and the names of RFC 826, 791, 792 and 793 for them.
FIELDS = {
    0: [("ether[20:2]", "0x1", "opcode: 1"), ("ether[28:4]", "0xc0000201", "sender protocol address: 192.0.2.1"),
        ("ether[38:4]", "0xc0000202", "target protocol address: 192.0.2.2")],
    2: [("ether[0:4]", "0x2000000", "Ethernet destination, bytes 0-3: 02:00:00:00"), ("ether[4:2]", "0xb", "Ethernet destination, bytes 4-5: 00:0b"),
        ("ether[6:4]", "0x2000000", "Ethernet source, bytes 0-3: 02:00:00:00"), ("ether[10:2]", "0xa", "Ethernet source, bytes 4-5: 00:0a"),
        ("ether[12:2]", "0x800", "ethertype: IPv4"),
        ("ether[14]", "0x45", "version and IHL"), ("ether[16:2]", "0x54", "total length: 84"), ("ether[18:2]", "0x3179", "identification"),
        ("ether[20:2]", "0x4000", "flags and fragment offset: no fragment, don't fragment"), ("ether[22]", "0x40", "time to live: 64"),
        ("ether[23]", "0x1", "protocol: ICMP"), ("ether[26:4]", "0xc0000201", "source address: 192.0.2.1"),
        ("ether[30:4]", "0xc0000202", "destination address: 192.0.2.2"), ("ether[34]", "0x8", "type: 8"), ("ether[35]", "0x0", "code: 0")],
    124: [("ether[34:2]", "0x1f90", "source port: 8080"), ("ether[36:2]", "0xe468", "destination port: 58472"), ("ether[47]", "0x12", "control bits")],
}
# A filter, and what the blocks of its program ask.
QUESTIONS = [
    ("ip[2:2] > 100 and ip[4:2] >= 100 and ip[8] = 64", ["ethertype = IPv4?", "total length > 100?", "identification ≥ 0x64?", "time to live = 64?"]),
    ("ip[6:2] & 8191 != 0 or tcp[13] & 2 != 0", ["ethertype = IPv4?", "later fragment?", "protocol = TCP?", "later fragment?", "control bits: SYN?"]),
]


def name_fields(visit):
    """Bytes and their values by the names of their fields, and the questions of a program's blocks."""
    for place, fields in FIELDS.items():
        text = " or ".join(f"{look} = 255" for look, _, _ in fields)
        visit.open(f"#e={urllib.parse.quote(text)}&p={place}")
        visit.check_has(f"packet {place}", "packet-title", f"Packet {place}: ")
        visit.wait_for("looks", fields[-1][0])
        rows = visit.run("return [...document.querySelectorAll('#looks tr')].map((row) => [...row.cells].map((cell) => cell.textContent))")
        visit.check(f"fields of packet {place}", rows, [list(field) for field in fields])
    for text, wanted in QUESTIONS:
        visit.filter(text)
        titles = visit.run("return [...document.querySelectorAll('#graph .node .title')].map((title) => title.textContent)")
        visit.check(f"questions of {text}", [title for title in titles if title.endswith("?")], wanted)


def step_through(visit):
    """Each step of a run that stores into a cell: the line of `explain -p`."""
    text = "ip[0] + ip[1] * 2 > 5"
    visit.open(f"#e={urllib.parse.quote(text)}&p=2")
    visit.check_has("the run", "step", "Step 11 of 11")
    explained = visit.scene.run(["explain", "-p", "2", "-e", text, VETH]).out.decode()
    lines = re.findall(r"^(\(\d{3}\)) (.*?) +(A 0x\S+ X 0x\S+)(?: (M\[.*))?$", explained, re.M)
    wanted = [f"Step {number} of {len(lines)}: {place} {' '.join(insn.split())}: {registers}{stored and f', {stored}'}"
              for number, (place, insn, registers, stored) in enumerate(lines, 1)]
    seen = visit.run("""
        const click = (name) => document.getElementById(name).click(), said = () => document.getElementById('step').textContent;
        click('first-step');
        return Array.from({ length: arguments[0] }, (_, at) => { if (at) click('next-step'); return said(); })""", len(lines))
    visit.check("steps", (seen, ", M[0] 0x45" in seen[3]), (wanted, True))


# Pairs of filters, the first line of `compare`, and what the page says.
PAIRS = [
    ("ip", "ip and len >= 0", "same", "Same: both accept the same packets, of all that there can be."),
    ("ip", "ip and greater 14", "same as captured", "Same as captured: both accept the same packets, unless a packet has more bytes captured than it had on the wire."),
    ("port 80 or 8080", "port 8080 or 80", "differ only where one aborts", "Short: one accepts this packet, and the other one aborts; the lines below say why."),
    ("tcp", "tcp portrange 0-65535", "differ", "Differ: one accepts this packet, and the other one does not."),
    ("ip[8] < ip[9]", "ip[9] > ip[8]", "same", "Same: both accept the same packets, of all that there can be."),
]


def decide_pairs(visit):
    """The page's sentence for each answer of `compare`, and the answers of both filters to the packet that it found."""
    for first, second, answer, sentence in PAIRS:
        printed = visit.scene.run(["compare", first, second]).out.decode().splitlines()
        visit.check(f"{first} and {second}, decided", printed[0], answer)
        visit.open(f"#e={urllib.parse.quote(first)}&o={urllib.parse.quote(second)}")
        visit.check_has(f"{first} and {second}", "same", sentence)
        if len(printed) > 1:
            wanted = re.search(r" first (.*) second (.*)$", printed[1]).groups()
            visit.check("both answers", visit.run("return [...document.querySelectorAll('#same li')].map((line) => line.textContent)"), list(wanted))


def open_odd_links(visit):
    """A view and a packet that do not exist."""
    visit.open("#v=foo&e=icmp&p=9999")
    visit.check_has("no such packet", "packet-title", "No packet 9999: the capture has 253 packets")
    shown = visit.run("return ['filters', 'listeners'].filter((name) => !document.getElementById(name).hidden)")
    visit.check("no such view", shown, ["filters"])
    visit.press("Tab")
    visit.run("location.hash = '#e=icmp&p=252'")
    visit.check_has("the last packet", "packet-title", "Packet 252: ")
    visit.run("location.hash = '#e=icmp&p=253'")
    visit.check_has("one more", "packet-title", "No packet 253: the capture has 253 packets")


def give_many_packets(visit):
    """100,000 packets: asked in some 2 seconds, and the list scrolls to the last one; four times that is a fault, on a busy machine too."""
    frames = records(VETH.read_bytes())
    visit.scene.put({"many.pcap": HEADER + b"".join(frames[number % len(frames)] for number in range(100_000))})
    visit.open("#e=tcp%20port%208080%20or%20443")
    visit.browser.give_file("file", visit.scene.folder / "many.pcap")
    visit.check_has("100,000 packets", "counts", "100000 packets")
    begun = time.monotonic()
    visit.filter("udp port 5353 or arp")
    visit.wait("return document.getElementById('counts').textContent.startsWith('100000 packets: 29')")
    took = time.monotonic() - begun
    slow = visit.run(f"{SPIN} return Math.max(spin(), spin(), spin())")
    visit.check(f"asked in at most 8 s, not {took:.2f} s where a loop takes {slow}", took <= 8 * max(1, slow / IDLE), True)
    visit.run("document.getElementById('packets').focus()")
    visit.press("End")
    visit.check_has("the last packet", "packet-title", "Packet 99999")
    visit.check("few rows are in the page", visit.run("return document.querySelectorAll('.row').length") < 60, True)
    visit.check("it is in sight", visit.run("return document.getElementById('packet-99999') !== null"), True)


def steps_of(scene, script):
    """The words of `bpftap steps` for the example's listeners and a script."""
    scene.put({"script.txt": script})
    return ["steps", ROOT / "examples" / "steps" / "listeners.txt", "script.txt", VETH]


def play_steps(visit):
    """Listeners and a script: the reports are those of `bpftap steps`, and the picture is gone through step by step."""
    steps = ROOT / "examples" / "steps"
    visit.open("#v=listeners")
    visit.check_has("the reports", "reports", "listener 0 received 8 matched 6 dropped 1")
    wanted = visit.scene.run(["steps", steps / "listeners.txt", steps / "script.txt", VETH]).out.decode()
    visit.check("all reports", visit.text("reports"), wanted)
    visit.run("document.getElementById('picture').focus()")
    visit.press(*["ArrowRight"] * 7)
    visit.check_has("step 8", "column", "step 8 arrive capture 0 place 6")
    answered = visit.scene.run(["steps", "-v", steps / "listeners.txt", steps / "script.txt", VETH]).out.decode()
    wanted = re.search(r"^step 8 .*\n((?:  .*\n)+)", answered, re.M)[1].split("\n  ")
    seen = visit.run("return [...document.querySelectorAll('#column-answers li')].map((line) => line.textContent)")
    visit.check("what became of it, and why", seen, [line.strip() for line in wanted])
    drawn = visit.run("return document.getElementById('picture').shadowRoot.querySelectorAll('rect.dropped, rect.over').length")
    visit.check("drops in the picture", drawn, 3)
    places = visit.run("""
        const root = document.getElementById('picture').shadowRoot, x = (shapes) => [...root.querySelectorAll(shapes)].map((shape) => shape.getAttribute('x'));
        return [x('rect.cursor'), x('g > svg rect.dropped')]""")
    visit.check("the cursors are at the column of the drop", places, [["70", "70"], ["70"]])
    visit.browser.type_into("listeners-text", "64 95 icmp\n0 262176i arp")
    visit.check_has("a listener that is refused", "steps-fault", "BadCapacity")
    visit.check("its line", visit.parts("steps-fault")[0], "line 1 is: 64 95 icmp\nwith SNAP 64, CAPACITY is 96 to 1048576 bytes, not 95")
    for listeners, script in STEPS_REFUSED:
        visit.scene.put({"listeners.txt": listeners, "script.txt": script})
        visit.browser.type_into("listeners-text", listeners)
        visit.browser.type_into("script-text", script)
        said = below_fault(visit.scene, "steps", "listeners.txt", "script.txt", VETH)
        is_line = "line" in said[0]
        wanted = [plain("\n".join(said)), said.fault.removeprefix("bpftap: ")] if is_line else [said[0], said[1], plain(said[2]), "BadWord 9"]
        visit.check_has(f"{listeners!r} and {script!r}", "steps-fault", wanted[-1])
        visit.check(f"{listeners!r} and {script!r}, said", visit.parts("steps-fault"), wanted)
    visit.browser.type_into("listeners-text", (steps / "listeners.txt").read_text())
    visit.browser.type_into("script-text", "arrive\nread 5\narrive\n")
    visit.check_has("the line of a listener that does not exist", "steps-fault", "line 2 is: read 5\nLISTENERS has 2 lines, and its listeners are counted from 0NoListener 1")
    said = below_fault(visit.scene, *steps_of(visit.scene, "arrive\nread 5\narrive\n"))
    visit.check("as the program prints it", said[0], "line 2 of SCRIPT is: read 5")
    left = visit.run("return document.getElementById('picture').shadowRoot.childElementCount")
    visit.check("nothing is left of the steps before", (visit.text("reports"), visit.text("column"), visit.text("column-answers"), left), ("", "", "", 0))


def follow_lesson(visit):
    """A lesson's links: each shows what it says."""
    visit.open("#k=rejects&e=tcp&c=14&p=2")
    visit.check_has("frames that were cut", "reason", "Abort tcp, byte 23 is not captured")
    visit.check_has("and a byte that is not there", "looks", "not captured")
    visit.run("document.querySelectorAll('#lesson li a')[3].click()")
    visit.check_has("the next stop: a later fragment", "reason", "No udp port 5353")
    visit.check_has("its name", "looks", "flags and fragment offset: more fragments, offset 1480")
    for place, wanted in [(115, "more fragments, offset 0"), (117, "last fragment, offset 2960"), (2, "no fragment, don't fragment")]:
        visit.open(f"#e=ip%5B6:2%5D%20!=%201&p={place}")
        visit.check_has(f"the flags of packet {place}", "looks", f"fragment offset: {wanted}")
    count = visit.run("return document.querySelectorAll('#lessons a').length")
    visit.check("lessons", count, len([*(ROOT / "examples" / "lessons").glob("*.md")]) - 2)
    names = visit.run("return [...document.querySelectorAll('#lessons a')].map((link) => new URLSearchParams(link.hash.slice(1)).get('k'))")
    for name in names:
        visit.check(f"the lesson {name} has a page", (ROOT / "examples" / "lessons" / f"{name}.md").is_file(), True)
        visit.run("document.querySelector(`#lessons a[href*='k=${arguments[0]}']`).click()", name)
        visit.check_has(f"the lesson {name}", "lesson", f"examples/lessons/{name}.md")
        for place in range(visit.run("return document.querySelectorAll('#lesson li a').length")):
            visit.run("document.querySelectorAll('#lesson li a')[arguments[0]].click()", place)
            visit.wait("return document.querySelectorAll('#lesson li a')[arguments[0]].getAttribute('aria-current') === 'step'", place)
            shown = "fault" if name == "filters" and place == 4 else ""
            visit.check(f"stop {place} of {name}", ("fault" if visit.text("fault") else "") + visit.text("steps-fault"), shown)
    visit.open("#k=options&e=ip%5B0%5D+%26+0xf+!%3D+5&x=options&p=1")
    visit.check_has("a capture of its own", "capture-name", "examples/lessons/options.pcap, 4 packets")
    visit.check_has("its packets", "counts", "4 packets: 3 Yes, 1 No, 0 Abort")
    visit.click("example-file")
    visit.check_has("the example", "capture-name", "examples/veth.pcap, 253 packets")
    visit.open("#x=constructor")
    visit.check_has("no such capture", "capture-name", "examples/veth.pcap, 253 packets")
    visit.check("it is said", visit.text("notice"), "x=constructor of the link names no capture of this page.")


def survive_trap(visit):
    """A call that traps, as none should: the page says so, and goes on with the next filter. The scripts are made to call so."""
    plain, trapping = "library.compile(expression);", 'expression === "trap" ? library.call("image", 8n, 1n << 50n, 8n, 8n, 8n) : library.compile(expression);'
    scripts = make_page.script()
    visit.scene.put({"trap.html": make_page.page_of(part("module"), scripts.replace(plain, trapping, 1))})
    visit.check("a call that traps", plain in scripts, True)
    visit.browser.open(f"file://{visit.scene.folder}/trap.html#e=ip")
    visit.wait_for("counts", "Yes")
    visit.filter("trap")
    visit.check_has("it is said", "stopped", "The library stopped in this call (image: ")
    visit.filter("arp")
    visit.check_has("the next filter", "counts", "253 packets: 7 Yes")
    visit.check("nothing more is said", visit.run("return document.getElementById('stopped').hidden"), True)


def stay_quiet(visit):
    """No message on the console, and nothing is asked for but the page and its own workers."""
    visit.check("the console", [line for line in visit.browser.complaints() if "bpftap.html" in line or visit.browser.name == "Chromium"], [])
    asked = [url for url in visit.browser.requests() if not url.startswith(("chrome:", "blob:", "data:image/gif"))]
    visit.check("requests", {url.partition("#")[0] for url in asked} - {f"file://{PAGE}", "about:blank"}, set())


VISITS = [look_at_packet, see_marked_bytes, read_rows, name_fields, step_through, type_filters, use_keys_alone, see_difference, decide_pairs,
          give_files, give_files_again, open_odd_links, get_ready, give_many_packets, play_steps, follow_lesson, *truth.VISITS, *comfort.VISITS, stay_quiet, survive_trap]


def visit_page(scene, kind):
    """All visits, in one browser, and some of them where it is dark."""
    if not is_there(scene) or not scene.has(*kind.tools):
        return
    scene.start({})
    for is_dark, visits in ((False, VISITS), (True, comfort.DARK_VISITS)):
        browser = browsers.started(kind, is_dark)
        try:
            for one in visits:
                one(Visit(scene, browser))
        finally:
            browser.close()


@case
def chromium_shows_it(scene):
    """Chromium, without a window: what a student and a teacher do with the page."""
    visit_page(scene, browsers.Chromium)


@case
def firefox_shows_it(scene):
    """Firefox, without a window: the same."""
    visit_page(scene, browsers.Firefox)
