"""The library for C and Python: its calls, what it exports, memory that is refused, and that it answers as the program does."""
import os
import pathlib
import random
import re
import subprocess
import sys

from . import hints
from .common import LIMIT, ROOT, TORN, VETH, WHOLE, as_bytes, case, records
from .sameness import FAR

sys.path.insert(0, str(ROOT / "bench"))
import meaning

SOURCES = ROOT / "tests" / "library"
LIBRARY = pathlib.Path(os.environ.get("BPFTAP_LIBRARY") or ROOT / "out" / "lib" / "libbpftap.so.1").resolve()
ARCHIVE = LIBRARY.with_name("libbpftap.a")
STRICT = ["-Wall", "-Wextra", "-Werror"]

# How the tests of calls are compiled: each compiler, plain and with the sanitizers of both memory and arithmetic.
WAYS = [[compiler, *flags] for compiler in ("gcc", "clang")
        for flags in (["-std=c11", "-O2"], ["-std=c11", "-O1", "-g", "-fsanitize=address,undefined", "-fno-sanitize-recover"])]

# The capture that the answers of random expressions are compared on has frames of each kind, and some that are cut short.
PARTS = ["ip", "arp", "rarp", "tcp", "udp", "icmp", "host 10.0.0.{}", "src host 10.0.0.{}", "dst net 10.0.0.0/30", "port {}", "src port 53",
         "tcp dst port {}", "udp src port {}", "portrange 50-{}", "ether proto {}", "ip proto {}", "less {}", "greater {}", "ip broadcast",
         "ether multicast", "ip multicast", "ip[{}] = {}", "ip[0] & 15 = 5", "udp[0:2] = {}", "tcp[13] & 2 != 0", "len > {}", "ether[{}] < {}",
         "(len - {}) / (len - 60) = 1", "ip[ip[0] & 15] = 0"]


def is_there(scene):
    """Whether the library was built."""
    if not LIBRARY.is_file():
        scene.leave(f"{LIBRARY} is not there: ./build bpftap_c makes it")
    return LIBRARY.is_file()


def done(scene, words, at=None, limit=LIMIT, **how):
    """Runs words in the scene's folder, or another one; what was printed, and the status."""
    ended = subprocess.run(words, cwd=at or scene.folder, stdout=subprocess.PIPE, stderr=subprocess.STDOUT, timeout=limit, **how)
    return ended.stdout.decode(errors="replace"), ended.returncode


def compiled(scene, words, name, *flags):
    """Compiles a test against the archive; returns its path, or `None` if that failed."""
    program = scene.folder / name
    words = [*words, *STRICT, f"-I{ROOT / 'include'}", SOURCES / f"{name}.c", ARCHIVE, *flags, "-o", program]
    said, status = done(scene, words)
    scene.check(f"{' '.join(map(str, words[:4]))} {name}.c", (said, status), ("", 0))
    return program if status == 0 else None


def passes(scene, words, **how):
    scene.check(" ".join(map(str, words)), done(scene, words, **how), ("", 0))


@case
def calls_do_what_the_header_says(scene):
    """Each call, its faults and memory that is one item short: by gcc and clang, with their sanitizers, and by valgrind."""
    if not is_there(scene):
        return
    scene.start({})
    for name in ("calls", "listeners", "programs"):
        for words in WAYS:
            if scene.has(words[0]):
                program = compiled(scene, words, name)
                if program:
                    passes(scene, [program])
        if scene.has("gcc", "valgrind"):
            program = compiled(scene, ["gcc", "-std=c11", "-g"], name)
            passes(scene, ["valgrind", "-q", "--error-exitcode=9", "--leak-check=full", program])


@case
def nothing_beside_is_touched(scene):
    """Random calls whose memory lies between guard pages, read and written, with room for all and with room for one item less."""
    if is_there(scene) and scene.has("gcc"):
        scene.start({})
        program, chance = compiled(scene, ["gcc", "-std=c11", "-O1"], "guards"), random.Random(23)
        texts = "".join(f"{expression(chance)}\n" for _ in range(3000))
        if program:
            ended = subprocess.run([program, VETH, "3000"], input=texts.encode(), stdout=subprocess.PIPE, timeout=LIMIT)
            scene.check("guards", (ended.stdout.decode(), ended.returncode), ("", 0))


@case
def threads_do_not_meet(scene):
    """Two threads with a program and a listener each, and with a program that both run."""
    if is_there(scene) and scene.has("gcc"):
        scene.start({})
        for flags in (["-O2"], ["-O1", "-g", "-fsanitize=thread"]):
            program = compiled(scene, ["gcc", "-std=c11", *flags], "threads", "-pthread")
            if program:
                passes(scene, [program])


@case
def refused_memory_is_reported(scene):
    """If malloc or realloc fails, whichever call of it, a call returns NO_MEMORY and has written nothing."""
    if is_there(scene) and scene.has("gcc"):
        scene.start({})
        program = compiled(scene, ["gcc", "-std=c11", "-O1"], "memory", "-Wl,--wrap=malloc,--wrap=realloc")
        if program:
            passes(scene, [program])


def stated_stacks():
    """How many KiB of stack the header states: for calls that read no expression, for short expressions, and for any."""
    header = " ".join((ROOT / "include" / "bpftap.h").read_text().replace("\n *", " ").split())
    found = re.search(r"(\d+) KiB of stack are enough for a call that reads no expression.* need (\d+) KiB for expressions of up to 1,000 bytes, "
                      r"and (\d+) MiB for any", header)
    return int(found[1]), int(found[2]), 1024 * int(found[3])


def check_stacks(scene, called, limit=LIMIT):
    """A program of tests/library/stacks.c, and how it is called: no call runs out of the stack that the header states."""
    others, short, most = stated_stacks()
    chance = random.Random(17)
    texts = [text for text in (meaning.text_of(meaning.expression(chance, 2)) for _ in range(100)) if len(text) <= 1000]
    given = {
        "random": (short, "".join(f"{text}\t{other}\n" for text, other in zip(texts, texts[1:]))),
        "deep, 1,000 bytes": (short, python(scene, "deep.py", ["1000"])), "deep, 8,192 bytes": (most, python(scene, "deep.py", ["8192"])),
        "wide, 1,000 bytes": (short, python(scene, "deep.py", ["--wide", "1000"])), "wide, 8,192 bytes": (most, python(scene, "deep.py", ["--wide", "8192"])),
    }
    for name, (stack, lines) in given.items():
        budget = ["2000000"] if name.startswith("wide") else []
        ended = subprocess.run([*called, str(stack), *budget], input=lines.encode(), stdout=subprocess.PIPE, timeout=limit)
        touched = [[*map(int, line.split())] for line in ended.stdout.decode().splitlines()]
        scene.check(f"{name}: status and lines", (ended.returncode, len(touched)), (0, lines.count("\n")))
        scene.check(f"{name}: a call that reads no expression", max(row[-1] for row in touched) <= others << 10, True)


@case
def stacks_suffice(scene):
    """No call runs out of the stack that the header states: deep expressions of 1,000 and of 8,192 bytes, and random ones of bench/meaning.py."""
    if is_there(scene) and scene.has("gcc"):
        scene.start({})
        program = compiled(scene, ["gcc", "-std=c11", "-O2"], "stacks", "-pthread")
        if program:
            check_stacks(scene, [program])


def frames():
    """A capture of frames of each kind, some of them cut short."""
    whole = records(VETH.read_bytes())
    chance = random.Random(5)
    chosen = chance.sample(whole, 50)
    short = []
    for record in chosen[:25]:
        captured = chance.randrange(len(record) - 16)
        short.append(record[:8] + captured.to_bytes(4, "little") + record[12 : 16 + captured])
    return VETH.read_bytes()[:24] + b"".join(chosen + short)


def parts_of_each_form():
    """The captures of examples/ in both byte orders and both units of time, by name: whole, and torn at many bytes."""
    for form in sorted(VETH.parent.glob("veth*.pcap")):
        whole = form.read_bytes()
        for size in (*range(20, 60, 3), *range(1000, len(whole), 9973), len(whole)):
            yield f"{form.stem}-{size}.pcap", whole[:size]


def expression(chance, depth=0):
    """An expression that looks random; some are refused."""
    kind = chance.random()
    if depth < 3 and kind < 0.25:
        return f"{expression(chance, depth + 1)} {chance.choice(['and', 'or'])} {expression(chance, depth + 1)}"
    if depth < 3 and kind < 0.35:
        return f"not ({expression(chance, depth + 1)})"
    part = chance.choice(PARTS)
    while "{}" in part:
        part = part.replace("{}", str(chance.choice([0, 1, 2, 6, 17, 53, 60, 80, 443, 2048, 5353])), 1)
    return part


@case
def answers_as_the_program_does(scene):
    """10,000 expressions over a capture: C, Python and `bpftap split` accept the same packets, and refuse the same expressions for the same
    fault."""
    if not is_there(scene) or not scene.has("gcc"):
        return
    scene.start({"in.pcap": frames()})
    chance = random.Random(7)
    texts = [expression(chance) for _ in range(10_000)]
    program = compiled(scene, ["gcc", "-std=c11", "-O2"], "answers")
    said = subprocess.run([program, "in.pcap"], cwd=scene.folder, input="\n".join(texts).encode() + b"\n", stdout=subprocess.PIPE, timeout=LIMIT)
    answers = said.stdout.decode().splitlines()
    scene.check("status and lines of C", (said.returncode, len(answers)), (0, len(texts)))
    seen = python(scene, "answers.py", ["in.pcap"], "\n".join(texts) + "\n")
    scene.check("Python's answers beside C's", differing(texts, seen.splitlines(), answers), [])
    # The program takes a hundred expressions in one run; those that are refused, one by one.
    good = [place for place, answer in enumerate(answers) if set(answer) <= {"0", "1"}]
    packets = records((scene.folder / "in.pcap").read_bytes())
    for begin in range(0, len(good), 100):
        part = good[begin : begin + 100]
        scene.put({"lines.txt": "".join(f"0 {place}.pcap {texts[place]}\n" for place in part)})
        ended = scene.run("split lines.txt in.pcap")
        kept = [scene.read(f"{place}.pcap")[24:] for place in part]
        wanted = [b"".join(packet for packet, answer in zip(packets, answers[place]) if answer == "1") for place in part]
        scene.check("split's status", ended.status, 0)
        scene.check("split's packets beside C's", [texts[place] for place, one, other in zip(part, kept, wanted) if one != other], [])
        for place in part:
            (scene.folder / f"{place}.pcap").unlink()
    refused = [place for place in range(len(texts)) if place not in set(good)]
    for place in refused[:300]:
        scene.check(f"check {texts[place]}", scene.run(["check", texts[place]]).err, as_bytes(f"bpftap: {answers[place]}\n"))
    scene.check("some are accepted and some refused", (len(good) > 5000, len(refused) > 100), (True, True))


@case
def hints_are_those_of_the_program(scene):
    """Expressions that are refused, by hand and random ones with a word changed: `bpftap_hint` writes the sentence that `bpftap check` prints below the
    fault, and the line below it if there is one."""
    if not is_there(scene) or not scene.has("gcc"):
        return
    scene.start({})
    program, chance = compiled(scene, ["gcc", "-std=c11", "-O1", "-g", "-fsanitize=address,undefined"], "hints"), random.Random(19)
    texts = [text for text, _, _ in hints.EXPRESSIONS if "\n" not in text and "\0" not in text] + ["ip", "x" * 9000]
    for _ in range(300):
        words = expression(chance).split()
        place = chance.randrange(len(words))
        words[place] = chance.choice([words[place][1:], words[place].upper(), words[place] + "x", "", "http", "1.2.3", "ip6"])
        texts.append(" ".join(words))
    ended = subprocess.run([program], input="\n".join(texts).encode() + b"\n", stdout=subprocess.PIPE, timeout=LIMIT) if program else None
    seen = ended.stdout.decode().split("\n") if ended else []
    scene.check("status and lines", (ended and ended.returncode, len(seen)), (0, len(texts) + 1))
    for text, line in zip(texts, seen):
        fault, *below = scene.run(["--hints", "check", text]).err.decode().splitlines() or [""]
        has_place = fault.rpartition(" ")[2].isdigit()
        scene.check(text[:100], line.split("\t") if line else [], [said[2:] for said in below[2 if has_place else 0 :]])


# The first line that `bpftap compare` prints of two expressions without a capture.
DECIDED = {"SAME": "same", "SAME_AS_CAPTURED": "same as captured", "SHORT": "differ only where one aborts", "DIFFER": "differ",
           "NOT_DECIDED": "not decided"}


@case
def compares_as_the_program_does(scene):
    """Pairs of expressions: Python's `compare` decides what `bpftap compare` decides, and its packet is the one that `-w` writes."""
    if not is_there(scene):
        return
    scene.start({})
    chance = random.Random(13)
    texts = [text for text in (expression(chance, 2) for _ in range(400)) if scene.run(["check", text]).status == 0]
    pairs = [*zip(texts[::2], texts[1::2]), *((text, f"not not ({text})") for text in texts[:40] if text)]
    seen = python(scene, "comparisons.py", [], "".join(f"{first}\t{second}\n" for first, second in pairs)).splitlines()
    scene.check("lines", len(seen), len(pairs))
    for (first, second), line in zip(pairs, seen):
        answer, _, packet = line.partition(" ")
        (scene.folder / "out.pcap").unlink(missing_ok=True)
        printed = scene.run(["compare", "-w", "out.pcap", first, second]).out.decode().partition("\n")[0]
        scene.check(f"{first} and {second}", DECIDED[answer], printed.partition(":")[0])
        if packet:
            written = (scene.folder / "out.pcap").read_bytes()
            scene.check(f"{first} and {second}: the packet", packet, f"{int.from_bytes(written[36:40], 'little')} {written[40:].hex()}")
    answers = {line.partition(" ")[0] for line in seen}
    scene.check("answers that are among these", {"SAME", "DIFFER", "NOT_DECIDED"} <= answers, True)


@case
def far_bytes_take_no_memory(scene):
    """`bpftap_compare` answers what `bpftap compare` does of bytes that are too far away, in 400 MB of addresses."""
    if is_there(scene) and scene.has("gcc"):
        scene.start({})
        program = compiled(scene, ["gcc", "-std=c11", "-O1"], "far")
        lines = "".join(f"{first}\t{second}\n" for first, second in FAR)
        ended = subprocess.run(["bash", "-c", 'ulimit -v 400000\nexec "$0"', program], input=lines.encode(), stdout=subprocess.PIPE, timeout=LIMIT)
        scene.check("far", (ended.stdout.decode(), ended.returncode), ("", 0))


def differing(texts, seen, wanted):
    """The first ten texts whose answers differ."""
    return [text for text, one, other in zip(texts, seen, wanted) if one != other][:10] or [] if len(seen) == len(wanted) else ["the number of lines"]


def python(scene, name, words, given=""):
    """What a script of these tests prints, with the package of this repository."""
    environment = {**os.environ, "PYTHONPATH": str(ROOT / "bindings" / "python"), "BPFTAP_LIBRARY": str(LIBRARY), "PYTHONDONTWRITEBYTECODE": "1"}
    ended = subprocess.run([sys.executable, SOURCES / name, *words], cwd=scene.folder, input=given.encode(), stdout=subprocess.PIPE,
                           stderr=subprocess.PIPE, timeout=LIMIT, env=environment)
    scene.check(f"{name}: standard error", (ended.stderr.decode(), ended.returncode), ("", 0))
    return ended.stdout.decode()


@case
def cuts_as_the_program_does(scene):
    """Captures of each form, whole and torn at each of many bytes: Python's `cut` writes what `bpftap cut` writes, and names the same fault."""
    if not is_there(scene):
        return
    scene.start({"in.pcap": frames()})
    whole = scene.read("in.pcap")
    captures = {f"{size}.pcap": whole[:size] for size in [*range(0, 60), *range(1000, len(whole), 977), len(whole)]}
    captures.update(parts_of_each_form())
    scene.check("there are captures of four forms", len({capture[:4] for capture in captures.values() if len(capture) >= 24}), 4)
    scene.put(captures)
    texts = python(scene, "cuts.py", ["udp or arp", *captures]).splitlines()
    for name, text in zip(captures, texts):
        scene.put({"out.pcap": b""})
        order = "big" if captures[name][:1] == b"\xa1" else "little"
        unit = "nano" if b"\x3c" in captures[name][:4] else "micro"
        ended = scene.run(["cut", "-s", "64", "-o", order, "-u", unit, "-e", "udp or arp", name, "out.pcap"])
        fault, _, written = text.partition("\t")
        scene.check(f"{name}: the fault", ended.err.decode(), f"bpftap: {fault}\n" if fault else "")
        scene.check(f"{name}: what was written", scene.read("out.pcap").hex(), written)


def random_replays(scene):
    """Random scripts over random listeners: the files of each, and what `bpftap steps` prints of them."""
    scene.put({"in.pcap": frames(), "veth.pcap": VETH.read_bytes()})
    chance = random.Random(11)
    for _ in range(12):
        lines = []
        for _ in range(chance.randrange(1, 5)):
            snap = chance.choice([1, 33, 96, 500])
            lines.append(f"{snap} {chance.randrange(40 + snap, 4000)}{chance.choice(['', 'i'])} {chance.choice(['', 'ip', 'udp', 'not tcp', 'len > 100'])}")
        words = ["arrive"] * 6 + [f"{word} {number}" for word in ("flush", "read") for number in range(len(lines))]
        steps = chance.choices(words, k=400)
        steps.insert(chance.randrange(400), f"close {chance.randrange(len(lines))}")
        scene.put({"listeners": "".join(f"{line}\n" for line in lines), "script": "".join(f"{step}\n" for step in steps)})
        files = ["listeners", "script", "in.pcap", "veth.pcap"]
        ended = scene.run(["steps", *files])
        scene.check("steps", (ended.err, ended.status), (b"", 0))
        yield files, ended.out.decode()


@case
def listeners_do_what_those_of_steps_do(scene):
    """What the listeners of the library keep, drop and count in random scripts is what `bpftap steps` reports."""
    if is_there(scene):
        scene.start({})
        for files, printed in random_replays(scene):
            scene.check(scene.read("listeners").decode(), python(scene, "taps.py", files), printed)


# LISTENERS, SCRIPT and captures, each of which `bpftap steps` prints or refuses in its own way.
PLAYED = [
    "lesson.txt lesson.script veth.pcap", "l.txt s.txt whole.pcap", "l.txt s.txt torn.pcap whole.pcap", "l.txt s.txt whole.pcap torn.pcap",
    "none.txt none.txt whole.pcap", "none.txt s.txt whole.pcap", "bad.txt bad.txt empty.pcap", "l.txt bad.txt empty.pcap",
    "65.txt bad.txt empty.pcap", "65.txt s.txt empty.pcap", "65.txt read.txt empty.pcap", "refused.txt read.txt empty.pcap",
    "refused.txt s.txt whole.pcap empty.pcap", "refused.txt s.txt whole.pcap", "deep.txt s.txt whole.pcap", "small.txt s.txt whole.pcap",
]


@case
def steps_of_c_print_what_steps_prints(scene):
    """Worked examples, each kind of fault and random scripts: `bpftap_steps` writes what `bpftap steps` prints, and returns the fault that it
    reports; `bpftap_steps_json` what `steps --json` prints."""
    if not is_there(scene) or not scene.has("gcc"):
        return
    lesson = ROOT / "examples" / "steps"
    scene.start({
        "lesson.txt": (lesson / "listeners.txt").read_bytes(), "lesson.script": (lesson / "script.txt").read_bytes(), "veth.pcap": VETH.read_bytes(),
        "whole.pcap": WHOLE, "torn.pcap": TORN, "empty.pcap": "", "l.txt": "32 64\n0 300000i ip", "s.txt": "arrive\nread 0\narrive\nflush 0\nread 0\narrive",
        "none.txt": "", "bad.txt": "32 64\nx\n", "read.txt": "arrive\nread 65\n", "65.txt": "32 64\n" * 65, "refused.txt": "32 64\n32 64 tcp and 80\n",
        "deep.txt": "32 64 " + "len + (" * 17 + "len" + ")" * 17 + " = 0\n", "small.txt": "32 64\n32 64\n32 48\n"})
    program = compiled(scene, ["gcc", "-std=c11", "-O1", "-g", "-fsanitize=address,undefined"], "steps")
    for words in PLAYED if program else []:
        wanted = scene.run(f"steps {words}")
        ended = subprocess.run([program, *words.split()], cwd=scene.folder, capture_output=True, timeout=LIMIT)
        scene.check(f"steps {words}", (ended.stdout, ended.stderr, ended.returncode), (wanted.out, wanted.err, wanted.status))
        objects = scene.run(f"steps --json {words}")
        ended = subprocess.run([program, "--json", *words.split()], cwd=scene.folder, capture_output=True, timeout=LIMIT)
        scene.check(f"steps --json {words}", (ended.stdout, ended.stderr, ended.returncode), (objects.out, wanted.err, objects.status))
        # `steps -v` prints the answers and then the reports.
        for flags, reports in (([], wanted), (["--json"], objects)):
            ended = subprocess.run([program, "--answers" + "".join(flags).replace("--", "-"), *words.split()], cwd=scene.folder, capture_output=True, timeout=LIMIT)
            both = scene.run(["steps", "-v", *flags, *words.split()])
            scene.check(f"steps -v {flags} {words}", (ended.stdout + reports.out, ended.stderr, ended.returncode), (both.out, wanted.err, both.status))
    for files, printed in random_replays(scene) if program else []:
        scene.check(scene.read("listeners").decode(), done(scene, [program, *files]), (printed, 0))
        objects = scene.run(["steps", "--json", *files]).out.decode()
        scene.check(f"{scene.read('listeners').decode()} as JSON", done(scene, [program, "--json", *files]), (objects, 0))


@case
def numbers_have_the_names_of_faults(scene):
    """Each number of the header prints as its name, which docs/FAULTS.md explains."""
    if not is_there(scene):
        return
    scene.start({})
    header = (ROOT / "include" / "bpftap.h").read_text().partition("enum bpftap_fault {")[2].partition("};")[0]
    numbers = {int(number): name for name, number in re.findall(r"BPFTAP_(\w+) = (\d+)", header)}
    camel = {number: "".join(word.capitalize() for word in name.split("_")) for number, name in numbers.items()}
    seen = python(scene, "names.py", map(str, camel)).splitlines()
    scene.check("names", seen, list(camel.values()))
    explained = set(re.findall(r"\w+", (ROOT / "docs" / "FAULTS.md").read_text()))
    scene.check("names that docs/FAULTS.md lacks", [name for name in camel.values() if name not in explained | {"Ok"}], [])
