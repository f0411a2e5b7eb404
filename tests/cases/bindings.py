"""The packages over the library for C: Python, Rust and Go, with their examples and those in C."""
import os
import pathlib
import re
import shutil
import sys

from .common import LIMIT, ROOT, VETH, case, records
from .library import ARCHIVE, LIBRARY, STRICT, done, is_there, passes
from .linking import installed, version


PYTHON = ROOT / "bindings" / "python"


def environment_of_python(**more):
    """With this repository's package and library."""
    return {**os.environ, "PYTHONPATH": str(PYTHON), "BPFTAP_LIBRARY": str(LIBRARY), "PYTHONDONTWRITEBYTECODE": "1", **more}


def bare():
    """Without them."""
    return {key: value for key, value in os.environ.items() if key not in ("BPFTAP_LIBRARY", "PYTHONPATH")}


@case
def package_does_what_its_page_says(scene):
    """The tests of the Python package, by unittest."""
    if is_there(scene):
        scene.start({})
        said, status = done(scene, [sys.executable, "-m", "unittest", "discover", "-s", PYTHON / "tests"], env=environment_of_python())
        scene.check("unittest", (said.splitlines()[-1:], status), (["OK"], 0))


@case
def pip_installs_it(scene):
    """pip installs the folder, an sdist of it and the folder itself (`-e`), without a network; what is installed has the page and its library. The
    same sources give the same sdist."""
    if not is_there(scene):
        return
    scene.start({})
    if done(scene, [sys.executable, "-m", "pip", "--version"])[1]:
        scene.leave("pip can't be found")
        return
    sums, sdist = set(), "import backend, sys; print(backend.build_sdist(sys.argv[1]), backend.build_wheel(sys.argv[1]))"
    name = f"bpftap-{version()}.tar.gz"
    for _ in range(2):
        said, status = done(scene, [sys.executable, "-Bc", sdist, scene.folder], env=environment_of_python())
        scene.check("sdist and wheel", (said.split()[:1], status), ([name], 0))
        sums.add((scene.read(name), scene.read(said.split()[1])))
    scene.check("the same files", len(sums), 1)
    if scene.has("twine"):
        said, status = done(scene, ["twine", "check", "--strict", name, *said.split()[1:]])
        scene.check("twine check", (said.count("PASSED"), status), (2, 0))
    shown = "import bpftap; print(bpftap.__version__, bpftap.Filter('ip').matches(bytes(12) + b'\\x08\\x00'))"
    for number, what in enumerate(([PYTHON], [name], ["-e", PYTHON])):
        into, environment = scene.folder / f"site{number}", {**bare(), "PIP_DISABLE_PIP_VERSION_CHECK": "1"}
        if number != 1:  # The sdist has the library.
            environment["BPFTAP_LIBRARY"] = str(LIBRARY)
        words = [sys.executable, "-m", "pip", "install", "--quiet", "--no-index", "--no-deps", "--target", into, *what]
        scene.check(f"pip install {what}", done(scene, words, env=environment)[1], 0)
        if number == 2:
            found = f"import site; site.addsitedir({str(into)!r}); {shown}"
            scene.check("-e", done(scene, [sys.executable, "-Bc", found], env={**bare(), "BPFTAP_LIBRARY": str(LIBRARY)}), (f"{version()} True\n", 0))
        else:
            scene.check(f"installed from {what[0]}", done(scene, [sys.executable, "-c", shown], env={**bare(), "PYTHONPATH": str(into)}), (f"{version()} True\n", 0))
            about = (into / f"bpftap-{version()}.dist-info" / "METADATA").read_text()
            scene.check("its page", (about.count("\nClassifier: ") > 5, "# bpftap for Python" in about), (True, True))
            scene.check("links of its page to files that are not in it", re.findall(r"\]\((?!https?:)[^)]*\)", about), [])
            licences = [path.name for path in (into / f"bpftap-{version()}.dist-info" / "licenses").iterdir()]
            scene.check("its licences", sorted(licences), ["LICENSE-APACHE", "LICENSE-MIT", "NOTICES"])


def blocks(page, language):
    """The examples of a page."""
    return re.findall(rf"^```{language}\n(.*?)^```$", page.read_text(), re.S | re.M)


@case
def fixture_of_its_page_works(scene):
    """The fixture and the test of TESTING.md under pytest; a test that fails prints what the page shows."""
    if not is_there(scene):
        return
    fixture, test = blocks(PYTHON / "TESTING.md", "python")
    spoiled = test.replace("def test_it", "def test_not").replace("{0, 2}", "{0, 1, 2}")
    scene.start({"conftest.py": fixture, "test_sent.py": test, "test_spoiled.py": spoiled})
    scene.run(["cut", "-s", "0", "-e", "icmp and ip[6:2] & 0x3fff = 0", str(VETH), "all.pcap"])
    scene.put({"pings.pcap": scene.read("all.pcap")[:24] + b"".join(records(scene.read("all.pcap"))[:4])})
    python = next((python for python in (sys.executable, "/usr/bin/python3") if done(scene, [python, "-c", "import pytest"])[1] == 0), None)
    if python is None:
        scene.leave("pytest can't be found")
        return
    words = [python, "-m", "pytest", "-q", "-p", "no:cacheprovider"]
    said, status = done(scene, [*words, "test_sent.py"], env=environment_of_python())
    scene.check("the page's test", ("1 passed" in said, status), (True, 0))
    said, status = done(scene, [*words, "test_spoiled.py"], env=environment_of_python())
    shown = re.findall(r"^    (E .*)$", (PYTHON / "TESTING.md").read_text(), re.M)
    scene.check("a test that fails", ([line for line in said.splitlines() if line in shown], status), (shown, 1))


def takes_long_captures(scene):
    """The examples over a capture of some megabytes, and over files that are no capture: what is in OUT is not lost."""
    whole = VETH.read_bytes()
    long = whole[:24] + whole[24:] * 100
    scene.put({"long.pcap": long, "kept": "kept", "text": "this is no capture, but a text of some length", "part.pcap": long[:-1]})
    scene.check("filter: a long capture", done(scene, ["./filter", "udp port 5353", "long.pcap", "dns.pcap"]), ("6700 of 25300 packets\n", 0))
    said, status = done(scene, ["./tap", "len > 50", "long.pcap", "90"])
    scene.check("tap: a long capture", (said.splitlines()[-1].split(",")[0], status), ("received 25300", 0))
    for words, wanted in ((["text", "kept"], "filter: text: NotSavefile\n"), (["none", "kept"], "filter: No such file or directory\n")):
        scene.check(f"filter: {words[0]}", done(scene, ["./filter", "ip", *words]), (wanted, 1))
    scene.check("what OUT had", scene.read("kept"), b"kept")
    # The torn record is a packet of mDNS.
    said, status = done(scene, ["./filter", "udp port 5353", "part.pcap", "dns.pcap"])
    scene.check("filter: a torn capture", (sorted(said.splitlines()), status), (["6699 of 25299 packets", "filter: part.pcap: TornRecord 25299"], 1))
    # One capture is written when OUT is closed, the other one before.
    for capture in (VETH, "long.pcap"):
        full = done(scene, ["./filter", "udp port 5353", capture, "/dev/full"])
        scene.check(f"filter: {capture} on a full disk", full, ("filter: /dev/full: No space left on device\n", 1))
    scene.check("filter: a folder", done(scene, ["./filter", "ip", VETH, "."]), ("filter: .: Is a directory\n", 1))


def loses_what_steps_loses(scene):
    """The example of a slow reader: its counts, and the packets that it reads, are those of `bpftap steps`."""
    scene.put({"listeners": "96 4096 len > 50\n", "script": ("arrive\n" * 90 + "read 0\n") * 2 + "arrive\n" * 73 + "read 0\nflush 0\nread 0\n"})
    reported = scene.run(["steps", "listeners", "script", str(VETH)]).out.decode()
    batches = [re.findall(r"place (\d+)", part) for part in re.split(r"\nbatch|\nheld", reported)[1:]]
    received, matched, dropped = re.findall(r"\d+", reported.partition("\n")[0])[1:]
    said, status = done(scene, ["./tap", "len > 50", VETH, "90"])
    lines = said.splitlines()
    scene.check("tap: what is read", [line.split()[1:] for line in lines if line.startswith("read:")], [batch for batch in batches if batch])
    scene.check("tap: counts", (lines[-1:], status), ([f"received {received}, matched {matched}, dropped {dropped}"], 0))
    scene.check("tap: drops", (sum(line.startswith("dropped:") for line in lines), int(dropped) > 0), (int(dropped), True))


def records_of_bpf(text):
    """The packets of a buffer of bpf(4), each as a record of a capture: as a reader of one goes on, by the header's length and BPF_WORDALIGN."""
    place, found = 0, []
    while place < len(text):
        times = text[place : place + 4], text[place + 8 : place + 12]
        captured, size = int.from_bytes(text[place + 16 : place + 20], "little"), int.from_bytes(text[place + 24 : place + 26], "little")
        found.append(b"".join(times) + text[place + 16 : place + 24] + text[place + size : place + size + captured])
        place += (size + captured + 7) & ~7
    return found


@case
def examples_do_what_they_say(scene):
    """The examples in C, which are C++ too, and in Python: the filter keeps what `bpftap cut` keeps, and the kernel takes a program."""
    if not is_there(scene):
        return
    scene.start({})
    if scene.has("gcc"):
        for name in ("filter", "attach", "tap"):
            rest = ["-O2", *STRICT, f"-I{ROOT / 'include'}", ROOT / "examples" / "c" / f"{name}.c"]
            passes(scene, ["gcc", "-std=gnu11", *rest, ARCHIVE, "-o", name])
            said = "attach: BadWord 5\n" if name == "attach" else f"{name}: port http: BadWord 5\n"
            scene.check(f"{name}: a refused expression", done(scene, [f"./{name}", "port http", VETH, "1"]), (said, 1))
            if scene.has("g++"):
                passes(scene, ["g++", "-x", "c++", "-std=c++11", "-pedantic", *rest, "-fsyntax-only"])
        scene.check("filter", done(scene, ["./filter", "udp port 5353", VETH, "dns.pcap"]), ("67 of 253 packets\n", 0))
        scene.run(["cut", "-s", "0", "-e", "udp port 5353", str(VETH), "cut.pcap"])
        scene.check("what it kept", scene.read("dns.pcap") == scene.read("cut.pcap"), True)
        loses_what_steps_loses(scene)
        takes_long_captures(scene)
        said, status = done(scene, ["./attach", "tcp port 80"])
        scene.check("attach", (re.sub(r"\d+", "N", said), status), ("the kernel took N instructions\n", 0))
    environment = environment_of_python()
    said, status = done(scene, [sys.executable, ROOT / "examples" / "python" / "test_bench.py"], env=environment)
    scene.check("test_bench.py", (said.count("passed "), status), (3, 0))
    said, status = done(scene, [sys.executable, ROOT / "examples" / "python" / "lesson.py"], env=environment)
    scene.check("lesson.py", (said.splitlines()[-4:], status), (
        ["No tcp dst port 443", "Yes tcp dst port 80", "96 bytes are kept", "Abort tcp dst port 80, byte 36 is not captured"], 0))
    scene.put({"listeners": "96 4096 len > 50\n", "script": ("arrive\n" * 125 + "read 0\n") * 2})
    counts = re.findall(r"\d+", scene.run(["steps", "listeners", "script", str(VETH)]).out.decode())
    said, status = done(scene, [sys.executable, ROOT / "examples" / "python" / "bpf_buffer.py", "tcp", VETH, "buffer"], env=environment)
    scene.check("bpf_buffer.py", (said, status), ("", 0))
    scene.check("its records", records_of_bpf(scene.read("buffer")), [one for one in records(VETH.read_bytes()) if one[28:30] == b"\x08\x00" and one[39] == 6])
    said, status = done(scene, [sys.executable, ROOT / "examples" / "python" / "drops.py"], env=environment)
    scene.check("drops.py", (said.splitlines()[1:2], status), ([f"{counts[3]} dropped of {counts[2]}"], 0))


def repository(scene):
    """A folder like the repository's, with the packages, the examples, the header and the library, and nothing that was built meanwhile."""
    top, leave = scene.folder / "top", shutil.ignore_patterns("native", "target", "__pycache__")
    for part in ("bindings", "examples", "include"):
        shutil.copytree(ROOT / part, top / part, ignore=leave)
    for licence in (*ROOT.glob("LICENSE-*"), ROOT / "NOTICES"):
        shutil.copy(licence, top)
    shutil.copytree(ARCHIVE.parent, top / "out" / "lib", symlinks=True)
    return top


@case
def first_answers_come_as_the_page_says(scene):
    """The lines of docs/LIBRARY.md for C, Python, Rust and Go, in a clone whose library is already under ~/.local: each prints what the page
    says, one after the other."""
    if not is_there(scene) or not scene.has("gcc", "pkg-config", "cargo", "go"):
        return
    scene.start({})
    top, home = repository(scene), installed(scene)
    environment = {**bare(), "HOME": str(scene.folder), "CARGO_NET_OFFLINE": "true", "GOPROXY": "off", "GOFLAGS": "",
                   "GOCACHE": done(scene, ["go", "env", "GOCACHE"])[0].strip()}
    for name in ("CARGO_HOME", "RUSTUP_HOME"):
        folder = pathlib.Path.home() / f".{name.partition('_')[0].lower()}"
        if folder.is_dir():
            environment.setdefault(name, str(folder))
    (scene.folder / ".local").symlink_to(home)
    for block in blocks(ROOT / "docs" / "LIBRARY.md", "sh"):
        lines = [line for line in block.splitlines() if not line.startswith("./install")]
        wanted = lines[-1].rpartition("# ")[2]
        if "venv" in block and done(scene, [sys.executable, "-c", "import ensurepip"])[1]:
            scene.leave("python3 has no venv")
            continue
        said, status = done(scene, ["sh", "-ec", "\n".join(lines)], at=top, limit=5 * LIMIT, env=environment)
        scene.check(lines[-1], (said.splitlines()[-1:], status), ([wanted], 0))


@case
def pages_of_calls_say_what_each_does(scene):
    """The line below NAME of each page of the manual fits a terminal, and no page begins with what another one says."""
    scene.start({})
    for page in sorted((ROOT / "man").glob("bpftap_*.3")):
        text = page.read_text()
        named = re.search(r"^\.Nd (.*)$", text, re.M)
        if named:
            scene.check(f"{page.name}: {named[1]}", len(named[1]) <= 68, True)
            described = text.partition(".Sh DESCRIPTION\n")[2].partition("\n")[0]
            scene.check(f"{page.name}: {described}", re.match(r"The same|Does the same|Do the same", described), None)
    span = (ROOT / "man" / "bpftap_run_each.3").read_text()
    scene.check("the comment of a struct", "A packet that lies in a memory:" in span, True)


@case
def ship_builds_nothing(scene):
    """In a clone that is newer than its release `bindings/ship` says what to do, and proves nothing."""
    scene.start({})
    top = scene.folder / "top"
    shutil.copytree(ROOT / "bindings", top / "bindings", ignore=shutil.ignore_patterns("native", "target", "__pycache__"))
    for name in ("release/lib.sh", "release/files", "crates.txt"):
        (top / name).parent.mkdir(exist_ok=True)
        shutil.copy(ROOT / name, top / name)
    scene.put({"top/release/SHA256SUMS": f"# sources {'0' * 64}\n", "top/build": "#!/bin/sh\ntouch built\nexit 1\n"})
    (top / "build").chmod(0o755)
    lines = [f"ship: the sources are newer than the release: run {top}/build bpftap_c, which makes their library in out/lib",
             f"  or ship the released one: BPFTAP_LIB=$(sh '{top}/release/lib.sh' unpacked_path bpftap-x86_64-linux.tar.xz)/lib '{top}/bindings/ship'"]
    for archive in (False, True):
        if archive:
            scene.put({"top/release/bpftap-x86_64-linux.tar.xz": "an archive"})
        said, status = done(scene, [top / "bindings" / "ship"], env=bare())
        shown = [line for line in said.splitlines() if not line.startswith(("sha256sum: ", "find: "))]
        scene.check(f"ship, with an archive: {archive}", (shown, status), (lines[: 1 + archive], 1))
    scene.check("what was built or shipped", [path.name for path in (top / "built", top / "bindings" / "go" / "native") if path.exists()], [])


@case
def module_of_go_passes_its_tests(scene):
    """`go vet`, `go test` with the examples of its documentation, also with the race detector and where C overwrites what is freed, gofmt, the
    example, and the page's program in a project of its own."""
    if not is_there(scene) or not scene.has("go", "gcc"):
        return
    scene.start({})
    top = repository(scene)
    go = lambda folder, *words, **more: done(scene, ["go", *words], at=folder, limit=5 * LIMIT, env={
        **os.environ, "GOFLAGS": "-count=1" if "test" in words else "", "GOPROXY": "off", **more})
    module, example = top / "bindings" / "go", top / "examples" / "go"
    for folder in (module, example):
        scene.check(f"gofmt of {folder.name}", done(scene, ["gofmt", "-l", "."], at=folder), ("", 0))
        scene.check("go vet", go(folder, "vet", "./..."), ("", 0))
    for way in ([], ["-race"]):
        said, status = go(module, "test", *way, "./...", MALLOC_PERTURB_="165")
        scene.check(f"go test {way}", (said.split()[:2], status), (["ok", "bpftap"], 0))
    scene.check("the example", go(example, "run", ".", "udp port 5353", "../veth.pcap"), ("67 of 253 packets\n186 rejected by udp port 5353\n", 0))
    scene.check("its fault", go(example, "run", ".", "port http", "../veth.pcap"), ("count: port http: BadWord 5\nexit status 1\n", 1))
    # As the page says, in a folder that knows nothing of the repository.
    scene.check("ship", done(scene, [top / "bindings" / "ship"]), ("", 0))
    project = scene.folder / "project"
    shutil.copytree(module, project / "bpftap")
    (project / "main.go").write_text(blocks(module / "README.md", "go")[0])
    shutil.rmtree(top)
    for words in (["mod", "init", "project"], ["mod", "edit", "-require", "bpftap@v0.0.0", "-replace", "bpftap=./bpftap"]):
        scene.check(f"go {words[1]}", go(project, *words)[1], 0)
    scene.check("the page's program", go(project, "run", "."), ("false\nNo tcp port 80 <nil>\n", 0))


@case
def crate_of_rust_passes_its_tests(scene):
    """`cargo test` of bindings/rust with the examples of its documentation, which has no warning; without the library the build names
    BPFTAP_LIB. The lock file is one that Debian's cargo reads."""
    if not is_there(scene) or not scene.has("cargo", "gcc"):
        return
    scene.start({})
    crate = repository(scene) / "bindings" / "rust"
    cargo = lambda *words, **more: done(scene, ["cargo", *words, "--offline", "--quiet"], at=crate, limit=5 * LIMIT, env={
        **bare(), "CARGO_TARGET_DIR": str(scene.folder / "target"), "RUSTDOCFLAGS": "-D warnings", **more})
    shutil.copytree(ROOT / "docs", crate.parents[1] / "docs")
    said, status = cargo("test", "--locked")
    scene.check("cargo test", (said if status else "", status), ("", 0))
    scene.check("cargo doc", cargo("doc", "--no-deps"), ("", 0))
    scene.check("the lock file", "\nversion = 3\n" in (crate / "Cargo.lock").read_text(), True)
    said, status = cargo("test", BPFTAP_LIB="/nosuch")
    line = "/nosuch/libbpftap.a is not there: let BPFTAP_LIB name the folder of libbpftap.a, or run ./build bpftap_c in the repository"
    scene.check("cargo test without the library", (line in said, status != 0), (True, True))
    # What is handed on has the library.
    scene.check("ship", done(scene, [crate.parent / "ship"]), ("", 0))
    listed, _ = cargo("package", "--list", "--allow-dirty")
    scene.check("what is packed", {"native/libbpftap.a", "native/bpftap.h", "src/lib.rs", "build.rs"} <= {*listed.split()}, True)
    said, status = cargo("package", "--allow-dirty")
    scene.check("cargo package", (said if status else "", status), ("", 0))
