"""What all groups share: the program that is tested, captures to try it on, and the folder that a case runs in."""
import os
import pathlib
import re
import resource
import shlex
import shutil
import signal
import struct
import subprocess
import sys
from dataclasses import dataclass

ROOT = pathlib.Path(__file__).resolve().parent.parent.parent

# The version of these sources, as the first section of the list of changes names it.
VERSION = re.search(r"^## ([0-9.]+)", (ROOT / "CHANGELOG.md").read_text(), re.M)[1]

# The real capture, of 253 packets.
VETH = ROOT / "examples" / "veth.pcap"

# No run takes longer than this many seconds.
LIMIT = 120


def program_path():
    """The program that the variable BPFTAP names, as a path or a word of the PATH. `tests/program.py` sets it if nobody else did."""
    named = os.environ.get("BPFTAP") or str(ROOT / "bpftap")
    found = shutil.which(named)
    if found is None:
        sys.exit(f"{named} is no program")
    return os.path.abspath(found)


PROGRAM = program_path()


def kind_of(path):
    """How the system starts a program: `dynamic`, by a loader that maps the C library first; `static`, by itself; or `script`, by another program,
    as one that emulates a processor."""
    text = pathlib.Path(path).read_bytes()
    if text[:4] != b"\x7fELF":
        return "script"
    (first,), (size, count) = struct.unpack_from("<Q", text, 32), struct.unpack_from("<HH", text, 54)
    # 3 is the type of the header that names a loader.
    return "dynamic" if 3 in [struct.unpack_from("<I", text, first + size * at)[0] for at in range(count)] else "static"


KIND = kind_of(PROGRAM)


def can_trace():
    """Whether `strace` is there, may trace the program, and may refuse calls of it."""
    words = ["strace", "-qq", "-e", "trace=write", "-e", "inject=write:error=ENOSPC:when=1000", "true"]
    return KIND != "script" and shutil.which("strace") is not None and subprocess.run(words, capture_output=True).returncode == 0



def header(snap=262144):
    """The header of a capture of this snapshot length: little-endian, microseconds, Ethernet."""
    return bytes.fromhex("d4c3b2a1 02000400 00000000 00000000") + snap.to_bytes(4, "little") + bytes.fromhex("01000000")


HEADER = header()

# The first 14 bytes of an ARP frame at second 1, and of an IPv4 frame at second 2.
ARP_RECORD = bytes.fromhex("01000000 00000000 0e000000 0e000000 ffffffffffff 000102030405 0806")
IP_RECORD = bytes.fromhex("02000000 00000000 0e000000 0e000000 ffffffffffff 000102030405 0800")

# Frames of 38 bytes from 10.0.0.1 to 10.0.0.2, from port 53 to port 53: TCP at second 1, UDP at second 2.
TCP_RECORD = bytes.fromhex(
    "01000000 00000000 26000000 26000000"
    "ffffffffffff 000102030405 0800 45000018 00000000 40060000 0a000001 0a000002 00350035")
UDP_RECORD = bytes.fromhex(
    "02000000 00000000 26000000 26000000"
    "ffffffffffff 000102030405 0800 45000018 00000000 40110000 0a000001 0a000002 00350035")

WHOLE = HEADER + IP_RECORD
TORN = WHOLE + IP_RECORD[:7]

# A program that keeps every packet, and one that keeps IPv4, as `tcpdump -ddd` prints them.
ALL = "1\n6 0 0 262144\n"
IP = "4\n40 0 0 12\n21 0 1 2048\n6 0 0 262144\n6 0 0 0\n"


def fault_lines(*faults):
    """What standard error has: a line for each fault."""
    return "".join(f"bpftap: {fault}\n" for fault in faults)


def as_bytes(text):
    return text.encode() if isinstance(text, str) else text


def words_of(words):
    """The words of a text, split as a shell does; a list has them already."""
    return shlex.split(words) if isinstance(words, str) else words


def text_of(words):
    """A text for words, which names them in a failure."""
    return words if isinstance(words, str) else shlex.join(os.fsdecode(word) for word in words)


def difference(seen, wanted):
    """Both values; of files those that differ, and of long texts the part around the first character that differs."""
    if isinstance(seen, dict):
        seen, wanted = dict(sorted(seen.items() - wanted.items())), dict(sorted(wanted.items() - seen.items()))
    texts = [repr(seen), repr(wanted)]
    place = max(0, len(os.path.commonprefix(texts)) - 40)
    if max(map(len, texts)) > 400:
        texts = [f"[from character {place}] {text[place : place + 120]}" for text in texts]
    return f"{texts[0]}, wanted {texts[1]}"


@dataclass(frozen=True)
class Seen:
    """What a run printed on standard output and on standard error, and its exit status."""
    out: bytes
    err: bytes
    status: int


class Scene:
    """The folder that a case runs in, and its results: how many checks passed, a line for each that failed, and what was left
    untried."""

    def __init__(self, folder):
        self.folder = folder
        self.passed = 0
        self.failures = []
        self.untried = []

    def has(self, *tools):
        """Whether these tools are on the PATH; if not, notes that something was left untried."""
        missing = [tool for tool in tools if not shutil.which(tool)]
        if missing:
            self.leave(f"{', '.join(missing)} can't be found")
        return not missing

    def leave(self, why):
        self.untried.append(why)

    def check(self, what, seen, wanted):
        if seen == wanted:
            self.passed += 1
        else:
            self.failures.append(f"{what}: {difference(seen, wanted)}")

    def start(self, files):
        """Empties the folder, and puts files of these names and contents there."""
        for path in self.folder.iterdir():
            if path.is_dir() and not path.is_symlink():
                shutil.rmtree(path)
            else:
                path.unlink()
        self.put(files)

    def put(self, files):
        for name, content in files.items():
            (self.folder / name).write_bytes(as_bytes(content))

    def read(self, name):
        """The bytes of a file, or `None` if it is missing."""
        path = self.folder / name
        return path.read_bytes() if path.is_file() else None

    def files(self):
        """All that is in the folder: the bytes of each file, and `None` for each folder."""
        return {str(path.relative_to(self.folder)): self.read(path) for path in self.folder.rglob("*")}

    def run(self, words, streams="", first=""):
        """Runs the program on words, with redirections in a shell's notation, after the commands of `first`."""
        command = [PROGRAM, *words_of(words)]
        if streams or first:
            command = ["bash", "-c", f'{first}\nexec "$0" "$@" {streams}', *command]
        done = subprocess.run(command, cwd=self.folder, stdin=subprocess.DEVNULL, capture_output=True, timeout=LIMIT)
        return Seen(done.stdout, done.stderr, done.returncode)

    def run_into(self, room, words):
        """Runs the program with a standard output that takes this many bytes and then fails: a file that may not grow further."""
        def narrow():
            signal.signal(signal.SIGXFSZ, signal.SIG_IGN)
            resource.setrlimit(resource.RLIMIT_FSIZE, (room, room))
        output = self.folder / "standard output"
        with open(output, "wb") as opened:
            done = subprocess.run(
                [PROGRAM, *words_of(words)], cwd=self.folder, stdin=subprocess.DEVNULL, stdout=opened,
                stderr=subprocess.PIPE, timeout=LIMIT, preexec_fn=narrow)
        return Seen(output.read_bytes(), done.stderr, done.returncode)

    def run_unread(self, words):
        """Runs the program with a standard output that is a pipe which nobody reads."""
        reader, writer = os.pipe()
        os.close(reader)
        done = subprocess.run(
            [PROGRAM, *words_of(words)], cwd=self.folder, stdin=subprocess.DEVNULL, stdout=writer,
            stderr=subprocess.PIPE, timeout=LIMIT)
        os.close(writer)
        return Seen(b"", done.stderr, done.returncode)

    def expect(self, words, status=0, err="", out="", streams="", first=""):
        """Runs the program, and checks all that it printed, and its status."""
        wanted = Seen(as_bytes(out), as_bytes(err), status)
        self.check(f"{first} {text_of(words)} {streams}".strip(), self.run(words, streams, first), wanted)

    def refuse(self, words, status, *faults):
        """Checks that words are refused: faults are reported, nothing is printed, and no file is made, changed or lost."""
        before = self.files()
        self.expect(words, status, fault_lines(*faults))
        self.check(f"files after {text_of(words)}", self.files(), before)


def records(text):
    """The records of a little-endian capture, header and data together."""
    place, found = 24, []
    while place < len(text):
        end = place + 16 + int.from_bytes(text[place + 8 : place + 12], "little")
        found.append(text[place:end])
        place = end
    return found


CASES = {}


def case(function):
    """Puts a function that takes a scene among the cases of its module, which is its group."""
    CASES.setdefault(function.__module__.rpartition(".")[2], []).append(function)
    return function
