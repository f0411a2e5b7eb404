"""Live pipes: what is printed or written goes on before a command waits for more, by a pipe and a clock."""
import os
import subprocess
import time

from .common import ARP_RECORD, HEADER, LIMIT, PROGRAM, TCP_RECORD, UDP_RECORD, can_trace, case

# How many seconds a packet may take through the pipe: without a flush it takes until the end.
SOON = 10


def read_until(output, size, until):
    """The bytes that come up to a moment, at most `size`."""
    got = b""
    os.set_blocking(output.fileno(), False)
    while len(got) < size and time.monotonic() < until:
        try:
            came = os.read(output.fileno(), size - len(got))
        except BlockingIOError:
            came = b""
        got += came
        if not came:
            # Nothing so far: nor from a fifo that nobody writes to yet.
            time.sleep(0.01)
    return got


def pass_packets(scene, words, pieces, last=b""):
    """Sends pieces one by one, and waits for what each has to bring on; `last` comes at the end."""
    live = subprocess.Popen([PROGRAM, *words], stdin=subprocess.PIPE, stdout=subprocess.PIPE, stderr=subprocess.PIPE)
    for sent, wanted in pieces:
        live.stdin.write(sent)
        live.stdin.flush()
        scene.check(f"after {len(sent)} bytes to {' '.join(words)}", read_until(live.stdout, len(wanted), time.monotonic() + SOON), wanted)
    os.set_blocking(live.stdout.fileno(), True)
    out, err = live.communicate(timeout=LIMIT)
    scene.check(f"at the end of {' '.join(words)}", (out, err, live.returncode), (last, b"", 0))


@case
def each_packet_goes_on_at_once(scene):
    """The header, each packet that is accepted, whole or in pieces, and several at once; nothing of one that is not."""
    cut = ["cut", "-s", "0", "-e", "tcp or arp", "/dev/stdin", "/dev/stdout"]
    pass_packets(scene, cut, [
        (HEADER, HEADER), (TCP_RECORD, TCP_RECORD), (UDP_RECORD, b""), (ARP_RECORD + UDP_RECORD + TCP_RECORD, ARP_RECORD + TCP_RECORD),
        (TCP_RECORD[:20], b""), (TCP_RECORD[20:], TCP_RECORD), (ARP_RECORD + TCP_RECORD[:7], ARP_RECORD), (TCP_RECORD[7:], TCP_RECORD)])


def lines_of(scene, words, records):
    """The lines that a command prints of these records in a file, and the last one, of the counts."""
    scene.put({"whole.pcap": HEADER + b"".join(records)})
    *lines, last = scene.run([*words, "whole.pcap"]).out.splitlines(keepends=True)
    return lines, last


@case
def each_line_goes_on_at_once(scene):
    """The line of each packet of `explain`, and of each difference of `compare`, in text and JSON; at the end the counts."""
    for words in (["explain", "-e", "not tcp"], ["explain", "--json", "-e", "not tcp"], ["compare", "tcp", "not arp"], ["compare", "--json", "tcp", "not arp"]):
        sent = [ARP_RECORD, UDP_RECORD, TCP_RECORD, UDP_RECORD]
        # `compare` prints a line only for the two UDP packets.
        printed = sent if words[0] == "explain" else [None, UDP_RECORD, None, UDP_RECORD]
        lines, counts = lines_of(scene, words, sent)
        lines = iter(lines)
        pieces = [(HEADER, b""), *((one, next(lines) if other else b"") for one, other in zip(sent, printed))]
        pass_packets(scene, [*words, "/dev/stdin"], pieces, counts)


@case
def each_part_goes_on_at_once(scene):
    """What `split` gives to its OUTs: each packet, to whoever reads along."""
    scene.start({"lines.txt": "0 tcp.pcap tcp\n0 rest.fifo not tcp\n"})
    os.mkfifo(scene.folder / "rest.fifo")
    live = subprocess.Popen([PROGRAM, "split", "lines.txt", "/dev/stdin"], cwd=scene.folder, stdin=subprocess.PIPE, stdout=subprocess.PIPE, stderr=subprocess.PIPE)
    with open(scene.folder / "rest.fifo", "rb", buffering=0, opener=lambda path, flags: os.open(path, flags | os.O_NONBLOCK)) as fifo:
        for sent, tcp, rest in ((HEADER, HEADER, HEADER), (TCP_RECORD, TCP_RECORD, b""), (ARP_RECORD, b"", ARP_RECORD), (UDP_RECORD + TCP_RECORD, TCP_RECORD, UDP_RECORD)):
            before = len(scene.read("tcp.pcap") or b"")
            live.stdin.write(sent)
            live.stdin.flush()
            until = time.monotonic() + SOON
            scene.check(f"after {len(sent)} bytes, the fifo", read_until(fifo, len(rest), until), rest)
            while len(scene.read("tcp.pcap") or b"") < before + len(tcp) and time.monotonic() < until:
                time.sleep(0.01)
            scene.check(f"after {len(sent)} bytes, the file", (scene.read("tcp.pcap") or b"")[before:], tcp)
        out, err = live.communicate(timeout=LIMIT)
    scene.check("at the end", (out, err, live.returncode), (b"tcp.pcap 2 of 4\nrest.fifo 2 of 4\n", b"", 0))


@case
def a_file_is_written_in_large_pieces(scene):
    """Of a capture in a file no packet is flushed by itself: a mebibyte takes fewer than 20 writes."""
    if not can_trace():
        scene.leave("strace can't trace the program")
        return
    scene.put({"in.pcap": HEADER + ARP_RECORD * 35000})
    words = ["strace", "-qq", "-e", "trace=write", PROGRAM, "cut", "-s", "0", "in.pcap", "out.pcap"]
    done = subprocess.run(words, cwd=scene.folder, capture_output=True, text=True, timeout=LIMIT)
    scene.check("writes of a mebibyte", done.stderr.count("write(") < 20, True)
    scene.check("all of it", scene.read("out.pcap"), HEADER + ARP_RECORD * 35000)
