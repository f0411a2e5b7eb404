"""`bpftap cut`: which files are opened in which order, what is kept of them, and what OUT has."""
import os

from .common import ALL, ARP_RECORD, HEADER, IP, IP_RECORD, TORN, WHOLE, case, fault_lines

# `cut -s 0 -f` of a LISTING, IN and OUT, the status, and the fault.
REFUSED = [
    # LISTING goes first, then IN.
    ("no.bpf none.pcap out.pcap", 3, "Device no.bpf"),
    ("folder none.pcap out.pcap", 3, "Device folder"),
    ("bad.bpf none.pcap kept.pcap", 1, "Program UnknownCode 0"),
    ("all.bpf none.pcap kept.pcap", 3, "Device none.pcap"),
    ("all.bpf 'a\nb' kept.pcap", 3, "Device a\\nb"),
    ("all.bpf folder kept.pcap", 3, "Device folder"),
    # A header's fault goes before an OUT that cannot be made, and that before a torn record.
    ("all.bpf no.pcap kept.pcap", 1, "ShortHeader"),
    ("all.bpf no.pcap gone/out.pcap", 1, "ShortHeader"),
    ("all.bpf torn.pcap gone/out.pcap", 3, "Device gone/out.pcap"),
    ("all.bpf in.pcap folder", 3, "Device folder"),
    ("all.bpf empty.pcap kept.pcap", 1, "ShortHeader"),
    ("all.bpf empty.pcap out.pcap", 1, "ShortHeader"),
]


@case
def files_are_opened_in_order(scene):
    """The first file that fails is reported and OUT keeps what it had; else OUT has the packets before a torn
    record."""
    (scene.folder / "folder").mkdir()
    scene.put({
        "all.bpf": ALL, "ip.bpf": IP, "bad.bpf": "1\n8 0 0 1\n", "no.pcap": "no savefile, but a text",
        "in.pcap": HEADER + ARP_RECORD + IP_RECORD, "torn.pcap": TORN, "kept.pcap": "kept", "empty.pcap": "",
    })
    for paths, status, fault in REFUSED:
        scene.refuse(f"cut -s 0 -f {paths}", status, fault)
    before = scene.files()
    scene.expect("cut -s 0 -f ip.bpf in.pcap kept.pcap")
    scene.expect("cut -s 0 -f all.bpf torn.pcap out.pcap", 2, fault_lines("TornRecord 1"))
    scene.check("files after both", scene.files(), {**before, "kept.pcap": WHOLE, "out.pcap": WHOLE})


@case
def hints_name_what_out_was(scene):
    """Where hints are wanted `cut` says that OUT replaces a capture, and its size, and that an OUT is named as an expression is. Nothing is said of
    an OUT that is new or no capture, of one that is not written, nor without hints."""
    replaces = f"  kept.pcap replaces a capture of {len(WHOLE)} bytes\n"
    torn = "  torn.pcap:\n  the file ends inside this record: was it cut off, or is it still being written?\n"
    named = "  the packets are in a file named {}: an expression goes after -e\n"
    os.mkfifo(scene.folder / "fifo")
    for words, status, err in (
        ("-s 0 in.pcap kept.pcap", 0, replaces), ("-s 0 torn.pcap kept.pcap", 2, fault_lines("TornRecord 1") + torn + replaces),
        ("-s 0 -w kept.pcap in.pcap in.pcap", 0, replaces), ("-c -s 0 in.pcap kept.pcap", 0, "1 of 1 packets\n" + replaces),
        ("-s 0 in.pcap new.pcap", 0, ""), ("-s 0 in.pcap text.txt", 0, ""), ("-s 0 in.pcap short", 0, ""), ("-s 0 in.pcap /dev/null", 0, ""),
        ("-s 0 in.pcap tcp", 0, named.format("tcp")), ("-s 0 in.pcap 'tcp port 80'", 0, named.format("tcp port 80")),
        ("-s 0 -e ip in.pcap tcp", 0, ""), ("-s 0 -f ip.bpf in.pcap tcp", 0, ""), ("-s 0 -e ip in.pcap 'tcp port 80'", 0, named.format("tcp port 80")),
    ):
        scene.put({"in.pcap": WHOLE, "torn.pcap": TORN, "kept.pcap": WHOLE, "text.txt": "a text\n", "short": "\u00d4", "ip.bpf": IP})
        for made in ("new.pcap", "tcp", "tcp port 80"):
            (scene.folder / made).unlink(missing_ok=True)
        scene.expect(f"--hints cut {words}", status, err)
        seen = scene.run(f"cut {words}")
        scene.check(f"cut {words} without hints", "replaces" in seen.err.decode() or "named" in seen.err.decode(), False)
    scene.put({"kept.pcap": WHOLE})
    scene.check("that is not written", b"replaces" in scene.run("--hints cut -s 0 missing.pcap kept.pcap").err, False)
    broken = scene.run("--hints cut -s 0 -w kept.pcap in.pcap in.pcap missing.pcap")
    scene.check("that is written up to a fault", (broken.status, broken.err.decode().endswith(replaces)), (3, True))
    scene.put({"kept.pcap": WHOLE})
    scene.expect(f"--hints cut --bytes 24-{len(WHOLE)} -s 0 in.pcap kept.pcap", 0, replaces, f"24-{len(WHOLE)} of {len(WHOLE)} packets 1 kept 1 bytes {len(WHOLE)} Clean kept.pcap\n")
    # A pipe is not looked into: its bytes stay for who reads it.
    scene.expect("--hints cut -s 0 in.pcap fifo", 0, "", WHOLE, first="cat fifo &")


@case
def out_is_no_file_that_is_read(scene):
    """An OUT that is LISTING or IN by any name is refused, and nothing is lost."""
    scene.put({"all.bpf": ALL, "in.pcap": WHOLE})
    os.link(scene.folder / "in.pcap", scene.folder / "linked.pcap")
    os.link(scene.folder / "all.bpf", scene.folder / "linked.bpf")
    os.symlink("in.pcap", scene.folder / "symbolic.pcap")
    for out in ["in.pcap", "./in.pcap", "linked.pcap", "symbolic.pcap", "all.bpf", "./all.bpf", "linked.bpf"]:
        scene.refuse(f"cut -s 0 -f all.bpf in.pcap {out}", 1, f"SameFile {out}")
    # Also a fifo, which nobody opens.
    os.mkfifo(scene.folder / "fifo")
    scene.refuse("cut -s 0 fifo ./fifo", 1, "SameFile ./fifo")
    # A missing IN cannot be opened, whatever OUT is.
    os.symlink("new.pcap", scene.folder / "link")
    for read, out in [("new.pcap", "new.pcap"), ("new.pcap", "./new.pcap"), ("new.pcap", "link"), ("link", "new.pcap")]:
        scene.refuse(f"cut -s 0 {read} {out}", 3, f"Device {read}")
    # A device loses nothing, so the capture's own fault is reported.
    for out in ["/dev/./null", "/dev/null"]:
        scene.refuse(f"cut -s 0 -f all.bpf /dev/null {out}", 1, "ShortHeader")


@case
def the_count_comes_after_the_hints(scene):
    """With -c the count is the last line: below a fault come its hints first."""
    scene.put({"torn.pcap": TORN})
    hint = "  torn.pcap:\n  the file ends inside this record: was it cut off, or is it still being written?\n"
    scene.expect("--hints cut -s 0 -c torn.pcap out.pcap", 2, fault_lines("TornRecord 1") + hint + "1 of 1 packets\n")
    scene.expect("cut -s 0 -c torn.pcap out.pcap", 2, fault_lines("TornRecord 1") + "1 of 1 packets\n")


# Words of `cut` that name several IN and no `-w`, with options in each place; the last of them is a capture.
UNNAMED = [
    "cut -s 0 -e arp one.pcap two.pcap three.pcap", "cut one.pcap -s 0 two.pcap three.pcap", "cut one.pcap two.pcap -s 0 three.pcap",
    "cut one.pcap two.pcap three.pcap -s 0", "cut -c --json -s 0 none.pcap none.pcap three.pcap", "--hints cut -s 0 -f no.bpf one.pcap two.pcap new.pcap",
]


@case
def several_captures_without_an_output_are_refused(scene):
    """Of several words without `-w` none is opened, made or changed, and a line says how OUT is named."""
    scene.put({"one.pcap": WHOLE, "two.pcap": HEADER + ARP_RECORD, "three.pcap": WHOLE + ARP_RECORD})
    before = scene.files()
    for words in UNNAMED:
        seen = scene.run(words)
        scene.check(f"printed by {words}, and its status", (seen.out, seen.status), (b"", 1))
        scene.check(f"the way named by {words}", b"several IN take -w, as in bpftap cut -s 0 -w OUT IN1 IN2" in seen.err, True)
        scene.check(f"files after {words}", scene.files(), before)
    # A fifo that nobody writes would keep a call that opens it waiting.
    os.mkfifo(scene.folder / "fifo")
    seen = scene.run("cut -s 0 fifo fifo three.pcap")
    scene.check("status with a fifo, and what was there", (seen.status, scene.read("three.pcap")), (1, before["three.pcap"]))
    # The way, as it is written.
    scene.expect("cut -s 0 -w new.pcap one.pcap two.pcap three.pcap")
    scene.check("files after the way", {name: text for name, text in scene.files().items() if name != "fifo"},
                {**before, "new.pcap": HEADER + IP_RECORD + ARP_RECORD + IP_RECORD + ARP_RECORD})


@case
def several_captures_are_cut_into_one(scene):
    """OUT has what a split of all IN into it has, with its status, and `-c` counts the packets of all, up to the first fault."""
    two = HEADER + ARP_RECORD + IP_RECORD
    scene.put({"two.pcap": two, "one.pcap": WHOLE, "torn.pcap": TORN, "no.pcap": "no savefile, but a text", "kept.pcap": "kept",
               "ip.bpf": IP, "lines.txt": "0 split.pcap ip\n"})
    for captures, status, faults, kept, all_of in [
            ("two.pcap one.pcap", 0, [], 2, 3), ("one.pcap two.pcap one.pcap", 0, [], 3, 4),
            ("two.pcap torn.pcap one.pcap", 2, ["Capture 1 TornRecord 1"], 2, 3), ("two.pcap no.pcap one.pcap", 1, ["Capture 1 ShortHeader"], 1, 2),
            ("two.pcap none.pcap one.pcap", 3, ["Capture 1 Device"], 1, 2)]:
        counts = f"{kept} of {all_of} packets\n"
        for words in ("-s 0 -e ip", "-s 0 -f ip.bpf"):
            scene.expect(f"cut {words} -w out.pcap {captures}", status, fault_lines(*faults))
            scene.check(f"OUT of {captures}", scene.read("out.pcap"), HEADER + IP_RECORD * kept)
            scene.expect(f"cut -c {words} {captures} -w out.pcap", status, fault_lines(*faults) + counts)
        scene.expect(f"split lines.txt {captures}", status, fault_lines(*faults), f"split.pcap {kept} of {all_of}\n")
        scene.check(f"split of {captures}", scene.read("split.pcap"), scene.read("out.pcap"))
    # The first header is refused, and OUT stays; or OUT fails, and nothing is counted.
    scene.refuse("cut -c -s 0 -w kept.pcap no.pcap one.pcap", 1, "Capture 0 ShortHeader")
    scene.refuse("cut -c -s 0 -w kept.pcap none.pcap one.pcap", 3, "Capture 0 Device")
    scene.refuse("cut -c -s 0 -w gone/out.pcap one.pcap two.pcap", 3, "Device gone/out.pcap")
    scene.refuse("cut -c -s 0 -w /dev/full one.pcap torn.pcap", 3, "Device /dev/full", "Capture 1 TornRecord 1")
    # OUT is no file that is read; a missing IN could be made as OUT.
    for out in ("one.pcap", "./two.pcap", "ip.bpf", "none.pcap"):
        scene.refuse(f"cut -s 0 -f ip.bpf -w {out} two.pcap one.pcap none.pcap", 1, f"SameFile {out}")
    # Options may come between the paths.
    for words in ("-s 0 -w out.pcap one.pcap two.pcap", "one.pcap -s 0 two.pcap -w out.pcap", "one.pcap -wout.pcap two.pcap -s 0"):
        scene.expect(f"cut {words}")
        scene.check(f"OUT of {words}", scene.read("out.pcap"), WHOLE + ARP_RECORD + IP_RECORD)
    # One IN has its OUT after it or after -w.
    for words in ("one.pcap -s 0 out.pcap", "-s 0 -w out.pcap one.pcap", "one.pcap -w out.pcap -s 0"):
        scene.expect(f"cut {words}")
        scene.check(f"OUT of {words}", scene.read("out.pcap"), WHOLE)
    scene.refuse("cut -s 0 -w ./one.pcap one.pcap", 1, "SameFile ./one.pcap")
    # The header of OUT is that of one capture; a capture may come from a pipe, and OUT be one.
    scene.expect("cut -s 5 -o big -u nano -w out.pcap /dev/stdin one.pcap", streams="< one.pcap")
    nano = bytes.fromhex("00000002 00000000 00000005 0000000e ffffffffff")
    scene.check("OUT", scene.read("out.pcap"), bytes.fromhex("a1b23c4d 00020004 00000000 00000000 00000005 00000001") + nano * 2)
    scene.expect("cut -s 0 -w /dev/stdout one.pcap one.pcap", out=HEADER + IP_RECORD * 2)
    seen = scene.run_unread("cut -s 0 -w /dev/stdout one.pcap two.pcap")
    scene.check("OUT that nobody reads", (seen.err, seen.status), (b"", 3))


# Options of a cut of one IPv4 record, and what OUT has then.
OPTIONS = [
    (
        "-s 5 -o big -u nano",
        bytes.fromhex("a1b23c4d 00020004 00000000 00000000 00000005 00000001"
                      "00000002 00000000 00000005 0000000e ffffffffff"),
    ),
    ("-s 262144 -o little -u micro", WHOLE),
    ("-s 0", WHOLE),
    ("-s0", WHOLE),
    (
        "-s 007",
        bytes.fromhex("d4c3b2a1 02000400 00000000 00000000 07000000 01000000"
                      "02000000 00000000 07000000 0e000000 ffffffffffff00"),
    ),
]


@case
def the_words_values_are_used(scene):
    """Snapshot length, byte order and unit are as the words say, or the defaults."""
    for options, written in OPTIONS:
        writes(scene, f"cut {options} -f all.bpf in.pcap out.pcap", {"all.bpf": ALL, "in.pcap": WHOLE}, written)


# The words before IN and OUT, and what is kept.
FILTERS = [
    ("-s 0 -e ip", HEADER + IP_RECORD),
    ("-s 0 -e arp", HEADER + ARP_RECORD),
    ("-s 0 -e tcp", HEADER),
    ("-s 0", HEADER + ARP_RECORD + IP_RECORD),
]


@case
def a_cut_keeps_what_its_expression_accepts(scene):
    """OUT has the packets that the expression accepts, and without one every packet."""
    for options, written in FILTERS:
        writes(scene, f"cut {options} in.pcap out.pcap", {"in.pcap": HEADER + ARP_RECORD + IP_RECORD}, written)


def writes(scene, words, files, written):
    """A cut creates OUT, or overwrites something longer there, and leaves all other files."""
    for old in [{}, {"out.pcap": "what stood there before " * 8}]:
        scene.start({**files, **old})
        before = scene.files()
        scene.expect(words)
        scene.check(f"files after {words}", scene.files(), {**before, "out.pcap": written})


@case
def filters_go_before_files(scene):
    """Two filters, or a refused expression, are reported before any file is opened: none of these exists."""
    scene.refuse("cut -s 0 -f no.bpf -e 'tcp and 80' no.pcap no/out.pcap", 1, "FilterTwice")
    scene.refuse("cut -s 0 -e 'tcp and 80' no.pcap no/out.pcap", 1, "NoQualifier 8")
    # Without either IN is the first that is missing.
    scene.refuse("cut -s 0 no.pcap no/out.pcap", 3, "Device no.pcap")
