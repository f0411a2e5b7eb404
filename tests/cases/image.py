"""`bpftap check -d`: a program by the names of its instructions, as `tcpdump -d` prints it.

`tests/vectors/codes.image` is what libpcap 1.10.3 prints (`bpf_image`) of the program of `codes.listing`, which has every code
but 0x81, for which it has no name; `expression.*` are what `tcpdump -ddd` and `tcpdump -d` print of one expression, and
`expressions.txt` has both of seventeen, with every addressing form: a line with the expression, the one and the other."""
import re
import runpy
import subprocess

from .common import IP, ROOT, VETH, case

VECTORS = ROOT / "tests" / "vectors"

IP_IMAGE = (
    "(000) ldh      [12]\n"
    "(001) jeq      #0x800           jt 2\tjf 3\n"
    "(002) ret      #262144\n"
    "(003) ret      #0\n")


@case
def a_listing_is_printed_as_tcpdump_prints_it(scene):
    """The program of a listing has the bytes of tcpdump's own print, and as numbers it is the listing again."""
    for name in "codes", "expression":
        listing, image = VECTORS / f"{name}.listing", (VECTORS / f"{name}.image").read_text()
        scene.expect(["check", "-d", "-f", listing], out=image)
        scene.expect(["check", "-f", listing], out=listing.read_text())


@case
def listings_of_expressions_are_printed_as_tcpdump_prints_them(scene):
    """The programs of expressions with every addressing form have the bytes of tcpdump's own print."""
    for block in (VECTORS / "expressions.txt").read_text().split("tcpdump ")[1:]:
        expression, _, prints = block.partition("\n")
        listing, image = re.fullmatch(r"([^(]*)(\(000\).*)", prints, re.S).groups()
        scene.put({"listing.txt": listing})
        scene.check(f"names of {expression}", scene.run("check -d -f listing.txt").out.decode(), image)
        scene.expect("check -f listing.txt", out=listing)


@case
def images_of_tcpdump_are_read_as_its_programs(scene):
    """For each expression of the bench the image of `tcpdump -d` is read as the program that `tcpdump -ddd` prints."""
    if not scene.has("tcpdump"):
        return
    for expression in runpy.run_path(str(ROOT / "bench" / "filters.py"))["EXPRESSIONS"]:
        image, listing = (subprocess.run(["tcpdump", "-r", VETH, form, expression], stdout=subprocess.PIPE, stderr=subprocess.DEVNULL).stdout
                          for form in ("-d", "-ddd"))
        scene.put({"image.txt": image})
        seen = scene.run("check -f image.txt")
        # libpcap's programs may be longer than a program of bpf(4). An image does not show the field of `tax`.
        if listing.count(b"\n") <= 513:
            scene.check(f"program of the image of {expression[:80]}", seen.out, re.sub(rb"(?m)^7 0 0 \d+$", b"7 0 0 0", listing))


@case
def the_length_has_a_name_in_the_index_register(scene):
    """The code that libpcap's printer has no name for has the name of the other load."""
    scene.put({"length.txt": "2\n129 0 0 0\n6 0 0 0\n"})
    scene.expect("check -d -f length.txt", out="(000) ldx      #pktlen\n(001) ret      #0\n")


@case
def an_expression_is_printed_by_names(scene):
    """An expression that tcpdump compiles to the same program prints the same; the program returns `-s`."""
    scene.put({"ip.txt": IP})
    scene.expect("check -d ip", out=IP_IMAGE)
    scene.expect("check -d -f ip.txt", out=IP_IMAGE)
    scene.expect("check -d -s 96 ip", out=IP_IMAGE.replace("262144", "96"))
    scene.expect("check -s 0 ip", out=IP)


@case
def a_listing_that_is_no_program_is_reported(scene):
    """`check` reports a refused expression and a bad listing as `cut` does; an expression and a listing exclude each other."""
    scene.put({"bad.txt": "1\n6 0 0\n", "ip.txt": IP})
    scene.refuse("check -d 'tcp and 80'", 1, "NoQualifier 8")
    scene.refuse("check -d -f bad.txt", 1, "BadLine 2")
    scene.refuse("check -f none.txt", 3, "Device none.txt")
    for words in "check -d", "check -f ip.txt ip", "check -s 262145 ip":
        seen = scene.run(words)
        scene.check(f"usage after {words}", b"Usage: bpftap check" in seen.err, True)
        scene.check(f"printed of {words}, and its status", (seen.out, seen.status), (b"", 1))
