"""Makes the programs for other machines, of the object files that rattle makes of the proved program: each is linked with musl and release/glue.c by the
toolchain's own linker into a static program that may be loaded anywhere in memory. The same object, C and musl give the same program, byte for byte.

`./build --targets` calls this, and makes the library for C of the machines that have one of their own. musl is Debian's package musl-dev, that of the target's
architecture; BPFTAP_MUSL names the folder where it is unpacked, `/` if it is not set. No proof covers what is done here.
"""
import dataclasses
import hashlib
import os
import pathlib
import re
import subprocess

HERE = pathlib.Path(__file__).resolve().parent
GLUE, HEAP = HERE / "glue.c", HERE / "heap.c"
# A thread's stack, in bytes: as many as under glibc. musl's own default is 128 KiB.
STACK = 8 << 20


class Refused(Exception):
    """There is no program of what was given."""


@dataclasses.dataclass(frozen=True)
class Target:
    """A machine: the name of its archive, the target of rattle, its folder of musl, and what stands below its proofs beside musl: C, and archives of the
    toolchain. The library for C of `processor` names that in its version; without one, the library for x86-64 serves the machine."""
    name: str
    triple: str
    musl: str
    sources: tuple
    archives: tuple = ()
    processor: str = ""


TARGETS = [
    Target("x86_64-linux-static", "x86_64-unknown-linux-gnu", "x86_64-linux-musl", (GLUE,), ("libos_c.a", "liblibc_c.a")),
    Target("aarch64-linux", "aarch64-unknown-linux-gnu", "aarch64-linux-musl", (GLUE, HEAP), processor="aarch64"),
]


class Musl:
    """The C library of a target."""

    def __init__(self, target):
        self.top = pathlib.Path(os.environ.get("BPFTAP_MUSL") or "/")
        self.folder, self.headers = self.top / "usr" / "lib" / target.musl, self.top / "usr" / "include" / target.musl
        self.archive = self.folder / "libc.a"
        if not self.archive.is_file():
            raise Refused(f"{self.archive} is not there: install musl-dev for {target.musl.partition('-')[0]}, or unpack it below a folder that BPFTAP_MUSL names")

    def said(self):
        """Which one it is: its version, and its checksum."""
        text = self.archive.read_bytes()
        version = re.search(rb"\0(\d+\.\d+\.\d+)\0", text)
        return f"musl {version[1].decode() if version else 'of an unknown version'}, libc.a {hashlib.sha256(text).hexdigest()}"


def compile_c(kit, target, source, work):
    """Compiles C of release/ for a target, by the headers of its musl; returns the object file. A shared library may have what is in heap.c."""
    made = work / f"{source.stem}-{target.name}.o"
    words = ["-std=gnu17", "-O2", "-fPIC" if source == HEAP else "-fPIE", "-Wall", "-Wextra", "-Werror", "-nostdinc", "-isystem", Musl(target).headers]
    try:
        subprocess.run([kit.toolchain / "bin" / "clang", "--no-default-config", f"--target={target.musl}", *words, "-c", source, "-o", made], check=True)
    except subprocess.CalledProcessError as why:
        raise Refused(f"{source} was not compiled") from why
    return made


def link(kit, target, musl, objects, made):
    """Links a program that no other file is loaded with."""
    begin, end = ([musl.folder / name for name in names] for names in (("rcrt1.o", "crti.o"), ("crtn.o",)))
    form = ["-static", "-pie", "--no-dynamic-linker", "-z", "text", "-z", "relro", "-z", "now", "-z", f"stack-size={STACK}"]
    form += ["--gc-sections", "--strip-all", "--build-id=sha1", "--wrap=main"]
    archives = [*(kit.folder / "c" / name for name in target.archives), musl.archive]
    try:
        subprocess.run([kit.toolchain / "bin" / "ld.lld", *form, "-o", made, *begin, *objects, *archives, *end], check=True)
    except subprocess.CalledProcessError as why:
        raise Refused(f"{made} was not linked") from why


def make(kit, target, program, work, folder):
    """Makes the program of an object file in `folder`, as NAME/bin/bpftap, and notes beside it, in NAME.by, what it was linked with."""
    musl, made = Musl(target), folder / target.name / "bin" / "bpftap"
    made.parent.mkdir(parents=True, exist_ok=True)
    link(kit, target, musl, [program, *(compile_c(kit, target, source, work) for source in target.sources)], made)
    (folder / f"{target.name}.by").write_text(f"is linked with {musl.said()}\n")
    return made
