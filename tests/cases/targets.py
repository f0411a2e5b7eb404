"""The program for other machines: `./build --targets`, the C functions of release/glue.c, and what runs where there is no C library: the launcher, and an image."""
import hashlib
import json
import os
import pathlib
import platform
import shutil
import subprocess
import sys
import tarfile
import types

from .build import MADE, Source
from .common import KIND, LIMIT, PROGRAM, ROOT, Seen, case
from .release import RELEASED, Clone, also_released, change

sys.path.insert(0, str(ROOT / "release"))
import targets

# What the toolchain's compiler and linker do here: each writes the file after `-o`, and notes its words.
TOOL = """#!/bin/sh
echo "${0##*/} $*" >>"$KIT/words"
while [ "$1" != -o ]; do shift; done
%s
"""
LINK = 'name=${2%/[bl]i*/*} && sed "s/a stand-in/of ${name##*/}/" "$KIT/program" >"$2" && chmod +x "$2"'
# What makes an archive, by the lines that it is given.
PACK = """#!/bin/sh
while read -r word path; do
  case $word in create) made=$path && : >"$path" ;; add*) cat "$path" >>"$made" ;; esac
done
"""
NAMES = ["x86_64-linux-static", "aarch64-linux"]
# What a library for C has beside it.
FILES = ["include/low.h", "lib/libbpftap.a", "lib/libbpftap.so.1"]


class Targets(Source):
    """A source folder with what makes the other programs, a toolchain that links them, and musl."""

    def __init__(self, scene):
        super().__init__(scene)
        for name in ["glue.c", "heap.c", "targets.py"]:
            shutil.copy(ROOT / "release" / name, self.folder / "release" / name)
        self.add_library()
        tools, self.musl = self.kit / "toolchain" / "bin", scene.folder / "musl"
        tools.mkdir(parents=True)
        for name, text in [("clang", TOOL % 'echo C >"$2"'), ("ld.lld", TOOL % LINK), ("llvm-ar", PACK)]:
            (tools / name).write_text(text)
            (tools / name).chmod(0o755)
        for target in targets.TARGETS:
            folder = self.musl / "usr" / "lib" / target.musl
            folder.mkdir(parents=True)
            (folder / "libc.a").write_bytes(b"!<arch>\n\0" b"1.2.3\0")

    def add_library(self):
        """The library for C, which names a processor, a header that is released with it, and a toolchain that says what it has proved."""
        with open(self.folder / "crates.txt", "a") as crates:
            crates.write("bpftap_c staticlib: middle\n")
        for name in ["src/lib.rt", "specs/Lib.antt", "proofs/Lib.antt"]:
            path = self.folder / "crates" / "bpftap_c" / name
            path.parent.mkdir(parents=True)
            path.write_text("-- nothing\n" if name.startswith("proofs") else '// "1.2.3 x86-64-v2"\n')
        (self.folder / "include").mkdir()
        (self.folder / "include" / "low.h").write_text("/* low */\n")
        with open(self.folder / "release" / "files", "a") as files:
            files.write("644 include/low.h include/low.h\n")
        with open(self.kit / "bin" / "rattle", "a") as rattle:
            rattle.write('echo "logic=proved functions=1 of $3"\n')

    def environment(self):
        return {**super().environment(), "BPFTAP_MUSL": str(self.musl)}

    def key(self):
        return self.lib("sources_key").out.decode().strip()

    def paths(self, names):
        return [f"out/targets/{self.key()}/{name}/bin/bpftap" for name in names]


@case
def each_target_is_made_of_what_was_proved(scene):
    """The program and the library for C are compiled once more for another processor, over the same libraries, and the program is linked for each; a second
    call proves nothing."""
    source = Targets(scene)
    seen = source.run("--targets")
    scene.check("printed, and the status", (seen.out.decode().split(), seen.status), (source.paths(NAMES), 0))
    scene.check("built", sorted(source.calls()), ["bpftap", "bpftap", "bpftap_c", "low", "middle", "other"])
    said = source.noted("words")
    for target in targets.TARGETS:
        built = sorted(words.split()[2] for words in said if words.startswith("build") and f"--target {target.triple} " in words)
        scene.check(f"rattle for {target.name}", built, ["bpftap", "bpftap_c"] if target.processor else [])
        linked = [words for words in said if words.startswith("ld.lld") and f"{target.name}/bin/bpftap" in words]
        scene.check(f"linked for {target.name}", (len(linked), f"{target.musl}/libc.a" in linked[0], "--wrap=main" in linked[0]), (1, True, True))
    scene.check("again", (source.run("--targets").status, source.calls()), (0, []))
    source.edit("bpftap")
    scene.check("after an edit, for one", source.run("--targets", "aarch64-linux").out.decode().split(), source.paths(NAMES[1:]))
    scene.check("built anew", source.calls(), ["bpftap", "bpftap"])


@case
def a_library_is_made_for_its_processor(scene):
    """The sources of the library for aarch64 name it where the repository's name x86-64-v2, and are the same otherwise. It has the heap of release/, both
    forms and the header are beside the program, and nothing of it is beside a program that the library for x86-64 serves."""
    source = Targets(scene)
    scene.check("the status", source.run("--targets").status, 0)
    folder = source.folder / "out" / "targets" / source.key()
    own = {name: sorted(str(path.relative_to(folder / name)) for path in (folder / name).rglob("*") if path.is_file()) for name in NAMES}
    scene.check("files", own, {NAMES[0]: ["bin/bpftap"], NAMES[1]: sorted(["bin/bpftap", *FILES])})
    scene.check("the archive", (folder / NAMES[1] / "lib" / "libbpftap.a").read_text(), "made\nC\n")
    was, made = source.folder / "crates" / "bpftap_c", source.folder / "out" / "build" / "bpftap_c-aarch64-linux.sources"
    for name, text in [("src/lib.rt", '// "1.2.3 aarch64"\n'), ("specs/Lib.antt", '// "1.2.3 aarch64"\n'), ("proofs/Lib.antt", "-- nothing\n")]:
        scene.check(name, ((made / name).read_text(), "x86-64-v2" in (was / name).read_text()), (text, "aarch64" in text))
    linked = [words for words in source.noted("words") if words.startswith("ld.lld") and "libbpftap.so.1 " in words]
    scene.check("linked", (len(linked), "heap-aarch64-linux.o" in linked[0], "musl" in linked[0]), (1, True, False))
    (was / "specs" / "Lib.antt").write_text("-- the version\n")
    seen = source.run("--targets")
    line = b"bpftap: the sources of bpftap_c name x86-64-v2 in 1 files: wanted are one of its texts and one of its definitions\n"
    scene.check("a processor that is named in one of them", (seen.err.endswith(line), seen.status), (True, 1))


@case
def a_target_that_cannot_be_made_is_refused(scene):
    """A name that is none, a musl that is not there, and a program that is not proved for it or not linked: one line, and status 1."""
    source = Targets(scene)
    line = b"bpftap: no target riscv64-linux: there are x86_64-linux-static aarch64-linux\n"
    scene.check("no such target", source.run("--targets", "riscv64-linux"), Seen(b"", line, 1))
    archive = source.musl / "usr" / "lib" / "aarch64-linux-musl" / "libc.a"
    musl = archive.read_bytes()
    archive.unlink()
    line = (f"bpftap: nothing is made for aarch64-linux: {archive} is not there: install musl-dev for aarch64, or unpack it below a folder that "
            "BPFTAP_MUSL names\n")
    seen = source.run("--targets")
    scene.check("no musl", (seen.out, seen.err, seen.status, source.calls()), (b"", line.encode(), 1, []))
    archive.write_bytes(musl)
    (source.kit / "toolchain" / "bin" / "ld.lld").write_text("#!/bin/sh\nexit 1\n")
    seen = source.run("--targets", "x86_64-linux-static")
    scene.check("not linked", (b"nothing is made for x86_64-linux-static: " in seen.err, seen.status), (True, 1))
    (source.kit / "fails").write_text("bpftap")
    seen = source.run("--targets", "aarch64-linux")
    line = b"bpftap: bpftap is not built for aarch64-unknown-linux-gnu; out/build/bpftap-aarch64-unknown-linux-gnu.log has all that was said\n"
    scene.check("not proved", (seen.err.endswith(line), seen.status), (True, 1))


def made_of(source):
    """Of what a release is made, the archives that have musl, and the name and the checksum of that."""
    (source.folder / "packaging").mkdir()
    for name in ["packaging/sbom", "NOTICES", "CHANGELOG.md"]:
        shutil.copy(ROOT / name, source.folder / name)
    listed = json.loads(source.run(program="packaging/sbom").out)
    packages = {each["SPDXID"]: each for each in listed["packages"]}
    pairs = [(each["spdxElementId"], each["relatedSpdxElement"]) for each in listed["relationships"] if each["relationshipType"] == "STATIC_LINK"]
    return [(packages[one]["name"], packages[other]["name"], packages[other]["checksums"][0]["checksumValue"]) for one, other in pairs]


@case
def targets_are_released_and_compared(scene):
    """A release has the programs that were made of its sources, with what they were linked with; a build compares those that it has."""
    source = Targets(scene)
    source.run("--targets")
    scene.check("the status", source.run("--release").status, 0)
    release = source.folder / "release"
    archives = [f"bpftap-{name}.tar.xz" for name in ["x86_64-linux", *NAMES]]
    scene.check("archives", sorted(path.name for path in release.glob("*.xz")), sorted(archives))
    digest = hashlib.sha256((source.musl / "usr" / "lib" / "aarch64-linux-musl" / "libc.a").read_bytes()).hexdigest()
    sums = (release / "SHA256SUMS").read_text().splitlines()
    wanted = ["is linked with musl 1.2.3, libc.a " + digest, "has bpftap: logic=proved functions=1 of bpftap", "has bpftap_c: logic=proved functions=1 of bpftap_c"]
    scene.check("what it was made by", [line for line in sums if line.startswith("# aarch64-linux ")], [f"# aarch64-linux {line}" for line in wanted])
    in_archive = [line.split()[-1] for line in sums if line.startswith("# in bpftap-aarch64-linux.tar.xz: ")]
    scene.check("what it has", in_archive, sorted(["bin/bpftap", *FILES]))
    scene.check("what it is made of", made_of(source), [(f"bpftap-{name}.tar.xz", f"musl-{name}", digest) for name in sorted(NAMES)])
    same = b"the released program is what these sources give\n"
    scene.check("compared", source.run().err, same)
    first = [(release / name).read_bytes() for name in archives]
    shutil.rmtree(source.folder / "out")
    scene.check("compared without them", source.run().err.splitlines()[-1] + b"\n", same)
    source.run("--targets")
    scene.check("the status again", source.run("--release").status, 0)
    scene.check("the same bytes", [(release / name).read_bytes() for name in archives] == first, True)
    change(source.folder / source.paths(NAMES)[0], 20)
    seen = source.run()
    scene.check("another program", (seen.err.splitlines()[-1], seen.status), (b"the released program is not what these sources give", 0))
    shutil.rmtree(source.folder / "out" / "targets")
    seen = source.run("--release")
    line = b"bpftap: no program for aarch64-linux is packed: ./build --targets makes it\n"
    scene.check("one that is left out is named", (line in seen.err, seen.status), (True, 0))


def kit():
    """The toolchain's folder and its tools, as `./build` knows them."""
    folder = pathlib.Path(subprocess.run(["rt", "doc"], stdout=subprocess.PIPE, text=True, timeout=LIMIT).stdout.strip()).parent
    return types.SimpleNamespace(folder=folder, toolchain=folder / "toolchain")


def glued(scene, target, name):
    """A program of tests/targets/glue.c for a target, and how it is called; `None` if something is missing for it."""
    if not scene.has("rt"):
        return None
    machine = target.triple.partition("-")[0]
    emulator = [] if machine == platform.machine() else [f"qemu-{machine}"]
    try:
        musl = targets.Musl(target)
    except targets.Refused as why:
        return scene.leave(str(why))
    if not scene.has(*emulator):
        return None
    tools, made = kit(), scene.folder / "glue.o"
    words = ["-std=gnu17", "-O1", "-fPIE", "-nostdinc", "-isystem", musl.headers, "-c", ROOT / "tests" / "targets" / "glue.c", "-o", made]
    subprocess.run([tools.toolchain / "bin" / "clang", f"--target={target.musl}", *words], check=True, timeout=LIMIT)
    folder = scene.folder / name
    folder.mkdir()
    return [*emulator, targets.make(tools, target, made, folder, folder)]


def answers(scene, called, *words):
    done = subprocess.run([*called, *words], cwd=scene.folder, stdout=subprocess.PIPE, timeout=LIMIT)
    return done.stdout.decode().splitlines(), done.returncode


@case
def the_glue_answers_as_the_toolchain_does(scene):
    """Words of the command line, errors, files, memory and the stack of a thread, in a static program for each target; two links give the same bytes."""
    scene.put({"glue.c": "here\n"})
    inode = os.stat(scene.folder / "glue.c").st_ino
    wanted = ["count 4", "word -2", "word 0", "word 4", "word -2", "word -1", "given 4", "far -1", "errno 32", f"statx {inode}", "statx -2", "no bytes 1",
              "more 1", "too much 0", "its address 1", "too much at first 0", "thread 1"]
    for target in targets.TARGETS:
        called = glued(scene, target, target.name)
        if called is None:
            continue
        own = ["has x86-64-v2 1", "other leaves 0"] if target.triple.startswith("x86_64") else []
        scene.check(target.name, answers(scene, called, "", "four", "fives"), ([*wanted, *own], 0))
        again = glued(scene, target, f"{target.name} again")
        scene.check(f"the same bytes for {target.name}", again[-1].read_bytes() == called[-1].read_bytes(), True)


@case
def the_glue_knows_an_old_processor(scene):
    """By the glue a program asks CPUID for what x86-64-v2 has: an emulated processor with and without it."""
    called = glued(scene, targets.TARGETS[0], "made")
    if called is not None and scene.has("qemu-x86_64"):
        for name, has in [("qemu64", 0), ("Conroe", 0), ("Nehalem", 1)]:
            lines, _ = answers(scene, ["qemu-x86_64", "-cpu", name, *called])
            scene.check(name, lines[-2:], [f"has x86-64-v2 {has}", "other leaves 0"])


def root_of(scene, *tools):
    """A folder to be the root of all: with busybox and no C library, if that may be made."""
    if os.geteuid() != 0:
        return scene.leave("only root can change the root folder")
    if not scene.has("busybox", *tools):
        return None
    busybox, root = shutil.which("busybox"), scene.folder / "root"
    if b"\0" + b"/lib64/ld-linux" in pathlib.Path(busybox).read_bytes():
        return scene.leave("busybox is not a static one")
    for name in ["bin", "dev", "tmp", "home"]:
        (root / name).mkdir(parents=True)
    shutil.copy(busybox, root / "bin" / "busybox")
    for name in subprocess.run([busybox, "--list"], stdout=subprocess.PIPE, text=True).stdout.split():
        if name != "busybox":
            (root / "bin" / name).symlink_to("busybox")
    os.mknod(root / "dev" / "null", 0o020666, os.makedev(1, 3))
    (root / "dev" / "null").chmod(0o666)
    return root


def in_root(root, *words, **environment):
    how = {"env": {"PATH": "/bin", "HOME": "/home", **environment}, "stdin": subprocess.DEVNULL, "capture_output": True, "timeout": LIMIT}
    done = subprocess.run([shutil.which("chroot"), root, *words], **how)
    return Seen(done.stdout, done.stderr, done.returncode)


@case
def the_launcher_needs_no_c_library(scene):
    """Where there are only busybox's tools and no C library the launcher runs the static program, and looks for changes as elsewhere."""
    root = root_of(scene)
    if root is None:
        return
    if KIND != "dynamic":
        return scene.leave("the program that is tested needs no C library")
    clone = Clone(scene, pathlib.Path(PROGRAM).read_bytes())
    also_released(clone, {"x86_64-linux-static": MADE.replace("a stand-in", "static")})
    there = root / "home" / "clone"
    shutil.move(clone.folder, there)
    wanted = Seen(b"bpftap 1.2.3, static\nreleased, of bpftap-x86_64-linux-static.tar.xz\n", b"", 0)
    call = lambda *words: in_root(root, "/home/clone/bpftap", *words)
    scene.check("the first call", call("--version"), wanted)
    scene.check("noted", sorted(path.name for path in (there / "out").iterdir()), ["noted", "released"])
    noted = (there / "out" / "noted").stat().st_mtime_ns
    scene.check("the second call", (call("--version"), (there / "out" / "noted").stat().st_mtime_ns), (wanted, noted))
    lack = b"bpftap: the toolchain's command 'rt' is not on the PATH\n"
    (there / "build").write_text("#!/bin/sh\necho \"bpftap: the toolchain's command 'rt' is not on the PATH\" >&2\nexit 1\n")
    with open(there / "crates" / "low" / "src" / "lib.rt", "a") as source:
        source.write("// more\n")
    scene.check("after an edit", call("--version"), Seen(b"", lack, 125))


@case
def a_note_of_another_c_library_is_not_taken(scene):
    """A clone that machines share: what was noted where glibc is newer is not run where it is older, or where there is none."""
    root = root_of(scene)
    if root is None:
        return
    needs_new = MADE.replace("#!/bin/sh\n", "#!/bin/sh\nread -r has </lib64/ld-linux-x86-64.so.2 && [ \"$has\" = new ] || exit 1\n")
    clone = Clone(scene, needs_new)
    also_released(clone, {"x86_64-linux-static": MADE.replace("a stand-in", "static")})
    shutil.move(clone.folder, root / "home" / "clone")
    loader = root / "lib64" / "ld-linux-x86-64.so.2"
    loader.parent.mkdir()
    static = b"bpftap 1.2.3, static\nreleased, of bpftap-x86_64-linux-static.tar.xz\n"
    for machine, has, wanted in [("new", "new\n", RELEASED), ("old", "old\n", static), ("new again", "new\n", RELEASED), ("none", None, static)]:
        loader.unlink(missing_ok=True)
        if has:
            loader.write_text(has)
        for call in ("first", "second"):
            seen = in_root(root, "/home/clone/bpftap", "--version")
            scene.check(f"{machine} glibc, the {call} call", seen, Seen(wanted, b"", 0))


@case
def the_static_program_runs_where_nothing_else_is(scene):
    """In a folder with nothing but a capture and the program, the released static one checks and cuts; it refuses to print beside files."""
    archive = ROOT / "release" / "bpftap-x86_64-linux-static.tar.xz"
    if os.geteuid() != 0 or not archive.is_file():
        return scene.leave("only root can change the root folder" if archive.is_file() else "no static program is released")
    with tarfile.open(archive) as packed:
        packed.extractall(scene.folder)
    shutil.copy(ROOT / "examples" / "veth.pcap", scene.folder / "in.pcap")
    call = lambda *words: in_root(scene.folder, "/bin/bpftap", *words)
    for words in (["check", "ip"], ["--hints", "check", "tcp prot 80"], ["cut", "-s", "0", "none.pcap", "out.pcap"]):
        own = subprocess.run([PROGRAM, *words], cwd=scene.folder, stdin=subprocess.DEVNULL, capture_output=True, timeout=LIMIT)
        scene.check(" ".join(words), call(*words), Seen(own.stdout, own.stderr, own.returncode))
    scene.check("explain", call("explain", "-e", "arp", "in.pcap"), Seen(b"", b"bpftap: Device /dev/stdout\n", 3))
    scene.check("cut", call("cut", "-s", "0", "-e", "arp", "in.pcap", "out.pcap").status, 0)
    subprocess.run([PROGRAM, "cut", "-s", "0", "-e", "arp", "in.pcap", "own.pcap"], cwd=scene.folder, timeout=LIMIT)
    scene.check("what is cut", scene.read("out.pcap"), scene.read("own.pcap"))


def blob(layout, described):
    return layout / "blobs" / described["digest"].replace(":", "/")


@case
def an_image_has_the_program_and_its_licences(scene):
    """The image has the static program, the licences and nothing else, calls the program, and is the same, byte for byte, if it is made again."""
    if not scene.has("buildah"):
        return
    clone = Clone(scene)
    also_released(clone, {"x86_64-linux-static": MADE})
    (clone.folder / "packaging").mkdir()
    for name in ["packaging/image", "LICENSE-MIT", "LICENSE-APACHE", "NOTICES"]:
        shutil.copy(ROOT / name, clone.folder / name)
    made = [clone.run(name, program="packaging/image") for name in ("one", "two")]
    if b"not permitted" in made[0].err or b"cannot clone" in made[0].err:
        return scene.leave("buildah may make nothing here")
    paths = [scene.folder / name / "bpftap-1.2.3-x86_64-image.tar" for name in ("one", "two")]
    for seen, path in zip(made, paths):
        printed = seen.out.decode().splitlines()[:1]
        scene.check("printed", (printed, seen.err, seen.status), ([str(path.relative_to(scene.folder))], b"", 0))
    scene.check("the same bytes", paths[0].read_bytes() == paths[1].read_bytes(), True)
    layout = scene.folder / "layout"
    with tarfile.open(paths[0]) as packed:
        packed.extractall(layout)
    described = json.loads((layout / "index.json").read_text())["manifests"][0]
    scene.check("the digest", made[0].out.decode().splitlines()[1], described["digest"])
    manifest = json.loads(blob(layout, described).read_text())
    image = json.loads(blob(layout, manifest["config"]).read_text())["config"]
    scene.check("what it calls, and where", (image["Entrypoint"], image.get("Cmd"), image["WorkingDir"]), (["/bin/bpftap"], None, "/work"))
    files = {}
    for layer in manifest["layers"]:
        with tarfile.open(blob(layout, layer)) as packed:
            files.update({member.name: (oct(member.mode & 0o777), packed.extractfile(member).read()) for member in packed if member.isfile()})
    texts = {f"usr/share/doc/bpftap/{name}": ("0o644", (ROOT / name).read_bytes()) for name in ["LICENSE-MIT", "LICENSE-APACHE", "NOTICES"]}
    scene.check("what it has", files, {"bin/bpftap": ("0o755", MADE.encode()), **texts})
