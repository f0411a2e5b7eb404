"""The launcher and `release/`: which program is run, how a release is made and compared, and what is refused. A stand-in takes the toolchain's place."""
import contextlib
import hashlib
import os
import pathlib
import shutil
import subprocess
import tempfile
import time

from .build import MADE, STALE, Source
from .common import LIMIT, ROOT, Seen, case

ARCHIVE = "release/bpftap-x86_64-linux.tar.xz"
RELEASED, BUILT = b"bpftap 1.2.3, a stand-in\nreleased, reproduced by the gate\n", b"bpftap 1.2.3, a stand-in\nbuilt and proved here\n"
# A program that needs another system.
OLD = "#!/bin/sh\necho \"libc.so.6: version \\`GLIBC_2.34' not found\" >&2\nexit 1\n"
# The program that runs, if one does, leaves a mark.
MARKS = MADE.replace("#!/bin/sh\n", '#!/bin/sh\ntouch "$HOME/ran"\n')


class Clone(Source):
    """A source folder with a release of its sources, on a machine without the toolchain."""

    def __init__(self, scene, program=MADE):
        super().__init__(scene)
        self.home = scene.folder / "home"
        self.home.mkdir()
        self.release(program)

    def call(self, *words, **how):
        """Calls the launcher with no toolchain on the PATH."""
        return self.run(*words, program="bpftap", env=self.bare(), **how)

    def bare(self):
        return {"PATH": "/usr/bin:/bin", "HOME": str(self.home)}

    def answer(self, *words):
        return Seen(f"here: {self.scene.folder}, words: {' '.join(words)}\n".encode(), b"", 7)

    def unpacked(self):
        """The folder of the released files."""
        self.lib("unpack", ARCHIVE.removeprefix("release/"))
        return next((self.folder / "out" / "released").iterdir())

    def is_unpacked_in(self, folder):
        return sorted(path.name for path in folder.glob("released/*/bin/bpftap"))


def change(path, place):
    """Changes one byte of a file."""
    text = bytearray(path.read_bytes())
    text[place] ^= 1
    path.write_bytes(text)


def refused(scene, clone, what, line):
    """The launcher prints one line and ends with 125, and the program was not run."""
    scene.check(what, clone.call("check", "ip"), Seen(b"", f"bpftap: {line}\n".encode(), 125))
    scene.check(f"{what}: run", (clone.home / "ran").exists(), False)


def no_place(clone, cache):
    """The launcher has no folder for the program."""
    line = f"bpftap: no program can be put in {clone.folder}/out or {cache}: set XDG_CACHE_HOME to a folder that only you can write to\n"
    return Seen(b"", line.encode(), 125)


@case
def a_clone_runs_the_released_program(scene):
    """Without the toolchain the first call unpacks the program and runs it in the caller's folder; the next one runs it again."""
    clone = Clone(scene)
    scene.check("the first call", clone.call("a b", "-c"), clone.answer("a b", "-c"))
    scene.check("the second call", clone.call("--version", "-c"), clone.answer("--version", "-c"))
    scene.check("unpacked", clone.is_unpacked_in(clone.folder / "out"), ["bpftap"])
    for word in ["--version", "-V"]:
        scene.check(word, clone.call(word), Seen(RELEASED, b"", 0))
    (scene.folder / "linked").symlink_to(clone.folder / "bpftap")
    done = subprocess.run(["../linked"], cwd=clone.home, env=clone.bare(), capture_output=True, timeout=LIMIT)
    scene.check("by a link", (done.returncode, done.stderr), (7, b""))


@case
def the_program_is_that_of_the_sources(scene):
    """A change to a crate, or to what it uses, makes the launcher build; once it is undone, the release is run again."""
    clone = Clone(scene)
    clone.call()
    low, crates = clone.src("low") / "lib.rt", clone.folder / "crates.txt"
    was, times = low.read_text(), low.stat()
    low.write_text(was.replace("low", "wol"))
    os.utime(low, ns=(times.st_atime_ns, times.st_mtime_ns))
    lack = Seen(b"", b"bpftap: the toolchain's command 'rt' is not on the PATH\n", 125)
    scene.check("an edit that keeps size and time", clone.call(), lack)
    low.write_text(was)
    scene.check("put back", clone.call(), clone.answer())
    more = clone.src("low") / "more.rt"
    more.write_text("")
    scene.check("a new file", clone.call(), lack)
    more.unlink()
    specs = clone.folder / "crates" / "low" / "specs"
    specs.mkdir()
    (specs / "Lib.antt").write_text("pub mod Low\n")
    scene.check("a definition", clone.call(), lack)
    shutil.rmtree(specs)
    scene.check("without it", clone.call(), clone.answer())
    sums = clone.folder / "release" / "SHA256SUMS"
    named = sums.read_text()
    sums.write_text(named.replace("# sources ", "# sources 0"))
    scene.check("a release of other sources", clone.call(), lack)
    sums.write_text(named)
    crates.write_text(crates.read_text().replace("middle: low", "middle: low thiserror"))
    scene.check("another crates.txt", clone.call(), lack)


@case
def what_is_no_part_of_the_program_builds_nothing(scene):
    """Proofs, crates of tests, comments of crates.txt, and what an editor keeps beside sources leave the release as it is."""
    clone = Clone(scene)
    for name in ["src/.lib.rt.swp", "src/.#lib.rt", "src/#lib.rt#", "src/lib.rt~", "src/.hidden.rt", "proofs/Lib.antt", "README.md"]:
        path = clone.folder / "crates" / "low" / name
        path.parent.mkdir(exist_ok=True)
        path.write_text("kept\n")
    clone.src("test_low").mkdir(parents=True)
    (clone.src("test_low") / "lib.rt").write_text("// tests\n")
    with open(clone.folder / "crates.txt", "a") as crates:
        crates.write("# Another comment.\ntest_low: low\n")
    scene.check("called", clone.call(), clone.answer())


@case
def what_is_built_here_is_run(scene):
    """Once the program is built it is run in place of the released one, and says so; an edit has it built again, and only once."""
    clone = Clone(scene)
    scene.check("released", clone.run("--version", program="bpftap").out, RELEASED)
    scene.check("the status of a build", clone.run().status, 0)
    scene.check("from then on", clone.call("--version").out, BUILT)
    clone.edit("middle")
    clone.calls()
    scene.check("after an edit", clone.run("--version", program="bpftap").out, BUILT)
    scene.check("calls", clone.calls(), ["middle", "bpftap"])
    scene.check("again", (clone.run("--version", program="bpftap"), clone.calls()), (Seen(BUILT, b"", 0), []))


@case
def an_edit_during_a_build_is_not_run(scene):
    """A program whose sources were edited while it was built is not kept."""
    source = Source(scene)
    (source.kit / "bin" / "rattle-link").write_text('#!/bin/sh\ncat "$KIT/program" >"$6"\necho "// more" >>"${6%/out/*}/crates/low/src/lib.rt"\n')
    seen = source.run(program="bpftap")
    wanted = b"bpftap: a source was edited meanwhile: the next call builds it\n"
    scene.check("printed, and the status", (seen.err.endswith(wanted), seen.out, seen.status), (True, b"", 125))


@case
def a_damaged_archive_is_refused(scene):
    """One line names what is wrong, and nothing is run: a byte of the archive is another one, its end is missing, or a checksum is another one."""
    clone = Clone(scene, MARKS)
    archive, sums = clone.folder / ARCHIVE, clone.folder / "release" / "SHA256SUMS"
    whole, named = archive.read_bytes(), sums.read_text()
    damaged = f"{ARCHIVE} is damaged: its SHA-256 is not the one in release/SHA256SUMS"
    for place in [0, 4, 9, len(whole) // 2, len(whole) - 1]:
        change(archive, place)
        refused(scene, clone, f"byte {place}", damaged)
        archive.write_bytes(whole)
    for text in [b"", whole[:-9]]:
        archive.write_bytes(text)
        refused(scene, clone, f"{len(text)} bytes", damaged)
    archive.write_bytes(whole)
    change(sums, named.index(f"  {ARCHIVE.removeprefix('release/')}") - 1)
    refused(scene, clone, "another checksum of the archive", damaged)
    sums.write_text(named)
    change(sums, named.index("  bin/bpftap") - 1)
    seen = clone.call("check", "ip")
    scene.check("another checksum of the program", (seen.err.endswith(b" is not what release/SHA256SUMS says: remove it\n"), seen.status), (True, 125))
    scene.check("run", (clone.home / "ran").exists(), False)


@case
def a_program_that_was_changed_is_not_run(scene):
    """What was unpacked is checked before each call, even if it was changed after the first one."""
    clone = Clone(scene)
    clone.call()
    program = next((clone.folder / "out").glob("released/*/bin/bpftap"))
    program.write_text(MARKS)
    seen = clone.call("check", "ip")
    scene.check("changed", (seen.err.endswith(b" is not what release/SHA256SUMS says: remove it\n"), seen.status), (True, 125))
    scene.check("run", (clone.home / "ran").exists(), False)
    program.write_text(MADE)
    scene.check("put back", clone.call(), clone.answer())


@case
def an_archive_has_what_is_listed_and_no_more(scene):
    """A program that the list does not name, and a link in place of the program, are not run."""
    clone = Clone(scene, MARKS)
    sums = clone.folder / "release" / "SHA256SUMS"
    named = sums.read_text()
    sums.write_text("".join(line for line in named.splitlines(True) if not line.startswith("# in ")))
    seen = clone.call("check", "ip")
    scene.check("not listed", (seen.err.endswith(b" is not what release/SHA256SUMS says: remove it\n"), seen.status), (True, 125))
    sums.write_text(named)
    shutil.rmtree(clone.folder / "out")
    tree = scene.folder / "tree"
    (tree / "bin").mkdir(parents=True)
    (clone.home / "elsewhere").write_text(MARKS)
    (clone.home / "elsewhere").chmod(0o755)
    (tree / "bin" / "bpftap").symlink_to(clone.home / "elsewhere")
    subprocess.run(["tar", "-cJf", clone.folder / ARCHIVE, "-C", tree, "."], check=True, timeout=LIMIT)
    digest, name = hashlib.sha256((clone.folder / ARCHIVE).read_bytes()).hexdigest(), ARCHIVE.removeprefix("release/")
    sums.write_text("".join(f"{digest}  {name}\n" if line.endswith(f"  {name}\n") else line for line in named.splitlines(True)))
    seen = clone.call("check", "ip")
    scene.check("a link", (seen.err.startswith(b"bpftap: no program can be put in "), seen.status), (True, 125))
    scene.check("run", (clone.home / "ran").exists(), False)


@case
def an_edit_during_the_first_call_is_seen(scene):
    """A source that is edited while the first call unpacks and tries the program is newer than what that call notes."""
    edits = MADE.replace("#!/bin/sh\n", '#!/bin/sh\n[ ! -f "$HOME/source" ] || { cat "$HOME/edit" >>"$(cat "$HOME/source")"; rm "$HOME/source"; }\n')
    clone = Clone(scene, edits)
    (clone.home / "edit").write_text("// more\n")
    (clone.home / "source").write_text(str(clone.src("low") / "lib.rt"))
    clone.call("--version")
    scene.check("the next call", clone.call(), Seen(b"", b"bpftap: the toolchain's command 'rt' is not on the PATH\n", 125))


@case
def a_missing_archive_has_it_built(scene):
    """Without an archive the launcher builds, as in a folder in the middle of work."""
    clone = Clone(scene)
    (clone.folder / ARCHIVE).unlink()
    scene.check("called", clone.run("--version", program="bpftap").out, BUILT)


@case
def a_machine_that_cannot_run_it_is_reported(scene):
    """Another processor, and a system that does not start the program: one line says so, and what to do. What was built there is run."""
    clone = Clone(scene, MARKS)
    tools = scene.folder / "tools"
    tools.mkdir()
    (tools / "uname").write_text("#!/bin/sh\necho Linux riscv64\n")
    (tools / "uname").chmod(0o755)
    build = "./build proves and builds one, with the toolchain"
    there = {**clone.bare(), "PATH": f"{tools}:/usr/bin:/bin"}
    line = f"bpftap: no released program is for Linux riscv64: {build}\n"
    scene.check("another processor", clone.run(program="bpftap", env=there), Seen(b"", line.encode(), 125))
    clone.release(OLD)
    refused(scene, clone, "an old system", "the released program does not run here: that for x86-64 needs glibc 2.34 or later, and a processor of "
            f"x86-64-v2. {build}")
    scene.check("a build", clone.run().status, 0)
    scene.check("what was built", clone.call("--version").out, BUILT)


def also_released(clone, programs):
    """Makes a release of the same sources with a program for each of these targets too, or with what an archive has."""
    key = clone.lib("sources_key").out.decode().strip()
    for target, program in programs.items():
        made = clone.folder / "out" / "targets" / key / target / "bin" / "bpftap"
        made.parent.mkdir(parents=True)
        if isinstance(program, pathlib.Path):
            subprocess.run(["tar", "-xJf", program, "-C", made.parent.parent], check=True, timeout=LIMIT)
        else:
            made.write_text(program)
        made.chmod(0o755)
        made.parent.parent.with_name(f"{target}.by").write_text("made by hand\n")
    shutil.copytree(clone.unpacked(), clone.folder / "out" / "built" / key)
    clone.lib("pack")
    shutil.rmtree(clone.folder / "out")


@case
def each_machine_runs_the_program_for_it(scene):
    """Where the first program does not run the static one is taken, and on another processor the one for that; each is checked as the first is."""
    clone = Clone(scene, OLD)
    static = MADE.replace("a stand-in", "static")
    also_released(clone, {"x86_64-linux-static": static, "aarch64-linux": static.replace("static", "of another machine")})
    sums = (clone.folder / "release" / "SHA256SUMS").read_text()
    scene.check("how it was made", "# aarch64-linux made by hand\n" in sums, True)
    words = ["sha256sum", "--quiet", "--check", "SHA256SUMS"]
    scene.check("checksums", subprocess.run(words, cwd=clone.folder / "release", timeout=LIMIT).returncode, 0)
    wanted = b"bpftap 1.2.3, static\nreleased, of bpftap-x86_64-linux-static.tar.xz\n"
    scene.check("static", (clone.call("--version").out, clone.call("--version").out), (wanted, wanted))
    tools = scene.folder / "tools"
    tools.mkdir()
    (tools / "uname").write_text("#!/bin/sh\necho Linux aarch64\n")
    (tools / "uname").chmod(0o755)
    shutil.rmtree(clone.folder / "out")
    there = {**clone.bare(), "PATH": f"{tools}:/usr/bin:/bin"}
    wanted = b"bpftap 1.2.3, of another machine\nreleased, of bpftap-aarch64-linux.tar.xz\n"
    scene.check("another machine", clone.run("--version", program="bpftap", env=there).out, wanted)
    shutil.rmtree(clone.folder / "out")
    change(clone.folder / "release" / "bpftap-x86_64-linux-static.tar.xz", 4)
    damaged = "release/bpftap-x86_64-linux-static.tar.xz is damaged: its SHA-256 is not the one in release/SHA256SUMS"
    refused(scene, clone, "a damaged one", damaged)
    also_released(clone, {"x86_64-linux-static": OLD, "aarch64-linux": OLD})
    build = "./build proves and builds one, with the toolchain"
    refused(scene, clone, "neither", f"neither released program runs here: those for x86-64 need a processor of x86-64-v2. {build}")
    seen = clone.run(program="bpftap", env=there)
    scene.check("another old machine", seen, Seen(b"", f"bpftap: the released program does not run here. {build}\n".encode(), 125))


def tools_without(scene, *names):
    """A folder with the system's tools but these."""
    tools = scene.folder / f"without {' '.join(names) or 'none'}"
    tools.mkdir()
    for path in pathlib.Path("/usr/bin").iterdir():
        if path.name not in names:
            (tools / path.name).symlink_to(path)
    return tools


# What unpacks an archive, the one that is tried first before the others.
UNPACKERS = ["xz", "dpkg-deb", "python3"]


@case
def an_archive_is_unpacked_by_what_is_there(scene):
    """By xz; in a container without it by dpkg, or by Python; and if none is there, one line says what to install."""
    clone = Clone(scene)
    for place, name in enumerate([*UNPACKERS, None]):
        shutil.rmtree(clone.folder / "out", ignore_errors=True)
        there = {**clone.bare(), "PATH": str(tools_without(scene, *UNPACKERS[:place]))}
        if name is None:
            line = f"bpftap: {ARCHIVE} is packed by xz, which is not here: install xz-utils\n"
            scene.check("by none", clone.run(program="bpftap", env=there), Seen(b"", line.encode(), 125))
        elif scene.has(name):
            scene.check(f"by {name}", clone.run("-c", program="bpftap", env=there), clone.answer("-c"))


@case
def what_a_user_sets_for_archives_is_not_for_these(scene):
    """Variables that limit xz or leave files out of an archive change nothing. If an archive cannot be unpacked, the line has the reason."""
    clone = Clone(scene)
    for name, value in [("XZ_OPT", "--memlimit=1"), ("XZ_DEFAULTS", "--memlimit=1"), ("TAR_OPTIONS", "--exclude=bin")]:
        scene.check(name, clone.run("-c", program="bpftap", env={**clone.bare(), name: value}), clone.answer("-c"))
        shutil.rmtree(clone.folder / "out", ignore_errors=True)
    tools = scene.folder / "tools"
    tools.mkdir()
    (tools / "xz").write_text("#!/bin/sh\necho 'xz: (stdin): Cannot allocate memory' >&2\nexit 1\n")
    (tools / "xz").chmod(0o755)
    line = f"bpftap: {ARCHIVE} cannot be unpacked here: xz: (stdin): Cannot allocate memory\n"
    there = {**clone.bare(), "PATH": f"{tools}:/usr/bin:/bin"}
    scene.check("without memory", clone.run(program="bpftap", env=there), Seen(b"", line.encode(), 125))


@case
def a_folder_that_cannot_be_written_uses_the_cache(scene):
    """The program is unpacked in the user's cache, or if that cannot be written either, one line says what is missing."""
    clone = Clone(scene)
    (clone.folder / "out").write_text("in the way\n")
    scene.check("called", (clone.call(), clone.call()), (clone.answer(), clone.answer()))
    scene.check("unpacked", clone.is_unpacked_in(clone.home / ".cache" / "bpftap"), ["bpftap"])
    cache = {**clone.bare(), "XDG_CACHE_HOME": str(scene.folder / "a cache")}
    scene.check("another cache", clone.run(program="bpftap", env=cache), clone.answer())
    scene.check("unpacked there", clone.is_unpacked_in(scene.folder / "a cache" / "bpftap"), ["bpftap"])
    lacks = str(scene.folder / "lacks")
    for home in [{"HOME": "/dev/null"}, {}, {"HOME": "home"}, {"HOME": lacks}, {"HOME": str(clone.home), "XDG_CACHE_HOME": f"{lacks}/cache"}]:
        scene.check(f"no cache by {home}", clone.run(program="bpftap", env={"PATH": "/usr/bin:/bin", **home}), no_place(clone, "a cache"))
    scene.check("a home that was not there", os.path.exists(lacks), False)


@case
def first_calls_at_once_do_not_disturb_one_another(scene):
    """Eight first calls at once all answer, and leave one folder."""
    clone = Clone(scene)
    how = {"cwd": scene.folder, "env": clone.bare(), "stdin": subprocess.DEVNULL, "stdout": subprocess.PIPE, "stderr": subprocess.PIPE}
    calls = [subprocess.Popen([clone.folder / "bpftap", "-c"], **how) for _ in range(8)]
    answers = [Seen(*call.communicate(timeout=LIMIT), call.returncode) for call in calls]
    scene.check("answers", answers, [clone.answer("-c")] * 8)
    scene.check("left", len([*(clone.folder / "out" / "released").iterdir()]), 1)
    scene.check("noted", sorted(path.name for path in (clone.folder / "out").iterdir()), ["noted", "released"])


# Another user, to whom only root can give files.
OTHER = 65534
# What another one would have run: it leaves a mark.
PLANTED = "#!/bin/sh\ntouch \"$HOME/ran\"\necho 'bpftap 1.2.3, planted'\n"


def plant(clone, place, name="released/planted/bin/bpftap"):
    """Puts a program in `out` or a cache, and notes it there, as a call that chose it would."""
    program = place / name
    program.parent.mkdir(parents=True, exist_ok=True)
    program.write_text(PLANTED)
    program.chmod(0o755)
    script = 'root=$1 && . "$1/release/lib.sh" && { printf "%s\\n" "$3" "released, reproduced by the gate"; uname -sm; state "$2/$3" $loader; } >"$2/noted"; true'
    subprocess.run(["sh", "-c", script, "sh", clone.folder, place, name], check=True, timeout=LIMIT)
    (place / "noted").chmod(0o600)


def give(*paths, user=OTHER):
    """Makes paths, and all below them, another user's."""
    for top in paths:
        for path in [top, *top.rglob("*")]:
            os.chown(path, user, user)


def are_followed(scene, mode):
    """Whether the system follows another user's links in a folder of this mode."""
    setting = pathlib.Path("/proc/sys/fs/protected_symlinks")
    if mode & 0o1000 and not (setting.exists() and setting.read_text() == "0\n"):
        return scene.leave("fs.protected_symlinks is set: the system follows no link of another user in a folder as /tmp")
    return True


def has_run(clone):
    """Whether the planted program has run since the last time."""
    mark = clone.home / "ran"
    ran = mark.exists()
    mark.unlink(missing_ok=True)
    return ran


def modes(folder):
    """The modes of a folder and of all below it."""
    return {oct(path.stat().st_mode & 0o777) for path in [folder, *folder.rglob("*")]}


@case
def what_others_noted_is_not_run(scene):
    """A note in `out` or the cache that others can have written is not taken: what it names is not run, and the released program is."""
    clone = Clone(scene)
    out, cache = clone.folder / "out", clone.home / ".cache" / "bpftap"
    # That a note of one's own is taken shows that these are well made.
    for place in [out, cache]:
        plant(clone, place)
        scene.check(f"one's own, in {place.name}", (clone.call("--version").status, has_run(clone)), (0, True))
    for place in [out, cache]:
        for what in ["", "noted", "released", "released/planted", "released/planted/bin", "released/planted/bin/bpftap"]:
            shutil.rmtree(out, ignore_errors=True)
            shutil.rmtree(cache, ignore_errors=True)
            plant(clone, place)
            mode = (place / what).stat().st_mode
            for others in [0o002, 0o020]:
                (place / what).chmod(mode | others)
                seen = clone.call("--version").out, has_run(clone)
                scene.check(f"{others:o} can write to {place.name}/{what}", seen, (RELEASED, False))
    for name in ["../planted", "released/../../planted"]:
        shutil.rmtree(out, ignore_errors=True)
        shutil.rmtree(cache)
        (cache / "released").mkdir(parents=True)
        plant(clone, cache, name)
        scene.check(f"a note of {name}", (clone.call("--version").out, has_run(clone)), (RELEASED, False))


@case
def a_note_of_another_machine_is_not_taken(scene):
    """A clone on a shared disk: what was noted on one machine is not run on another one, which has no program here."""
    clone = Clone(scene)
    clone.call()
    scene.check("noted", (clone.folder / "out" / "noted").exists(), True)
    tools = scene.folder / "tools"
    tools.mkdir()
    (tools / "uname").write_text("#!/bin/sh\necho Linux riscv64\n")
    (tools / "uname").chmod(0o755)
    env = {**clone.bare(), "PATH": f"{tools}:/usr/bin:/bin"}
    seen = clone.run("check", "ip", program="bpftap", env=env)
    scene.check("on another machine", (seen.out, seen.status, b"bpftap: " in seen.err), (b"", 125, True))
    scene.check("here again", clone.call("-c"), clone.answer("-c"))


@case
def a_cache_that_others_can_write_to_is_none(scene):
    """Nothing is run in a cache that is below a folder that others can write to, unless they can only add to it, as to /tmp."""
    clone = Clone(scene)
    (clone.folder / "out").write_text("in the way\n")
    for shared in [clone.home, clone.home / ".cache"]:
        cache = clone.home / ".cache" / "bpftap"
        plant(clone, cache)
        shared.chmod(0o777)
        scene.check(f"others can write to {shared.name}", (clone.call("--version"), has_run(clone)), (no_place(clone, cache), False))
        shared.chmod(0o1777)
        scene.check(f"they can add to {shared.name}", (clone.call("--version").status, has_run(clone)), (0, True))
        shared.chmod(0o755)
        shutil.rmtree(cache)


@case
def a_link_is_asked_where_it_leads(scene):
    """A link on the way to `out` or the cache is followed once, and the folders above its end are asked: others may write to none of them."""
    clone = Clone(scene)
    out, cache, shared = clone.folder / "out", clone.home / ".cache" / "bpftap", scene.folder / "shared"
    (shared / "cache").mkdir(parents=True)
    (shared / "out").mkdir()
    out.symlink_to(shared / "out")
    scene.check("out is a link", (clone.call("--version").out, clone.is_unpacked_in(shared / "out")), (RELEASED, ["bpftap"]))
    plant(clone, out)
    shared.chmod(0o777)
    scene.check("out is a link to where others can write", (clone.call("--version").out, has_run(clone)), (RELEASED, False))
    shutil.rmtree(cache.parent)
    out.unlink()
    out.write_text("in the way\n")
    shared.chmod(0o755)
    cache.parent.symlink_to(shared / "cache")
    calls = (clone.call("--version").out, clone.call("--version").out)
    scene.check("the cache is a link", (*calls, clone.is_unpacked_in(shared / "cache" / "bpftap")), (RELEASED, RELEASED, ["bpftap"]))
    plant(clone, shared / "cache" / "bpftap")
    scene.check("one's own note there", (clone.call("--version").status, has_run(clone)), (0, True))
    shared.chmod(0o777)
    scene.check("the cache is a link to where others can write", (clone.call("--version"), has_run(clone)), (no_place(clone, cache), False))
    shared.chmod(0o755)
    planted = shared / "cache" / "bpftap" / "released"
    planted.rename(scene.folder / "released")
    planted.symlink_to(scene.folder / "released")
    scene.check("a link within", (clone.call("--version"), has_run(clone)), (no_place(clone, cache), False))


@case
def a_cache_that_is_a_link_of_another_user_is_none(scene):
    """Where others can add to XDG_CACHE_HOME, one of them may have put a link `bpftap` there to a folder of the caller's: nothing is written or run in it."""
    if os.geteuid() != 0:
        return scene.leave("only root can make links of another user")
    clone = Clone(scene)
    (clone.folder / "out").write_text("in the way\n")
    for mode in [0o777, 0o1777]:
        shared, own = scene.folder / f"shared {mode:o}", scene.folder / f"own {mode:o}"
        shared.mkdir()
        shared.chmod(mode)
        own.mkdir()
        (own / "noted").write_text("kept\n")
        link = shared / "bpftap"
        link.symlink_to(own)
        call = lambda: clone.run("--version", program="bpftap", env={**clone.bare(), "XDG_CACHE_HOME": str(shared)})
        if are_followed(scene, mode):
            os.lchown(link, OTHER, OTHER)
            scene.check(f"another user's link, {mode:o}", call(), no_place(clone, link))
            left = [path.name for path in own.iterdir()], (own / "noted").read_text()
            scene.check(f"left, {mode:o}", left, (["noted"], "kept\n"))
            plant(clone, own)
            scene.check(f"a note of the caller's there, {mode:o}", (call(), has_run(clone)), (no_place(clone, link), False))
            os.lchown(link, 0, 0)
        plant(clone, own)
        scene.check(f"the caller's own link, {mode:o}", (call().status, has_run(clone)), (0, True))


@case
def root_makes_nothing_in_a_folder_of_another_user(scene):
    """Called by root, with the HOME of another user or in another user's clone, it leaves nothing there that this user could not write to."""
    if os.geteuid() != 0:
        scene.leave("only root can make files of another user")
        return
    clone = Clone(scene)
    give(clone.home)
    (clone.folder / "out").write_text("in the way\n")
    scene.check("another user's home", clone.call("--version"), no_place(clone, clone.home / ".cache" / "bpftap"))
    scene.check("made there", [*clone.home.iterdir()], [])
    (clone.folder / "out").unlink()
    give(clone.folder)
    scene.check("and clone", clone.call("--version"), no_place(clone, clone.home / ".cache" / "bpftap"))
    give(clone.home, user=0)
    scene.check("another user's clone", clone.call("--version").out, RELEASED)
    scene.check("made there", (clone.folder / "out").exists(), False)


@case
def what_another_user_made_is_not_run(scene):
    """Root's first call with the HOME of another user, and a cache or `out` that another user made, run nothing of that user's."""
    if os.geteuid() != 0:
        scene.leave("only root can make files of another user")
        return
    clone = Clone(scene)
    out, cache = clone.folder / "out", clone.home / ".cache" / "bpftap"
    for paths in [[clone.home], [cache], [cache / "noted"], [cache / "released"]]:
        plant(clone, cache)
        give(*paths)
        scene.check(f"{paths[0].name} of another user", (clone.call("--version").out, has_run(clone)), (RELEASED, False))
        shutil.rmtree(cache)
        shutil.rmtree(out)
        give(clone.home, user=0)
    for paths in [[out], [out / "noted"], [out / "released"]]:
        plant(clone, out)
        give(*paths)
        scene.check(f"{paths[0].name} in out of another user", (clone.call("--version").out, has_run(clone)), (RELEASED, False))
        shutil.rmtree(out)
    for place in [out, cache]:
        plant(clone, place)
        os.chown(place, OTHER, OTHER)
        scene.check(f"only the folder {place.name} of another user", (clone.call("--version").out, has_run(clone)), (RELEASED, False))
        shutil.rmtree(place)
    shutil.rmtree(out, ignore_errors=True)
    shutil.rmtree(cache, ignore_errors=True)
    built = out / "built" / clone.lib("sources_key").out.decode().strip() / "bin" / "bpftap"
    plant(clone, out, str(built.relative_to(out)))
    give(out / "built")
    scene.check("a build of another user", (clone.call("--version").out, has_run(clone)), (RELEASED, False))
    (clone.folder / ARCHIVE).unlink()
    give(out)
    line = f"bpftap: nothing in {out} is run, since others can change it: remove it, or run chmod -R go-w on it\n"
    scene.check("nothing to run", clone.call("--version"), Seen(b"", line.encode(), 125))


@case
def another_user_can_call_the_launcher(scene):
    """In a clone that belongs to somebody else, what that user built is run, and what was released is run in one's own cache."""
    if os.geteuid() != 0 or not scene.has("setpriv"):
        scene.leave("only root can be another user")
        return
    with tempfile.TemporaryDirectory() as top:
        os.chmod(top, 0o755)
        scene.folder = pathlib.Path(top)
        clone = Clone(scene)
        give(clone.home)
        clone.home.chmod(0o700)
        words = ["setpriv", f"--reuid={OTHER}", "--clear-groups", clone.folder / "bpftap", "--version"]
        call = lambda: subprocess.run(words, cwd="/", env=clone.bare(), capture_output=True, timeout=LIMIT).stdout
        scene.check("released", (call(), call()), (RELEASED, RELEASED))
        scene.check("unpacked", clone.is_unpacked_in(clone.home / ".cache" / "bpftap"), ["bpftap"])
        shutil.rmtree(clone.home / ".cache")
        clone.run()
        scene.check("built", (call(), call()), (BUILT, BUILT))
        scene.check("noted", [(clone.folder / "out" / "noted").exists(), clone.call("--version").out], [False, BUILT])


@case
def a_first_call_leaves_nothing_that_others_can_write_to(scene):
    """Whatever the umask, others can write to nothing of `out` and of the cache; so can those of one's group not."""
    clone = Clone(scene)
    cache, out = clone.home / ".cache", clone.folder / "out"
    for mask in [0o000, 0o002, 0o077]:
        how = {"preexec_fn": lambda mask=mask: os.umask(mask)}
        scene.check(f"called under {mask:03o}", (clone.call("--version", **how).out, clone.call("--version", **how).out), (RELEASED, RELEASED))
        scene.check(f"modes of out under {mask:03o}", modes(out), {"0o755", "0o600"})
        shutil.rmtree(out)
        out.write_text("in the way\n")
        scene.check(f"the cache under {mask:03o}", clone.call("--version", **how).out, RELEASED)
        scene.check(f"modes of the cache under {mask:03o}", modes(cache), {"0o755", "0o600"})
        shutil.rmtree(cache)
        out.unlink()
        scene.check(f"built under {mask:03o}", (clone.run(**how).status, clone.call("--version", **how).out), (0, BUILT))
        scene.check(f"modes of out after a build under {mask:03o}", {mode for mode in modes(out) if int(mode, 8) & 0o022}, set())
        shutil.rmtree(out)


@case
def the_program_has_the_umask_of_its_caller(scene):
    """A file that the program makes has the mode that the caller asks for."""
    clone = Clone(scene, "#!/bin/sh\n[ $# = 1 ] || touch made\n")
    for name in ["first", "second"]:
        clone.call(name, "a file", cwd=clone.home, preexec_fn=lambda: os.umask(0o077))
        scene.check(f"the {name} call", oct((clone.home / "made").stat().st_mode & 0o777), "0o600")
        (clone.home / "made").unlink()


@case
def a_relative_cache_is_none(scene):
    """A HOME or XDG_CACHE_HOME that is not a whole path would be another folder at each call: nothing is put there, and nothing taken from there."""
    clone = Clone(scene)
    (clone.folder / "out").write_text("in the way\n")
    plant(clone, scene.folder / "rel" / ".cache" / "bpftap")
    plant(clone, scene.folder / "rel" / "bpftap")
    for name in ["HOME", "XDG_CACHE_HOME"]:
        environment = {"PATH": "/usr/bin:/bin", name: "rel"}
        scene.check(f"a relative {name}", clone.run("--version", program="bpftap", env=environment), no_place(clone, "a cache"))
    scene.check("left", sorted(path.name for path in (scene.folder / "rel").iterdir()), [".cache", "bpftap"])


@case
def a_clone_may_have_any_path(scene):
    """A newline, a backslash and a quote in the path of a clone or of the cache change nothing."""
    for name in ["a\nb", "c\n", "d\\e", "f\\n\\0g", "h 'i\" *", "-j"]:
        scene.start({})
        top = scene.folder / name
        top.mkdir()
        clone = Clone(Within(scene, top))
        scene.check(f"released in {name!r}", (clone.call("--version").out, clone.call("--version").out), (RELEASED, RELEASED))
        (clone.folder / "out" / "noted").write_text("changed\n")
        scene.check(f"noted in {name!r}", (clone.call("-c").status, (clone.folder / "out" / "noted").read_text()[:9]), (7, "released/"))
        shutil.rmtree(clone.folder / "out")
        (clone.folder / "out").write_text("in the way\n")
        scene.check(f"cached in {name!r}", (clone.call("--version").out, clone.call("--version").out), (RELEASED, RELEASED))
        (clone.folder / "out").unlink()
        scene.check(f"built in {name!r}", (clone.run("--release").status, clone.call("--version").out), (0, BUILT))
        scene.check(f"path in {name!r}", clone.lib("program_path").out.decode().startswith(f"{clone.folder}/out/built/"), True)


class Within:
    """A scene's folder below its own."""

    def __init__(self, scene, folder):
        self.scene, self.folder = scene, folder


@case
def containers_that_share_a_clone_do_not_disturb_one_another(scene):
    """First calls at once that all have one process number, each in a namespace of its own, all answer."""
    own = ["unshare", "--user", "--map-root-user", "--pid", "--fork"] if os.geteuid() else ["unshare", "--pid", "--fork"]
    if not scene.has("unshare") or subprocess.run([*own, "true"], stderr=subprocess.DEVNULL).returncode:
        scene.leave("no namespace of processes can be made")
        return
    clone = Clone(scene)
    how = {"cwd": scene.folder, "env": clone.bare(), "stdin": subprocess.DEVNULL, "stdout": subprocess.PIPE, "stderr": subprocess.PIPE}
    for turn in range(6):
        calls = [subprocess.Popen([*own, clone.folder / "bpftap", "-c"], **how) for _ in range(4)]
        answers = [Seen(*call.communicate(timeout=LIMIT), call.returncode) for call in calls]
        scene.check(f"answers of turn {turn}", answers, [clone.answer("-c")] * 4)
        scene.check(f"left by turn {turn}", sorted(path.name for path in (clone.folder / "out").iterdir()), ["noted", "released"])
        scene.check(f"unpacked by turn {turn}", len([*(clone.folder / "out" / "released").iterdir()]), 1)
        shutil.rmtree(clone.folder / "out")


def quickest(words, enough, **how):
    """The fewest milliseconds that a call takes, of 300 calls, or of fewer if one is quick enough: others use the processors too."""
    least = 1000
    for _ in range(300):
        began = time.monotonic()
        subprocess.run(words, stdout=subprocess.DEVNULL, check=True, **how)
        least = min(least, 1000 * (time.monotonic() - began))
        if least <= enough:
            break
    return least


@case
def a_second_call_takes_ten_milliseconds_more_at_most(scene):
    """Over all sources of this folder, a program that does nothing is called by the launcher and without it. On a machine so busy that
    everything takes longer, it takes no more than 20 starts of a shell."""
    clone = Clone(scene)
    for crate in ROOT.glob("crates/*"):
        shutil.copytree(crate, clone.folder / "crates" / crate.name, ignore=shutil.ignore_patterns("out"), dirs_exist_ok=True)
    clone.release("#!/bin/sh\n")
    clone.call()
    bare = quickest([next(clone.folder.glob("out/released/*/bin/bpftap"))], 1)
    enough = max(10, 20 * quickest(["sh", "-c", ":"], 0.6))
    more = quickest([clone.folder / "bpftap"], bare + enough, env=clone.bare()) - bare
    scene.check(f"{more:.1f} ms, wanted {enough:.1f} at most", more <= enough, True)


@case
def a_release_is_made_by_one_command(scene):
    """It says what it made; the same sources give the same bytes, and what they give is compared."""
    source = Source(scene)
    seen = source.run("--release")
    archive, sums = source.folder / ARCHIVE, source.folder / "release" / "SHA256SUMS"
    first = archive.read_bytes(), sums.read_bytes()
    printed = f"{len(first[0])} bytes in archives; release/SHA256SUMS says:\n".encode() + first[1]
    scene.check("printed, and the status", (seen.out, seen.status), (printed, 0))
    scene.check("of", first[1].decode().splitlines()[1], "# toolchain kit 1")
    scene.check("compared", source.run().err, b"the released program is what these sources give\n")
    shutil.rmtree(source.folder / "out")
    scene.check("the status", source.run("--release").status, 0)
    scene.check("the same bytes", (archive.read_bytes(), sums.read_bytes()) == first, True)


@case
def what_is_listed_is_released(scene):
    """A file that no build makes, such as a header, is in the archive too, is installed, and belongs to the sources."""
    source = Source(scene)
    header = source.folder / "header.h"
    header.write_text("int f(void);\n")
    with open(source.folder / "release" / "files", "a") as files:
        files.write("644 header.h include/header.h\n")
    scene.check("the status", source.run("--release").status, 0)
    shutil.rmtree(source.folder / "out")
    scene.check("called", source.run("--version", program="bpftap").out, RELEASED)
    unpacked = next((source.folder / "out" / "released").iterdir())
    scene.check("unpacked", (unpacked / "include" / "header.h").read_bytes(), header.read_bytes())
    header.write_text("int g(void);\n")
    source.calls()
    scene.check("after an edit", source.run("--version", program="bpftap").out, BUILT)


@case
def a_build_is_compared_with_the_release(scene):
    """A release of other sources, of another program, and by another toolchain: each is named, and none fails the build."""
    source = Source(scene)
    source.run("--release")
    source.edit("middle")
    seen = source.run()
    scene.check("other sources", (seen.err.decode().splitlines()[-1], seen.status), (STALE, 0))
    source.release(MADE + "# another one\n")
    seen = source.run()
    scene.check("another program", (seen.err.decode().splitlines()[-1], seen.status), ("the released program is not what these sources give", 0))
    (source.kit / "version").write_text("kit 2\n")
    wanted = "the released program is not compared: it was built by kit 1, and here is kit 2"
    seen = source.run()
    scene.check("another toolchain", (seen.err.decode().splitlines()[-1], seen.status), (wanted, 0))


# The toolchain's gate: it proves nothing, and leaves a program.
CI = """case $1 in ci) mkdir -p crates/bpftap/out; cp "$KIT/program" crates/bpftap/out/bpftap; echo '5 passed, 0 failed' ;; esac
"""


def gate(source):
    """The last lines that the whole gate prints, and its status. Tests from outside are not run again."""
    seen = source.run(program="test")
    lines = seen.out.decode().splitlines()
    return lines[-1], next((line for line in lines if "the release" in line), ""), seen.status


@case
def the_gate_compares(scene):
    """It fails if the release is missing, of other sources, damaged or another program; by another toolchain it compares nothing."""
    clone = Clone(scene)
    with open(clone.kit / "bin" / "rt", "a") as rt:
        rt.write(CI)
    (clone.folder / "tests").mkdir()
    shutil.copy(ROOT / "test", clone.folder)
    (clone.folder / "tests" / "program.py").write_text('#!/bin/sh\n"$BPFTAP" --version && echo "2 passed, 0 failed"\n')
    (clone.folder / "tests" / "program.py").chmod(0o755)
    scene.check("as it is", gate(clone), ("8 passed, 0 failed", "the released program is what these sources give", 0))
    archive = clone.folder / ARCHIVE
    change(archive, 4)
    scene.check("a changed byte", (gate(clone)[0], gate(clone)[2]), ("7 passed, 1 failed", 1))
    archive.unlink()
    scene.check("no archive", gate(clone), ("7 passed, 1 failed", STALE, 1))
    clone.release(MADE + "# another one\n")
    scene.check("another program", gate(clone), ("7 passed, 1 failed", "the released program is not what these sources give", 1))
    (clone.kit / "version").write_text("kit 2\n")
    wanted = "the released program is not compared: it was built by kit 1, and here is kit 2"
    scene.check("another toolchain", gate(clone), ("8 passed, 0 failed", wanted, 0))
    clone.edit("low")
    scene.check("other sources", gate(clone), ("7 passed, 1 failed", STALE, 1))
    clone.release()
    (clone.kit / "version").write_text("kit 1\n")
    left = clone.folder / "crates" / "bpftap" / "out" / "bpftap"
    left.parent.mkdir(parents=True, exist_ok=True)
    left.write_text(MADE)
    left.chmod(0o755)
    rt = clone.kit / "bin" / "rt"
    rt.write_text(rt.read_text().replace('cp "$KIT/program" crates/bpftap/out/bpftap; ', ""))
    scene.check("nothing built, over what an earlier gate left", gate(clone)[2], 1)
