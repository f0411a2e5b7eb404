"""The library for C of aarch64, as it was made here or is released: what it takes and gives, its calls and answers under an emulator, and its wheel."""
import os
import pathlib
import platform
import random
import re
import shutil
import subprocess
import sys
import tarfile
import zipfile

from .bindings import PYTHON, bare
from .common import KIND, LIMIT, PROGRAM, ROOT, case
from .debian import NAMES, dpkg
from .install import install, source_in
from .library import LIBRARY, SOURCES, STRICT, check_stacks, done, expression, frames, passes
from .linking import INCLUDE, TOOL, version
from .release import also_released

sys.path.insert(0, str(ROOT / "release"))
import targets

TARGET = next(target for target in targets.TARGETS if target.processor)
COMPILER, EMULATOR = "aarch64-linux-gnu-gcc", "qemu-aarch64"
# Where Debian has the C library of that compiler, for the loader.
SYSTEM = "/usr/aarch64-linux-gnu"
# What a call takes under an emulator.
LONG = 5 * LIMIT


def released(scene, name):
    """The folder of the libraries in an archive of the release; `None` if it has none."""
    archive, folder = ROOT / "release" / f"bpftap-{name}.tar.xz", scene.folder / name
    if archive.is_file() and not folder.exists():
        with tarfile.open(archive) as packed:
            packed.extractall(folder)
    return folder / "lib" if (folder / "lib" / LIBRARY.name).is_file() else None


def libraries(scene):
    """The folders of the libraries for aarch64 and for x86-64 that are of the same sources: those that were made here, else the released ones."""
    key = subprocess.run(["sh", ROOT / "release" / "lib.sh", "sources_key"], stdout=subprocess.PIPE, text=True, timeout=LIMIT).stdout.strip()
    made = ROOT / "out" / "targets" / key / TARGET.name / "lib"
    if made.is_dir() and LIBRARY.is_file():
        return made, LIBRARY.parent
    found = released(scene, TARGET.name), released(scene, "x86_64-linux")
    return found if all(found) else (scene.leave(f"no library for {TARGET.name} is made or released"), None)


def compiled(scene, library, name, *flags):
    """A test in C with the archive of a library: how it is called, by an emulator if that is for another machine. `None` if it is not compiled."""
    is_own = library.parent.name != TARGET.name
    words = ["gcc" if is_own else COMPILER, *([] if is_own else ["-static"]), "-std=c11", "-O1", *STRICT, f"-I{INCLUDE}", SOURCES / f"{name}.c"]
    made = scene.folder / f"{name}-{library.parent.name}"
    said, status = done(scene, [*words, library / "libbpftap.a", *flags, "-o", made])
    scene.check(f"{words[0]} {name}.c", (said, status), ("", 0))
    return None if status else [made] if is_own else [EMULATOR, made]


@case
def it_takes_and_gives_what_the_other_does(scene):
    """The shared library for aarch64 exports the functions of the header with their version, takes no more than that for x86-64, and names no library."""
    scene.start({})
    its, _ = libraries(scene)
    if not its or not scene.has("readelf"):
        return
    read = lambda *words: done(scene, ["readelf", "-W", *words, its / LIBRARY.name])[0]
    symbols = [line.split()[6:] for line in read("--dyn-syms").splitlines() if re.match(r" +\d+: ", line)]
    declared = sorted(f"{name}@@BPFTAP_1" for name in re.findall(r"^[\w* ]*\b(bpftap_\w+)\(", (INCLUDE / "bpftap.h").read_text(), re.M))
    scene.check("exports", sorted(name[1] for name in symbols if name[0] != "UND" and name[1] != "BPFTAP_1"), declared)
    scene.check("takes", sorted(name[1] for name in symbols if name[0] == "UND" and name[1:]), ["free", "malloc", "memcpy", "memmove", "memset", "realloc"])
    dynamic = read("-d")
    scene.check("soname", re.findall(r"\(SONAME\).*\[(.*)\]", dynamic), [LIBRARY.name])
    scene.check("needs, and is bound when it is loaded", ("(NEEDED)" in dynamic, "BIND_NOW" in dynamic), (False, True))
    scene.check("notes", len(re.findall("Build ID: [0-9a-f]{40}", read("-n"))), 1)
    scene.check("the machine", "AArch64" in read("-h"), True)


def links_by(scene, its):
    """How a program takes each form of the library: its name, the words of the compiler before the source and after it, and how it is called. By musl if that is there:
    the archive by its package for developers, the shared library by the one with its loader too."""
    shared, archive = its / LIBRARY.name, its / "libbpftap.a"
    yield "shared", [], [shared, f"-Wl,-rpath,{its}"], [EMULATOR, "-L", SYSTEM]
    yield "archive", [], [archive], [EMULATOR, "-L", SYSTEM]
    yield "static", ["-static"], [archive], [EMULATOR]
    try:
        musl = targets.Musl(TARGET)
    except targets.Refused as why:
        return scene.leave(str(why))
    begin = lambda name: ["-nostdinc", "-isystem", musl.headers, "-nostdlib", musl.folder / name, musl.folder / "crti.o"]
    end, loader = ["-lgcc", musl.folder / "crtn.o"], musl.top / "lib" / "ld-musl-aarch64.so.1"
    yield "static by musl", ["-static", *begin("crt1.o")], [archive, musl.archive, *end], [EMULATOR]
    if loader.exists():
        rest = [shared, loader.resolve(), *end, f"-Wl,-rpath,{its}", f"-Wl,-dynamic-linker,/lib/{loader.name}"]
        yield "shared by musl", ["-pie", "-fPIE", *begin("Scrt1.o")], rest, [EMULATOR, "-L", musl.top]
    else:
        scene.leave(f"{loader} is not there")


@case
def it_names_its_processor(scene):
    """A program with each form of the library, by glibc and by musl, prints the version and `aarch64`."""
    scene.start({"tool.c": TOOL})
    its, _ = libraries(scene)
    if its and scene.has(COMPILER, EMULATOR):
        for name, before, after, call in links_by(scene, its):
            passes(scene, [COMPILER, *before, f"-I{INCLUDE}", "tool.c", *after, "-o", "tool"])
            scene.check(name, done(scene, [*call, "./tool"]), (f"{version()} {TARGET.processor}\n", 0))


@case
def its_calls_do_what_the_header_says(scene):
    """The tests of the calls, of listeners and of prepared programs; and each call with memory that is refused, which the heap of release/ reports."""
    scene.start({})
    its, _ = libraries(scene)
    if its and scene.has(COMPILER, EMULATOR):
        for name, flags in [("calls", []), ("listeners", []), ("programs", []), ("memory", ["-Wl,--wrap=malloc,--wrap=realloc"])]:
            called = compiled(scene, its, name, *flags)
            if called:
                passes(scene, called, limit=LONG)


@case
def its_stacks_suffice(scene):
    """No call runs out of the stack that the header states, as on x86-64."""
    scene.start({})
    its, _ = libraries(scene)
    if its and scene.has(COMPILER, EMULATOR):
        called = compiled(scene, its, "stacks", "-pthread")
        if called:
            check_stacks(scene, called, LONG)


@case
def it_answers_as_the_other_does(scene):
    """1,500 expressions over a capture: the libraries for aarch64 and for x86-64 answer alike, refuse alike, and have the same hints."""
    scene.start({"in.pcap": frames()})
    its, other = libraries(scene)
    if not its or not scene.has(COMPILER, EMULATOR, "gcc"):
        return
    chance = random.Random(31)
    texts = [expression(chance) for _ in range(1500)]
    texts += [text.replace(" ", "  x", 1).replace("host", "hots") for text in texts[:300]]
    for name, words in [("answers", ["in.pcap"]), ("hints", [])]:
        called = [compiled(scene, library, name) for library in (its, other)]
        if all(called):
            how = {"cwd": scene.folder, "input": "\n".join(texts).encode() + b"\n", "stdout": subprocess.PIPE, "timeout": LONG}
            ended = [subprocess.run([*each, *words], **how) for each in called]
            scene.check(f"{name}: statuses and lines", [(one.returncode, one.stdout.count(b"\n")) for one in ended], [(0, len(texts))] * 2)
            scene.check(f"{name}: those that differ", [text for text, *both in zip(texts, *(one.stdout.splitlines() for one in ended)) if both[0] != both[1]], [])


def emulated_python(scene):
    """Python of aarch64 and its environment: that of the folder which BPFTAP_ARM64 names, where packages of Debian for arm64 are unpacked. It knows itself by the name of
    a script, which calls it by the emulator."""
    if platform.machine() == "aarch64":
        return sys.executable, bare()
    folder = os.environ.get("BPFTAP_ARM64")
    found = sorted((pathlib.Path(folder) / "usr" / "bin").glob("python3.*")) if folder else []
    if not found or not scene.has(EMULATOR):
        return scene.leave("BPFTAP_ARM64 names no folder with Python for arm64"), None
    scene.put({"python": f'#!/bin/sh\nexec {EMULATOR} -L {folder} -0 "$0" {found[0]} "$@"\n'})
    (scene.folder / "python").chmod(0o755)
    return scene.folder / "python", {**bare(), "PYTHONHOME": f"{folder}/usr"}


@case
def its_wheel_is_for_its_machine(scene):
    """The wheel of each library has the tags of its machine, for glibc and musl, and passes twine's check; for aarch64 pip takes it there, and the tests of the
    package pass. A library for another machine that nobody named goes into no wheel."""
    scene.start({})
    its, other = libraries(scene)
    if not its:
        return
    script = "import backend, sys; print(backend.build_wheel(sys.argv[1]))"
    wheels = {}
    for library, machine in ((its, "aarch64"), (other, "x86_64")):
        said, status = done(scene, [sys.executable, "-Bc", script, scene.folder], at=PYTHON, env={**os.environ, "BPFTAP_LIBRARY": str(library / LIBRARY.name)})
        tags = [f"py3-none-{system}_{machine}" for system in ("manylinux_2_17", "manylinux2014", "musllinux_1_1")]
        name = f"bpftap-{version()}-py3-none-{'.'.join(tag.rpartition('-')[2] for tag in tags)}.whl"
        scene.check(f"the wheel for {machine}", (said, status), (f"{name}\n", 0))
        wheels[machine] = scene.folder / name
        with zipfile.ZipFile(wheels[machine]) as wheel:
            scene.check("its library", wheel.read(f"bpftap/{LIBRARY.name}") == (library / LIBRARY.name).read_bytes(), True)
            scene.check("its tags", re.findall(r"^Tag: (.+)$", wheel.read(f"bpftap-{version()}.dist-info/WHEEL").decode(), re.M), tags)
    if scene.has("twine"):
        said, status = done(scene, ["twine", "check", "--strict", *wheels.values()])
        scene.check("twine check", (said.count("PASSED"), status), (2, 0))
    foreign = "aarch64" if platform.machine() == "x86_64" else "x86_64"
    shutil.copytree(PYTHON, scene.folder / "package", ignore=shutil.ignore_patterns("__pycache__"))
    shutil.copy((its if foreign == "aarch64" else other) / LIBRARY.name, scene.folder / "package" / "bpftap")
    said, status = done(scene, [sys.executable, "-Bc", script, scene.folder], at=scene.folder / "package", env=bare())
    scene.check("of another machine", (f"is for {foreign}, and this is {platform.machine()}: let BPFTAP_LIBRARY name another one" in said, status), (True, 1))
    python, environment = emulated_python(scene)
    if python:
        words = [python, "-m", "pip", "install", "--quiet", "--no-index", "--no-deps", "--no-compile", "--target", "site", wheels["aarch64"]]
        scene.check("pip install", done(scene, words, limit=LONG, env={**environment, "PIP_ROOT_USER_ACTION": "ignore"})[1], 0)
        words = [python, "-B", "-m", "unittest", "discover", "-s", PYTHON / "tests"]
        said, status = done(scene, words, limit=LONG, env={**environment, "PYTHONPATH": str(scene.folder / "site")})
        scene.check("unittest", (said.splitlines()[-1:], status), (["OK"], 0))


def installs(scene, found):
    """dpkg puts packages for arm64 below a folder, where the program and the library run, and takes them away again."""
    root = scene.folder / "root"
    for name in ("updates", "info", "triggers"):
        (root / "var" / "lib" / "dpkg" / name).mkdir(parents=True)
    for name, text in (("arch", "arm64\n"), ("status", ""), ("available", "")):
        (root / "var" / "lib" / "dpkg" / name).write_text(text)
    (root / "usr").mkdir()
    dpkg(scene, root, "-i", *found.values())
    own = done(scene, [PROGRAM, "check", "ip"])
    scene.check("the program", done(scene, [EMULATOR, root / "usr" / "bin" / "bpftap", "check", "ip"]), own)
    if "libbpftap-dev" in found and scene.has(COMPILER):
        scene.put({"tool.c": TOOL})
        folder = root / "usr" / "lib" / "aarch64-linux-gnu"
        passes(scene, [COMPILER, "tool.c", f"-I{root / 'usr' / 'include'}", f"-L{folder}", "-lbpftap", f"-Wl,-rpath,{folder}", "-o", "tool"])
        scene.check("the library", done(scene, [EMULATOR, "-L", SYSTEM, "./tool"]), (f"{version()} {TARGET.processor}\n", 0))
    dpkg(scene, root, "-r", *reversed(found))
    scene.check("left", [str(path) for path in root.rglob("*") if "var" not in path.parts], [])


@case
def its_packages_are_made_on_another_machine(scene):
    """`./package --machine` makes the packages of what is released for aarch64. lintian finds no error and no warning; dpkg installs them, and removes them. What is
    not released of these sources is refused."""
    archive = ROOT / "release" / f"bpftap-{TARGET.name}.tar.xz"
    if KIND != "dynamic" or not archive.is_file():
        return scene.leave(f"no {archive.name} is released" if KIND == "dynamic" else "the program that is tested is not the one that is packaged")
    if not scene.has("dpkg-deb", "aarch64-linux-gnu-strip"):
        return
    scene.start({})
    source = source_in(scene, program=pathlib.Path(PROGRAM).read_bytes())
    shutil.copytree(PYTHON, source.folder / "bindings" / "python", ignore=shutil.ignore_patterns("__pycache__"))
    line = b"package: nothing is released of these sources for aarch64-linux\n"
    seen = install(scene, source, "--machine", TARGET.name, "packages", program="package")
    scene.check("not released", (seen.out, seen.err, seen.status), (b"", line, 1))
    also_released(source, {TARGET.name: archive})
    seen = install(scene, source, "--machine", TARGET.name, "packages", program="package")
    made = [pathlib.Path(path) for path in seen.out.decode().splitlines()]
    number = version()
    wanted = [f"bpftap-{number}-{TARGET.name}.tar.gz", f"bpftap-{number}.spdx.json", f"bpftap_{number}_arm64.deb"]
    if released(scene, TARGET.name):
        wheel = f"bpftap-{number}-py3-none-manylinux_2_17_aarch64.manylinux2014_aarch64.musllinux_1_1_aarch64.whl"
        wanted += [wheel, *(f"{name}_{number}_{'all' if name.startswith('python3') else 'arm64'}.deb" for name in NAMES[1:])]
    scene.check("made", (sorted(path.name for path in made), seen.err, seen.status), (sorted(wanted), b"", 0))
    with tarfile.open(made[0]) as packed:
        links = {member.name.rpartition("/")[2]: member.linkname for member in packed if member.issym()}
    scene.check("the link for compilers", links, {"libbpftap.so": LIBRARY.name} if released(scene, TARGET.name) else {})
    found = {path.name.partition("_")[0]: path for path in made if path.suffix == ".deb"}
    if scene.has("lintian"):
        scene.check("lintian", done(scene, ["lintian", "--allow-root", "--fail-on", "error,warning", *found.values()], limit=LONG), ("", 0))
    # Python for arm64 is not there, nor any other package.
    if os.geteuid() == 0 and scene.has("dpkg", EMULATOR):
        installs(scene, {name: found[name] for name in NAMES[:3] if name in found})
