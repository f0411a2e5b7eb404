"""How programs take the library for C: the header in C and C++, what the shared library exports and needs, compilers, CMake, musl, and an old processor."""
import re

from .common import ROOT, case
from .library import ARCHIVE, LIBRARY, STRICT, done, is_there, passes

INCLUDE = ROOT / "include"

# A program that prints the version of the library that it was linked with.
TOOL = """#include <bpftap.h>
#include <stdio.h>
int main(void) {
    char version[64];
    if (bpftap_version(version, sizeof version).fault) return 1;
    puts(version);
    return 0;
}
"""


def version():
    return re.search(r"^Version: (.+)$", (INCLUDE / "bpftap.pc").read_text(), re.M)[1]


def version_line():
    """What the library says of itself: its version, and the processor that it is made for."""
    return f"{version()} x86-64-v2\n"


def installed(scene):
    """A prefix with the header, both libraries, and the files for pkg-config and CMake, as ./install puts them."""
    prefix = scene.folder / "prefix"
    for folder, paths in {
            "include": [INCLUDE / "bpftap.h"], "lib": [ARCHIVE, LIBRARY], "lib/pkgconfig": [INCLUDE / "bpftap.pc"],
            "lib/cmake/bpftap": INCLUDE.glob("*.cmake")}.items():
        (prefix / folder).mkdir(parents=True)
        for path in paths:
            (prefix / folder / path.name).write_bytes(path.read_bytes())
    (prefix / "lib" / "libbpftap.so").symlink_to(LIBRARY.name)
    return prefix


def headers_of(scene, *words):
    """What readelf prints of the shared library."""
    return done(scene, ["readelf", "-W", *words, LIBRARY])[0]


@case
def header_is_cplusplus_too(scene):
    """The header by itself, in C++ and in C, with the instruction of Linux."""
    scene.start({"in.cpp": '#include <bpftap.h>\nint main() { return bpftap_program_size() == 0; }\n',
                 "in.c": '#include <linux/filter.h>\n#define BPFTAP_INSN struct sock_filter\n#include <bpftap.h>\nint main(void) { return 0; }\n'})
    for compiler, name in (("g++", "in.cpp"), ("clang++", "in.cpp"), ("gcc", "in.c"), ("clang", "in.c")):
        if scene.has(compiler):
            passes(scene, [compiler, *STRICT, "-pedantic", f"-I{ROOT / 'include'}", "-fsyntax-only", name])


@case
def only_its_own_names_are_exported(scene):
    """The shared library exports the functions of the header and nothing else, each with its version, and needs no library by name: only
    memory and copies from the C library of the program."""
    if not is_there(scene) or not scene.has("nm", "readelf"):
        return
    declared = sorted(f"{name}@@BPFTAP_1" for name in re.findall(r"^[\w* ]*\b(bpftap_\w+)\(", (INCLUDE / "bpftap.h").read_text(), re.M))
    said, _ = done(scene, ["nm", "-D", "--defined-only", LIBRARY])
    scene.check("exports", sorted(name for name in (line.split()[-1] for line in said.splitlines()) if name != "BPFTAP_1"), declared)
    said, _ = done(scene, ["nm", "-D", "--undefined-only", LIBRARY])
    scene.check("takes", said.split()[1::2], ["free", "malloc", "memcpy", "memmove", "memset", "realloc"])
    dynamic = headers_of(scene, "-d")
    scene.check("soname", re.findall(r"\(SONAME\).*\[(.*)\]", dynamic), ["libbpftap.so.1"])
    scene.check("needs", "(NEEDED)" in dynamic, False)
    scene.check("all is bound when it is loaded", "BIND_NOW" in dynamic, True)


@case
def it_says_which_processor_it_needs(scene):
    """The shared library has a build-id, and says that it needs x86-64-v2: the loader refuses it on an older processor with its own sentence."""
    if not is_there(scene) or not scene.has("readelf", "gcc"):
        return
    scene.start({"tool.c": TOOL})
    notes = headers_of(scene, "-n")
    scene.check("notes", ("x86 ISA needed: x86-64-v2" in notes, len(re.findall("Build ID: [0-9a-f]{40}", notes))), (True, 1))
    passes(scene, ["gcc", "tool.c", f"-I{INCLUDE}", LIBRARY, f"-Wl,-rpath,{LIBRARY.parent}", "-o", "tool"])
    if scene.has("qemu-x86_64"):
        said, status = done(scene, ["qemu-x86_64", "-cpu", "qemu64", "./tool"])
        scene.check("an old processor", ("CPU ISA level is lower than required" in said, status), (True, 127))
        scene.check("one that will do", done(scene, ["qemu-x86_64", "-cpu", "Nehalem", "./tool"]), (version_line(), 0))


@case
def links_as_its_page_says(scene):
    """`-lbpftap` takes the shared library, `-l:libbpftap.a` and `-static` the archive; a plug-in hides the archive's names by `--exclude-libs`."""
    if not is_there(scene) or not scene.has("gcc", "nm", "readelf"):
        return
    scene.start({"tool.c": TOOL})
    folder = installed(scene) / "lib"
    words = ["gcc", "tool.c", f"-I{INCLUDE}", f"-L{folder}", "-o", "tool"]
    for flags, shared in ((["-lbpftap", f"-Wl,-rpath,{folder}"], True), (["-l:libbpftap.a"], False), (["-static", "-lbpftap"], False)):
        passes(scene, [*words, *flags])
        scene.check(f"{flags[0]}: the version", done(scene, ["./tool"]), (version_line(), 0))
        needed, _ = done(scene, ["readelf", "-d", "tool"])
        scene.check(f"{flags[0]}: needs the shared library", "[libbpftap.so.1]" in needed, shared)
    for flags, exported in (([], True), (["-Wl,--exclude-libs,ALL"], False)):
        passes(scene, [*words, "-shared", "-fPIC", "-l:libbpftap.a", *flags])
        names, _ = done(scene, ["nm", "-D", "--defined-only", "tool"])
        scene.check(f"a plug-in {flags} exports", "bpftap_version" in names, exported)


@case
def serves_each_c_library(scene):
    """The same file serves programs of glibc and of musl."""
    if is_there(scene) and scene.has("musl-gcc"):
        scene.start({"tool.c": TOOL})
        passes(scene, ["musl-gcc", "tool.c", f"-I{INCLUDE}", LIBRARY, f"-Wl,-rpath,{LIBRARY.parent}", "-o", "shared"])
        passes(scene, ["musl-gcc", "-static", "tool.c", f"-I{INCLUDE}", ARCHIVE, "-o", "static"])
        for program in ("./shared", "./static"):
            scene.check(f"{program} with musl", done(scene, [program]), (version_line(), 0))


@case
def build_systems_find_it(scene):
    """pkg-config and CMake under a prefix of one's own, with both libraries; a version that is too new is refused."""
    if not is_there(scene) or not scene.has("gcc"):
        return
    scene.start({"tool.c": TOOL, "CMakeLists.txt": """cmake_minimum_required(VERSION 3.13)
project(tool C)
find_package(bpftap ${WANTED} REQUIRED)
add_executable(shared tool.c)
target_link_libraries(shared bpftap::bpftap)
add_executable(static tool.c)
target_link_libraries(static bpftap::static)
"""})
    prefix = installed(scene)
    if scene.has("pkg-config"):
        environment = {"PATH": "/usr/bin:/bin", "PKG_CONFIG_PATH": str(prefix / "lib" / "pkgconfig")}
        line = "cc tool.c $(pkg-config --cflags --libs bpftap) -Wl,-rpath,prefix/lib -o tool && ./tool"
        scene.check("pkg-config", done(scene, ["sh", "-c", line], env=environment), (version_line(), 0))
    if scene.has("cmake"):
        for wanted, found in (("", True), (version(), True), (version().split(".")[0], True), ("99.0", False)):
            said, status = done(scene, ["cmake", "-B", f"made{wanted}", f"-DCMAKE_PREFIX_PATH={prefix}", f"-DWANTED={wanted}"])
            scene.check(f"find_package(bpftap {wanted})", (status == 0, "considered but not accepted" in said), (found, not found))
        scene.check("cmake --build", done(scene, ["cmake", "--build", "made"])[1], 0)
        for program in ("made/shared", "made/static"):
            scene.check(program, done(scene, [program]), (version_line(), 0))


@case
def versions_agree(scene):
    """The number of the header is the version of the library, which bpftap.pc and the packages for Python and Rust name too."""
    if not is_there(scene) or not scene.has("gcc"):
        return
    scene.start({"tool.c": TOOL})
    passes(scene, ["gcc", "tool.c", f"-I{INCLUDE}", ARCHIVE, "-o", "tool"])
    scene.check("the library", done(scene, ["./tool"]), (version_line(), 0))
    major, minor, patch = map(int, version().split("."))
    number = re.search(r"^#define BPFTAP_VERSION_NUMBER (\d+)", (INCLUDE / "bpftap.h").read_text(), re.M)
    scene.check("the header", number and int(number[1]), major * 10000 + minor * 100 + patch)
    for path in ("bindings/python/pyproject.toml", "bindings/rust/Cargo.toml"):
        scene.check(path, re.search(r'^version = "(.+)"$', (ROOT / path).read_text(), re.M)[1], version())


@case
def manual_has_each_call(scene):
    """Each function of the header has a page of the manual, which the header makes; mandoc finds no error in it."""
    scene.start({})
    man = ROOT / "man"
    scene.check("man/library.py --check", done(scene, [man / "library.py", "--check"]), ("", 0))
    names = set(re.findall(r"^[\w* ]*\b(bpftap_\w+)\(", (INCLUDE / "bpftap.h").read_text(), re.M))
    pages = {path.stem: path.read_text() for path in man.glob("bpftap_*.3")}
    scene.check("pages", sorted(pages), sorted(names))
    others = {name: re.fullmatch(r"\.so man3/(\w+)\.3\n", text) for name, text in pages.items() if text.startswith(".so")}
    scene.check("pages that name another one", [name for name, found in others.items() if not found or not re.search(rf"^\.Nm {name}\b", pages[found[1]], re.M)], [])
    if scene.has("mandoc"):
        whole = [man / f"{name}.3" for name in pages if name not in others]
        scene.check("mandoc", done(scene, ["mandoc", "-Tlint", "-Werror", *whole]), ("", 0))
        text, _ = done(scene, ["mandoc", "-Tutf8", "-O", "width=78", *whole])
        scene.check("wide lines", [line for line in re.sub(".\b", "", text).splitlines() if len(line) > 80], [])
