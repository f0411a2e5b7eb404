"""The Debian packages: what lintian finds, and each installed by dpkg, used, and removed, in a folder of its own and in a Debian."""
import os
import pathlib
import shutil
import subprocess

from .common import KIND, LIMIT, PROGRAM, ROOT, case
from .install import install, source_in
from .library import ARCHIVE, LIBRARY, done, is_there
from .linking import TOOL, version, version_line
from .release import also_released, tools_without
from .targets import in_root, root_of

NAMES = ["bpftap", "libbpftap1", "libbpftap-dev", "python3-bpftap"]
# What dpkg has to know of: these packages depend on no others.
STATUS = "".join(f"Package: {name}\nStatus: install ok installed\nVersion: {version}\nArchitecture: {kind}\nMaintainer: nobody\nDescription: none\n\n"
                 for name, version, kind in [("libc6", "2.34-1", "amd64"), ("python3", "3.9.2-1", "amd64")])


def packages(scene):
    """The packages of a release with all its files, by their names; `None` if something is missing for it."""
    if not is_there(scene) or not scene.has("dpkg", "dpkg-deb", "strip"):
        return None
    if KIND != "dynamic":
        return scene.leave("the program that is tested is not the one that is packaged")
    source = source_in(scene, program=pathlib.Path(PROGRAM).read_bytes())
    for name in ["include", "bindings/python"]:
        shutil.copytree(ROOT / name, source.folder / name, ignore=shutil.ignore_patterns("__pycache__"))
    shutil.copy(ROOT / "release" / "files", source.folder / "release" / "files")
    built = source.folder / "out" / "built" / source.lib("sources_key").out.decode().strip()
    made = {"bin/bpftap": pathlib.Path(PROGRAM), "lib/libbpftap.a": ARCHIVE, "lib/libbpftap.so.1": LIBRARY}
    for mode, origin, name in (line.split() for line in (ROOT / "release" / "files").read_text().splitlines()):
        (built / name).parent.mkdir(parents=True, exist_ok=True)
        shutil.copy(made.get(name, ROOT / origin), built / name)
        (built / name).chmod(int(mode, 8))
    built.with_name(f"{built.name}.sums").write_bytes(source.lib("contents", str(built)).out)
    folder = scene.folder / "packages"
    seen = install(scene, source, folder.name, program="package")
    scene.check("made", (seen.err, seen.status), (b"", 0))
    found = {path.name.partition("_")[0]: path for path in sorted(folder.glob("*.deb"))}
    scene.check("packages", sorted(found), sorted(NAMES))
    return found


def dpkg(scene, root, *words):
    said, status = done(scene, ["dpkg", f"--root={root}", "--log=/dev/null", *words])
    scene.check(f"dpkg {words[0]}", (status, [line for line in said.splitlines() if "error" in line or "warning" in line]), (0, []))


def use(scene, root):
    """The program, the library in C and in Python, and the manual, as the packages put them below a folder; the files are run from outside of it."""
    libraries = root / "usr" / "lib" / "x86_64-linux-gnu"
    there = {**os.environ, "LD_LIBRARY_PATH": str(libraries), "PYTHONPATH": str(root / "usr" / "lib" / "python3" / "dist-packages"), "PYTHONDONTWRITEBYTECODE": "1"}
    own, _ = done(scene, [PROGRAM, "check", "ip"])
    scene.check("the program", done(scene, [root / "usr" / "bin" / "bpftap", "check", "ip"]), (own, 0))
    scene.put({"tool.c": TOOL})
    if scene.has("gcc"):
        for flags in (["-lbpftap"], ["-l:libbpftap.a"]):
            words = ["gcc", "tool.c", f"-I{root / 'usr' / 'include'}", f"-L{libraries}", *flags, "-o", "tool"]
            scene.check(f"gcc {flags[0]}", done(scene, words), ("", 0))
            scene.check(f"a program with {flags[0]}", done(scene, ["./tool"], env=there), (version_line(), 0))
    script = "import bpftap; print(bpftap.__file__, bpftap.Filter('ip').matches(bytes(12) + b'\\x08\\0' + bytes(20)))"
    module = root / "usr" / "lib" / "python3" / "dist-packages" / "bpftap" / "__init__.py"
    scene.check("in Python", done(scene, ["python3", "-c", script], env=there), (f"{module} True\n", 0))
    scene.check("manual", [(root / "usr" / "share" / "man" / name).is_file() for name in ("man1/bpftap.1.gz", "man3/bpftap_compile.3.gz")], [True, True])


@case
def packages_are_installed_used_and_removed(scene):
    """lintian finds no error and no warning. By dpkg in a folder that has only busybox, where glibc and Python are noted as installed; nothing is left
    after they are removed."""
    found = packages(scene)
    if found and scene.has("lintian"):
        words = ["lintian", "--allow-root", "--fail-on", "error,warning", *found.values()]
        scene.check("lintian", done(scene, words, limit=5 * LIMIT), ("", 0))
    root = found and root_of(scene, "dpkg")
    if not root:
        return
    for name in ("updates", "info", "triggers"):
        (root / "var" / "lib" / "dpkg" / name).mkdir(parents=True)
    (root / "var" / "lib" / "dpkg" / "status").write_text(STATUS)
    for name in ("available", "info/libc6.list", "info/python3.list"):
        (root / "var" / "lib" / "dpkg" / name).touch()
    before = {path for path in root.rglob("*") if "dpkg" not in path.parts}
    dpkg(scene, root, "-i", *found.values())
    use(scene, root)
    dpkg(scene, root, "-V", *NAMES)
    dpkg(scene, root, "-r", *reversed(NAMES))
    left = {path for path in root.rglob("*") if "dpkg" not in path.parts} - before
    scene.check("left", sorted(str(path) for path in left), [])
    dpkg(scene, root, "-i", found["bpftap"])
    dpkg(scene, root, "-P", "bpftap")
    said, status = done(scene, ["dpkg", f"--root={root}", "-i", found["libbpftap-dev"]])
    scene.check("the header without the library", ("depends on libbpftap1" in said, status != 0), (True, True))


# The architecture of Debian and what the package of a released program depends on, and the tools that make it.
ARCHIVES = {
    "x86_64-linux": (["amd64", "libc6 (>= 2.34)"], ""),
    "x86_64-linux-static": (["amd64", ""], ""),
    "aarch64-linux": (["arm64", ""], "aarch64-linux-gnu-"),
}


@case
def only_a_program_for_glibc_depends_on_it(scene):
    """Of the packages with each released program, and of that of the library: their architecture, and the C library that they ask for."""
    clone, number = source_in(scene), version()
    stage = scene.folder / "stage"
    install(scene, clone, str(stage / "usr"))
    asked = ["Architecture", "Multi-Arch", "Depends", "Recommends"]
    fields = lambda path: subprocess.run(["dpkg-deb", "-f", path, *asked], capture_output=True, text=True, timeout=LIMIT).stdout
    for name, ((kind, libc), tool) in ARCHIVES.items():
        archive = ROOT / "release" / f"bpftap-{name}.tar.xz"
        if not archive.is_file():
            scene.leave(f"no {archive.name} is released")
        elif scene.has("dpkg-deb", f"{tool}strip"):
            subprocess.run(["tar", "-xJf", archive, "-C", stage / "usr"], check=True, timeout=LIMIT)
            words = [clone.folder / "packaging" / "deb", stage, number, scene.folder]
            made, status = done(scene, words, env={**os.environ, "SOURCE_DATE_EPOCH": "946684800"})
            path = scene.folder / f"bpftap_{number}_{kind}.deb"
            scene.check(f"{name}: made", (made.splitlines()[0], status), (str(path), 0))
            scene.check(f"{name}: the program", fields(path), f"Architecture: {kind}\n" + (f"Depends: {libc}\n" if libc else ""))
            # lintian takes a program for x86-64 that names no C library for a mistake, and no such package is made.
            if kind == "arm64" and scene.has("lintian"):
                scene.check(f"{name}: lintian", done(scene, ["lintian", "--allow-root", "--fail-on", "error,warning", path], limit=5 * LIMIT), ("", 0))
            if "libbpftap1_" in made:
                scene.check(f"{name}: the library", fields(scene.folder / f"libbpftap1_{number}_{kind}.deb"), f"Architecture: {kind}\nMulti-Arch: same\n")
            shutil.rmtree(stage / "usr" / "lib", ignore_errors=True)


@case
def a_missing_tool_is_named(scene):
    """Without the processor's `strip` no Debian package is made, and a line says what to install; without `readelf` the package depends on the same as with it."""
    if KIND != "dynamic":
        return scene.leave("the program that is tested is not the one that is packaged")
    source, number = source_in(scene, program=pathlib.Path(PROGRAM).read_bytes()), version()
    shutil.copytree(ROOT / "bindings" / "python", source.folder / "bindings" / "python", ignore=shutil.ignore_patterns("__pycache__"))
    release = ROOT / "release" / "bpftap-aarch64-linux.tar.xz"
    if not scene.has("dpkg-deb", "strip"):
        return
    tools = tools_without(scene, "x86_64-linux-gnu-readelf", "readelf")
    seen = install(scene, source, "first", program="package", path=str(tools))
    fields = subprocess.run(["dpkg-deb", "-f", scene.folder / "first" / f"bpftap_{number}_amd64.deb", "Depends"], stdout=subprocess.PIPE, text=True).stdout
    scene.check("without readelf", (seen.err, seen.status, fields), (b"", 0, "libc6 (>= 2.34)\n"))
    rows = [("strip", "binutils", [])]
    if release.is_file():
        also_released(source, {"aarch64-linux": release})
        rows.append(("aarch64-linux-gnu-strip", "binutils-aarch64-linux-gnu", ["--machine", "aarch64-linux"]))
    else:
        scene.leave(f"no {release.name} is released")
    for name, package, words in rows:
        seen = install(scene, source, *words, name, program="package", path=str(tools_without(scene, name)))
        line = f"packaging/deb: {name} is not here, so no Debian package was made: install {package}\n"
        scene.check(f"without {name}", (".deb" in seen.out.decode(), seen.err, seen.status), (False, line.encode(), 1))


@case
def a_debian_takes_them(scene):
    """In a copy of the folder that BPFTAP_DEBIAN names, where debootstrap put a Debian: the program and the library run there, and are removed."""
    named = os.environ.get("BPFTAP_DEBIAN")
    if not named or os.geteuid() != 0:
        return scene.leave("BPFTAP_DEBIAN names no folder of debootstrap" if os.geteuid() == 0 else "only root can change the root folder")
    found = packages(scene)
    if not found:
        return
    root = scene.folder / "debian"
    subprocess.run(["cp", "-a", "--reflink=auto", named, root], check=True, timeout=LIMIT)
    shutil.copytree(scene.folder / "packages", root / "packages")
    there = lambda *words: in_root(root, *words, PATH="/usr/sbin:/usr/bin:/sbin:/bin")
    names = NAMES if (root / "usr" / "bin" / "python3").exists() else NAMES[:3]
    seen = there("dpkg", "-i", *(f"/packages/{found[name].name}" for name in names))
    scene.check("installed", (seen.err, seen.status), (b"", 0))
    own = subprocess.run([PROGRAM, "check", "ip"], stdout=subprocess.PIPE, timeout=LIMIT).stdout
    seen = there("bpftap", "check", "ip")
    scene.check("the program", (seen.out, seen.err, seen.status), (own, b"", 0))
    scene.check("the loader knows the library", b"libbpftap.so.1" in there("ldconfig", "-p").out, True)
    if "python3-bpftap" in names:
        script = "import bpftap; print(bpftap.Filter('ip').matches(bytes(12) + b'\\x08\\0' + bytes(20)))"
        seen = there("python3", "-c", script)
        scene.check("in Python", (seen.out, seen.err, seen.status), (b"True\n", b"", 0))
    seen = there("dpkg", "-r", *reversed(names))
    scene.check("removed", (seen.err, seen.status), (b"", 0))
    left = [path for path in (root / "usr").rglob("*bpftap*")]
    scene.check("left", left, [])
