"""`./install` and `./package`: what is put where, what is printed, and what is refused. A stand-in takes the program's place."""
import hashlib
import json
import os
import pathlib
import re
import shutil
import signal
import subprocess
import tempfile
import time

from .build import MADE
from .common import LIMIT, PROGRAM, ROOT, Seen, case
from .manual import PAGES, examples
from .pages import links
from .release import OLD, OTHER, Clone, Within, also_released, are_followed

TEXTS = ["CHANGELOG.md", "LICENSE-APACHE", "LICENSE-MIT", "NOTICES", "README.md"]

# Below the prefix: the program, the pages, the completions, and the documents, in the order in which they are put.
PUT = {
    "bin/bpftap": None,
    **{f"share/man/man{page.suffix[1:]}/{page.name}": f"man/{page.name}" for page in sorted((ROOT / "man").glob("*.[1-9]"))},
    "share/bash-completion/completions/bpftap": "completions/bpftap.bash",
    "share/zsh/site-functions/_bpftap": "completions/_bpftap",
    "share/fish/vendor_completions.d/bpftap.fish": "completions/bpftap.fish",
    **{f"share/doc/bpftap/{name}": name for name in (ROOT / "release" / "documents").read_text().splitlines()},
}


def source_in(scene, **program):
    """A clone with all that is put."""
    clone = Clone(scene, **program)
    for name in ["install", "package", "release/documents", *TEXTS]:
        shutil.copy(ROOT / name, clone.folder / name)
    for name in ["man", "completions", "docs", "examples", "packaging"]:
        shutil.copytree(ROOT / name, clone.folder / name)
    return clone


def install(scene, source, *words, path="/usr/bin:/bin", shell="/bin/bash", program="install"):
    """Runs `install` of a source folder, in the case's folder, without the toolchain, as a user of this shell."""
    # Packages are packed by xz, for minutes on a busy machine.
    limit = 5 * LIMIT if program == "package" else LIMIT
    return source.run(*words, program=program, env={**source.bare(), "PATH": path, "SHELL": shell}, timeout=limit)


def put_below(prefix):
    """The files below a prefix, by their paths there, but for the list of what was put."""
    return {str(path.relative_to(prefix)) for path in prefix.rglob("*") if not path.is_dir() and path.name != ".installed"}


# A link of a page, whose text is what a reader sees.
LINK = re.compile(r"\[([^]]*)\]\([^)]*\)")


@case
def files_are_put_under_the_prefix(scene):
    """All files are put under the prefix with their modes, each is printed, and a missing PATH is named; `--remove` takes them away again."""
    source, prefix = source_in(scene), scene.folder / "a folder" / "below"
    printed = "".join(f"{prefix}/{name}\n" for name in PUT)
    missing = f"install: {prefix}/bin is not on the PATH\n"
    scene.check("install", install(scene, source, str(prefix)), Seen(printed.encode(), missing.encode(), 0))
    scene.check("files", put_below(prefix), set(PUT))
    for name, origin in PUT.items():
        path = prefix / name
        scene.check(f"mode of {name}", oct(path.stat().st_mode & 0o777), "0o644" if origin else "0o755")
        if origin and path.suffix != ".md":
            scene.check(name, path.read_bytes(), (ROOT / origin).read_bytes())
    for page in prefix.rglob("*.md"):
        missing = [str(target) for target in links(page) if not target.exists()]
        scene.check(f"links of {page.relative_to(prefix)} that lead nowhere", missing, [])
        own = (ROOT / PUT[str(page.relative_to(prefix))]).read_text().replace("./bpftap ", "bpftap ").replace("`release/bpftap.html`", "`bpftap.html`")
        scene.check("its text", re.sub(LINK, r"\1", page.read_text()), re.sub(LINK, r"\1", own))
    scene.check("a command of its README", "$ bpftap check -d ip\n" in (prefix / "share" / "doc" / "bpftap" / "README.md").read_text(), True)
    ran = subprocess.run([prefix / "bin" / "bpftap", "--version"], capture_output=True, timeout=LIMIT)
    scene.check("the program", ran.stdout, b"bpftap 1.2.3, a stand-in\n")
    (prefix / "bin" / "other").touch()
    scene.check("remove", install(scene, source, "--remove", str(prefix)), Seen(printed.encode(), b"", 0))
    scene.check("left", sorted(str(path.relative_to(prefix)) for path in prefix.rglob("*")), ["bin", "bin/other"])
    scene.check("remove again", install(scene, source, "--remove", str(prefix)), Seen(b"", b"", 0))


@case
def folders_are_removed_if_install_made_them(scene):
    """`--remove` leaves the folders that were there before, empty ones too, and takes those that any call made, the prefix among them."""
    source, prefix = source_in(scene), scene.folder / "old" / "new"
    (prefix.parent / "kept").mkdir(parents=True)
    for _ in range(2):
        scene.check("install", install(scene, source, str(prefix)).status, 0)
    scene.check("remove", install(scene, source, "--remove", str(prefix)).status, 0)
    scene.check("left", sorted(path.name for path in prefix.parent.iterdir()), ["kept"])
    (prefix / "share" / "man" / "man1").mkdir(parents=True)
    scene.check("install", install(scene, source, str(prefix)).status, 0)
    scene.check("remove", install(scene, source, "--remove", str(prefix)).status, 0)
    scene.check("left of old ones", sorted(path.name for path in prefix.rglob("*")), ["man", "man1", "share"])
    (prefix / "share" / "doc").touch()
    scene.check("refused", install(scene, source, str(prefix)).status, 1)
    scene.check("left of a refusal", sorted(path.name for path in prefix.rglob("*")), ["doc", "man", "man1", "share"])


@case
def all_that_is_released_is_put(scene):
    """A header and a library that release/files lists are put beside the program, and taken away again."""
    source, prefix = source_in(scene), scene.folder / "put"
    made = {"bin/bpftap": MADE, "include/low.h": "/* low */\n", "lib/liblow.a": "low\n"}
    (source.folder / "include").mkdir()
    (source.folder / "include" / "low.h").write_text(made["include/low.h"])
    with open(source.folder / "release" / "files", "a") as files:
        files.write("644 include/low.h include/low.h\n644 out/lib/liblow.a lib/liblow.a\n")
    built = source.folder / "out" / "built" / source.lib("sources_key").out.decode().strip()
    for name, text in made.items():
        (built / name).parent.mkdir(parents=True, exist_ok=True)
        (built / name).write_text(text)
    (built / "bin" / "bpftap").chmod(0o755)
    built.with_name(f"{built.name}.sums").write_bytes(source.lib("contents", str(built)).out)
    scene.check("install", install(scene, source, str(prefix)).status, 0)
    scene.check("files", put_below(prefix), {*PUT, *made})
    scene.check("what they hold", {name: (prefix / name).read_text() for name in made}, made)
    scene.check("remove", install(scene, source, "--remove", str(prefix)).status, 0)
    scene.check("left", put_below(prefix), set())


@case
def zsh_is_pointed_to_its_completions(scene):
    """To a user of zsh `install` says which folder its fpath needs."""
    source, prefix = source_in(scene), scene.folder / "own"
    seen = install(scene, source, str(prefix), path=f"{prefix}/bin:/usr/bin:/bin", shell="/usr/bin/zsh")
    reported = f"install: for zsh, put fpath+=({prefix}/share/zsh/site-functions) before compinit in ~/.zshrc\n"
    scene.check("reported", (seen.err, seen.status), (reported.encode(), 0))


@case
def files_are_put_again(scene):
    """A second call, with a prefix that is not absolute, replaces what is there, a link too; nothing is printed if the PATH has it."""
    source = source_in(scene)
    install(scene, source, "there")
    program = scene.folder / "there" / "bin" / "bpftap"
    program.write_text("old")
    seen = install(scene, source, "./there", path=f"{scene.folder}/there/bin:/usr/bin:/bin")
    scene.check("reported, and the status", (seen.err, seen.status), (b"", 0))
    scene.check("the program", b"stand-in" in program.read_bytes(), True)
    program.unlink()
    program.symlink_to(scene.folder)
    scene.check("the status over a link to a folder", install(scene, source, "there").status, 0)
    scene.check("a link replaced", (program.is_symlink(), program.is_file()), (False, True))


@case
def a_prefix_that_cannot_be_written_is_refused(scene):
    """If a file or a link that leads nowhere is in the way nothing is put, and the way out is named: status 1."""
    source = source_in(scene)
    (scene.folder / "file").touch()
    (scene.folder / "half" / "share").mkdir(parents=True)
    (scene.folder / "half" / "share" / "man").touch()
    (scene.folder / "linked").mkdir()
    (scene.folder / "linked" / "bin").symlink_to("nowhere")
    for prefix, bar in [("file", "bin"), ("file/below", "bin"), ("half", "share/man/man1"), ("linked", "bin")]:
        whole = scene.folder / prefix
        line = f"install: {whole}/{bar} cannot be written, so nothing was put under {whole}\n"
        seen = install(scene, source, prefix)
        scene.check(prefix, (line.encode() in seen.err, b"./install ~/.local" in seen.err, seen.out, seen.status), (True, True, b"", 1))
    scene.check("put", put_below(scene.folder / "half"), {"share/man"})
    (scene.folder / "taken" / "bin" / "bpftap").mkdir(parents=True)
    line = f"install: {scene.folder}/taken/bin/bpftap is a folder, so nothing was put under {scene.folder}/taken\n"
    scene.check("a folder in a file's place", install(scene, source, "taken"), Seen(b"", line.encode(), 1))


@case
def without_a_program_nothing_is_put(scene):
    """If sources were changed and the toolchain is missing, that is printed, and nothing is put: status 1."""
    source = source_in(scene)
    source.edit("low")
    line = f"bpftap: the toolchain's command 'rt' is not on the PATH\ninstall: nothing was put under {scene.folder}/there\n"
    scene.check("install", install(scene, source, "there"), Seen(b"", line.encode(), 1))
    scene.check("put", put_below(scene.folder / "there"), set())


@case
def documents_are_those_of_the_repository(scene):
    """release/documents lists what git tracks; what a user keeps beside it is not installed."""
    if scene.has("git") and (ROOT / ".git").exists():
        tracked = subprocess.run(["git", "ls-files", *TEXTS, "docs", "examples"], cwd=ROOT, stdout=subprocess.PIPE, text=True, timeout=LIMIT).stdout
        scene.check("listed", sorted(tracked.splitlines()), (ROOT / "release" / "documents").read_text().splitlines())
    source = source_in(scene)
    for name in ["examples/my capture.pcap", "docs/.README.md.swp", "notes.md"]:
        (source.folder / name).write_text("a user's own\n")
    scene.check("install", install(scene, source, str(scene.folder / "there")).status, 0)
    scene.check("put", put_below(scene.folder / "there"), set(PUT))


@case
def what_an_older_version_put_is_removed(scene):
    """`--remove` takes what was put there, not what would be put today."""
    source, prefix = source_in(scene), scene.folder / "there"
    page = source.folder / "man" / "bpftap-old.1"
    page.write_text("old\n")
    scene.check("install", install(scene, source, str(prefix)).status, 0)
    page.unlink()
    scene.check("again", install(scene, source, str(prefix)).status, 0)
    scene.check("remove", (install(scene, source, "--remove", str(prefix)).status, prefix.exists()), (0, False))


@case
def a_list_leads_to_nothing_outside_of_the_prefix(scene):
    """`--remove` takes nothing but what is below its prefix, whatever the list names; a copy's list is of the copy."""
    source, prefix, copy = source_in(scene), scene.folder / "there", scene.folder / "copy"
    outside = scene.folder / "outside"
    outside.write_text("kept\n")
    scene.check("install", install(scene, source, str(prefix)).status, 0)
    subprocess.run(["cp", "-a", prefix, copy], check=True)
    put = put_below(prefix)
    with open(copy / "share" / "doc" / "bpftap" / ".installed", "ab") as names:
        names.write(b"\0".join([b"../outside", os.fsencode(outside), b"share/../../outside", b""]))
    scene.check("remove", install(scene, source, "--remove", str(copy)).status, 0)
    scene.check("the copy", put_below(copy), set())
    scene.check("what is outside", (outside.read_text(), put_below(prefix)), ("kept\n", put))
    (prefix / "share" / "doc" / "bpftap" / ".installed").chmod(0o666)
    scene.check("a list that others can write", install(scene, source, "--remove", str(prefix)), unlisted(prefix))
    scene.check("left", put_below(prefix), put)


def unlisted(prefix):
    """What `--remove` says if files are there and no list."""
    lines = [f"no list of yours says what ./install put under {prefix}, so nothing was removed",
             f"if it put files there, run ./install {prefix} once more, which lists them, and then --remove"]
    return Seen(b"", "".join(f"install: {line}\n" for line in lines).encode(), 1)


@case
def without_a_list_nothing_is_removed(scene):
    """`--remove` takes no file that `./install` did not put, whatever its name; after a second call, which says that it replaces them, it takes all."""
    source, prefix = source_in(scene), scene.folder / "there"
    own = {"bin/bpftap": "#!/bin/sh\n", "share/man/man1/bpftap.1": "a page\n"}
    for name, text in own.items():
        (prefix / name).parent.mkdir(parents=True)
        (prefix / name).write_text(text)
    scene.check("nothing was installed", install(scene, source, "--remove", str(prefix)), unlisted(prefix))
    scene.check("left", {name: (prefix / name).read_text() for name in put_below(prefix)}, own)
    replaced = f"install: {prefix}/bin/bpftap and 1 more are replaced: no list of yours says that ./install put them there\n"
    missing = f"install: {prefix}/bin is not on the PATH\n"
    scene.check("installed", install(scene, source, str(prefix)).err.decode(), replaced + missing)
    scene.check("again", install(scene, source, str(prefix)).err.decode(), missing)
    scene.check("remove", (install(scene, source, "--remove", str(prefix)).status, put_below(prefix)), (0, set()))
    (prefix / "bin" / "bpftap").symlink_to("nowhere")
    scene.check("only its program", install(scene, source, "--remove", str(prefix)), unlisted(prefix))
    replaced = f"install: {prefix}/bin/bpftap is replaced: no list of yours says that ./install put it there\n"
    scene.check("a link in its place", install(scene, source, str(prefix)).err.decode(), replaced + missing)


@case
def it_needs_no_proc(scene):
    """In a container or a chroot without /proc files are put and removed, and without a list that is said."""
    own = ["unshare", "--mount"] if os.geteuid() == 0 else ["unshare", "--user", "--map-root-user", "--mount"]
    hidden = [*own, "sh", "-c", 'mount -t tmpfs none /proc && exec "$@"', "sh"]
    if not scene.has("unshare") or subprocess.run([*hidden, "true"], stderr=subprocess.DEVNULL).returncode:
        return scene.leave("no namespace of files can be made")
    source, prefix = source_in(scene), scene.folder / "there"

    def call(*words):
        done = subprocess.run([*hidden, source.folder / "install", *words], env=source.bare(), capture_output=True, timeout=LIMIT)
        return Seen(done.stdout, done.stderr, done.returncode)

    (prefix / "bin").mkdir(parents=True)
    (prefix / "bin" / "bpftap").touch()
    scene.check("without a list", call("--remove", prefix), unlisted(prefix))
    (prefix / "bin" / "bpftap").unlink()
    scene.check("install", (call(prefix).status, put_below(prefix)), (0, set(PUT)))
    scene.check("remove", (call("--remove", prefix).status, put_below(prefix)), (0, set()))


@case
def what_an_interrupted_call_put_is_removed(scene):
    """If `./install` is killed in the middle, `--remove` takes what was put and the folders that were made, and no file that was not reached."""
    source = source_in(scene)
    tools = scene.folder / "tools"
    tools.mkdir()
    (tools / "install").touch(0o755)
    # A shell that was started with SIGINT ignored can't be ended by it.
    is_deaf = signal.getsignal(signal.SIGINT) == signal.SIG_IGN
    for name in ["KILL", "TERM"] if is_deaf else ["KILL", "TERM", "INT"]:
        stops = f"kill -{name} $PPID; kill -{name} $$"
        (tools / "install").write_text(f'#!/bin/sh\ncase $* in *bpftap-cut.1) {stops} ;; esac\nexec /usr/bin/install "$@"\n')
        prefix = scene.folder / f"by {name}"
        seen = install(scene, source, str(prefix), path=f"{tools}:/usr/bin:/bin")
        scene.check(f"{name}: put", (seen.status, "bin/bpftap" in put_below(prefix), "share/man/man1/bpftap-cut.1" in put_below(prefix)), (
            -signal.Signals[f"SIG{name}"], True, False))
        own = prefix / "share" / "man" / "man1" / "bpftap-split.1"
        own.write_text("kept\n")
        scene.check(f"{name}: remove", (install(scene, source, "--remove", str(prefix)).status, put_below(prefix)), (0, {"share/man/man1/bpftap-split.1"}))
        own.unlink(missing_ok=True)
        scene.check(f"{name}: a folder of the user's is left", sorted(path.name for path in prefix.rglob("*")), ["man", "man1", "share"])
        shutil.rmtree(prefix)
        install(scene, source, str(prefix), path=f"{tools}:/usr/bin:/bin")
        scene.check(f"{name}: all", (install(scene, source, "--remove", str(prefix)).status, prefix.exists()), (0, False))


@case
def what_cannot_be_removed_is_listed_on(scene):
    """If a file cannot be removed `--remove` takes all others, and a later call takes that one."""
    source, prefix = source_in(scene), scene.folder / "there"
    tools = scene.folder / "tools"
    tools.mkdir()
    (tools / "rm").write_text('#!/bin/sh\ncase $* in *bpftap-cut.1) exit 1 ;; esac\nexec /usr/bin/rm "$@"\n')
    (tools / "rm").chmod(0o755)
    install(scene, source, str(prefix))
    seen = install(scene, source, "--remove", str(prefix), path=f"{tools}:/usr/bin:/bin")
    line = f"install: not all was done under {prefix}\n".encode()
    scene.check("remove", (seen.err, seen.status, put_below(prefix)), (line, 1, {"share/man/man1/bpftap-cut.1"}))
    scene.check("folders", sorted(path.name for path in prefix.rglob("*") if path.is_dir()), ["bpftap", "doc", "man", "man1", "share"])
    scene.check("again", (install(scene, source, "--remove", str(prefix)).status, prefix.exists()), (0, False))


@case
def nothing_is_made_before_a_program_is_chosen(scene):
    """If `./install` is killed while the program is built or tried, no folder is left."""
    source, prefix = source_in(scene, program='#!/bin/sh\n: >"$HOME/begun"\nsleep 60\n'), scene.folder / "there"
    begun, words = source.home / "begun", [source.folder / "install", prefix]
    called = subprocess.Popen(words, env=source.bare(), stdout=subprocess.DEVNULL, stderr=subprocess.DEVNULL, start_new_session=True)
    until = time.monotonic() + LIMIT
    while not begun.exists() and time.monotonic() < until:
        time.sleep(0.02)
    os.killpg(called.pid, signal.SIGKILL)
    called.wait()
    scene.check("begun, and made", (begun.exists(), prefix.exists()), (True, False))


@case
def a_folder_below_the_root_is_a_prefix(scene):
    """A prefix whose every folder is missing is refused if `/` cannot be written."""
    if os.geteuid() == 0 and not scene.has("setpriv"):
        return
    as_other = ["setpriv", f"--reuid={OTHER}", "--clear-groups"] if os.geteuid() == 0 else []
    with tempfile.TemporaryDirectory() as top:
        os.chmod(top, 0o755)
        scene.folder = pathlib.Path(top)
        source = source_in(scene)
        done = subprocess.run([*as_other, source.folder / "install", "/lacks"], env=source.bare(), capture_output=True, timeout=LIMIT // 6)
        line = b"install: /lacks/bin cannot be written, so nothing was put under /lacks\n"
        scene.check("refused", (done.stdout, done.stderr.startswith(line), done.returncode), (b"", True, 1))


def shared_prefix(folder, mode):
    """A prefix with its folder of documents, in each of which others can make files."""
    documents = folder / "share" / "doc" / "bpftap"
    documents.mkdir(parents=True)
    for path in [folder, *documents.parents, documents]:
        if path.is_relative_to(folder):
            path.chmod(mode)
    return documents


def link_of_another(path, target):
    """Makes a link that another user has put there."""
    path.symlink_to(target)
    os.lchown(path, OTHER, OTHER)


@case
def links_of_another_user_are_replaced(scene):
    """In a prefix that others can write to, what one of them put in the place of the list is written over: nothing is written where it leads."""
    if os.geteuid() != 0:
        return scene.leave("only root can make links of another user")
    source = source_in(scene)
    for mode in [0o2775, 0o1777]:
        prefix, kept = scene.folder / f"shared {mode:o}", scene.folder / f"kept {mode:o}"
        documents = shared_prefix(prefix, mode)
        kept.write_text("kept\n")
        for name in [".installed", ".installed.new", "README.md"]:
            link_of_another(documents / name, kept)
        if are_followed(scene, mode):
            scene.check(f"status, {mode:o}", install(scene, source, str(prefix)).status, 0)
            scene.check(f"where they lead, {mode:o}", kept.read_text(), "kept\n")
            scene.check(f"the list, {mode:o}", ((documents / ".installed").is_symlink(), (documents / ".installed").is_file()), (False, True))
            scene.check(f"remove, {mode:o}", (install(scene, source, "--remove", str(prefix)).status, put_below(prefix)), (
                0, {"share/doc/bpftap/.installed.new"}))


@case
def a_link_of_another_user_is_no_folder(scene):
    """Nothing is put or removed through a link to a folder that another user put in the place of one below the prefix."""
    if os.geteuid() != 0:
        return scene.leave("only root can make links of another user")
    source, kept = source_in(scene), scene.folder / "kept"
    kept.mkdir()
    (kept / "README.md").write_text("kept\n")
    for mode in [0o2775, 0o1777]:
        prefix = scene.folder / f"shared {mode:o}"
        documents = shared_prefix(prefix, mode)
        documents.rmdir()
        link_of_another(documents, kept)
        if not are_followed(scene, mode):
            continue
        line = f"install: {documents} is another user's link, or below one, so nothing was put under {prefix}\n"
        scene.check(f"install, {mode:o}", install(scene, source, str(prefix)), Seen(b"", line.encode(), 1))
        documents.unlink()
        scene.check(f"without it, {mode:o}", install(scene, source, str(prefix)).status, 0)
        shutil.rmtree(documents / "examples")
        link_of_another(documents / "examples", kept)
        line = f"install: {documents}/examples/README.md is left: it is below another user's link\n"
        seen = install(scene, source, "--remove", str(prefix))
        scene.check(f"remove, {mode:o}", (line in seen.err.decode(), seen.status), (True, 1))
        scene.check(f"again, {mode:o}", (install(scene, source, "--remove", str(prefix)).status, put_below(prefix)), (0, set()))
    scene.check("where it leads", (put_below(kept), (kept / "README.md").read_text()), ({"README.md"}, "kept\n"))


@case
def what_was_built_and_changed_is_not_installed(scene):
    """A file of what was built here that was changed, or that others can write to, is not installed."""
    source = source_in(scene)
    source.run()
    built = source.folder / "out" / "built" / source.lib("sources_key").out.decode().strip()
    line = f"bpftap: {built} is not what ./build left: remove it, and run ./build\ninstall: nothing was put under {scene.folder}/there\n"
    refused = Seen(b"", line.encode(), 1)
    (built / "lib").mkdir()
    scene.check("as it was", install(scene, source, str(scene.folder / "first")).status, 0)
    (built / "lib").chmod(0o777)
    scene.check("open to others", install(scene, source, str(scene.folder / "there")), refused)
    (built / "lib").chmod(0o755)
    (built / "lib" / "libbpftap.so.1").write_text("another\n")
    scene.check("another file", install(scene, source, str(scene.folder / "there")), refused)


@case
def what_was_changed_is_not_installed(scene):
    """A released file that was changed since it was unpacked is neither installed nor packaged, though the launcher runs the program."""
    source = source_in(scene)
    source.call()
    unpacked = next((source.folder / "out" / "released").iterdir())
    (unpacked / "lib").mkdir()
    (unpacked / "lib" / "libbpftap.a").write_text("another\n")
    line = f"bpftap: {unpacked} is not what release/SHA256SUMS says: remove it\n"
    seen = install(scene, source, str(scene.folder / "there"))
    scene.check("install", seen, Seen(b"", f"{line}install: nothing was put under {scene.folder}/there\n".encode(), 1))
    scene.check("put", put_below(scene.folder / "there"), set())
    seen = install(scene, source, str(scene.folder / "packages"), program="package")
    scene.check("package", (line.encode() in seen.err, seen.out, seen.status), (True, b"", 1))


@case
def a_static_program_comes_without_a_library(scene):
    """Where the static program is chosen, which has no library beside it, all else is put, and taken away again."""
    source = source_in(scene)
    with (source.folder / "release" / "files").open("a") as files:
        files.write("644 out/lib/libbpftap.so.1 lib/libbpftap.so.1\n")
    source.release(OLD)
    also_released(source, {"x86_64-linux-static": MADE.replace("a stand-in", "static")})
    prefix = scene.folder / "there"
    seen = install(scene, source, str(prefix))
    scene.check("install", (seen.out.decode(), seen.status), ("".join(f"{prefix}/{name}\n" for name in PUT), 0))
    scene.check("put", (put_below(prefix), (prefix / "lib").exists()), (set(PUT), False))
    scene.check("removed", (install(scene, source, "--remove", str(prefix)).status, prefix.exists()), (0, False))


@case
def a_page_that_was_changed_is_not_installed(scene):
    """The released page is put beside the documents if it has its checksum; else nothing is installed or packaged."""
    source = source_in(scene)
    page, sums = source.folder / "release" / "bpftap.html", source.folder / "release" / "SHA256SUMS"
    page.write_text("<p>a page\n")
    sums.write_text(f"{sums.read_text()}{hashlib.sha256(page.read_bytes()).hexdigest()}  bpftap.html\n")
    scene.check("as released", install(scene, source, str(scene.folder / "here")).status, 0)
    scene.check("put", "share/doc/bpftap/bpftap.html" in put_below(scene.folder / "here"), True)
    page.write_text("<p>another page\n")
    line = "bpftap: release/bpftap.html is damaged: its SHA-256 is not the one in release/SHA256SUMS\n"
    seen = install(scene, source, str(scene.folder / "there"))
    scene.check("install", seen, Seen(b"", f"{line}install: nothing was put under {scene.folder}/there\n".encode(), 1))
    seen = install(scene, source, str(scene.folder / "packages"), program="package")
    scene.check("package", (line.encode() in seen.err, seen.out, seen.status), (True, b"", 1))


@case
def a_clone_that_is_installed_may_have_any_path(scene):
    """A newline and a backslash in the path of the clone or of the prefix change nothing."""
    for name in ["a\nb", "c\\d"]:
        scene.start({})
        top = scene.folder / name
        top.mkdir()
        source = source_in(Within(scene, top))
        seen = install(scene, source, str(top / "put"))
        scene.check(f"status in {name!r}", seen.status, 0)
        scene.check(f"put in {name!r}", put_below(top / "put"), set(PUT))
        scene.check(f"printed in {name!r}", seen.out.decode(), "".join(f"{top}/put/{name}\n" for name in PUT))
        scene.check(f"removed in {name!r}", (install(scene, source, "--remove", str(top / "put")).status, put_below(top / "put")), (0, set()))


@case
def a_path_that_is_not_utf_8_is_the_reason(scene):
    """The program takes no word that is not UTF-8, its own path neither: in a clone below such a folder the launcher and `./install` say so."""
    top = scene.folder / os.fsdecode(b"caf\xe9")
    top.mkdir()
    source = source_in(Within(scene, top), program=pathlib.Path(PROGRAM).read_bytes())
    line = b"bpftap: the program runs in no folder whose path is not UTF-8, as that of %s/out: rename the folder\n" % os.fsencode(source.folder)
    scene.check("launcher", source.call("check", "ip"), Seen(b"", line, 125))
    nothing = b"install: nothing was put under %s/there\n" % os.fsencode(scene.folder)
    scene.check("install", install(scene, source, str(scene.folder / "there")), Seen(b"", line + nothing, 1))


@case
def bad_usage_has_the_usage(scene):
    """No prefix, an option that does not exist, an empty prefix and two of them have the usage on standard error, with status 2."""
    source = source_in(scene)
    for words in [[], ["-x"], [""], ["a", "b"], ["--remove"], ["--remove", "-x"], ["--remove", "a", "b"]]:
        seen = install(scene, source, *words)
        scene.check(f"usage after {words}", b"./install PREFIX " in seen.err, True)
        scene.check(f"printed of {words}, and the status", (seen.out, seen.status), (b"", 2))
    seen = install(scene, source, "--help")
    scene.check("help", (b"./install PREFIX " in seen.out, seen.err, seen.status), (True, b"", 0))
    for words in [["-x"], [""], ["a", "b"], ["--machine"], ["--machine", "-x"], ["--machine", "a", "b", "c"]]:
        scene.check(f"package {words}", install(scene, source, *words, program="package").status, 2)


def help_examples(program):
    """The lines of commands that the help of all commands shows, each with what a `#` says of it."""
    for command in ["", "check", "explain", "compare", "cut", "split", "steps", "run"]:
        words = [program, *command.split(), "--help"]
        text = subprocess.run(words, stdout=subprocess.PIPE, text=True, timeout=LIMIT).stdout
        for line in text.partition("Examples:\n")[2].partition("\n\n")[0].splitlines():
            yield line.strip()


def run_all_examples(scene, prefix, name):
    """Runs what manual and help show, in a folder with a copy of the examples that were installed."""
    folder = scene.folder / name
    folder.mkdir()
    shutil.copytree(prefix / "share" / "doc" / "bpftap" / "examples", folder / "examples")
    environment = {"PATH": f"{prefix}/bin:/usr/bin:/bin", "HOME": str(folder)}
    how = {"cwd": folder, "env": environment, "stdin": subprocess.DEVNULL, "stdout": subprocess.PIPE, "stderr": subprocess.STDOUT, "timeout": LIMIT}
    for page in PAGES:
        for script, printed in examples(page):
            scene.check(f"{page.name}: {script}", subprocess.run(["bash", "-c", script], **how).stdout.decode(), printed)
    commands = [*help_examples(prefix / "bin" / "bpftap")]
    scene.check("commands of help", len(commands) > 12, True)
    # One shows a fault of an expression. No file is missing.
    for command in commands:
        done = subprocess.run(["bash", "-c", command], **how)
        scene.check(command, (done.returncode in (0, 1), b"Device" in done.stdout), (True, False))


@case
def what_manual_and_help_show_runs_once_installed(scene):
    """Each of their commands runs in a folder with a copy of the installed examples."""
    source, prefix = source_in(scene, program=pathlib.Path(PROGRAM).read_bytes()), scene.folder / "own"
    scene.check("install", install(scene, source, str(prefix)).status, 0)
    run_all_examples(scene, prefix, "work")


@case
def packages_have_what_is_installed(scene):
    """The Debian package and the tar archive hold the installed files, and run where they are unpacked. The same files give the same
    packages, which replace links, as of another user."""
    if not scene.has("dpkg-deb", "strip"):
        return
    source = source_in(scene, program=pathlib.Path(PROGRAM).read_bytes())
    packages = scene.folder / "packages"
    seen = install(scene, source, str(packages), program="package")
    names = sorted(path.name for path in packages.iterdir())
    version = re.fullmatch(r"bpftap-(.*)-x86_64-linux\.tar\.gz", names[0])[1]
    kinds = [f"bpftap-{version}-x86_64-linux.tar.gz", f"bpftap-{version}.spdx.json", f"bpftap_{version}_amd64.deb"]
    scene.check("names", names, kinds)
    scene.check("printed", seen, Seen("".join(f"{packages}/{name}\n" for name in names).encode(), b"", 0))
    root = scene.folder / "root"
    package = packages / names[2]
    subprocess.run(["dpkg-deb", "-x", package, root], check=True)
    zipped = {f"{name}.gz" if name.startswith("share/man/man1/") else name for name in PUT if not name.startswith("share/man/man3/")}
    zipped = {name.replace("site-functions", "vendor-completions") for name in zipped}
    zipped -= {f"share/doc/bpftap/{name}" for name in ["CHANGELOG.md", "LICENSE-APACHE", "LICENSE-MIT"]}
    zipped |= {"share/doc/bpftap/changelog.gz", "share/doc/bpftap/copyright"}
    scene.check("files of the package", put_below(root), {f"usr/{name}" for name in zipped})
    run_all_examples(scene, root / "usr", "by the package")
    fields = subprocess.run(["dpkg-deb", "-f", package, "Package", "Version", "Depends"], stdout=subprocess.PIPE, text=True).stdout
    scene.check("fields", fields, f"Package: bpftap\nVersion: {version}\nDepends: libc6 (>= 2.34)\n")
    owners = subprocess.run(["dpkg-deb", "-c", package], stdout=subprocess.PIPE, text=True).stdout
    scene.check("owners", {line.split()[1] for line in owners.splitlines()}, {"root/root"})
    subprocess.run(["tar", "-xzf", packages / names[0], "-C", scene.folder], check=True)
    scene.check("files of the archive", put_below(scene.folder / f"bpftap-{version}"), set(PUT))
    again, kept = scene.folder / "again", scene.folder / "kept"
    again.mkdir()
    again.chmod(0o2775)
    kept.write_text("kept\n")
    for name in names:
        (again / name).symlink_to(kept)
        if os.geteuid() == 0:
            os.lchown(again / name, OTHER, OTHER)
    seen = install(scene, source, "again", program="package")
    scene.check("printed for a relative folder", seen, Seen("".join(f"{again}/{name}\n" for name in names).encode(), b"", 0))
    scene.check("where links in their place lead", (kept.read_bytes(), [name for name in names if (again / name).is_symlink()]), (b"kept\n", []))
    scene.check("the same again", [name for name in names if (again / name).read_bytes() != (packages / name).read_bytes()], [])
    made_of = json.loads((packages / names[1]).read_text())
    known = {"SPDXRef-DOCUMENT", *(each["SPDXID"] for each in [*made_of["packages"], *made_of["files"]])}
    named = {each[key] for each in made_of["relationships"] for key in ("spdxElementId", "relatedSpdxElement")}
    scene.check("what it is made of", (named - known, [each["fileName"] for each in made_of["files"]]), (set(), ["./bpftap-x86_64-linux/bin/bpftap"]))


@case
def an_archive_is_named_by_its_program(scene):
    """The tar archive of the static program has the name of that in the release."""
    archive = ROOT / "release" / "bpftap-x86_64-linux-static.tar.xz"
    if not archive.is_file():
        return scene.leave(f"no {archive.name} is released")
    subprocess.run(["tar", "-xJf", archive, "-C", scene.folder], check=True, timeout=LIMIT)
    source = source_in(scene, program=(scene.folder / "bin" / "bpftap").read_bytes())
    install(scene, source, "packages", program="package")
    names = [path.name.split("-", 2)[2] for path in (scene.folder / "packages").glob("*.tar.gz")]
    scene.check("archive", names, ["x86_64-linux-static.tar.gz"])


@case
def a_list_has_the_page_and_what_is_linked(scene):
    """packaging/sbom lists the page with its checksum, and the crates of the toolchain that NOTICES names."""
    source, content = source_in(scene), b"<p>a page\n"
    (source.folder / "release" / "bpftap.html").write_bytes(content)
    listed = json.loads(source.run(program="packaging/sbom").out)
    sums = {each["fileName"]: {it["algorithm"]: it["checksumValue"] for it in each["checksums"]} for each in listed["files"]}
    scene.check("the page", sums.get("./bpftap.html"), {name.upper(): hashlib.new(name, content).hexdigest() for name in ("sha1", "sha256")})
    named = {each["name"] for each in listed["packages"]}
    scene.check("crates of the toolchain", {"std", "core", "os", "libc", "atomic_table"} - named, set())
