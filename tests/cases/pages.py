"""The pages: their commands after a `$` print the lines below them, and their links lead somewhere."""
import os
import re
import shutil
import subprocess

from .common import LIMIT, PROGRAM, ROOT, VERSION, VETH, case, records
from .examples import COOKED, cooked
from .manual import session

# Pages whose commands need no other program than the system's own; docs/SCALE.md has a group of its own.
LESSONS = [f"examples/lessons/{page.name}" for page in sorted((ROOT / "examples" / "lessons").glob("*.md"))]
RUN = ["README.md", "docs/RECIPES.md", "docs/LANGUAGE.md", "docs/ASSEMBLY.md", "docs/FAULTS.md", "examples/README.md", "examples/steps/README.md", *LESSONS]

# A block between two lines of three backticks, or one that is indented by four blanks.
BLOCK = re.compile(r"^```\w*\n(?P<fenced>(?s:.*?))^```$|^(?P<indented>(?:    .*\n)+)", re.M)


def sessions(page):
    """The blocks of a page that begin with a `$`: the commands of each one, and what they print."""
    for block in BLOCK.finditer(page.read_text()):
        lines = (block["fenced"] or block["indented"]).splitlines(keepends=True)
        if block["indented"]:
            lines = [line[4:] for line in lines]
        if lines and lines[0].startswith("$ "):
            yield session(lines)


def start_page(scene):
    """Puts `examples` and the program into an empty folder. Returns the variables of the shell that finds the program there."""
    scene.start({})
    (scene.folder / "bin").mkdir()
    (scene.folder / "bin" / "bpftap").symlink_to(PROGRAM)
    (scene.folder / "bpftap").symlink_to(PROGRAM)
    (scene.folder / "examples").symlink_to(ROOT / "examples")
    return {**os.environ, "HOME": str(scene.folder), "PATH": f"{scene.folder}/bin:{os.environ['PATH']}"}


def run_page(scene, page):
    """Runs the commands of a page, one block after the other, in a folder that has `examples` and the program."""
    environment = start_page(scene)
    for script, printed in sessions(page):
        done = subprocess.run(
            ["bash", "-c", script], cwd=scene.folder, env=environment, stdin=subprocess.DEVNULL, stdout=subprocess.PIPE,
            stderr=subprocess.STDOUT, timeout=LIMIT)
        scene.check(f"{page.name}: {script}", done.stdout.decode(), printed)


@case
def commands_print_what_they_say(scene):
    """The commands of each page are run, and print the lines below them."""
    for name in RUN:
        page = ROOT / name
        run_page(scene, page)


def first_commands():
    """The lines of README's first block, which a reader types before all else."""
    return next(BLOCK.finditer((ROOT / "README.md").read_text()))["fenced"].splitlines()


@case
def the_first_command_of_readme_runs(scene):
    """The first command of README runs as it is written, and counts the packets of the capture that it names."""
    script = f"set -o pipefail; {first_commands()[0]}"
    done = subprocess.run(["bash", "-c", script], cwd=scene.folder, env=start_page(scene), capture_output=True, text=True, timeout=LIMIT)
    counted = f"{len(records(VETH.read_bytes()))} packets: "
    scene.check(script, (counted in done.stdout, done.stderr, done.returncode), (True, "", 0))


@case
def the_gate_runs_what_readme_names(scene):
    """`.ci/run` runs the one of README's first commands that has a time, which FIRST-DAY, SPEED and the command's own text give too."""
    timed = [re.match(r"\./(\w+) .*?(\d+ to \d+) minutes on 4 processors; needs ", line) for line in first_commands()]
    named = [(found[1], found[2]) for found in timed if found]
    scene.check("test commands", len(named), 1)
    for name, minutes in named:
        scene.start({name: "#!/bin/sh\necho all\n"})
        shutil.copytree(ROOT / ".ci", scene.folder / ".ci")
        (scene.folder / name).chmod(0o755)
        done = subprocess.run([".ci/run"], cwd=scene.folder, capture_output=True, text=True, timeout=LIMIT)
        scene.check(f".ci/run beside {name}", (done.stdout, done.stderr, done.returncode), ("all\n", "", 0))
        scene.check(f"{name} is a program", os.access(ROOT / name, os.X_OK), True)
        for page in ["docs/FIRST-DAY.md", "docs/SPEED.md", name]:
            said = re.findall(rf"\./{name}\b[^.;\n]*?\b(\d+ to \d+)\b", (ROOT / page).read_text())
            scene.check(f"minutes of {name} on {page}", said, [minutes])


# Commands of RECIPES that capture, build, or make packages: no case runs them.
NOT_RUN = ("tcpdump -U -i ", "(cd release ", "./build", "./package", "packaging/", "podman ")


def other_commands(page):
    """The commands of a page in blocks without a `$`; a line that ends in a pipe goes on."""
    for block in BLOCK.finditer(page.read_text()):
        if block["indented"] and not block["indented"].startswith("    $ "):
            yield from re.sub(r"\|\n +", "| ", block["indented"]).splitlines()


@case
def commands_with_other_tools_end_well(scene):
    """The commands of RECIPES that take tools of others, as tcpdump's and Wireshark's, where these are there."""
    environment = start_page(scene)
    scene.put({name: VETH.read_bytes() for name in ("in.pcap", "one.pcap", "two.pcap")})
    subprocess.run(["editcap", "-F", "pcapng", "in.pcap", "all.pcapng"], cwd=scene.folder, check=True, timeout=LIMIT)
    scene.put({"any.pcap": cooked(113, COOKED[113], "little"), "packet.txt": "0000 " + "ff " * 60 + "\n"})
    commands = [line.strip() for line in other_commands(ROOT / "docs" / "RECIPES.md")]
    asked = [line for line in commands if not line.startswith(NOT_RUN)]
    scene.check("ten commands or more", len(asked) >= 10, True)
    for command in asked:
        tools = [tool for tool in ("tcpdump", "tcprewrite", "editcap", "mergecap", "text2pcap", "tshark") if tool in command.partition("#")[0]]
        if scene.has(*tools):
            script = f"set -e -o pipefail; {command}"
            done = subprocess.run(["bash", "-c", script], cwd=scene.folder, env=environment, stdin=subprocess.DEVNULL, capture_output=True, timeout=LIMIT)
            scene.check(command, (done.returncode, done.stderr if done.returncode else b""), (0, b""))


@case
def git_ignores_what_the_first_commands_write(scene):
    """What the commands of README and of the page of examples write, called in a clone, is no change of it."""
    if not scene.has("git"):
        return
    for name in ["README.md", "examples/README.md"]:
        run_page(scene, ROOT / name)
        shutil.copy(ROOT / ".gitignore", scene.folder)
        subprocess.run(["git", "init", "-q", "."], cwd=scene.folder, check=True, timeout=LIMIT)
        words = ["git", "status", "--porcelain", "--untracked-files=all"]
        seen = subprocess.run(words, cwd=scene.folder, stdout=subprocess.PIPE, text=True, timeout=LIMIT).stdout
        made = {line[3:] for line in seen.splitlines()} - {".gitignore", "bin/bpftap", "bpftap", "examples"}
        scene.check(f"made by the commands of {name}", made, set())


@case
def commands_of_all_pages_are_run(scene):
    """A page that has commands after a `$` is one of those that are run."""
    with_commands = {str(page.relative_to(ROOT)) for page in pages() if any(sessions(page))}
    scene.check("pages with commands", sorted(with_commands), sorted([*RUN, "docs/SCALE.md"]))


@case
def program_and_pages_name_one_logic(scene):
    """`--version`, README and the page of promises name the same logic: that of the toolchain, if there is one."""
    said = scene.run("--version").out.decode()
    logic = re.fullmatch(r"bpftap [0-9.]+, proved in the (logic [0-9a-f]+)\n", said)
    scene.check(f"a logic in {said}", logic is not None, True)
    for name in ["README.md", "docs/PROMISES.md"]:
        scene.check(f"{logic[1]} in {name}", f"in the {logic[1]}," in (ROOT / name).read_text(), True)
    if scene.has("rt"):
        kit = subprocess.run(["rt", "version"], stdout=subprocess.PIPE, text=True, timeout=LIMIT)
        scene.check("the toolchain's", kit.stdout.partition(" ")[2].strip(), logic[1])


@case
def the_version_stands_once(scene):
    """The version of the list of changes is that of the sources, the header, and the packages, as `release/version` sets it."""
    seen = subprocess.run([ROOT / "release" / "version"], stdout=subprocess.PIPE, text=True, timeout=LIMIT)
    scene.check("other versions", (seen.stdout, seen.returncode), (f"{VERSION}\n", 0))
    scene.start({})
    for name in ["release/version", "CHANGELOG.md", "include/bpftap.h", "include/bpftap.pc", "bindings/python/pyproject.toml"]:
        (scene.folder / name).parent.mkdir(parents=True, exist_ok=True)
        shutil.copy(ROOT / name, scene.folder / name)
    changes = scene.folder / "CHANGELOG.md"
    changes.write_text(changes.read_text().replace(f"## {VERSION}", "## 98.7.65"))
    subprocess.run([scene.folder / "release" / "version", "--set"], stdout=subprocess.DEVNULL, timeout=LIMIT)
    for name, line in [("include/bpftap.pc", "Version: 98.7.65"), ("bindings/python/pyproject.toml", 'version = "98.7.65"')]:
        scene.check(f"set in {name}", line in (scene.folder / name).read_text().splitlines(), True)


@case
def pages_state_the_bounds_and_statuses_of_the_program(scene):
    """The bound of a text, the status of a difference and the rule on OUT read on the pages as they are in the code or as the program has them."""
    shift = re.search(r"^pub const MAX_TEXT: usize = 1 << (\d+);", (ROOT / "crates/cli_files/src/reading.rt").read_text(), re.M)
    bound = f"- `TextTooLong`: LISTING, LINES, LISTENERS or SCRIPT has more than {1 << int(shift[1]):,} bytes"
    scene.check("bound on FAULTS", bound in " ".join((ROOT / "docs/FAULTS.md").read_text().split()), True)
    apart = ["ip", "ip and (ip[40] = 0 or ip[40] != 0)"]
    for pair, line in [(apart, "differ only where one aborts"), (["tcp", "udp"], "differ")]:
        done = subprocess.run([PROGRAM, "compare", *pair], capture_output=True, text=True, timeout=LIMIT)
        page = (ROOT / "man/bpftap-compare.1").read_text()
        item = re.search(rf"^\.It {done.returncode}\n(.*?)^\.(?:It|El)", page[page.index(".Sh EXIT STATUS"):], re.M | re.S)
        scene.check(f"line of {pair}", done.stdout.splitlines()[0], line)
        scene.check(f"status of {line}", bool(item) and re.search(rf"^\.Li {line}( \.)?$", item[1], re.M) is not None, True)
    (scene.folder / "in.pcap").write_bytes(b"")
    done = subprocess.run([PROGRAM, "cut", "-s", "0", "in.pcap", "in.pcap", "out.pcap"], cwd=scene.folder, capture_output=True, timeout=LIMIT)
    refused = "three words or more without it are refused before a file is opened." in (ROOT / "man/bpftap-cut.1").read_text()
    scene.check("three words", (done.returncode, (scene.folder / "out.pcap").exists(), refused), (1, False, True))


@case
def what_is_linked_in_has_its_notice(scene):
    """NOTICES names each library of the toolchain that a crate uses; a file that is given away by itself names the licence."""
    lines = [line.partition(":") for line in (ROOT / "crates.txt").read_text().splitlines() if re.match(r"[a-z]", line)]
    own = {name.split()[0]: uses.split() for name, _, uses in lines}
    linked = {use for name, uses in own.items() if not name.startswith("test_") for use in uses} - {*own}
    named = set(re.findall(r"\w+", (ROOT / "NOTICES").read_text()))
    scene.check("without a notice", sorted(linked - named), [])
    single = [path for form in ("include/bpftap.h", "bindings/**/*.py", "bindings/**/*.rs", "bindings/**/*.go") for path in ROOT.glob(form)]
    lacking = [path for path in single if "SPDX-License-Identifier: MIT OR Apache-2.0" not in path.read_text()]
    scene.check("without a licence", sorted(str(path.relative_to(ROOT)) for path in lacking), [])


def pages():
    """All pages of the repository."""
    named = [ROOT / name for name in ("README.md", "SECURITY.md", "CONTRIBUTING.md", "CHANGELOG.md", "tests/README.md")]
    return named + [page for place in ("docs/*.md", "crates/*/README.md", "examples/**/*.md")
                    for page in sorted(ROOT.glob(place))]


def links(page):
    """The files of the repository that a page links to."""
    for target in re.findall(r"\]\(([^)#\s]+)(?:#[^)]*)?\)", page.read_text()):
        if "://" not in target:
            yield (page.parent / target).resolve()


@case
def links_lead_somewhere(scene):
    """Each link of each page is a file of the repository, and from README each page is two links away at most."""
    near = set(links(ROOT / "README.md"))
    near |= {target for page in near if page.suffix == ".md" for target in links(page)}
    for page in pages():
        missing = [str(target) for target in links(page) if not target.exists()]
        scene.check(f"links of {page.relative_to(ROOT)} that lead nowhere", missing, [])
        if page != ROOT / "README.md":
            scene.check(f"{page.relative_to(ROOT)} within two links of README", page in near, True)


def names(page):
    """The names of items in a page's text: what is between two backticks, a path or a call, and no other text."""
    text = re.sub(r"^```.*?^```$", "", page.read_text(), flags=re.S | re.M)
    for span in re.findall(r"`([^`]+)`", text):
        item = re.sub(r"\(.*\)$", "", span)
        if re.fullmatch(r"[A-Za-z_]\w*(?:(?:::|\.)[A-Za-z_]\w*)*", item):
            yield from re.findall(r"\w+", item)


@case
def names_on_pages_are_in_the_sources(scene):
    """Each library has a page, and each name on it is in the sources: none is left of an item that is gone."""
    known = {crate.name for crate in ROOT.glob("crates/*")} | {"md", "py", "rt", "antt"}
    for form in ("crates/*/src/**/*.rt", "crates/*/specs/**/*.antt", "include/bpftap.h"):
        for source in ROOT.glob(form):
            known |= set(re.findall(r"\w+", source.read_text()))
    for lib in sorted(ROOT.glob("crates/*/src/lib.rt")):
        crate = lib.parent.parent
        if crate.name.startswith("test_") and crate.name != "test_fixtures":
            continue
        scene.check(f"names on the page of {crate.name} that no source has", sorted(set(names(crate / "README.md")) - known), [])


@case
def contributors_are_told_each_group(scene):
    """The page of the tests names each group of cases and each crate of tests."""
    named = set(re.findall(r"`(\w+)`", (ROOT / "tests" / "README.md").read_text()))
    groups = {page.stem for page in (ROOT / "tests" / "cases").glob("*.py")} - {"__init__", "common"}
    tests = {page.name for page in ROOT.glob("crates/test_*")}
    scene.check("groups and crates that it lacks", sorted((groups | tests) - named), [])


@case
def code_of_pages_is_in_the_sources(scene):
    """Each item of the code on a library's page, its `use` lines aside, is in a source to the letter, where it is proved."""
    sources = [path.read_text() for path in ROOT.glob("crates/*/src/**/*.rt")]
    for page in sorted(ROOT.glob("crates/*/README.md")):
        for block in re.findall(r"^```rust\n(.*?)^```$", page.read_text(), re.S | re.M):
            for item in re.split(r"\n\n(?=\S)", block.rstrip("\n")):
                if not item.startswith(("use ", "ghost use ")):
                    is_there = any(item + "\n" in source for source in sources)
                    scene.check(f"{page.relative_to(ROOT)}: {item.splitlines()[0]}, in a source", is_there, True)
