"""The manual pages: they, `--help` and the completions name the same, and their examples print what they say."""
import re
import shutil
import subprocess

from .common import HEADER, LIMIT, PROGRAM, ROOT, WHOLE, case
from .completions import offered

MAN = ROOT / "man"
PAGES = sorted(MAN.glob("*.1"))
SECTIONS = ["NAME", "SYNOPSIS", "DESCRIPTION", "EXIT STATUS", "EXAMPLES", "DIAGNOSTICS", "SEE ALSO"]
HELP_ALONE = {"-h", "--help"}


def page_of(command):
    """The page of a command, or of the program itself if the name is empty."""
    return MAN / (f"bpftap-{command}.1" if command else "bpftap.1")


def section(page, name):
    """The lines of a section."""
    return re.search(rf"^\.Sh {name}\n(.*?)(?=^\.Sh |\Z)", page.read_text(), re.S | re.M).group(1).splitlines()


def options_named(lines):
    """The options of lines of mdoc, each with the name of its value, or nothing: `-s` is `Fl s`, `--help` is `Fl -help`."""
    return {f"-{name}": value for line in lines for name, value in re.findall(r"\bFl (-?[\w-]+)(?: Ar ([\w-]+))?", line)}


def manual_options(command):
    """The options of a page's lists."""
    return options_named(line for line in page_of(command).read_text().splitlines() if line.startswith(".It Fl"))


def forms(command):
    """The forms of a page's synopsis: for each the lines after the name."""
    text = "\n".join(section(page_of(command), "SYNOPSIS"))
    return [form.splitlines()[1:] for form in re.split(r"^\.Nm", text, flags=re.M)[1:]]


def synopsis_options(command):
    """The options of a page's synopsis; for the program's page those of the forms without a command."""
    return options_named(line for form in forms(command) if not form[0].startswith(".Cm") for line in form)


def form_options(command):
    """The options that the program's page gives after a command in its synopsis."""
    return options_named(line for form in forms("") if form[0] == f".Cm {command}" for line in form)


def synopsis_arguments(command):
    """The words of a synopsis that are no options, in order."""
    lines = [line for line in section(page_of(command), "SYNOPSIS") if line.startswith(".Ar")]
    return [word for line in lines for word in line.split()[1:] if word != "..."]


def help_of(scene, command):
    """What `--help` prints, by its parts: the lines below `Options:`, `Arguments:` and `Commands:`."""
    text = scene.run([command, "--help"] if command else ["--help"]).out.decode()
    parts = re.findall(r"^(Options|Arguments|Commands):\n((?:[ ].*\n|\n(?= ))*)", text, re.M)
    return {name: lines.splitlines() for name, lines in parts}


def help_options(parts):
    """The options that `--help` lists, each with the name of its value, or nothing."""
    found = {}
    for line in parts["Options"]:
        match = re.match(r" +(-\w)?(?:, )?(--[\w-]+)?(?:[ =]<([\w-]+)>|\.\.\.)?(?:  |$)", line)
        if match and (match[1] or match[2]):
            found.update({name: match[3] or "" for name in (match[1], match[2]) if name})
    return found


def first_words(lines):
    """The first word of each line that begins an entry of a list, without its signs: for `  <IN>...  Captures` it is `IN`."""
    return [re.match(r" +[\[<]?([\w-]+)", line)[1] for line in lines if re.match(r" {2}\S", line)]


def commands(scene):
    """The commands of the program, `help` last among them."""
    return first_words(help_of(scene, "")["Commands"])


@case
def pages_and_help_name_the_same_options(scene):
    """The options, with their values, and the other words are the same in `--help`, in a page's list and in its synopsis."""
    for command in ["", *commands(scene)]:
        if command == "help":
            continue
        parts, listed = help_of(scene, command), manual_options(command)
        scene.check(f"options of the page of {command!r}", listed, help_options(parts))
        scene.check(f"options of the synopsis of {command!r}", synopsis_options(command), listed)
        if command:
            scene.check(f"words of the synopsis of {command}", synopsis_arguments(command), first_words(parts["Arguments"]))
            taken = {name: value for name, value in listed.items() if name not in HELP_ALONE}
            scene.check(f"options of {command} in the program's synopsis", form_options(command), taken)


@case
def pages_and_help_name_the_same_commands(scene):
    """The commands of `--help` are those of the program's page, each has a page of its own, and there is no other page."""
    names = commands(scene)
    listed = [line.split()[2] for line in page_of("").read_text().splitlines() if line.startswith(".It Cm")]
    scene.check("commands of the page", sorted(listed), sorted(names))
    wanted = sorted(page_of("" if command == "help" else command).name for command in names)
    scene.check("pages", [page.name for page in PAGES], wanted)


@case
def completions_offer_the_same(scene):
    """Each shell's completions have the options of `--help`; bash offers its commands and values too."""
    names = commands(scene)
    scene.check("commands", sorted(offered("")), sorted(names))
    for command in ["", *names]:
        if command == "help":
            continue
        parts, words = help_of(scene, command), [command] if command else []
        wanted = sorted(help_options(parts))
        for shell in ["bash", "fish", "zsh"]:
            scene.check(f"{shell}, options of {command!r}", sorted(options_offered(shell, command)), wanted)
        for name, values in re.findall(r"^ +(-\w) .*\[possible values: ([^]]+)\]", "\n".join(parts["Options"]), re.M):
            scene.check(f"values of {command} {name}", sorted(offered(*words, name, "")), sorted(values.split(", ")))


def options_offered(shell, command):
    """The options that a shell's completions offer for a command: bash is asked, the text of the others is read."""
    if shell == "bash":
        return offered(*([command] if command else []), "-")
    if shell == "fish":
        place = f"'__fish_seen_subcommand_from {command}; and not __fish_seen_subcommand_from help'" if command else "__fish_use_subcommand"
        lines = (ROOT / "completions" / "bpftap.fish").read_text().splitlines()
        of_place = "\n".join(line for line in lines if f"-n {place} " in line)
        return [f"-{name}" for name in re.findall(r" -s (\w)", of_place)] + [
            f"--{name}" for name in re.findall(r" -l ([\w-]+)", of_place)]
    name = f"_bpftap_{command}" if command else "_bpftap"
    body = re.search(rf"^{name}\(\) \{{\n(.*?)^\}}", (ROOT / "completions" / "_bpftap").read_text(), re.S | re.M)[1]
    single = re.findall(r"'(?:\([^)]*\))?(--?[A-Za-z][\w-]*)\+?\[", body)
    return single + [name for names in re.findall(r"\{([^}]+)\}'\[", body) for name in names.split(",")]


def session(lines):
    """A shell's session as a page shows it: its commands, each after a `$` and sometimes over several lines, and the rest."""
    script, printed, goes_on = "", "", False
    for line in lines:
        if goes_on or line.startswith("$ "):
            script += line if goes_on else line.removeprefix("$ ")
            goes_on = line.endswith(("\\\n", "|\n"))
        else:
            printed += line
    return script, printed


def examples(page):
    """The examples of a page, as the reader sees them."""
    for text in re.findall(r"^\.Bd -literal.*?\n(.*?)^\.Ed", page.read_text(), re.S | re.M):
        yield session(text.replace("\\-", "-").replace("\\&", "").replace("\\e", "\\").splitlines(keepends=True))


@case
def examples_print_what_they_say(scene):
    """Each example of each page is run in a folder that has `examples`, and prints the lines below it."""
    for page in PAGES:
        scene.start({})
        (scene.folder / "bin").mkdir()
        (scene.folder / "bin" / "bpftap").symlink_to(PROGRAM)
        (scene.folder / "examples").symlink_to(ROOT / "examples")
        for script, printed in examples(page):
            done = subprocess.run(
                ["bash", "-c", f'PATH="$PWD/bin:$PATH"\n{script}'], cwd=scene.folder, stdin=subprocess.DEVNULL,
                stdout=subprocess.PIPE, stderr=subprocess.STDOUT, timeout=LIMIT)
            scene.check(f"{page.name}: {script}", done.stdout.decode(), printed)


# What the pages say of rare calls: a page, a text on it, a call, and what that prints in its folder.
RARE = [
    ("info", "A capture that cannot be opened, or whose header is refused, has a line with only its path and the fault.",
     "info none.pcap text.pcap 2> faults.txt", "none.pcap Device\ntext.pcap ShortHeader\n"),
    ("info", "only its path and the fault. The next one is read all the same.", "info none.pcap in.pcap 2> faults.txt | wc -l", "2\n"),
    ("check", ".Ql return A returns what was calculated.", "check --dot -f held.asm | grep -c 'return A'", "1\n"),
    ("check", "Instructions that ask nothing, before a place that a jump leads to, are a box too: .Ql read and what, or .Ql calculate .",
     """check --dot -f held.asm | grep -o '"[a-z][a-zA-Z ]*"'""", '"read ethertype"\n"calculate"\n"return A"\n'),
    ("check", ".Xr bpftap 1 has 1 to 3.", "check --dot -p 1 ip torn.pcap 2>&1; echo $?", "bpftap: TornRecord 1\n2\n"),
    ("check", "If there is none, that is .Li NoPacket of .Xr bpftap-explain 1 .", "check --dot -p 1 ip in.pcap 2>&1; echo $?", "bpftap: NoPacket 1\n1\n"),
    ("run", "If IN cannot be opened, or its header is refused, an OUT that was there is all the same replaced by a header without packets.",
     "run listeners.txt none.pcap > lines.txt 2>&1; cmp out.pcap header.pcap && echo replaced", "replaced\n"),
    ("run", "or its header is refused, an OUT that was there is all the same replaced by a header", "run listeners.txt text.pcap > lines.txt 2>&1; cmp out.pcap header.pcap && echo replaced",
     "replaced\n"),
    ("cut", "If the only IN is missing, that is reported, whatever OUT is.", "cut -s 0 none.pcap none.pcap 2>&1; echo $?", "bpftap: Device none.pcap\n3\n"),
    ("", ".Cm explain , .Cm compare , .Cm info , .Cm split , .Cm steps and .Cm run end with the greatest.",
     "info torn.pcap none.pcap text.pcap > lines.txt 2>&1; echo $?", "3\n"),
]
RARE_FILES = {
    "in.pcap": WHOLE, "torn.pcap": WHOLE + bytes(7), "text.pcap": "text", "out.pcap": "kept", "header.pcap": HEADER,
    "held.asm": "ldh [12]\nja on\non: add #1\nja end\nend: ret a\n", "listeners.txt": "0 0 0 1048576 2 out.pcap\n",
}


@case
def rare_calls_do_what_the_pages_say(scene):
    """Each page has its text, and the call prints what that says."""
    for command, text, call, printed in RARE:
        scene.start(RARE_FILES)
        scene.check(f"on the page of {command!r}: {text}", text in " ".join(page_of(command).read_text().split()), True)
        words = ["bash", "-c", f'"$0" {call}', PROGRAM]
        done = subprocess.run(words, cwd=scene.folder, stdin=subprocess.DEVNULL, capture_output=True, text=True, timeout=LIMIT)
        scene.check(call, done.stdout, printed)


@case
def faults_of_expressions_are_those_of_the_language(scene):
    """The page of `check` has the faults of docs/FAULTS.md, `NoMemory`, and no others."""
    listed = [line.split()[2] for line in section(page_of("check"), "DIAGNOSTICS") if line.startswith(".It Li")]
    table = (ROOT / "docs" / "FAULTS.md").read_text().split("\n## Expressions\n")[1].split("\n## ")[0]
    scene.check("faults", sorted(listed), sorted(["NoMemory", *re.findall(r"^- `(\w+)[ `]", table, re.M)]))


@case
def pages_are_well_formed(scene):
    """Each page has its sections, in order, and `mandoc` or `man`, whichever is there, finds nothing wrong with it."""
    for page in PAGES:
        found = [name for name in re.findall(r"^\.Sh (.*)$", page.read_text(), re.M) if name in SECTIONS]
        scene.check(f"sections of {page.name}", found, SECTIONS)
        scene.check(f"complaints of {page.name}", complaints(scene, page), [])


# The page that explains the numbers of each enumeration of bpftap.h, but those of faults.
EXPLAINED = {"bpftap_verdict": "bpftap_why", "bpftap_sameness": "bpftap_compare", "bpftap_cause": "bpftap_compare",
             "bpftap_mode": "bpftap_listener_open", "bpftap_fed": "bpftap_listener_arrive"}


@case
def pages_of_the_library_name_each_number(scene):
    """bpftap(3) has the name of each number of bpftap.h, and the page of a call has those that it takes or returns."""
    scene.start({})
    overview = " ".join((MAN / "bpftap.3").read_text().split())
    found = re.findall(r"^enum (bpftap_\w+) \{(.*?)\};", (ROOT / "include" / "bpftap.h").read_text(), re.S | re.M)
    scene.check("enumerations", sorted(name for name, _ in found), sorted([*EXPLAINED, "bpftap_fault"]))
    for name, body in found:
        page = (MAN / f"{EXPLAINED.get(name, 'bpftap')}.3").read_text()
        for value, number in re.findall(r"(BPFTAP_\w+) = (\d+)", body):
            if name == "bpftap_fault":
                scene.check(value, f".It {number} .Dv {value} " in overview, True)
            else:
                scene.check(f"{value} in bpftap(3)", f".Dv {value} No ({number})" in overview, True)
                scene.check(f"{value} in {EXPLAINED[name]}(3)", f"\n.It Dv {value} No ({number})\n" in page, True)


def complaints(scene, page):
    """What is wrong with a page. It is no fault of a page that another one, which it names, is not installed here."""
    if shutil.which("mandoc"):
        words = ["mandoc", "-Tlint", str(page)]
    elif shutil.which("man"):
        words = ["man", "--warnings", "-l", "-Tutf8", "-Z", str(page)]
    else:
        scene.leave("there is neither mandoc nor man")
        return []
    done = subprocess.run(words, stdin=subprocess.DEVNULL, capture_output=True, text=True, timeout=LIMIT)
    lines = (done.stdout if words[0] == "mandoc" else done.stderr).splitlines()
    return [line for line in lines if "referenced manual not found" not in line]
