"""The completions: what bash offers at each place of a command line, and that the other shells can read theirs."""
import os
import pty
import select
import subprocess
import time

from .common import LIMIT, ROOT, case

FOLDER = ROOT / "completions"

# Asks the completions' function as bash does, for the words that are given, the last one unfinished. In place of the names of
# files, which bash itself finds, it prints `FILES`.
ASK = """
source "$0"
compopt() { [ "$*" = '-o default' ] && echo FILES; }
COMP_WORDS=(bpftap "$@") COMP_CWORD=$#
COMPREPLY=()
_bpftap bpftap "${@: -1}" "${COMP_WORDS[COMP_CWORD - 1]}"
[ ${#COMPREPLY[@]} -eq 0 ] || printf '%s\\n' "${COMPREPLY[@]}"
"""


def offered(*words):
    """What bash offers for the last of these words after the program's name."""
    done = subprocess.run(
        ["bash", "--norc", "-c", ASK, str(FOLDER / "bpftap.bash"), *words], stdin=subprocess.DEVNULL, capture_output=True,
        text=True, timeout=LIMIT)
    if done.stderr:
        raise AssertionError(f"completing {words}: {done.stderr}")
    return done.stdout.split("\n")[:-1]


# Words, the last one unfinished, and what is offered for it.
OFFERED = [
    ([""], ["check", "explain", "compare", "info", "cut", "split", "parts", "join", "steps", "run", "help"]),
    (["c"], ["check", "compare", "cut"]),
    (["steps"], ["steps"]),
    (["x"], []),
    (["--v"], ["--version"]),
    (["--hi"], ["--hints"]),
    (["--hints", "c"], ["check", "compare", "cut"]),
    (["help", ""], ["check", "explain", "compare", "info", "cut", "split", "parts", "join", "steps", "run", "expressions"]),
    (["--hints", "help", "e"], ["explain", "expressions"]),
    (["cut", "--"], ["--bytes", "--json", "--help"]),
    (["cut", "--bytes", ""], []),
    (["parts", "--"], ["--json", "--help"]),
    (["join", ""], ["FILES"]),
    (["cut", "-o", ""], ["little", "big"]),
    (["cut", "-s", "0", "-o", "b"], ["big"]),
    (["cut", "-u", "n"], ["nano"]),
    # A number and an expression are anything, a listing is a file.
    (["cut", "-s", ""], []),
    (["cut", "-s", "0", "-e", "r"], []),
    (["cut", "-f", ""], ["FILES"]),
    (["cut", "-w", ""], ["FILES"]),
    (["check", "-e", "r"], []),
    (["cut", "-s", "0", ""], ["FILES"]),
    (["cut", "-s", "0", "in.pcap", "o"], ["FILES"]),
    (["cut", "-s", "0", "--", "-"], ["FILES"]),
    (["split", "--"], ["--json", "--help"]),
    (["run", "--j"], ["--json"]),
    (["split", "-o", ""], ["little", "big"]),
    (["split", "-u", "m"], ["micro"]),
    (["split", ""], ["FILES"]),
    (["split", "lines.txt", "i"], ["FILES"]),
    (["explain", "-p", ""], []),
    (["explain", "--at-least", ""], []),
    (["explain", "--a"], ["--at-least", "--at-most"]),
    (["explain", "-f", ""], ["FILES"]),
    (["explain", "-e", "ip", ""], ["FILES"]),
    (["explain", "-e", "ip", "in.pcap", ""], ["FILES"]),
    (["compare", "-f", ""], ["FILES"]),
    (["compare", "-s", ""], []),
    (["compare", "arp", "ip", ""], ["FILES"]),
    (["steps", "-v", ""], ["FILES"]),
    # The name of a command is a file if a file is expected.
    (["steps", "run"], ["FILES"]),
    (["run", "listeners.txt", "in.pcap", "+", ""], ["FILES"]),
    (["check", ""], []),
    (["check", "--", "-"], []),
]


@case
def bash_offers_what_fits(scene):
    """Each place offers the commands, options, values or files that fit there, and nothing else."""
    for words, wanted in OFFERED:
        scene.check(f"offered for {words}", offered(*words), wanted)


def typed(keys, wanted, folder):
    """What a bash at a terminal shows when keys are typed, up to the wanted text, or until this many seconds have passed."""
    child, terminal = pty.fork()
    if child == 0:
        os.chdir(folder)
        os.environ.update({"TERM": "dumb", "PS1": "> ", "HISTFILE": "/dev/null"})
        os.environ.pop("INPUTRC", None)
        os.execvp("bash", ["bash", "--norc", "--noprofile", "-i"])
    shown, end = b"", time.monotonic() + 20
    try:
        os.write(terminal, keys)
        while wanted not in shown and time.monotonic() < end:
            if select.select([terminal], [], [], 0.2)[0]:
                shown += os.read(terminal, 4096)
    except OSError:
        pass
    os.close(terminal)
    os.waitpid(child, 0)
    return shown


@case
def a_terminal_completes(scene):
    """In a bash at a terminal a tab completes a command, a value, and a file's name with a blank."""
    (scene.folder / "a listing.bpf").touch()
    # echo shows what is completed: the word bpftap comes before only the words.
    source = f"source '{FOLDER / 'bpftap.bash'}'; bpftap() {{ printf 'got'; printf ' <%s>' \"$@\"; echo; }}\n".encode()
    for keys, wanted in [
        (b"bpftap che\t\n", b"got <check>\r\n"),
        (b"bpftap cut -o l\t\n", b"got <cut> <-o> <little>\r\n"),
        (b"bpftap cut -f a\t\n", b"got <cut> <-f> <a listing.bpf>\r\n"),
    ]:
        scene.check(f"{wanted} after {keys}", wanted in typed(source + keys, wanted, scene.folder), True)


@case
def their_shells_read_them(scene):
    """Each of bash, fish and zsh that is there finds no fault in its file."""
    for shell, name in [("bash", "bpftap.bash"), ("fish", "bpftap.fish"), ("zsh", "_bpftap")]:
        if scene.has(shell):
            done = subprocess.run([shell, "-n", str(FOLDER / name)], capture_output=True, timeout=LIMIT)
            scene.check(f"{shell} -n {name}", (done.stdout, done.stderr, done.returncode), (b"", b"", 0))
