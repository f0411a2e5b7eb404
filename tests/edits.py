#!/usr/bin/env python3
"""Tries wrong bodies in batches: the prover has to refuse each of them.

  tests/edits.py [NAME..]          the edits in the text crates/NAME/wrong-bodies, of these crates or of all
  tests/edits.py NAME/EDIT..       these edits, wherever they stand
  tests/edits.py --all [NAME..]    those in crates/NAME/must-fail/ too, which `rt ci` tries one by one
  tests/edits.py --list [NAME..]   prints the batches, and says which edits can't be applied; it tries nothing

An edit puts one wrong body into one function. Many edits, of functions that don't call one another, go into one copy of the
crate, which is checked once: each of these functions has to come back as not proved, with a goal of its own. An edit that does
not come back so is tried by itself, and so is one that changes more than one function. An edit that is still proved is a
failure: a contract says too little, or the edit changes no meaning. So is one that is refused only since a proof names what it
takes away: that says nothing about the contract.

Each lane has a copy of the crate in a temporary folder, with what `./build` and `./build --check NAME` kept of it and of its
libraries; what is not kept is proved first. Edit and build nothing while it runs. The last line is `N passed, M failed`.
"""
import argparse
import collections
import os
import pathlib
import re
import shutil
import subprocess
import sys
import tempfile
import threading
import time

ROOT = pathlib.Path(__file__).resolve().parent.parent
GATE, APART = "must-fail", "wrong-bodies"
PARTS = ("src", "specs", "proofs")

# The head of a function or of an impl, in rt fmt's layout: its block ends at the next `}` with the same indentation.
HEAD = re.compile(r'^( *)(?:pub(?:\([a-z]+\))? )?(?:const )?(?:unsafe )?(?:extern "C" )?fn (\w+)|^()((?:unsafe )?impl\b.*|(?:pub )?trait .*)\{$', re.M)
# What the check says of an item that is not proved, and of one that only calls such an item.
UNPROVED = re.compile(r"^(?:fn|struct|enum|impl|trait|const) (\S+): (not proved.*|no proof.*)$", re.M)
CALLS_UNPROVED = "no proof: it calls "
# An error says that a text can't be read if its place is in the code and it names no goal, or if it says one of these.
UNREAD = re.compile(r"is not in scope|has no field|is no name|operand is missing|expected the end|cannot continue")
# An error of a proof that names what an edit took away, or that cites such a proof: it says nothing about a goal.
NAMES_GONE = re.compile(r"has no field|is not in scope|has no `|was not admitted")


class Function:
    """A function of a crate: where it is, and how the check names it."""

    def __init__(self, crate, path, text, head, owner, pattern):
        self.name, self.owner, self.path, self.start = head[2], owner, path, head.start()
        line = text.index("\n", head.end())
        is_line = text[line - 1] == "}"
        self.end = line if is_line else re.compile(rf"^{head[1]}\{{?\}}$", re.M).search(text, line).end()
        self.text = text[self.start : self.end]
        self.lines = range(text.count("\n", 0, self.start) + 1, text.count("\n", 0, self.end) + 2)
        # A method is named by its type's file, any other function by its own, a closure by the function that it is in.
        modules = "" if path in ("src/lib.rt", "src/main.rt") else path[len("src/") : -len(".rt")].replace("/", "::") + "::"
        where = rf"(?:\w+::)*(?:fn::)?{pattern}::" if owner else rf"{modules}(?:fn::)?"
        self.pattern = re.compile(rf"{crate}::{where}{self.name}(?:::.*)?")

    def __str__(self):
        return f"{self.owner}::{self.name}" if self.owner else self.name


def owner_of(head):
    """The type of an impl, and a pattern of how the check names it: `Reader`, with a trait `FaultFromBroken`. The functions
    of a trait itself have no bodies."""
    if not re.match(r"(unsafe )?impl\b", head):
        return "", ""
    words = re.sub(r"^(unsafe )?impl\b\s*(<.*?>(?= \w| &))?", "", head).partition(" where ")[0]
    trait, _, of = words.rpartition(" for ")
    owner = re.search(r"\w+(?!\w*::)", of)[0]
    # Of `From<AllocFailed<T>>` it has `FromAllocFailed`.
    trait = re.sub(r"'\w+|(<[^<>]*)<.*", r"\1", trait)
    trait = "".join(re.findall(r"\w+(?!\w*::)", trait))
    return owner, ("Ref" if "&" in of else owner) + (trait and rf"\w*{trait}\w*")


def functions_of(crate):
    """The functions of a crate's code, file by file."""
    found = []
    for file in sorted((ROOT / "crates" / crate / "src").rglob("*.rt")):
        text, path, owner, end = file.read_text(), str(file.relative_to(ROOT / "crates" / crate)), ("", ""), 0
        for head in HEAD.finditer(text):
            if head[4]:
                owner, end = owner_of(head[4]), text.find("\n}", head.start())
            elif owner[0] or head.start() > end:
                found.append(Function(crate, path, text, head, *(owner if head.start() < end else ("", ""))))
    return found


class Edit:
    """An edit: its changed files, and the function that it changes, if it changes only one."""

    def __init__(self, crate, name, said, functions):
        self.crate, self.name = crate, name
        self.why = ""
        try:
            self.texts = self.apply(said)
        except (OSError, ValueError) as error:
            self.texts, self.why = {}, f"it can't be applied: {error}"
        self.function = self.changed(functions)

    def apply(self, said):
        """The texts of the files that it changes, by their paths in the crate."""
        texts, path, old = {}, "", ""
        for line in said.split("\n"):
            word, _, rest = line.partition(":")
            rest = rest.removeprefix(" ")
            if word == "file":
                path = rest.strip()
                if not path.startswith(tuple(f"{it}/" for it in PARTS)):
                    raise ValueError(f"{path} is no file below src, specs or proofs")
                texts.setdefault(path, (ROOT / "crates" / self.crate / path).read_text())
            elif word == "old":
                old = rest
            elif word == "new":
                if not old or texts[path].count(old) != 1:
                    raise ValueError(f"`{old}` is not exactly once in {path}")
                texts[path], old = texts[path].replace(old, rest), ""
        if not texts:
            raise ValueError("it has no line `file:`")
        return texts

    def changed(self, functions):
        """The one function that has all of the changes. What the edit puts there is kept with its place."""
        if len(self.texts) != 1:
            return None
        [(path, new)] = self.texts.items()
        old = (ROOT / "crates" / self.crate / path).read_text()
        start = len(os.path.commonprefix([old, new]))
        rest = len(os.path.commonprefix([old[start:][::-1], new[start:][::-1]]))
        self.place = path, start, len(old) - rest, new[start : len(new) - rest]
        own = [it for it in functions if it.path == path and it.start <= start and len(old) - rest <= it.end]
        # A function within a function is the inner one's text, and the outer one's.
        return max(own, key=lambda it: it.start, default=None)

    def __str__(self):
        return f"{self.crate}/{self.name}"


def said_of(crate):
    """What the edits of a crate say, by their names: those of the text, and those of the gate's folder."""
    folder = ROOT / "crates" / crate
    text = (folder / APART).read_text() if (folder / APART).is_file() else ""
    parts = [it.partition("\n") for it in f"\n{text}".split("\nwrong: ")[1:]]
    apart = {name: said for name, _, said in parts}
    if len(apart) < len(parts):
        sys.exit(f"two edits in crates/{crate}/{APART} have one name")
    return apart, {it.stem: it.read_text() for it in sorted((folder / GATE).glob("*.edit"))}


def edits_of(crate):
    """The edits of a crate that the gate doesn't try, those that it tries, and the functions."""
    functions = functions_of(crate)
    return *([Edit(crate, name, said, functions) for name, said in part.items()] for part in said_of(crate)), functions


def called(function, functions):
    """What a function may call: by `.name(` each method of that name, by `Type::name` that type's, by `name` the others. A
    name after a trait or a type parameter, as in `Sink::write`, may be that of any method."""
    text = re.sub(r"//.*|^ *(?:requires|ensures|ghost)\b.*", "", function.text.partition(function.name)[2], flags=re.M)
    owners = {it.owner for it in functions}
    of_types = re.findall(r"\b([A-Z]\w*)(?:::<[^()]*?>)?::([a-z]\w*)", re.sub(r"\bSelf\b", function.owner, text))
    methods = set(re.findall(r"\.\s*(\w+)(?:::<[^()]*>)?\(", text)) | {name for of, name in of_types if of not in owners}
    others = set(re.findall(r"(?<![\w.])(?:[a-z]\w*::)*([a-z]\w*)", text))
    is_called = lambda it: it.name in methods or (it.owner, it.name) in of_types if it.owner else it.name in others
    return {it for it in functions if is_called(it)}


def reached(functions):
    """For each function those that it calls, directly or through others."""
    calls = {it: called(it, functions) for it in functions}
    for it in functions:
        todo = [*calls[it]]
        while todo:
            new = calls[todo.pop()] - calls[it]
            calls[it] = calls[it] | new
            todo += new
    return calls


def batches_of(edits, functions):
    """Puts the edits into batches of functions that don't call one another; an edit of more than one body has its own batch."""
    calls = reached(functions)
    single, shared = [[it] for it in edits if not it.function], []
    belong = lambda one, other: one is other or one in calls[other] or other in calls[one]
    for edit in (it for it in edits if it.function):
        for batch in shared:
            if not any(belong(edit.function, it.function) for it in batch):
                batch.append(edit)
                break
        else:
            shared.append([edit])
    return shared + single


def texts_of(batch):
    """The changed files of a batch."""
    if len(batch) == 1:
        return batch[0].texts
    texts = {}
    for path, start, end, new in sorted((it.place for it in batch), reverse=True):
        text = texts.get(path) or (ROOT / "crates" / batch[0].crate / path).read_text()
        texts[path] = text[:start] + new + text[end:]
    return texts


def listed():
    """The lines of crates.txt by the crate's name, and the libraries of each crate."""
    lines, below = {}, {}
    for line in (ROOT / "crates.txt").read_text().splitlines():
        head, is_line, words = line.partition("#")[0].partition(":")
        if is_line:
            name = head.split()[0]
            lines[name], below[name] = line, words.split()
    return lines, below


def work_of(crate):
    """What `./build --check` kept of a crate."""
    return ROOT / "out" / "build" / f"{crate}.work"


class Copy:
    """A copy of a crate and of the libraries that it uses, with what `./build` kept of them."""

    def __init__(self, crate, room):
        lines, below = listed()
        self.crate, self.room, own = crate, room, [crate]
        for it in own:
            own += [low for low in below[it] if low in lines and low not in own]
        (room / "crates.txt").write_text("".join(f"{lines[it]}\n" for it in lines if it in own))
        (room / "out" / "build").mkdir(parents=True)
        shutil.copy(ROOT / "build", room)
        for it in own:
            for part in PARTS:
                if (ROOT / "crates" / it / part).is_dir():
                    shutil.copytree(ROOT / "crates" / it / part, room / "crates" / it / part)
            kept = ROOT / "out" / "build" / it
            if it == crate and work_of(it).is_dir():
                shutil.copytree(work_of(it), room / "out" / "build" / f"{it}.work")
            elif kept.with_suffix(".key").is_file():
                shutil.copy(kept.with_suffix(".key"), room / "out" / "build")
                (room / "out" / "build" / f"{it}.rlib").symlink_to(kept.with_suffix(".rlib"))

    def check(self, texts):
        """What the check says with these texts in place of the crate's own."""
        folder = self.room / "crates" / self.crate
        were = {path: (folder / path).read_text() for path in texts}
        for path, text in texts.items():
            (folder / path).write_text(text)
        try:
            words = [self.room / "build", "--check", self.crate]
            how = {"stdin": subprocess.DEVNULL, "stdout": subprocess.PIPE, "stderr": subprocess.STDOUT, "errors": "replace"}
            # A line that goes on is indented further.
            return re.sub(r"\n  (?=\S)", " ", subprocess.run(words, cwd=folder, **how).stdout)
        finally:
            for path, text in were.items():
                (folder / path).write_text(text)


def is_unread(log, texts):
    """Whether the prover can't read a text, or there was no proof at all."""
    for at in re.finditer(r"^(?:\./)?(\S+?):\d+:\d+: error: (?:(`[^`]*`): )?(.*)", log, re.M):
        is_own = at[1] in texts or at[1].startswith(("src/", "specs/"))
        if is_own and (not at[2] or UNREAD.search(re.sub(r"`[^`]*`", "", at[3]))):
            return True
    return not re.search(r"^logic=(not-)?proved\b", log, re.M)


def own_goals(log, name, why, others):
    """The goals of an item that are not proved; `others` in its module are not proved either."""
    front, _, own = name.rpartition("::")
    answers = re.search(r"expected answers in \S*/\+(\w+)/", why)
    asked = re.findall(r"`([^`]*)`", why.partition("did not prove")[2].partition("; it calls")[0])
    at = re.escape("/".join(front.split("::")[1:]))
    wrong = re.findall(rf"^\./proofs/{at}/(?:\+(\w+)|{re.escape(own)})/\S+ error: `([^`]*)`: (.*)", log, re.M)
    goals = [(answers and answers[1], goal) for goal in asked]
    goals += [(group, goal) for group, goal, said in wrong if not NAMES_GONE.search(said)]
    # Functions that call themselves or one another have one folder of proofs, as `+value`. If it has several, each of them
    # comes back as not proved, and a goal begins with the name of its own.
    of_others = tuple(f"{it}-" for it in others)
    is_own = lambda group, goal: goal.startswith(f"{own}-") or group == own and not goal.startswith(of_others)
    return list(dict.fromkeys(goal for group, goal in goals if not group or is_own(group, goal)))


def refusals(log):
    """The items that are refused for goals of their own, each with these goals."""
    unproved, found = dict(UNPROVED.findall(log)), {}
    for name, why in unproved.items():
        front = name.rpartition("::")[0]
        others = [it.rpartition("::")[2] for it in unproved if it.rpartition("::")[0] == front and it != name]
        goals = own_goals(log, name, why, others)
        if goals and not why.startswith(CALLS_UNPROVED):
            found[name] = goals
    return found


def text_of(log, function, goals):
    """The goals that are not proved: those of clauses, which have `returns` in their names; else what one asks, in words."""
    clauses = [it for it in goals if re.search(r"(^|-)returns(-|$)", it)]
    if clauses:
        return f"ensures ({', '.join(clauses)})"
    for line, said, goal in re.findall(r"^note: src/\S+?:(\d+):\d+: (.*?) \(`([^`]*)`\)", log, re.M):
        if function and int(line) in function.lines and goal in goals:
            return f"{said} ({', '.join(goals)})"
    return f"({', '.join(goals)})"


class Trial:
    """All that is to be tried, and what came of it."""

    def __init__(self, waiting, room, logs):
        self.waiting, self.room, self.logs = waiting, room, logs
        self.count = sum(len(batch) for batches in waiting.values() for batch in batches)
        self.at, self.passed, self.failed = collections.Counter(), 0, []
        self.lock, self.start, self.is_stopped = threading.Lock(), time.monotonic(), False

    def next_batch(self, mine):
        """The next batch: of this lane's crate if it has any left, else of the crate with the fewest lanes."""
        with self.lock:
            left = [it for it in self.waiting if self.waiting[it]]
            if not left or self.is_stopped:
                return None
            crate = mine if mine in left else min(left, key=lambda it: (self.at[it], -len(self.waiting[it])))
            self.at[crate] += 1
            return self.waiting[crate].pop(0)

    def end(self, edit, well, said):
        with self.lock:
            if self.is_stopped:
                return
            self.passed += well
            self.failed += [str(edit)] * (not well)
            share = f"{self.passed + len(self.failed)}/{self.count}"
            print(f"{share:>8}  {'refused' if well else 'FAILED'}  {edit}: {said}", flush=True)

    def say(self, text):
        with self.lock:
            print(f"{(time.monotonic() - self.start) / 60:5.1f} min  {text}", flush=True)

    def lane(self):
        """Tries one batch after the other, each crate in a copy of this lane's own."""
        copy, batch = None, self.next_batch("")
        while batch:
            crate = batch[0].crate
            with tempfile.TemporaryDirectory(dir=self.room, ignore_cleanup_errors=True) as room:
                if not work_of(crate).is_dir():
                    self.say(f"{crate}: nothing is kept of it in out/build, so it is proved from nothing first")
                copy = Copy(crate, pathlib.Path(room))
                is_proved = re.search(r"^logic=proved\b", copy.check({}), re.M)
                while batch and batch[0].crate == crate:
                    if is_proved:
                        self.try_batch(copy, batch)
                    else:
                        [self.end(it, False, f"{crate} itself is not proved") for it in batch]
                    batch = self.next_batch(crate)

    def try_batch(self, copy, batch):
        if len(batch) == 1:
            return self.try_single(copy, batch[0])
        self.say(f"{copy.crate}: {len(batch)} edits in one check, {len(self.waiting[copy.crate])} checks after it")
        texts = texts_of(batch)
        log = self.check(copy, texts, "+".join(it.name for it in batch))
        found = {} if is_unread(log, texts) else refusals(log)
        for edit in batch:
            goals = [goal for name in found if edit.function.pattern.fullmatch(name) for goal in found[name]]
            if goals:
                self.end(edit, True, f"{edit.function} {text_of(log, edit.function, goals)}")
            else:
                self.try_single(copy, edit)

    def try_single(self, copy, edit):
        if self.is_stopped:
            return
        if edit.why:
            return self.end(edit, False, edit.why)
        self.say(f"{copy.crate}: only {edit.name}")
        log = self.check(copy, edit.texts, edit.name)
        found = refusals(log)
        if is_unread(log, edit.texts):
            said = re.search(r"^.*\berror\b.*$", log, re.M)
            self.end(edit, False, f"the prover can't read it: {said[0] if said else log[-300:]}")
        elif re.search(r"^logic=proved\b", log, re.M):
            self.end(edit, False, "it is still PROVED")
        elif not found and any(NAMES_GONE.search(it) for it in re.findall(r"^\./proofs/.* error: .*", log, re.M)):
            self.end(edit, False, "only since a proof names what it takes away, which says nothing of the contract")
        elif not found:
            self.end(edit, False, "no function is named as not proved with a goal of its own")
        else:
            own = [name for name in found if edit.function and edit.function.pattern.fullmatch(name)]
            name = (own or list(found))[0]
            self.end(edit, True, f"{edit.function if own else name} {text_of(log, edit.function, found[name])}")

    def check(self, copy, texts, name):
        log = copy.check(texts)
        if self.logs:
            self.logs.mkdir(parents=True, exist_ok=True)
            (self.logs / f"{copy.crate}-{name[:180]}.log").write_text(log)
        return log


def parsed():
    parser = argparse.ArgumentParser(description=__doc__, formatter_class=argparse.RawDescriptionHelpFormatter)
    parser.add_argument("names", nargs="*", metavar="NAME", help="a crate, or one edit of it as NAME/EDIT")
    parser.add_argument("--all", action="store_true", help=f"the edits in {GATE}/ too")
    parser.add_argument("--list", action="store_true", help="print the batches, and try nothing")
    parser.add_argument("--jobs", type=int, default=1, metavar="N", help="run N checks at once (1; each takes up to 4 GB)")
    parser.add_argument("--logs", type=pathlib.Path, metavar="FOLDER", help="keep what the check says of each batch there")
    return parser.parse_args()


def chosen(given):
    """The batches of each crate that is named, or of all."""
    crates = list(dict.fromkeys(it.partition("/")[0] for it in given.names)) or list(listed()[0])
    waiting, left = {}, {it for it in given.names if "/" in it}
    for crate in crates:
        if crate not in listed()[0]:
            sys.exit(f"crates.txt lists no crate {crate}")
        apart, gate, functions = edits_of(crate)
        whole = [*apart, *(gate if given.all else [])] if crate in given.names or not given.names else []
        edits = whole + [it for it in [*apart, *gate] if it not in whole and str(it) in left]
        left -= {str(it) for it in edits}
        waiting[crate] = batches_of(edits, functions)
    if left:
        sys.exit(f"there is no edit {', '.join(sorted(left))}")
    return waiting


def build_below(waiting):
    """Proves the libraries of these crates that are not proved yet, once for all lanes."""
    lines, below = listed()
    names = sorted({it for crate in waiting for it in below[crate] if it in lines})
    if names and subprocess.run([ROOT / "build", *names]).returncode:
        sys.exit("a library of these crates is not proved")


def show(waiting):
    """Prints the batches, and which edits can't be applied."""
    batches = [it for found in waiting.values() for it in found]
    for batch in batches:
        print(f"{batch[0].crate}: {', '.join(f'{it.name} ({it.function})' if it.function else it.name for it in batch)}")
    failed = [it for batch in batches for it in batch if it.why]
    for edit in failed:
        print(f"{edit}: {edit.why}")
    return 1 if failed else 0


def main():
    given = parsed()
    waiting = chosen(given)
    if given.list:
        return show(waiting)
    build_below(waiting)
    with tempfile.TemporaryDirectory(prefix="edits-", ignore_cleanup_errors=True) as room:
        trial = Trial(waiting, room, given.logs)
        lanes = [threading.Thread(target=trial.lane) for _ in range(max(1, given.jobs))]
        [it.start() for it in lanes]
        while any(it.is_alive() for it in lanes):
            try:
                time.sleep(0.2)
            except KeyboardInterrupt:
                # The checks that run are interrupted too: what they say is no answer.
                trial.is_stopped = True
    if trial.failed:
        print(f"FAILED: {' '.join(trial.failed)}")
    # An edit that was left untried did not pass.
    failed = trial.count - trial.passed
    print(f"{trial.passed} passed, {failed} failed")
    return 1 if failed else 0


if __name__ == "__main__":
    sys.exit(main())
