"""Sources: what no contract says of a crate's code, and what its text shows."""
import re

from .common import ROOT, case

# A comment, up to the end of its line.
COMMENT = re.compile(r"//.*")

# What a call that waits is made of: the handle `Wait`; and without it a loop, or an iterator that runs one; a lock or an atomic of the standard
# library, or what it has of threads, however it is imported; a load of `atomic_table` that needs no seat, and so is in no list of steps.
WAITS = re.compile(
    r"\bfor\b.*\bin\b|\b(?:while|loop|sync|thread|hint|Mutex|try_lock|peek|Wait)\b|\.(?:any|all|find|position|fold|for_each)\(")


def waiting_lines(text):
    """The lines of a source that have one of these."""
    return [line.strip() for line in text.splitlines() if WAITS.search(COMMENT.sub("", line))]


@case
def calls_of_handover_do_not_wait(scene):
    """No call of `handover` takes `Wait`, and no line could make one wait for the other end: its contracts bound only the steps that a call records."""
    sources = sorted(ROOT.glob("crates/handover/src/**/*.rt"))
    scene.check("there are sources", len(sources) > 3, True)
    for source in sources:
        scene.check(f"{source.name}: lines that could wait", waiting_lines(source.read_text()), [])
    # The search finds what it is for.
    for line in ["pub fn read<R: Wait>(&mut self, rt: &R, link: &Link) -> Read", "for _ in 0..u64::MAX {", "let x = loop {", "while full {", "use std::sync::Mutex;", "use std::{mem, sync::Mutex};",
                 "(0..u64::MAX).any(|_| is_free(&lock))", "table.peek(TURN)"]:
        scene.check(line, waiting_lines(line), [line])


# ---- Functions without a contract

# A function's head, up to its body, and the line that begins the impl block around it.
HEAD = re.compile(r"\s*(?:pub(?:\([a-z]+\))? )?(?:const )?fn (\w+)")
UNSTATED = ROOT / "tests" / "unstated.txt"


def without_contract(text):
    """The functions of a source that promise nothing. Those of a trait's impl promise what the trait does, and a closure what its caller asks."""
    names, of_trait, lines = [], False, iter(text.splitlines())
    for line in lines:
        if line.startswith(("impl", "}")):
            of_trait = line.startswith("impl") and " for " in line
        elif line.startswith("    for "):
            # The head of an impl goes on; or a loop does, whose function ends it.
            of_trait = True
        found = HEAD.match(line)
        if not found:
            continue
        head = [line]
        while not head[-1].rstrip().endswith(("{", "{}", ";")) or re.match(r"\s*(ensures|requires|ghost)\b", head[-1]):
            head.append(next(lines))
            # The last method of a trait may end with a clause.
            if head[-1] == "}":
                break
        if not of_trait and not any(re.match(r"\s*ensures\b", one) for one in head):
            names.append(found[1])
    return names


def stated_reasons():
    """What tests/unstated.txt lists: the names of each source, or `*` for a source or a crate whose functions are all without a contract."""
    rows = [line.split("|") for line in UNSTATED.read_text().splitlines() if line and line[0] != "#"]
    return {place.strip(): names.split() for place, _, names in rows}


@case
def each_function_has_a_contract_or_a_reason(scene):
    """A function outside tests promises something, or tests/unstated.txt says why it does not."""
    listed, met = stated_reasons(), set()
    for source in sorted(ROOT.glob("crates/*/src/**/*.rt")):
        crate, place = source.parts[len(ROOT.parts) + 1], "/".join(source.with_suffix("").parts[len(ROOT.parts) + 1:]).replace("/src/", "/")
        names = without_contract(source.read_text())
        if crate.startswith("test_") or not names:
            continue
        key = f"{crate}/*" if f"{crate}/*" in listed else place
        met.add(key)
        if listed.get(key) != ["*"]:
            scene.check(place, sorted(set(names)), sorted(listed.get(key, [])))
    scene.check("lines of no source", sorted(set(listed) - met), [])
    # The search finds what it is for.
    scene.check("a source", without_contract("impl A {\n    fn a(\n        x: u32,\n    ) -> u32 {\n    }\n\n    fn b()\n        ensures { x }\n    {\n    }\n}\nimpl T for A {\n    fn c() {\n    }\n}\nimpl T\n    for B {\n    fn d() {\n    }\n}\n"), ["a"])


# ---- Two lists of the language's words

# The words in quotes in a list of a source, up to the end of the list.
LISTED = re.compile(r"\bWORDS: \[.*?\] = \[(.*?)\n\];", re.DOTALL)
QUOTED = re.compile(r'"([a-z-]+)"')


def words_in(source):
    """The words of a source's list `WORDS`, sorted."""
    return sorted(QUOTED.findall(LISTED.search((ROOT / "crates" / source).read_text())[1]))


@case
def hints_know_the_words_of_the_language(scene):
    """The reader of expressions finds a word by its length, and hints suggest one by how likely it is: the words of both lists are the same."""
    words = words_in("filterlang/src/lexer/words.rt")
    scene.check("words", len(words), 38)
    scene.check("words of the hints", words_in("filter_spots/src/nearest.rt"), words)
