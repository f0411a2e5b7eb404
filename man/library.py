#!/usr/bin/env python3
"""Makes the pages of the library's calls, bpftap_*.3, from include/bpftap.h, so that signatures and what a call does are written once.

  man/library.py           writes them: one for each comment with the calls below it, and for each further call a page that names it
  man/library.py --check   prints those that are not what the header says, and ends with 1 if there are any
"""
import pathlib
import re
import sys
import textwrap

MAN = pathlib.Path(__file__).resolve().parent
HEADER = MAN.parent / "include" / "bpftap.h"
WIDTH = 100

FUNCTION = re.compile(r"^([a-z][\w ]*[ *])(bpftap_\w+)\(([^;]*)\);", re.M)


def words(text):
    """A text of a comment in roff: names and what stands in backticks by their fonts."""
    text = text.replace("\\", "\\e")
    text = re.sub(r"`([^`]*)`", lambda found: rf"\fI{found[1]}\fP", text)
    text = re.sub(r"(?<![\w\\])(bpftap_[a-z_]+)\b(?!\\fP)", r"\\fB\1\\fP", text)
    return re.sub(r"\b(BPFTAP_[A-Z_]+)\b", r"\\fB\1\\fP", text)


def filled(text):
    """Lines of text, each sentence from its own line on, that begin with no sign of roff."""
    sentences = re.split(r"(?<=\.) (?=[A-Z0-9\\])", text)
    lines = [line for sentence in sentences for line in textwrap.wrap(sentence, WIDTH, break_long_words=False, break_on_hyphens=False)]
    return [re.sub(r"^([.'])", r"\\&\1", line) for line in lines]


def paragraphs(comment):
    """The paragraphs of a comment: texts, and lists of lines of code."""
    lines = [re.sub(r"^ \* ?", "", line) for line in comment.rstrip().splitlines()]
    for part in re.split(r"\n\s*\n", "\n".join(lines)):
        if all(line.startswith("    ") for line in part.splitlines()):
            yield [line[4:] for line in part.splitlines()]
        else:
            yield " ".join(part.split())


def blocks(header):
    """Each comment with what is declared below it, up to an empty line, and the heading that it stands under."""
    heading = ""
    for found in re.finditer(r"/\* ---- (.*?) ---- \*/|^/\*((?:(?!\*/).)*)\*/\n((?:[^\n]+\n)+)", header, re.S | re.M):
        if found[1]:
            heading = found[1]
        elif heading:
            yield heading, found[2], found[3]


def structures(header):
    """The comment above each struct, and its members: a type, a name and what it is."""
    found = {}
    for comment, name, body in re.findall(r"(?:^/\*((?:(?!\*/).)*)\*/\n(?:#[^\n]*\n)*)?^struct (bpftap_\w+) \{\n(.*?)^\};", header, re.S | re.M):
        found[name] = comment, [(" ".join(kind.split()), what, " ".join(said.split()))
                                for kind, what, said in re.findall(r"^ +([\w ]+[ *])([\w, ]+);(?:\s*/\* ((?:(?!\*/).)*) \*/)?", body, re.S | re.M)]
    return found


def enumerations(header):
    """The comment above each enum but that of faults, and its enumerators: a name, a number and what it means."""
    found = {}
    for comment, name, body in re.findall(r"^/\*((?:(?!\*/).)*)\*/\n^enum (bpftap_\w+) \{\n(.*?)^\};", header, re.S | re.M):
        if name != "bpftap_fault":
            rows = re.findall(r"^ +(BPFTAP_\w+) = (\d+),?\s*/\* ((?:(?!\*/).)*) \*/", body, re.S | re.M)
            found[name] = comment, [(value, number, " ".join(said.split())) for value, number, said in rows]
    return found


def synopsis(functions):
    yield ".In bpftap.h"
    for kind, name, arguments in functions:
        yield f".Ft {kind.strip()}"
        yield f".Fo {name}"
        for argument in " ".join(arguments.split()).split(", "):
            yield f'.Fa "{argument}"'
        yield ".Fc"


def written(parts):
    """Paragraphs, of texts and of lines of code."""
    for number, part in enumerate(parts):
        yield from [".Pp"] if number and isinstance(part, str) else []
        yield from filled(words(part)) if isinstance(part, str) else [".Bd -literal", *(line.replace("\\", "\\e") for line in part), ".Ed"]


def structure(name, comment, members):
    yield f".Vt struct {name} :"
    yield from written(paragraphs(comment)) if comment else []
    yield '.Bl -tag -width "captured" -compact'
    for kind, what, said in members:
        yield f".It Vt {kind} Va {what}"
        yield from filled(words(said)) if said else []
    yield ".El"


def enumeration(name, comment, rows):
    yield f".Vt enum {name} :"
    yield from written(paragraphs(comment))
    yield '.Bl -tag -width "captured" -compact'
    for value, number, said in rows:
        yield from [f".It Dv {value} No ({number})", *filled(words(said))]
    yield ".El"


def separated(parts):
    """Lines of several parts, with space between them."""
    for number, part in enumerate(parts):
        yield from [".Pp"] if number else []
        yield from part


def page(date, functions, comment, used, numbers, others):
    """The lines of a page. What follows `Faults:` in the comment is its section of errors."""
    names = [name for _, name, _ in functions]
    parts, faults = [], None
    for part in paragraphs(comment):
        if isinstance(part, str):
            part, _, rest = part.partition("Faults: ")
            faults = rest[:1].upper() + rest[1:] or faults
        parts += [part] if part else []
    first = re.split(r"[.:](?: |$)", re.sub(r" \([^)]*\)|`", "", parts[0]))[0]
    yield from [r'.\" Made by man/library.py from include/bpftap.h.', f".Dd {date}", f".Dt {names[0].upper()} 3", ".Os", ".Sh NAME"]
    yield from [f".Nm {name} ," for name in names[:-1]] + [f".Nm {names[-1]}", f".Nd {first[0].lower()}{first[1:]}", ".Sh LIBRARY", r"libbpftap (\-lbpftap)"]
    yield from [".Sh SYNOPSIS", *synopsis(functions), ".Sh DESCRIPTION"]
    yield from written(parts)
    if used:
        yield from [".Sh STRUCTURES", *separated(structure(name, *about) for name, about in used)]
    if numbers:
        yield from [".Sh ENUMERATIONS", *separated(enumeration(name, *about) for name, about in numbers)]
    if faults:
        yield from [".Sh ERRORS", *filled(words(faults)), "They are the numbers of", ".Vt enum bpftap_fault ,", "here without", ".Li BPFTAP_ ."]
    also = ["bpftap", *sorted(others)]
    yield from [".Sh SEE ALSO", *(f".Xr {name} 3 ," for name in also[:-1]), f".Xr {also[-1]} 3"]


def pages():
    """The text of each page, by its name."""
    header = HEADER.read_text().replace("BPFTAP_INSN *", "struct bpftap_insn *")
    date = re.search(r"^\.Dd (.+)$", (MAN / "bpftap.3").read_text(), re.M)[1]
    known, enums, made = structures(header), enumerations(header), {}
    found = [(heading, comment, FUNCTION.findall(code)) for heading, comment, code in blocks(header)]
    for heading, comment, functions in found:
        if not functions:
            continue
        names = [name for _, name, _ in functions]
        others = [name for under, _, calls in found if under == heading for _, name, _ in calls if name not in names]
        text = " ".join(kind + arguments for kind, _, arguments in functions)
        used = [(name, members) for name, members in known.items() if re.search(rf"\b{name}\b", text)]
        said = " ".join([comment, *(member[2] for _, (_, members) in used for member in members)])
        numbers = [(name, about) for name, about in enums.items() if re.search(rf"\benum {name}\b", said)]
        made[f"{names[0]}.3"] = "".join(f"{line}\n" for line in page(date, functions, comment, used, numbers, others))
        made.update({f"{name}.3": f".so man3/{names[0]}.3\n" for name in names[1:]})
    return made


def main(arguments):
    made = pages()
    there = {path.name: path.read_text() for path in MAN.glob("bpftap_*.3")}
    if arguments == ["--check"]:
        wrong = sorted(name for name in {*made, *there} if made.get(name) != there.get(name))
        print("".join(f"{name} is not what the header says: man/library.py makes it\n" for name in wrong), end="")
        return 1 if wrong else 0
    for name in there.keys() - made.keys():
        (MAN / name).unlink()
    for name, text in made.items():
        (MAN / name).write_text(text)
    return 0


if __name__ == "__main__":
    sys.exit(main(sys.argv[1:]))
