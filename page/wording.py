"""The program's own texts that the page shows, taken out of the sources of the program, so that none is written twice: what files of other formats
begin with, forms of lines, names of fields and of their numbers, and why two filters are not decided."""
import pathlib
import re

CRATES = pathlib.Path(__file__).resolve().parent.parent / "crates"
# Where the program has its hints on captures and on lines of files.
CAPTURE_HINTS, LINE_HINTS = (CRATES / "cli_report" / "src" / name for name in ("captures.rt", "files.rt"))


class Unknown(Exception):
    """The texts have another form, which this does not know."""


def bytes_of(literal):
    """The bytes of a literal of Rust: `&[0x1f, b'7']` or `b"text"`."""
    if text := re.fullmatch(r'b"(.*)"', literal):
        return [*text[1].encode().decode("unicode_escape").encode("latin-1")]
    return [int(number, 0) if number else ord(character) for number, character in re.findall(r"(0x\w+)|b'(.)'", literal)]


def numbers(words):
    return [int(number, 0) for number in re.findall(r"0x[0-9a-f]+|\d+", words)]


def found(form, text, what, flags=re.M | re.S):
    """What a pattern finds, which has to be there."""
    if rows := re.findall(form, text, flags):
        return rows
    raise Unknown(f"{what} have another form, which this does not know")


# The texts on captures, and the link types that cooked.py takes, by the names that the page has for them.
CAPTURE_TEXTS = {
    "other": r'"(not a classic .*?)\{\}"', "link": r'"link type \{number\}\{\}(; .*?)"', "checked": r'"(link type 1 .*?)"',
    "capture": r'"(capture on an Ethernet .*?)"', "convert": r'"(one that you have: .*?)"', "cooked": r"fn is_cooked\(number: u32\) -> bool \{\s+(.*)",
    "short": r'"(it has \{\} bytes; .*?)"', "version": r'"(version \{major\}.*?)"', "torn": r'TornRecord\(_\), _\) => give_hint\(\s+"(.*?)"',
    "fraction": r'"(its fraction [^"]*: the file is damaged)"\s', "smallFraction": r'"(its fraction .* microseconds)"',
    "long": r'TooLong\(_\), _\) => give_hint\(\s+"(.*?)"',
}
# The texts on lines.
LINE_TEXTS = {"form": r'"(its form is: )\{form\}"', "noListener": r'"(LISTENERS has .*?)"', "capacity": r'"(with SNAP \{snap\}.*?)"'}


def hints():
    """What the program prints below faults that the library has no hints on: what files of other formats begin with, and what to do with them; the
    forms of lines. A page has no standard input."""
    captures, lines = CAPTURE_HINTS.read_text(), LINE_HINTS.read_text()
    named = dict(re.findall(r'const (\w+): &str =\s+"((?:[^"\\]|\\.)*)";', captures + lines))
    table = found(r"static OTHER_FORMATS: .*?= \[(.*?)\n\];", captures, "other formats")[0]
    rows = re.findall(r'\(\s*(&\[.*?\]|b".*?"),\s*(?:"(.*?)"|(\w+)),?\s*\)', table, re.S)
    texts = {name: found(form, captures, f"texts of {CAPTURE_HINTS}", 0)[0] for name, form in CAPTURE_TEXTS.items()}
    texts.update({name: found(form, lines, f"texts of {LINE_HINTS}", 0)[0] for name, form in LINE_TEXTS.items()})
    names = found(r'^ +(\d[\d |]*) => "(.*?)",', captures, "names of link types")
    if len(rows) != table.count("(") or not {"LISTENERS_OF_STEPS", "SCRIPT"} <= set(named):
        raise Unknown(f"the hints of {CAPTURE_HINTS.parent} have another form, which this does not know")
    formats = [[bytes_of(begins), (text or named[name]).removesuffix(", into a file or to /dev/stdin")] for begins, text, name in rows]
    links = {"linkNames": [[numbers(words), text] for words, text in names], "cooked": numbers(texts["cooked"])}
    return {**texts, **links, "formats": formats, "listeners": named["LISTENERS_OF_STEPS"], "script": named["SCRIPT"]}


def fields():
    """The fields of each header, where they begin, their bytes, names and notations; and the names of types and of protocols."""
    source, names = (CRATES / "frame_fields" / "src" / name for name in ("tables.rt", "field.rt"))
    headers = {}
    for name, count, rows in found(r"static (\w+): \[Row; (\d+)\] = \[(.*?)\];", source.read_text(), "tables of fields"):
        row = r'\((\d+), (\d+), "([^"]*)", Notation::(\w+)\)'
        headers[name] = [[int(at), int(size), text, notation] for at, size, text, notation in found(row, rows, "fields")]
        if len(headers[name]) != int(count):
            raise Unknown(f"the table {name} has another form, which this does not know")
    tables = {}
    for name in ("type", "protocol"):
        table = found(rf"fn {name}_name\(.*?match number \{{(.*?)\}}", names.read_text(), f"names of {name}s")[0]
        tables[name + "Names"] = {number: text for words, text in found(r'([\w |]+) => Some\("(.*?)"\)', table, "names") for number in numbers(words)}
    return {"headers": headers, **tables}


def unseen():
    """The types of frames that no filter looks into, and the sentence on them, without the part on another program."""
    kinds = found(r"^ +([0-9a-fx |]+) => FrameKind::(?:Ipv6|Vlan),", (CRATES / "pcap_info" / "src" / "contents.rt").read_text(), "kinds of frames")
    sentence = found(r'"(\{unseen\} of \{frames\} frames \{are\}[^";]*);', (CRATES / "cli_watch" / "src" / "hints.rt").read_text(), "unseen frames")[0]
    return {"unseenTypes": [number for words in kinds for number in numbers(words)], "unseen": sentence}


def causes():
    """Why two expressions are not decided, by the library's numbers. A number may be that of several causes; that of programs is of no page."""
    source = (CRATES / "cli_compare" / "src" / "sameness.rt").read_text()
    budget = found(r"const BUDGET: usize = ([\d_]+);", source, "budgets")[0].replace("_", "")
    form = r'Cause::(\w+) => (?:text\.push_str\(|write!\(text, )"(.*?)"\)'
    texts = {name: text.replace("{budget}", budget) for name, text in found(form, source, "causes")}
    codes = found(r"Cause::(\w+)\) => (\d+),", (CRATES / "bpftap_c" / "src" / "comparisons.rt").read_text(), "numbers of causes")
    by_number = {}
    for name, number in codes:
        if name not in texts:
            raise Unknown(f"the cause {name} has no text")
        if name != "Places":
            by_number.setdefault(int(number), []).append(texts[name])
    return {"budget": int(budget), "causes": {number: ", or ".join(sentences) for number, sentences in by_number.items()}}


def all_texts():
    return {**hints(), **fields(), **unseen(), **causes()}
