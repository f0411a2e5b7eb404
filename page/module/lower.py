"""Lowers a WebAssembly module with 64-bit memory to one with 32-bit memory that does the same, as no browser but the newest runs the first.

Addresses stay 64-bit numbers everywhere, at the border too. Where memory is accessed, the address is narrowed, and one of 2^32 or more becomes
2^32 - 1, which is past the end of any memory that the module can have: it traps, as it did. Only what clang writes for `lime1` is known;
anything else is refused. No proof covers this file.
"""

# The most pages of 64 KiB that a memory has: one fewer than 4 GiB, so that no byte has the address 2^32 - 1.
MOST_PAGES = 65535

I32, I64, F32, F64 = 0x7F, 0x7E, 0x7D, 0x7C
TYPE, IMPORT, FUNCTION, TABLE, MEMORY, ELEMENT, CODE, DATA = 1, 2, 3, 4, 5, 9, 10, 11
END, CALL_INDIRECT, BR_TABLE, MEMORY_SIZE, MEMORY_GROW, F32_CONST, F64_CONST, EXTENDED = 0x0B, 0x11, 0x0E, 0x3F, 0x40, 0x43, 0x44, 0xFC
LOADS_AND_STORES = range(0x28, 0x3F)
# The type of the value of each store.
STORES = {0x36: I32, 0x37: I64, 0x38: F32, 0x39: F64, 0x3A: I32, 0x3B: I32, 0x3C: I64, 0x3D: I64, 0x3E: I64}
# Instructions by what follows their code: one number with a sign (block, loop, if, constants), one without, nothing.
SIGNED = {0x02, 0x03, 0x04, 0x41, 0x42}
UNSIGNED = {0x0C, 0x0D, 0x10, 0x20, 0x21, 0x22, 0x23, 0x24}
BARE = {0x00, 0x01, 0x05, END, 0x0F, 0x1A, 0x1B, *range(0x45, 0xC5)}
MEMORY_COPY, MEMORY_FILL, LAST_TRUNCATION = 10, 11, 7

WRAP, EXTEND_UNSIGNED, EXTEND_SIGNED = b"\xa7", b"\xad", b"\xac"


class Unknown(Exception):
    """The module has what this does not know."""


def must(holds, what):
    if not holds:
        raise Unknown(what)


def unsigned(number):
    out = bytearray()
    while True:
        number, low = number >> 7, number & 127
        out.append(low | (128 if number else 0))
        if not number:
            return bytes(out)


def signed(number):
    out = bytearray()
    while True:
        low, number = number & 127, number >> 7
        is_last = number == -(low >> 6)
        out.append(low if is_last else low | 128)
        if is_last:
            return bytes(out)


def sized(text):
    return unsigned(len(text)) + text


def local_get(number):
    return b"\x20" + unsigned(number)


def local_set(number):
    return b"\x21" + unsigned(number)


class Reader:
    def __init__(self, text, at=0):
        self.text, self.at = text, at

    def has_more(self):
        return self.at < len(self.text)

    def byte(self):
        self.at += 1
        return self.text[self.at - 1]

    def number(self, has_sign=False):
        number = shift = 0
        while True:
            byte = self.byte()
            number |= (byte & 127) << shift
            shift += 7
            if byte < 128:
                return number - (1 << shift) if has_sign and byte & 64 else number

    def take(self, size):
        self.at += size
        return self.text[self.at - size : self.at]


def sections_of(module):
    must(module[:8] == b"\0asm\1\0\0\0", "a file that is no module")
    reader, sections = Reader(module, 8), []
    while reader.has_more():
        kind = reader.byte()
        sections.append((kind, reader.take(reader.number())))
    return sections


def limits(reader):
    """The limits of a memory or a table with 64-bit addresses, as 32-bit ones."""
    flags = reader.byte()
    must(flags in (4, 5), f"limits of kind {flags}")
    least = unsigned(reader.number())
    return bytes([flags & 1]) + least + (unsigned(min(reader.number(), MOST_PAGES)) if flags & 1 else b"")


def offset(reader):
    """The offset of a part of a table or of memory, `i64.const N end`, as `i32.const N end`."""
    must(reader.byte() == 0x42, "an offset that is no constant")
    number = reader.number(True)
    must(0 <= number < 1 << 31 and reader.byte() == END, "an offset out of range")
    return b"\x41" + signed(number) + bytes([END])


class Body:
    """The code of a function, whose locals are followed by those that narrowing an address needs."""

    def __init__(self, code, parameters):
        self.reader, self.out, self.added = Reader(code), bytearray(), {}
        self.groups, self.count = [], parameters
        for _ in range(self.reader.number()):
            size = self.reader.number()
            self.groups.append((size, self.reader.byte()))
            self.count += size
        address = unsigned(self.local(I64, "address"))
        # The low half, or 2^32 - 1 if the high half is not 0: tee, wrap, 0, get, 32, shift, is 0, is 0, subtract, or.
        self.narrow = b"\x22" + address + WRAP + b"\x41\x00\x20" + address + b"\x42\x20\x88\x50\x45\x6b\x72"

    def local(self, kind, use):
        return self.added.setdefault((kind, use), self.count + len(self.added))

    def lowered(self):
        while self.reader.has_more():
            self.instruction()
        groups = [*self.groups, *((1, kind) for kind, _ in self.added)]
        return unsigned(len(groups)) + b"".join(unsigned(size) + bytes([kind]) for size, kind in groups) + bytes(self.out)

    def instruction(self):
        reader, begin = self.reader, self.reader.at
        code = reader.byte()
        if code in LOADS_AND_STORES:
            self.access(code)
            return
        if code == MEMORY_GROW:
            self.grow()
            return
        if code in SIGNED:
            reader.number(True)
        elif code in UNSIGNED:
            reader.number()
        elif code == BR_TABLE:
            for _ in range(reader.number() + 1):
                reader.number()
        elif code == CALL_INDIRECT:
            self.out += WRAP
            reader.number(), reader.number()
        elif code in (F32_CONST, F64_CONST):
            reader.take(4 if code == F32_CONST else 8)
        elif code == MEMORY_SIZE:
            reader.number()
        elif code == EXTENDED:
            self.extended(reader.number())
        else:
            must(code in BARE, f"an instruction with the code {code:#x}")
        self.out += reader.text[begin : reader.at] + (EXTEND_UNSIGNED if code == MEMORY_SIZE else b"")

    def access(self, code):
        """A load or a store. A linker pads its numbers to the ten bytes of a 64-bit one, so they are written anew."""
        align, distance = self.reader.number(), self.reader.number()
        must(align < 8 and distance < 1 << 32, "an access of a memory that is not the first, or too far from its address")
        if code in STORES:
            value = self.local(STORES[code], "value")
            self.out += local_set(value) + self.narrow + local_get(value)
        else:
            self.out += self.narrow
        self.out += bytes([code]) + unsigned(align) + unsigned(distance)

    def grow(self):
        """More than 2^16 pages are refused before they are narrowed."""
        must(self.reader.number() == 0, "a memory that is not the first")
        pages = self.local(I64, "value")
        self.out += local_set(pages) + local_get(pages) + b"\x42" + signed(1 << 16) + b"\x56\x04\x7e\x42\x7f\x05"
        self.out += local_get(pages) + WRAP + b"\x40\x00" + EXTEND_SIGNED + bytes([END])

    def extended(self, code):
        """Copies and fills of memory, whose numbers are 64-bit too; or a truncation, which stays."""
        if code == MEMORY_COPY:
            self.reader.take(2)
            size, source = self.local(I64, "value"), self.local(I64, "source")
            self.out += local_set(size) + local_set(source) + self.narrow + local_get(source) + self.narrow + local_get(size) + self.narrow
        elif code == MEMORY_FILL:
            self.reader.take(1)
            size, value = self.local(I64, "value"), self.local(I32, "value")
            self.out += local_set(size) + local_set(value) + self.narrow + local_get(value) + local_get(size) + self.narrow
        else:
            must(code <= LAST_TRUNCATION, f"an extended instruction with the code {code}")


def parameter_counts(text):
    """How many parameters each type of a function has."""
    reader, counts = Reader(text), []
    for _ in range(reader.number()):
        must(reader.byte() == 0x60, "a type that is no function's")
        counts.append(reader.number())
        reader.take(counts[-1])
        reader.take(reader.number())
    return counts


def table_parts(text):
    reader = Reader(text)
    out = unsigned(reader.number())
    while reader.has_more():
        must(reader.number() == 0, "a part of a table of another kind")
        out += b"\0" + offset(reader)
        begin = reader.at
        for _ in range(reader.number()):
            reader.number()
        out += text[begin : reader.at]
    return out


def memory_parts(text):
    reader = Reader(text)
    out = unsigned(reader.number())
    while reader.has_more():
        must(reader.number() == 0, "a part of the memory of another kind")
        out += b"\0" + offset(reader) + sized(reader.take(reader.number()))
    return out


def lowered(module):
    """The module with 32-bit memory."""
    sections = sections_of(module)
    by_kind = dict(sections)
    must(IMPORT not in by_kind, "imports: a module of this page asks for nothing")
    counts, reader = parameter_counts(by_kind[TYPE]), Reader(by_kind[FUNCTION])
    parameters = [counts[reader.number()] for _ in range(reader.number())]
    out = bytearray(module[:8])
    for kind, text in sections:
        reader = Reader(text)
        if kind == TABLE:
            must(reader.number() == 1, "several tables")
            text = b"\x01" + bytes([reader.byte()]) + limits(reader)
        elif kind == MEMORY:
            must(reader.number() == 1, "several memories")
            text = b"\x01" + limits(reader)
        elif kind == ELEMENT:
            text = table_parts(text)
        elif kind == CODE:
            bodies = [reader.take(reader.number()) for _ in range(reader.number())]
            text = unsigned(len(bodies)) + b"".join(sized(Body(body, count).lowered()) for body, count in zip(bodies, parameters, strict=True))
        elif kind == DATA:
            text = memory_parts(text)
        out += bytes([kind]) + sized(text)
    return bytes(out)
