# SPDX-License-Identifier: MIT OR Apache-2.0
"""The C library through ctypes: its types, its functions, and where it is found."""
import contextlib
import ctypes
import operator
import os
import pathlib
from ctypes import POINTER, c_bool, c_char_p, c_int, c_size_t, c_ssize_t, c_uint8, c_uint16, c_uint32, c_uint64, c_void_p, py_object

MAX_INSNS = 512
MAX_SNAP = 262144
MAX_CAPACITY = 1048576
NO_CELL = 16

OK, NO_MEMORY, NO_ROOM, END = 0, 1, 2, 4


class Insn(ctypes.Structure):
    """An instruction: `struct bpf_insn` of bpf(4), `struct sock_filter` of Linux."""
    _fields_ = [("code", c_uint16), ("jt", c_uint8), ("jf", c_uint8), ("k", c_uint32)]


class Result(ctypes.Structure):
    _fields_ = [("fault", c_uint32), ("size", c_size_t), ("place", c_size_t)]


class Reason(ctypes.Structure):
    _fields_ = [("fault", c_uint32), ("verdict", c_uint32), ("size", c_size_t), ("place", c_size_t)]


class Traced(ctypes.Structure):
    _fields_ = [("fault", c_uint32), ("answer", c_uint32), ("size", c_size_t), ("place", c_size_t)]


class Executed(ctypes.Structure):
    _fields_ = [("place", c_size_t), ("accumulator", c_uint32), ("index", c_uint32), ("cell", c_uint32), ("value", c_uint32)]


class Look(ctypes.Structure):
    _fields_ = [("offset", c_size_t), ("size", c_size_t)]


class Comparison(ctypes.Structure):
    _fields_ = [("fault", c_uint32), ("number", c_uint32), ("answer", c_uint32), ("cause", c_uint32), ("wire", c_uint32),
                ("size", c_size_t), ("place", c_size_t)]


class Span(ctypes.Structure):
    _fields_ = [("offset", c_uint64), ("captured", c_uint32), ("wire", c_uint32)]


class Reader(ctypes.Structure):
    _fields_ = [("offset", c_size_t), ("place", c_uint64), ("fault", c_uint32), ("order", c_uint32), ("unit", c_uint32),
                ("snap", c_uint32)]


class Record(ctypes.Structure):
    _fields_ = [("offset", c_size_t), ("place", c_uint64), ("fault", c_uint32), ("seconds", c_uint32), ("nanos", c_uint32),
                ("captured", c_uint32), ("wire", c_uint32)]


class Buffer(ctypes.Structure):
    _fields_ = [("bytes", c_void_p), ("room", c_size_t), ("size", c_size_t)]


class Tap(ctypes.Structure):
    """`struct bpftap_listener`."""
    _fields_ = [("store", Buffer), ("hold", Buffer), ("received", c_uint64), ("matched", c_uint64), ("dropped", c_uint64),
                ("snap", c_uint32), ("mode", c_uint32), ("closed", c_uint32)]


class Message(ctypes.Structure):
    _fields_ = [("offset", c_size_t), ("place", c_uint64), ("fault", c_uint32), ("capture", c_uint32), ("seconds", c_uint32),
                ("nanos", c_uint32), ("captured", c_uint32), ("wire", c_uint32)]


def _candidates():
    """Where the library may be: as BPFTAP_LIBRARY says, in the package, in the repository's out/lib, and where the system looks."""
    named = os.environ.get("BPFTAP_LIBRARY")
    if named:
        yield named
        return
    here = pathlib.Path(__file__).resolve().parent
    for path in (here / "libbpftap.so.1", here.parents[2] / "out" / "lib" / "libbpftap.so.1"):
        if path.is_file():
            yield str(path)
    yield "libbpftap.so.1"


def _load():
    """The library; and the same one for calls that are so short that it would cost more to let other threads run meanwhile."""
    for path in _candidates():
        try:
            return ctypes.CDLL(path), ctypes.PyDLL(path)
        except OSError as error:
            last = error
    raise ImportError(f"the C library of bpftap cannot be loaded: {last}; BPFTAP_LIBRARY names its file, and ./build bpftap_c in the repository makes it")


lib, _short = _load()

_BYTES = [c_char_p, c_size_t]
_ROOM = [c_void_p, c_size_t]
_INSNS = [POINTER(Insn), c_size_t]

# Each function: what it returns, and what it takes.
_FUNCTIONS = {
    "compile": (Result, [*_BYTES, c_uint32, *_INSNS]),
    "check": (Result, _INSNS),
    "read_listing": (Result, [*_BYTES, *_INSNS]),
    "write_listing": (Result, [*_INSNS, *_ROOM]),
    "image": (Result, [*_INSNS, *_ROOM]),
    "print": (Result, [*_BYTES, *_ROOM]),
    "program_size": (c_size_t, []),
    "program_init": (c_uint32, [c_void_p, *_INSNS]),
    "program_run": (c_uint32, [c_void_p, *_BYTES, c_uint32]),
    "program_run_spans": (Result, [c_void_p, *_BYTES, c_void_p, c_size_t, c_void_p, c_size_t]),
    "program_run_joined": (Result, [c_void_p, *_BYTES, c_void_p, c_size_t, c_void_p, c_size_t]),
    "trace": (Traced, [*_INSNS, *_BYTES, c_uint32, *_ROOM]),
    "looks": (Result, [*_BYTES, *_BYTES, c_uint32, *_ROOM]),
    "why": (Reason, [*_BYTES, *_BYTES, c_uint32, *_ROOM]),
    "compare": (Comparison, [*_BYTES, *_BYTES, c_size_t, *_ROOM]),
    "open": (Reader, _BYTES),
    "next": (Record, [*_BYTES, POINTER(Reader)]),
    "spans": (Result, [*_BYTES, POINTER(Reader), c_void_p, c_size_t]),
    "put_header": (Result, [c_uint32, c_uint32, c_uint32, *_ROOM]),
    "put": (Result, [c_uint32, c_uint32, POINTER(Record), *_BYTES, *_ROOM]),
    "cut": (Result, [*_BYTES, *_INSNS, c_uint32, *_ROOM]),
    "listener_open": (c_uint32, [POINTER(Tap)]),
    "listener_arrive": (c_uint32, [POINTER(Tap), c_uint32, c_uint32, POINTER(Record), *_BYTES]),
    "listener_flush": (c_bool, [POINTER(Tap)]),
    "listener_read": (Result, [POINTER(Tap), POINTER(Buffer)]),
    "listener_close": (None, [POINTER(Tap)]),
    "listener_next": (Message, [POINTER(Buffer), POINTER(c_size_t)]),
    "fault_text": (Result, [c_uint32, c_size_t, *_ROOM]),
    "hint": (Result, [*_BYTES, c_uint32, c_size_t, *_ROOM]),
    "version": (Result, _ROOM),
}

for _name, (_returns, _takes) in _FUNCTIONS.items():
    _function = getattr(lib, f"bpftap_{_name}")
    _function.restype, _function.argtypes = _returns, _takes

quick_run = _short.bpftap_program_run
quick_run.restype = c_uint32


def program_run(program, packet, wire):
    """`bpftap_program_run` of a program, which is a pointer that `byref` made, over `bytes`. Without types for its arguments ctypes takes half the
    time: it passes each number as an `int`, of which C takes all 32 bits for `wire`, and for the size as many as a packet may have here."""
    size = len(packet)
    if size >= 2**31:
        raise ValueError(f"packet has {size} bytes, which are 2 GiB or more")
    return quick_run(program, packet, size, wire)


def text(call, room=4096):
    """The text that a call writes, by a function from memory and its size to the call's result. It is called again where the memory
    was too small."""
    while True:
        memory = ctypes.create_string_buffer(room)
        result = call(memory, room)
        if result.fault != NO_ROOM:
            return result, memory.raw[: result.size]
        room = result.size + 1


def version() -> str:
    """The version of the C library: three numbers with dots between them."""
    return text(lib.bpftap_version)[1].decode().partition(" ")[0]


class _View(ctypes.Structure):
    """`Py_buffer` of Python's buffer protocol."""
    _fields_ = [("buf", c_void_p), ("obj", c_void_p), ("len", c_ssize_t), ("itemsize", c_ssize_t), ("readonly", c_int), ("ndim", c_int),
                ("format", c_void_p), ("shape", c_void_p), ("strides", c_void_p), ("suboffsets", c_void_p), ("internal", c_void_p)]


_get_buffer = ctypes.PYFUNCTYPE(c_int, py_object, POINTER(_View), c_int)(("PyObject_GetBuffer", ctypes.pythonapi))
_release_buffer = ctypes.PYFUNCTYPE(None, POINTER(_View))(("PyBuffer_Release", ctypes.pythonapi))


@contextlib.contextmanager
def buffer_of(what, memory):
    """Where the bytes of a buffer are, read-only or not, and how many there are. They are not copied."""
    view = _View()
    try:
        _get_buffer(memory, view, 0)
    except TypeError:
        raise not_a(what, memory, "bytes-like") from None
    try:
        yield c_char_p(view.buf if view.len else b""), view.len
    finally:
        _release_buffer(view)


_new_bytes = ctypes.pythonapi.PyBytes_FromStringAndSize
_new_bytes.restype, _new_bytes.argtypes = py_object, [c_char_p, c_ssize_t]


def room_of(size):
    """Memory for a call to write into, as `bytes` that nobody else has yet. Unlike that of `create_string_buffer` it is not cleared first."""
    return _new_bytes(None, size)


def not_a(what, value, kind):
    """The error of an argument, or a part of one, that is of another type."""
    return TypeError(f"{what} is of type {type(value).__name__}, which is not {kind}")


def bytes_of(what, content):
    """What something bytes-like holds, as `bytes`: a copy if it is anything else."""
    if isinstance(content, bytes):
        return content
    try:
        return bytes(memoryview(content))
    except TypeError:
        raise not_a(what, content, "bytes-like") from None


def view_of(what, content):
    """The bytes of something bytes-like, which are not copied."""
    try:
        return memoryview(content).cast("B")
    except TypeError:
        raise not_a(what, content, "bytes-like and contiguous" if hasattr(content, "contiguous") else "bytes-like") from None


def iter_of(what, items):
    """An iterator over the items."""
    try:
        return iter(items)
    except TypeError:
        raise not_a(what, items, "iterable") from None


def utf8(what, text):
    """The bytes of a text. Half of a surrogate pair is none: the library then returns NotText."""
    if not isinstance(text, str):
        raise not_a(what, text, "a str")
    return text.encode("utf-8", "surrogatepass")


def int_of(what, number):
    try:
        return operator.index(number)
    except TypeError:
        raise not_a(what, number, "an int") from None


def in_range(what, number, most=2**32 - 1):
    """The number, if it is from 0 to `most`. C would take its lower bits."""
    number = int_of(what, number)
    if not 0 <= number <= most:
        raise ValueError(f"{what} is {number}, which is not from 0 to {most}")
    return number
