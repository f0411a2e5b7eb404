#!/usr/bin/env python3
"""native.py LIBRARY < QUESTIONS: what the native library answers, a line of JSON for each question, as module.js prints them.

QUESTIONS is an object of JSON: `packets` (bytes in hexadecimal and the wire length), which each of `expressions` is asked about; `pairs`
(two expressions and a budget); `captures` (bytes and how many of a packet to keep); `replays` (listeners, script, capture).
"""
import ctypes
import hashlib
import json
import sys

SIZE, U32, U64, TEXT = ctypes.c_size_t, ctypes.c_uint32, ctypes.c_uint64, ctypes.c_char_p
ROOM, MOST_INSNS, MOST_LOOKS, MOST_SNAP = 1 << 24, 512, 32768, 262144
OK, NO_ROOM = 0, 2


def struct(name, **members):
    return type(name, (ctypes.Structure,), {"_fields_": [*members.items()]})


Result = struct("Result", fault=U32, size=SIZE, place=SIZE)
Reason = struct("Reason", fault=U32, verdict=U32, size=SIZE, place=SIZE)
Traced = struct("Traced", fault=U32, answer=U32, size=SIZE, place=SIZE)
Executed = struct("Executed", place=SIZE, accumulator=U32, index=U32, cell=U32, value=U32)
Look = struct("Look", offset=SIZE, size=SIZE)
Comparison = struct("Comparison", fault=U32, number=U32, answer=U32, cause=U32, wire=U32, size=SIZE, place=SIZE)
Reader = struct("Reader", offset=SIZE, place=U64, fault=U32, order=U32, unit=U32, snap=U32)
Record = struct("Record", offset=SIZE, place=U64, fault=U32, seconds=U32, nanos=U32, captured=U32, wire=U32)
Capture = struct("Capture", bytes=TEXT, size=SIZE)
Replay = struct("Replay", fault=U32, number=U32, size=SIZE, place=SIZE)

INSNS = [TEXT, SIZE]
CALLS = {
    "compile": (Result, [TEXT, SIZE, U32, TEXT, SIZE]), "print": (Result, [TEXT, SIZE, TEXT, SIZE]), "image": (Result, [*INSNS, TEXT, SIZE]),
    "why": (Reason, [TEXT, SIZE, TEXT, SIZE, U32, TEXT, SIZE]), "fault_text": (Result, [U32, SIZE, TEXT, SIZE]),
    "hint": (Result, [TEXT, SIZE, U32, SIZE, TEXT, SIZE]),
    "trace": (Traced, [*INSNS, TEXT, SIZE, U32, ctypes.c_void_p, SIZE]),
    "looks": (Result, [TEXT, SIZE, TEXT, SIZE, U32, ctypes.c_void_p, SIZE]), "compare": (Comparison, [TEXT, SIZE, TEXT, SIZE, SIZE, TEXT, SIZE]),
    "open": (Reader, [TEXT, SIZE]), "next": (Record, [TEXT, SIZE, ctypes.POINTER(Reader)]), "cut": (Result, [TEXT, SIZE, *INSNS, U32, TEXT, SIZE]),
    "put_header": (Result, [U32, U32, U32, TEXT, SIZE]), "put": (Result, [U32, U32, ctypes.POINTER(Record), TEXT, SIZE, ctypes.c_void_p, SIZE]),
    **{name: (Replay, [TEXT, SIZE, TEXT, SIZE, ctypes.POINTER(Capture), SIZE, TEXT, SIZE]) for name in ("steps", "steps_answers", "picture")},
}
library = ctypes.CDLL(sys.argv[1])
for name, (answer, given) in CALLS.items():
    function = getattr(library, f"bpftap_{name}")
    function.restype, function.argtypes = answer, given
memory = ctypes.create_string_buffer(ROOM)


def call(name, *given):
    return getattr(library, f"bpftap_{name}")(*given)


def sized(content):
    return content, len(content)


def written(size):
    return ctypes.string_at(memory, size)


def text_or(answer):
    return written(answer.size).decode() if answer.fault == OK else [answer.fault, answer.place]


def dump(value):
    return json.dumps(value, separators=(",", ":"), ensure_ascii=False)


def digest(content):
    return hashlib.sha256(content if isinstance(content, bytes) else content.encode()).hexdigest()


def looks_of(text, packet, wire):
    looks = (Look * MOST_LOOKS)()
    answer = call("looks", *sized(text), *sized(packet), wire, looks, MOST_LOOKS)
    return [[look.offset, look.size] for look in looks[: answer.size if answer.fault == OK else 0]]


def run_of(program, packet, wire):
    executed = (Executed * MOST_INSNS)()
    answer = call("trace", program, len(program) // 8, *sized(packet), wire, executed, MOST_INSNS)
    return [answer.answer, [[it.place, it.accumulator, it.index, it.cell, it.value] for it in executed[: answer.size]]]


def expression(packets, text):
    text = text.encode()
    compiled = call("compile", *sized(text), MOST_SNAP, memory, MOST_INSNS)
    program = written(8 * compiled.size) if compiled.fault == OK else b""
    answers = []
    for packet, wire in packets:
        why = call("why", *sized(text), *sized(packet), wire, memory, ROOM)
        answers.append([why.verdict, text_or(why)])
    looks = [looks_of(text, packet, wire) for packet, wire in packets]
    found = [compiled.fault, compiled.place, compiled.size, text_or(call("print", *sized(text), memory, ROOM)), digest(dump([answers, looks]))]
    if compiled.fault != OK:
        fault = compiled.fault, compiled.place
        return [*found, text_or(call("fault_text", *fault, memory, ROOM)), text_or(call("hint", *sized(text), *fault, memory, ROOM))]
    image = text_or(call("image", program, len(program) // 8, memory, ROOM))
    return [*found, program.hex(), image, digest(dump([run_of(program, *packet) for packet in packets]))]


def comparison(first, second, budget):
    it = call("compare", *sized(first.encode()), *sized(second.encode()), budget, memory, ROOM)
    return [it.fault, it.number, it.answer, it.cause, it.wire, it.place, written(it.size if it.fault == OK else 0).hex()]


def capture(text, size):
    file, columns = bytes.fromhex(text), [[], [], [], [], []]
    reader = call("open", *sized(file))
    fault, place = reader.fault, 0
    while fault == OK:
        record = call("next", *sized(file), ctypes.byref(reader))
        if record.fault == OK:
            for column, number in zip(columns, (record.offset, record.seconds, record.nanos, record.captured, record.wire)):
                column.append(number)
            continue
        if record.fault != 4:
            fault, place = record.fault, record.place
        break
    everything = bytes.fromhex("0600000000000400")
    cut = call("cut", *sized(file), everything, 1, size, memory, ROOM)
    return [len(columns[0]), fault, place, digest(dump(columns)), digest(written(cut.size) if cut.size else file)]


def replay(listeners, script, text):
    file, answers = bytes.fromhex(text), []
    captures = Capture(file, len(file))
    for name in ("steps", "steps_answers", "picture"):
        it = call(name, *sized(listeners.encode()), *sized(script.encode()), ctypes.byref(captures), 1, memory, ROOM)
        answers.append([it.fault, it.number, it.place, digest(written(it.size))])
    return answers


def capture_of(packet, wire):
    begin = call("put_header", 0, 0, MOST_SNAP, memory, ROOM).size
    record = Record(captured=len(packet), wire=wire)
    size = call("put", 0, 0, ctypes.byref(record), *sized(packet), ctypes.addressof(memory) + begin, ROOM - begin).size
    return digest(written(begin + size))


def main():
    questions = json.load(sys.stdin)
    packets = [(bytes.fromhex(text), wire) for text, wire in questions["packets"]]
    for text in questions["expressions"]:
        print(dump(expression(packets, text)))
    for pair in questions["pairs"]:
        print(dump(comparison(*pair)))
    for file in questions["captures"]:
        print(dump(capture(*file)))
    for one in questions["replays"]:
        print(dump(replay(*one)))
    for packet in packets:
        print(dump(capture_of(*packet)))
    print(dump(["bytes that are still taken", 0]))


if __name__ == "__main__":
    main()
