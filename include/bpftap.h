/* SPDX-License-Identifier: MIT OR Apache-2.0 */
/* bpftap.h: the proved filter compiler, filter machine, capture cutter and tap of bpftap, for C and C++.
 *
 *     cc tool.c $(pkg-config --cflags --libs bpftap)
 *
 * The library is for 64-bit Linux on x86-64-v2 (any such processor since about 2009: SSE4.2, POPCNT) and on aarch64; bpftap_version names
 * the one that it is made for. On an older x86-64 the loader refuses the shared library: *CPU ISA level is lower than required*; a program
 * with the archive ends by SIGILL.
 * The archive takes malloc, realloc, free, memcpy, memmove and memset from the program's C library, and the shared library needs no library
 * by name, so that one file serves glibc and musl.
 *
 * What every call has in common
 *
 *   - A text, a capture or an array is a pointer and the number of its items. A text need not end with a zero byte.
 *   - What a call writes goes into memory of the caller. It takes that memory as a pointer and the number of items that it has room
 *     for, and writes nothing past those. A call that fails writes nothing there, but for these: bpftap_cut, bpftap_spans, bpftap_picture and
 *     the calls bpftap_steps.. write what comes before a record that cannot be read; bpftap_program_init a program that rejects every packet;
 *     bpftap_listener_open a closed listener.
 *   - A text that a call writes is followed by a zero byte. `size` does not count that byte, but there has to be room for it.
 *   - Nothing is kept between calls, and nothing that is allocated is handed out. There is no global state, and nothing is printed.
 *     Calls may run at the same time in different threads.
 *   - 128 KiB of stack are enough for a call that reads no expression. bpftap_compile, bpftap_print, bpftap_hint, bpftap_why, bpftap_looks,
 *     bpftap_compare, bpftap_picture and the calls bpftap_steps.. need 512 KiB for expressions of up to 1,000 bytes, and 2 MiB for any:
 *     give 2 MiB to a thread that takes expressions from outside. What bpftap_compare needs to decide two expressions, once they are read, is at most
 *     256 KiB of these. This is measured, not proved.
 *
 * What the caller owes
 *
 *   - Each pointer to items is aligned for its type, and valid for their whole number; it may be NULL if that number, or the room, is 0.
 *     Every other pointer is not NULL.
 *   - Memory that a call writes does not overlap any other memory that the same call is given.
 *   - Memory that a call reads has been initialised, and a program by bpftap_program_init, a reader by bpftap_open, a listener by
 *     bpftap_listener_open. From then on no one writes into a prepared program, and only the calls write to a listener and its buffers,
 *     one call at a time: what is written there by other hands makes a later call read or write anywhere. A reader belongs to one thread
 *     at a time, as every struct does that a call changes.
 *   - `malloc`, `realloc` and `free` come from one allocator, and no call is made from a signal handler.
 */
#ifndef BPFTAP_H
#define BPFTAP_H

#include <stdbool.h>
#include <stddef.h>
#include <stdint.h>

#ifdef __cplusplus
extern "C" {
#endif

/* The numbers of faults. They stay from version to version. docs/FAULTS.md explains each of them. */
enum bpftap_fault {
    BPFTAP_OK = 0,
    BPFTAP_NO_MEMORY = 1, /* malloc or realloc returned NULL */
    BPFTAP_NO_ROOM = 2,   /* `size` items do not fit into the caller's memory */
    BPFTAP_NOT_TEXT = 3,  /* the text is not UTF-8 from byte `place` on */
    BPFTAP_END = 4,       /* bpftap_next, bpftap_spans, bpftap_listener_next: there is no further record */

    /* The instructions are no program; `place` counts instructions from 0. */
    BPFTAP_EMPTY = 16,        /* there is no instruction */
    BPFTAP_TOO_MANY = 17,     /* there are more than BPFTAP_MAX_INSNS */
    BPFTAP_UNKNOWN_CODE = 18, /* instruction `place` has a code that is not known */
    BPFTAP_JUMP_OUT = 19,     /* instruction `place` jumps out of the program */
    BPFTAP_CELL = 20,         /* instruction `place` names a cell beyond the 16 of scratch memory */
    BPFTAP_ZERO_DIVISOR = 21, /* instruction `place` divides by the constant 0 */
    BPFTAP_NO_RETURN = 22,    /* the last instruction is not a return */

    /* The text is not a listing. */
    BPFTAP_BAD_LINE = 24, /* line `place`, from 1, is not `code jt jf k`; line 1 is not a number */
    BPFTAP_COUNT = 25,    /* the first line is not the number of the other lines */

    /* The text is not a filter expression; `place` counts its bytes from 0. */
    BPFTAP_TEXT_TOO_LONG = 32, /* it has more than 8,192 bytes */
    BPFTAP_BAD_BYTE = 33,
    BPFTAP_BAD_WORD = 34,
    BPFTAP_BAD_NUMBER = 35,
    BPFTAP_SYNTAX = 36,
    BPFTAP_NO_QUALIFIER = 37,
    BPFTAP_BAD_QUALIFIER = 38,
    BPFTAP_BAD_IDENTIFIER = 39,
    BPFTAP_NET_BITS = 40,
    BPFTAP_OUT_OF_RANGE = 41,
    BPFTAP_DIVIDE_BY_ZERO = 42,
    BPFTAP_TOO_NESTED = 43,

    /* The expression has no program. */
    BPFTAP_TOO_LONG = 48, /* its program may not fit into BPFTAP_MAX_INSNS */
    BPFTAP_TOO_DEEP = 49, /* a relation needs more than 16 words of scratch memory */
    BPFTAP_BAD_SNAP = 50, /* the snapshot length is 0 or above BPFTAP_MAX_SNAP */

    /* The bytes are not a capture; `place` counts records from 0. */
    BPFTAP_SHORT_HEADER = 64,
    BPFTAP_NOT_SAVEFILE = 65,
    BPFTAP_VERSION = 66,
    BPFTAP_LINK_TYPE = 67,
    BPFTAP_TORN_RECORD = 68,     /* the memory ends inside record `place` */
    BPFTAP_BAD_FRACTION = 69,    /* the fraction of a second of record `place` is a second or more */
    BPFTAP_RECORD_TOO_LONG = 70, /* record `place` has more than BPFTAP_MAX_SNAP captured bytes */
    BPFTAP_COUNT_FULL = 73,      /* 2^64 - 1 records were read */

    /* The listener is not opened; also BPFTAP_BAD_SNAP. */
    BPFTAP_BAD_CAPACITY = 80, /* a buffer lacks the room that it needs, or has too much */

    /* Steps are not played; also those of an expression, a listener and a capture, with its number. */
    BPFTAP_LISTENERS = 88,      /* line `place` of the listeners, from 1, is not `SNAP CAPACITY EXPRESSION` */
    BPFTAP_SCRIPT = 89,         /* line `place` of the script, from 1, is no step */
    BPFTAP_STEPS_TOO_MANY = 90, /* there are more than 64 listeners, or more than 65,536 captures */
    BPFTAP_NO_LISTENER = 91     /* step `place`, from 0, names a listener that does not exist */
};

#define BPFTAP_VERSION_NUMBER 20800 /* major * 10,000 + minor * 100 + patch */

#define BPFTAP_MAX_INSNS 512        /* instructions of a program */
#define BPFTAP_MAX_SNAP 262144      /* captured bytes of a packet */
#define BPFTAP_MAX_CAPACITY 1048576 /* bytes of a listener's buffer */

/* What most calls return. */
struct bpftap_result {
    uint32_t fault; /* BPFTAP_OK or a fault */
    size_t size;    /* the number of items that were written; with BPFTAP_NO_ROOM, how many there are */
    size_t place;   /* where the fault is, if it has a place; else 0 */
};

/* ---- Filters ---- */

/* An instruction of the filter machine. The layout is that of `struct bpf_insn` (bpf(4), libpcap) and of `struct sock_filter` (Linux).
 * A program that includes one of those headers may define BPFTAP_INSN as that struct before it includes this file, and then needs no
 * cast:
 *
 *     #include <linux/filter.h>
 *     #define BPFTAP_INSN struct sock_filter
 *     #include <bpftap.h>
 */
#ifndef BPFTAP_INSN
#define BPFTAP_INSN struct bpftap_insn
struct bpftap_insn {
    uint16_t code;
    uint8_t jt, jf;
    uint32_t k;
};
#endif

/* Compiles a filter expression (docs/LANGUAGE.md) into `insns`. The program returns `snap` if the expression accepts the packet, and
 * else 0. `snap` is from 1 to BPFTAP_MAX_SNAP. BPFTAP_MAX_INSNS instructions are always room enough.
 * Faults: any of an expression, NO_ROOM, NOT_TEXT, NO_MEMORY. */
struct bpftap_result bpftap_compile(const char *text, size_t text_size, uint32_t snap, BPFTAP_INSN *insns, size_t room);

/* Says whether instructions are a program: `size` is their number then. Faults: those of instructions. */
struct bpftap_result bpftap_check(const BPFTAP_INSN *insns, size_t size);

/* Reads a listing, the form of `tcpdump -ddd`, into `insns`. Faults: BAD_LINE, COUNT, those of instructions, NO_ROOM. */
struct bpftap_result bpftap_read_listing(const char *text, size_t text_size, BPFTAP_INSN *insns, size_t room);

/* Write a program as text: its listing, or its instructions by their names, as `tcpdump -d` prints them; but of code 0x81, for which libpcap
 * prints `unimp 0x81`, bpftap_image writes `ldx #pktlen`. 16 KiB are always room enough for a listing, 64 KiB for an image.
 * Faults: those of instructions, NO_ROOM, NO_MEMORY. */
struct bpftap_result bpftap_write_listing(const BPFTAP_INSN *insns, size_t size, char *to, size_t room);
struct bpftap_result bpftap_image(const BPFTAP_INSN *insns, size_t size, char *to, size_t room);

/* Writes a filter expression in its canonical form. That form shows how it was read. Faults: any of an expression but TOO_LONG, TOO_DEEP and
 * BAD_SNAP; NO_ROOM, NOT_TEXT, NO_MEMORY. */
struct bpftap_result bpftap_print(const char *text, size_t text_size, char *to, size_t room);

/* ---- Programs that are run ---- */

/* Prepare a program in memory of the caller. It takes bpftap_program_size() bytes, aligned as malloc aligns. The size is the same at every
 * call of one version, and may differ in the next. A program needs no clean-up.
 *
 * bpftap_program_init checks the instructions once and puts them there. If it returns a fault (those of instructions), the program
 * in the memory rejects every packet. bpftap_program_run may be called after it, any number of times and by several threads at
 * once, until the memory is used for something else: it only reads the program. */
struct bpftap_program;
size_t bpftap_program_size(void);
uint32_t bpftap_program_init(struct bpftap_program *program, const BPFTAP_INSN *insns, size_t size);

/* Runs a program on a packet, and returns its answer: how many bytes of the packet to keep, 0 if it rejects it. `wire` is the packet's length on the
 * wire. A load past the captured bytes ends the program with 0. */
uint32_t bpftap_program_run(const struct bpftap_program *program, const uint8_t *packet, size_t captured, uint32_t wire);

/* A packet: its captured bytes and its length on the wire. */
struct bpftap_packet {
    const uint8_t *bytes;
    size_t captured;
    uint32_t wire;
};

/* A packet that lies in a memory: `captured` bytes from byte `offset` on. Bytes past the memory are not captured. */
struct bpftap_span {
    uint64_t offset;
    uint32_t captured;
    uint32_t wire;
};

/* Run instructions on many packets: check them once, and put what they answer to each packet into `answers`. Spans may come in any order, and
 * overlap. Faults: those of instructions, NO_ROOM. */
struct bpftap_result bpftap_run_each(const BPFTAP_INSN *insns, size_t size, const struct bpftap_packet *packets, size_t count,
                                     uint32_t *answers, size_t room);
struct bpftap_result bpftap_run_spans(const BPFTAP_INSN *insns, size_t size, const uint8_t *memory, size_t memory_size,
                                      const struct bpftap_span *spans, size_t count, uint32_t *answers, size_t room);

/* Runs instructions on packets that are joined: checks them once, and puts what they answer to each packet into `answers`. The packets lie in
 * `memory` one after the other, from byte 0 on. Packet `n` has `sizes[n]` bytes, on the wire too. Bytes past the memory are not captured.
 * Faults: those of instructions, NO_ROOM. */
struct bpftap_result bpftap_run_joined(const BPFTAP_INSN *insns, size_t size, const uint8_t *memory, size_t memory_size,
                                       const uint32_t *sizes, size_t count, uint32_t *answers, size_t room);

/* Run a prepared program on many packets: put what it answers to each packet into `answers`. The packets are handed over as those of
 * bpftap_run_each, bpftap_run_spans and bpftap_run_joined are. Nothing is checked again, so a batch may be one packet. Several threads may run
 * a program at once, each with answers of its own. Faults: NO_ROOM. */
struct bpftap_result bpftap_program_run_each(const struct bpftap_program *program, const struct bpftap_packet *packets, size_t count,
                                             uint32_t *answers, size_t room);
struct bpftap_result bpftap_program_run_spans(const struct bpftap_program *program, const uint8_t *memory, size_t memory_size,
                                              const struct bpftap_span *spans, size_t count, uint32_t *answers, size_t room);
struct bpftap_result bpftap_program_run_joined(const struct bpftap_program *program, const uint8_t *memory, size_t memory_size,
                                               const uint32_t *sizes, size_t count, uint32_t *answers, size_t room);

/* ---- Step by step ---- */

#define BPFTAP_NO_CELL 16

/* An instruction that was executed, and what the machine holds after it. */
struct bpftap_executed {
    size_t place;         /* the instruction, counted from 0 */
    uint32_t accumulator; /* the accumulator */
    uint32_t index;       /* the index register */
    uint32_t cell;        /* the cell of scratch memory that it stored into, or BPFTAP_NO_CELL */
    uint32_t value;       /* what it stored; 0 if it stored nothing */
};

struct bpftap_traced {
    uint32_t fault;
    uint32_t answer; /* what the program answers, also with BPFTAP_NO_ROOM; 0 with any other fault */
    size_t size;
    size_t place;
};

/* Runs a program on a packet, step by step. It writes each instruction that is executed, in order. The last one ends the run: a return, a
 * load past the captured bytes, or a division by an index register of 0. BPFTAP_MAX_INSNS are always room enough.
 * Faults: those of instructions, NO_ROOM, NO_MEMORY. */
struct bpftap_traced bpftap_trace(const BPFTAP_INSN *insns, size_t size, const uint8_t *packet, size_t captured, uint32_t wire,
                                  struct bpftap_executed *to, size_t room);

/* What a test looked at: `size` bytes of the frame from byte `offset` on, captured or not; or, if both are 0, the length on the wire. */
struct bpftap_look {
    size_t offset;
    size_t size;
};

/* Writes what an expression looks at of a packet: what each primitive or relation does that is asked, from left to right. The same bytes
 * may come more than once. Faults: those of bpftap_print. */
struct bpftap_result bpftap_looks(const char *text, size_t text_size, const uint8_t *packet, size_t captured, uint32_t wire,
                                  struct bpftap_look *to, size_t room);

/* ---- Why ---- */

/* What an expression answers to a packet. */
enum bpftap_verdict {
    BPFTAP_NO = 0,   /* it rejects the packet */
    BPFTAP_YES = 1,  /* it accepts the packet */
    BPFTAP_ABORT = 2 /* a byte past the captured ones was wanted, or a divisor was 0; a filter rejects the packet then */
};

struct bpftap_reason {
    uint32_t fault;
    uint32_t verdict; /* enum bpftap_verdict; BPFTAP_NO with a fault other than BPFTAP_NO_ROOM */
    size_t size;
    size_t place;
};

/* Says what an expression answers to a packet, and why. It writes the answer and the primitive or relation that decides: `No tcp port 80`.
 * The expression may be one that is too long or too deep to compile. Faults: those of bpftap_print. */
struct bpftap_reason bpftap_why(const char *text, size_t text_size, const uint8_t *packet, size_t captured, uint32_t wire, char *to,
                                size_t room);

/* ---- Whether two expressions accept the same packets ---- */

/* What is decided of two expressions. The numbers stay from version to version. */
enum bpftap_sameness {
    BPFTAP_SAME = 0,             /* both accept the same packets, of every captured length and every length on the wire */
    BPFTAP_SAME_AS_CAPTURED = 1, /* so it is of packets of which no more bytes were captured than were on the wire */
    BPFTAP_SHORT = 2,            /* they differ only where one aborts: one accepts the packet that is written, which is too short for the
                                    other one; of packets of which no more bytes were captured than were on the wire, none gets YES from
                                    one and NO from the other */
    BPFTAP_DIFFER = 3,           /* one answers YES to the packet that is written, and the other one NO */
    BPFTAP_NOT_DECIDED = 4       /* nothing is claimed */
};

/* Why nothing is claimed. */
enum bpftap_cause {
    BPFTAP_GRAPHS = 1,   /* their decision graphs differ, and no packet was found that shows how they do */
    BPFTAP_BUDGET = 2,   /* the budget is spent, and nothing of PRODUCT, QUOTIENT and LOAD stands in the expressions */
    BPFTAP_RELATION = 3, /* no call gives it since 2.3.0: versions before did not decide some kinds of relations */
    BPFTAP_PRODUCT = 4,  /* the budget is spent, and an expression has a product of two values that are no constants */
    BPFTAP_QUOTIENT = 5, /* the budget is spent, and an expression has a quotient or a remainder by a value that is no constant */
    BPFTAP_LOAD = 6,     /* the budget is spent, and an expression has bytes at an index that is no constant */
    BPFTAP_FAR = 7,      /* a byte may be looked at that is 131,072 bytes or more from the first one */
    BPFTAP_LEVELS = 8    /* an expression has more than 1,000 levels, of which one of a value counts as 8, or a value of it more than 64 */
};

struct bpftap_comparison {
    uint32_t fault;
    uint32_t number; /* which expression the fault is of: 0 the first, 1 the second */
    uint32_t answer; /* enum bpftap_sameness; BPFTAP_NOT_DECIDED with a fault other than BPFTAP_NO_ROOM */
    uint32_t cause;  /* enum bpftap_cause, if the answer is BPFTAP_NOT_DECIDED; 0 with a fault and with any other answer */
    uint32_t wire;   /* the length on the wire of the packet that is written */
    size_t size;     /* its captured bytes; also with BPFTAP_NO_ROOM */
    size_t place;    /* where the fault is, if it has a place; else 0 */
};

/* Decides whether two expressions accept the same packets. The answer is for every packet that there can be. If it has a packet that shows a
 * difference, it writes its captured bytes. 1,514 bytes are mostly room enough; without enough the answer is returned all the same, with NO_ROOM.
 * `budget` is how many nodes the diagrams of one header length may have, and half of the steps that are taken in all: `bpftap compare`
 * takes 2,000,000. The more of it is needed, the more memory and time are taken. Products and quotients of two fields are mostly too large.
 * The expressions may be too long or too deep to compile. Faults: those of bpftap_print, of expression `number`. */
struct bpftap_comparison bpftap_compare(const char *first, size_t first_size, const char *second, size_t second_size, size_t budget,
                                        uint8_t *to, size_t room);

/* ---- Captures ---- */

/* How far a capture in memory was read. The capture is a pcap file (pcap-savefile(5)) of Ethernet frames, in either byte order, with
 * microseconds or nanoseconds. */
struct bpftap_reader {
    size_t offset;  /* where the next record begins in the memory */
    uint64_t place; /* the number of records before it */
    uint32_t fault; /* BPFTAP_OK, or why the header is refused */
    uint32_t order; /* 0 little-endian, 1 big-endian */
    uint32_t unit;  /* 0 microseconds, 1 nanoseconds */
    uint32_t snap;  /* the snapshot length */
};

struct bpftap_record {
    size_t offset;     /* where the captured bytes begin in the memory */
    uint64_t place;    /* the number of records before this one */
    uint32_t fault;    /* BPFTAP_OK, BPFTAP_END, or why there is no record; the numbers below are 0 then */
    uint32_t seconds;  /* since 1970 */
    uint32_t nanos;    /* below 1,000,000,000 */
    uint32_t captured; /* the number of captured bytes, at most BPFTAP_MAX_SNAP; it may be above the header's snapshot length */
    uint32_t wire;     /* the number of bytes on the wire */
};

/* Reads the header of a capture. Faults: SHORT_HEADER, NOT_SAVEFILE, VERSION, LINK_TYPE.
 *
 *     struct bpftap_reader reader = bpftap_open(memory, size);
 *     if (reader.fault) return complain(reader.fault, 0);
 *     struct bpftap_record record;
 *     while ((record = bpftap_next(memory, size, &reader)).fault == BPFTAP_OK)
 *         use(memory + record.offset, record.captured, record.wire);
 *     if (record.fault != BPFTAP_END) complain(record.fault, record.place);
 */
struct bpftap_reader bpftap_open(const uint8_t *memory, size_t size);

/* Reads the next record and moves the reader past it. If there is none, or it cannot be read, the reader stays where it is.
 * A record may have more captured bytes than the header's snapshot length: all of them are kept, where libpcap cuts to that length.
 * Faults: END, TORN_RECORD, BAD_FRACTION, RECORD_TOO_LONG, COUNT_FULL; of a reader whose header was refused, the fault of bpftap_open.
 *
 * The memory may be a window of a longer capture, with room for a whole record: 262,160 bytes (BPFTAP_MAX_SNAP + 16). If TORN_RECORD or END
 * is returned and the capture has further bytes, move the window's bytes from reader.offset on to its front, append further ones, set
 * reader.offset to 0, and call again. */
struct bpftap_record bpftap_next(const uint8_t *memory, size_t size, struct bpftap_reader *reader);

/* Reads many records at once: reads on as that many calls of bpftap_next do, and writes where the bytes of each record lie and its length on
 * the wire, until there are `room` spans or a call would return a fault. `size` is the number of spans that were written. The reader is where
 * those calls leave it, so the next call reads on. bpftap_run_spans and bpftap_program_run_spans take the spans as they are.
 *
 * The memory may be a window of a longer capture, as that of bpftap_next. If TORN_RECORD or END is returned and the capture has further bytes,
 * use the spans first, since they count from the front of this window. Then move the window's bytes from reader.offset on to its front, append
 * further ones, set reader.offset to 0, and call again.
 *
 * Faults: those of bpftap_next, END too, with the same `place`: the number of records before it. The spans before it are written all the same.
 * If there are `room` spans, the fault is BPFTAP_OK, whatever comes after them. */
struct bpftap_result bpftap_spans(const uint8_t *memory, size_t memory_size, struct bpftap_reader *reader, struct bpftap_span *spans,
                                  size_t room);

/* Write a capture: its header of 24 bytes, and the record of a packet, of 16 bytes and then `bytes`. The record has the time and the
 * wire length of `packet`, whose other members are not used but for `place` as the place of a fault. `order` and `unit` are those of a
 * reader, and any number but 0 is taken as 1; `snap` is written as it is. With microseconds the nanoseconds are divided by 1,000 and the
 * rest is dropped.
 * Faults: NO_ROOM; of a record also RECORD_TOO_LONG (more than BPFTAP_MAX_SNAP bytes) and BAD_FRACTION (nanos is a second or more). */
struct bpftap_result bpftap_put_header(uint32_t order, uint32_t unit, uint32_t snap, uint8_t *to, size_t room);
struct bpftap_result bpftap_put(uint32_t order, uint32_t unit, const struct bpftap_record *packet, const uint8_t *bytes, size_t captured,
                                uint8_t *to, size_t room);

/* Writes the packets of a capture that a program accepts, as a capture. Each of them is cut to the least of `snap`, the program's answer and
 * its captured length. Byte order and unit of time stay. 0 for `snap` stands for BPFTAP_MAX_SNAP. The snapshot length of the written header
 * is `snap`, whatever that of the capture is.
 * If a record cannot be read (TORN_RECORD, BAD_FRACTION, RECORD_TOO_LONG), the packets before it are written, and `size` is that of what
 * was written. Room for the whole capture is always room enough.
 * Other faults: those of instructions and of bpftap_open, NO_ROOM, NO_MEMORY; nothing is written then. */
struct bpftap_result bpftap_cut(const uint8_t *capture, size_t capture_size, const BPFTAP_INSN *insns, size_t size, uint32_t snap,
                                uint8_t *to, size_t room);

/* ---- Listeners ---- */

/* A listener of a packet tap. It keeps the packets that a filter accepts in two buffers until they are read: the store takes them as they
 * arrive, and the hold waits for its reader. If a packet finds no room in the store, the store becomes the hold (a rotation); if the hold
 * still waits, the packet is dropped. Packets are counted as bpf(4) counts them.
 *
 *     struct bpftap_listener listener = {.store = {.bytes = memory, .room = 32768}, .hold = {.bytes = memory + 32768, .room = 32768},
 *                                        .snap = 96, .mode = BPFTAP_BUFFERED};
 *     struct bpftap_buffer batch = {.bytes = memory + 65536, .room = 32768};
 *     if (bpftap_listener_open(&listener)) ...
 *
 *     uint32_t answer = bpftap_program_run(program, bytes, record.captured, record.wire);
 *     if (bpftap_listener_arrive(&listener, answer, 0, &record, bytes, record.captured) == BPFTAP_ROTATED) ...
 *
 *     while (bpftap_listener_read(&listener, &batch).size > 0) {
 *         struct bpftap_message message;
 *         for (size_t at = 0; (message = bpftap_listener_next(&batch, &at)).fault == BPFTAP_OK;)
 *             use(batch.bytes + message.offset, message.captured, message.wire);
 *     }
 *
 * All its memory is the caller's, and it needs no clean-up. No call copies a packet but bpftap_listener_arrive, which copies the bytes that
 * are kept once; what is read stays in the buffer that was exchanged for it. */

/* A buffer: messages are in the first `size` of the `room` bytes that it has. Only the calls set `size` of a listener's buffers, which is
 * never above `room` then. bpftap_listener_read takes no notice of the `size` of the buffer that it is given, and bpftap_listener_next
 * takes one above `room` as `room`. */
struct bpftap_buffer {
    uint8_t *bytes;
    size_t room;
    size_t size;
};

/* When the store becomes the hold. */
enum bpftap_mode {
    BPFTAP_BUFFERED = 0, /* if a packet finds no room in it, and by a flush */
    BPFTAP_IMMEDIATE = 1 /* also after each packet that is stored while the hold is empty */
};

struct bpftap_listener {
    struct bpftap_buffer store, hold;
    uint64_t received; /* the packets that arrived before it was closed */
    uint64_t matched;  /* those of them that a filter accepted */
    uint64_t dropped;  /* those of the latter that found no room */
    uint32_t snap;     /* how many bytes of a packet are kept at most: from 1 to BPFTAP_MAX_SNAP */
    uint32_t mode;     /* enum bpftap_mode */
    uint32_t closed;   /* 0 if it is open */
};

/* What became of a packet. */
enum bpftap_fed {
    BPFTAP_PASSED = 0,  /* the filter rejected it */
    BPFTAP_STORED = 1,  /* it is in the store */
    BPFTAP_HELD = 2,    /* it is in the store, which became the hold: only with BPFTAP_IMMEDIATE */
    BPFTAP_ROTATED = 3, /* the store became the hold, and it is in the new store */
    BPFTAP_DROPPED = 4, /* it found no room */
    BPFTAP_CLOSED = 5   /* the listener is closed */
};

/* Opens a listener. The caller has set the bytes and the room of both buffers, `snap` and `mode`. Both buffers have the same room:
 * at least 32 bytes and `snap` rounded up to a multiple of 8, and at most BPFTAP_MAX_CAPACITY.
 * Its counts and the sizes of its buffers are 0 then, and `closed` is 0. Any mode but 0 is BPFTAP_IMMEDIATE.
 * Faults: BAD_SNAP, BAD_CAPACITY. The listener is closed then: `closed` is 1, its counts and sizes are 0, and all else is as it was. */
uint32_t bpftap_listener_open(struct bpftap_listener *listener);

/* Takes a packet that arrives. It has the place, the time and the wire length of `packet`, and comes from the capture of this number.
 * `answer` is what a filter answers to it: the least of `answer`, `snap` and `captured` is kept of it, and 0 rejects it. Fewer than 2^64 - 1
 * packets may arrive.
 * It returns an enum bpftap_fed. */
uint32_t bpftap_listener_arrive(struct bpftap_listener *listener, uint32_t answer, uint32_t capture, const struct bpftap_record *packet,
                                const uint8_t *bytes, size_t captured);

/* Flushes a listener: makes the store the hold if it has messages and the hold has none, as the read timeout of bpf(4) does, and returns
 * whether it did. */
bool bpftap_listener_flush(struct bpftap_listener *listener);

/* Reads the hold: its messages are in `batch` afterwards, `size` bytes, and what was in `batch` is forgotten. The two exchange their memory,
 * unless the listener is closed.
 * If there is nothing to read, `size` is 0.
 * Faults: BAD_CAPACITY (`batch` has more or less room than the listener's buffers); all is as it was then. */
struct bpftap_result bpftap_listener_read(struct bpftap_listener *listener, struct bpftap_buffer *batch);

/* Closes a listener: from now on nothing changes, nothing is read, and packets that arrive are not counted. Its buffers stay as they are,
 * byte for byte. */
void bpftap_listener_close(struct bpftap_listener *listener);

struct bpftap_message {
    size_t offset;     /* where the kept bytes begin in the buffer */
    uint64_t place;    /* the place of its record */
    uint32_t fault;    /* BPFTAP_OK, or BPFTAP_END; the numbers below are 0 then */
    uint32_t capture;  /* the number of its capture */
    uint32_t seconds;  /* since 1970 */
    uint32_t nanos;    /* below 1,000,000,000 if it was so in its record */
    uint32_t captured; /* the number of kept bytes */
    uint32_t wire;     /* the number of bytes on the wire */
};

/* Returns the next message of a buffer. Its record begins at `*at`, which is 0 for the first one and moves to the one after it. Messages come
 * oldest first.
 * It also reads the messages of a listener's own `hold` and `store`, which stay there. Whatever the bytes are, a message that it returns
 * lies within the first `size` of them.
 * Faults: END. */
struct bpftap_message bpftap_listener_next(const struct bpftap_buffer *batch, size_t *at);

/* ---- Steps ---- */

/* A capture in memory. */
struct bpftap_capture {
    const uint8_t *bytes;
    size_t size;
};

struct bpftap_replay {
    uint32_t fault;
    uint32_t number; /* which listener or capture the fault is of, from 0; 0 if it is of neither */
    size_t size;     /* the bytes of the text, without the zero byte after it; also with BPFTAP_NO_ROOM */
    size_t place;    /* where the fault is, if it has a place; else 0 */
};

/* Plays a script to listeners over captures, and writes the reports. They are what `bpftap steps` prints: for each listener its counts, the
 * batches that were read from it, and what it still has.
 * `listeners` and `script` are the contents of the files LISTENERS and SCRIPT of bpftap-steps(1): lines `SNAP CAPACITY EXPRESSION`, and
 * lines `arrive`, `flush L`, `read L` and `close L`. All lines are read before anything is played. How much room the text needs is not
 * known before; with a `room` of 0 it is returned.
 * If a record cannot be read, the packets before it are played, the reports are written, and the fault is returned beside their size:
 * TORN_RECORD, BAD_FRACTION, RECORD_TOO_LONG, of record `place` of capture `number`.
 * Other faults, where nothing is written: LISTENERS, SCRIPT, STEPS_TOO_MANY, NO_LISTENER; those of bpftap_open, of capture `number`; those
 * of an expression, and BAD_CAPACITY, of listener `number`; NO_ROOM; NO_MEMORY. */
struct bpftap_replay bpftap_steps(const char *listeners, size_t listeners_size, const char *script, size_t script_size,
                                  const struct bpftap_capture *captures, size_t count, char *to, size_t room);

/* Plays a script to listeners, and writes the reports as JSON Lines. It plays as bpftap_steps does, and writes what `bpftap steps --json`
 * prints: an object for each line of the text, which names its listener. Faults: those of bpftap_steps. */
struct bpftap_replay bpftap_steps_json(const char *listeners, size_t listeners_size, const char *script, size_t script_size,
                                       const struct bpftap_capture *captures, size_t count, char *to, size_t room);

/* Play a script to listeners, and write what each step does. They play as bpftap_steps does. bpftap_steps_answers writes what
 * `bpftap steps -v` prints before its reports: a line for each step, and below it one for each listener that the step reaches, with what it
 * answered, and why. bpftap_steps_answers_json writes an object of JSON Lines for each of these, with the number of its step.
 * Faults: those of bpftap_steps. */
struct bpftap_replay bpftap_steps_answers(const char *listeners, size_t listeners_size, const char *script, size_t script_size,
                                          const struct bpftap_capture *captures, size_t count, char *to, size_t room);
struct bpftap_replay bpftap_steps_answers_json(const char *listeners, size_t listeners_size, const char *script, size_t script_size,
                                               const struct bpftap_capture *captures, size_t count, char *to, size_t room);

/* Plays a script to listeners, and draws a picture of it. It plays as bpftap_steps does, and writes the SVG that `bpftap steps -p` draws, with
 * a lane for each listener over the steps, what each step found in the store and in the hold, and what became of it.
 * Faults: those of bpftap_steps. */
struct bpftap_replay bpftap_picture(const char *listeners, size_t listeners_size, const char *script, size_t script_size,
                                    const struct bpftap_capture *captures, size_t count, char *to, size_t room);

/* ---- Texts ---- */

/* Writes a fault as the program prints it: its name, and its place if it has one, as `BadWord 4`. Each name is that of one number: of
 * BPFTAP_RECORD_TOO_LONG it is `RecordTooLong`, where the program prints `TooLong`, and of BPFTAP_STEPS_TOO_MANY `StepsTooMany`, where it
 * prints `TooMany`. For a number that is no fault the text is `Unknown`. 64 bytes are always room enough. The call takes no memory of its
 * own, so that it can name BPFTAP_NO_MEMORY too. Faults: NO_ROOM. */
struct bpftap_result bpftap_fault_text(uint32_t fault, size_t place, char *to, size_t room);

/* Writes what helps to fix an expression that is refused: the sentence that the program prints below the line of such a fault. `fault` and
 * `place` are those that bpftap_compile, or another call that reads expressions, returned for this text. If libpcap's compiler may make a
 * program where this one makes none, a line feed and a second line follow, which says how. Both lines speak to a user of the program: some
 * name its commands and options (`bpftap cut`, `-f FILE`), other programs, or the shell and its quotes. A caller whose users type an
 * expression elsewhere may show the fault and its place instead. The text is empty, and `size` is 0, if `fault` is BPFTAP_BAD_SNAP or no fault of an expression; at every other fault there is a
 * sentence. In place of a control character of the text a sentence has a blank or `?`; other characters stay as they are, those that turn the
 * direction of a line too, as U+202E. 1,024 bytes are room enough in every test, which is not proved.
 * Faults: NOT_TEXT, NO_ROOM, NO_MEMORY. */
struct bpftap_result bpftap_hint(const char *text, size_t text_size, uint32_t fault, size_t place, char *to, size_t room);

/* Writes the version of the library, as `2.8.0 x86-64-v2`: after a blank the processor that it is made for, `x86-64-v2` or `aarch64`. 64 bytes
 * are always room enough.
 * Faults: NO_ROOM. */
struct bpftap_result bpftap_version(char *to, size_t room);

#ifdef __cplusplus
}
#endif

#endif
