/* SPDX-License-Identifier: MIT OR Apache-2.0 */
#include "calls.h"
#include <pthread.h>

/* What bpftap.h says: up to 1,000 bytes an expression needs 512 KiB, and two of any size need 2 MiB: there is room for more. */
enum { SHORT = 1000, STACK = 17 << 20 };

/* Runs a call on a thread with all the stack that it may need. Where there is none, nothing is run. */
static void deeply(void *(*call)(void *), void *with) {
    pthread_attr_t attributes;
    pthread_t thread;
    if (pthread_attr_init(&attributes)) return;
    if (!pthread_attr_setstacksize(&attributes, STACK) && !pthread_create(&thread, &attributes, call, with)) pthread_join(thread, NULL);
    pthread_attr_destroy(&attributes);
}

struct compile {
    const char *text;
    size_t size;
    uint32_t snap;
    struct bpftap_insn *insns;
    size_t room;
    struct bpftap_result result;
};

static void *compile(void *with) {
    struct compile *call = with;
    call->result = bpftap_compile(call->text, call->size, call->snap, call->insns, call->room);
    return NULL;
}

struct bpftap_result calls_compile(const char *text, size_t size, uint32_t snap, struct bpftap_insn *insns, size_t room) {
    struct compile call = {text, size, snap, insns, room, {BPFTAP_NO_MEMORY, 0, 0}};
    size > SHORT ? deeply(compile, &call) : (void)compile(&call);
    return call.result;
}

struct print {
    const char *text;
    size_t size;
    char *to;
    size_t room;
    struct bpftap_result result;
};

static void *print(void *with) {
    struct print *call = with;
    call->result = bpftap_print(call->text, call->size, call->to, call->room);
    return NULL;
}

struct bpftap_result calls_print(const char *text, size_t size, char *to, size_t room) {
    struct print call = {text, size, to, room, {BPFTAP_NO_MEMORY, 0, 0}};
    size > SHORT ? deeply(print, &call) : (void)print(&call);
    return call.result;
}

struct hint {
    const char *text;
    size_t size;
    uint32_t fault;
    size_t place;
    char *to;
    size_t room;
    struct bpftap_result result;
};

static void *hint(void *with) {
    struct hint *call = with;
    call->result = bpftap_hint(call->text, call->size, call->fault, call->place, call->to, call->room);
    return NULL;
}

struct bpftap_result calls_hint(const char *text, size_t size, uint32_t fault, size_t place, char *to, size_t room) {
    struct hint call = {text, size, fault, place, to, room, {BPFTAP_NO_MEMORY, 0, 0}};
    size > SHORT ? deeply(hint, &call) : (void)hint(&call);
    return call.result;
}

struct why {
    const char *text;
    size_t size;
    const uint8_t *packet;
    size_t captured;
    uint32_t wire;
    char *to;
    size_t room;
    struct bpftap_reason reason;
};

static void *why(void *with) {
    struct why *call = with;
    call->reason = bpftap_why(call->text, call->size, call->packet, call->captured, call->wire, call->to, call->room);
    return NULL;
}

struct bpftap_reason calls_why(const char *text, size_t size, const uint8_t *packet, size_t captured, uint32_t wire, char *to, size_t room) {
    struct why call = {text, size, packet, captured, wire, to, room, {BPFTAP_NO_MEMORY, 0, 0, 0}};
    size > SHORT ? deeply(why, &call) : (void)why(&call);
    return call.reason;
}

struct looks {
    const char *text;
    size_t size;
    const uint8_t *packet;
    size_t captured;
    uint32_t wire;
    struct bpftap_look *to;
    size_t room;
    struct bpftap_result result;
};

static void *looks(void *with) {
    struct looks *call = with;
    call->result = bpftap_looks(call->text, call->size, call->packet, call->captured, call->wire, call->to, call->room);
    return NULL;
}

struct bpftap_result calls_looks(const char *text, size_t size, const uint8_t *packet, size_t captured, uint32_t wire, struct bpftap_look *to, size_t room) {
    struct looks call = {text, size, packet, captured, wire, to, room, {BPFTAP_NO_MEMORY, 0, 0}};
    size > SHORT ? deeply(looks, &call) : (void)looks(&call);
    return call.result;
}

struct compare {
    const char *first, *second;
    size_t first_size, second_size, budget;
    uint8_t *to;
    size_t room;
    struct bpftap_comparison comparison;
};

static void *compare(void *with) {
    struct compare *call = with;
    call->comparison = bpftap_compare(call->first, call->first_size, call->second, call->second_size, call->budget, call->to, call->room);
    return NULL;
}

struct bpftap_comparison calls_compare(const char *first, size_t first_size, const char *second, size_t second_size, size_t budget,
                                       uint8_t *to, size_t room) {
    struct compare call = {first, second, first_size, second_size, budget, to, room, {BPFTAP_NO_MEMORY, 0, BPFTAP_NOT_DECIDED, 0, 0, 0, 0}};
    deeply(compare, &call);
    return call.comparison;
}

uint32_t calls_prepare(uint8_t *program, const struct bpftap_insn *insns, size_t size) {
    return bpftap_program_init((struct bpftap_program *)program, insns, size);
}

uint32_t calls_run(const uint8_t *program, const uint8_t *packet, size_t captured, uint32_t wire) {
    return bpftap_program_run((const struct bpftap_program *)program, packet, captured, wire);
}

void calls_run_spans(const uint8_t *program, const uint8_t *memory, size_t memory_size, const struct bpftap_span *spans, uint32_t *answers, size_t count) {
    bpftap_program_run_spans((const struct bpftap_program *)program, memory, memory_size, spans, count, answers, count);
}

#define PACKET(n) {bytes##n, captured##n, wire##n}
void calls_run_eight(const uint8_t *program, uint32_t *answers, CALLS_PACKET(0), CALLS_PACKET(1), CALLS_PACKET(2), CALLS_PACKET(3),
                     CALLS_PACKET(4), CALLS_PACKET(5), CALLS_PACKET(6), CALLS_PACKET(7)) {
    struct bpftap_packet packets[] = {PACKET(0), PACKET(1), PACKET(2), PACKET(3), PACKET(4), PACKET(5), PACKET(6), PACKET(7)};
    bpftap_program_run_each((const struct bpftap_program *)program, packets, 8, answers, 8);
}
