/* SPDX-License-Identifier: MIT OR Apache-2.0 */
/* Shows which packets a slow reader loses: tap EXPRESSION CAPTURE EVERY
 *
 *     cc -o tap tap.c -lbpftap
 *     ./tap 'len > 50' examples/veth.pcap 90
 *
 * A listener with two buffers of 4,096 bytes keeps at most 96 bytes of each packet that the filter accepts. It is read after each EVERY
 * packets.
 */
#include "file.h"
#include <bpftap.h>
#include <stdio.h>
#include <stdlib.h>
#include <string.h>

enum { SNAP = 96, ROOM = 4096 };

static int fail(const char *what, uint32_t fault, size_t place) {
    char text[64];
    bpftap_fault_text(fault, place, text, sizeof text);
    fprintf(stderr, "tap: %s: %s\n", what, text);
    return 1;
}

/* Reads what the listener holds, and prints which packets it is. */
static void read_hold(struct bpftap_listener *listener, struct bpftap_buffer *batch) {
    if (bpftap_listener_read(listener, batch).size == 0) return;
    struct bpftap_message message;
    printf("read:");
    for (size_t at = 0; (message = bpftap_listener_next(batch, &at)).fault == BPFTAP_OK;) printf(" %llu", (unsigned long long)message.place);
    printf("\n");
}

int main(int argc, char **argv) {
    if (argc != 4 || atoi(argv[3]) < 1) return fprintf(stderr, "usage: tap EXPRESSION CAPTURE EVERY\n"), 1;
    struct bpftap_insn insns[BPFTAP_MAX_INSNS];
    struct bpftap_result compiled = bpftap_compile(argv[1], strlen(argv[1]), SNAP, insns, BPFTAP_MAX_INSNS);
    if (compiled.fault) return fail(argv[1], compiled.fault, compiled.place);
    struct bpftap_program *program = (struct bpftap_program *)malloc(bpftap_program_size());
    size_t size = 0;
    uint8_t *capture = read_file(argv[2], &size);
    if (!program || !capture) return perror("tap"), 1;
    bpftap_program_init(program, insns, compiled.size);

    static uint8_t memory[3][ROOM];
    struct bpftap_buffer store = {memory[0], ROOM, 0}, hold = {memory[1], ROOM, 0}, batch = {memory[2], ROOM, 0};
    struct bpftap_listener listener = {store, hold, 0, 0, 0, SNAP, BPFTAP_BUFFERED, 0};
    uint32_t fault = bpftap_listener_open(&listener);
    if (fault) return fail("listener", fault, 0);

    struct bpftap_reader reader = bpftap_open(capture, size);
    if (reader.fault) return fail(argv[2], reader.fault, 0);
    struct bpftap_record record;
    while ((record = bpftap_next(capture, size, &reader)).fault == BPFTAP_OK) {
        const uint8_t *packet = capture + record.offset;
        uint32_t answer = bpftap_program_run(program, packet, record.captured, record.wire);
        if (bpftap_listener_arrive(&listener, answer, 0, &record, packet, record.captured) == BPFTAP_DROPPED)
            printf("dropped: %llu\n", (unsigned long long)record.place);
        if (reader.place % (uint64_t)atoi(argv[3]) == 0) read_hold(&listener, &batch);
    }
    read_hold(&listener, &batch);
    if (bpftap_listener_flush(&listener)) read_hold(&listener, &batch);
    printf("received %llu, matched %llu, dropped %llu\n", (unsigned long long)listener.received, (unsigned long long)listener.matched,
           (unsigned long long)listener.dropped);
    free(capture);
    free(program);
    return record.fault == BPFTAP_END ? 0 : fail(argv[2], record.fault, record.place);
}
