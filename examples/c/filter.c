/* SPDX-License-Identifier: MIT OR Apache-2.0 */
/* Keeps the packets of a capture that a filter accepts: filter EXPRESSION IN OUT
 *
 *     cc -o filter filter.c -lbpftap
 *     ./filter 'udp port 5353' examples/veth.pcap dns.pcap
 */
#include "file.h"
#include <bpftap.h>
#include <stdio.h>
#include <stdlib.h>
#include <string.h>

static int fail(const char *what, uint32_t fault, size_t place) {
    char text[64];
    bpftap_fault_text(fault, place, text, sizeof text);
    fprintf(stderr, "filter: %s: %s\n", what, text);
    return 1;
}

/* OUT is not written, for the reason that errno has. */
static int fail_to_write(const char *path) {
    fprintf(stderr, "filter: ");
    perror(path);
    return 1;
}

int main(int argc, char **argv) {
    if (argc != 4) return fprintf(stderr, "usage: filter EXPRESSION IN OUT\n"), 1;
    struct bpftap_insn insns[BPFTAP_MAX_INSNS];
    struct bpftap_result compiled = bpftap_compile(argv[1], strlen(argv[1]), BPFTAP_MAX_SNAP, insns, BPFTAP_MAX_INSNS);
    if (compiled.fault) return fail(argv[1], compiled.fault, compiled.place);
    struct bpftap_program *program = (struct bpftap_program *)malloc(bpftap_program_size());
    size_t size = 0;
    uint8_t *memory = read_file(argv[2], &size);
    if (!program || !memory) return perror("filter"), 1;
    bpftap_program_init(program, insns, compiled.size);

    struct bpftap_reader reader = bpftap_open(memory, size);
    if (reader.fault) return fail(argv[2], reader.fault, 0);
    /* Only now, so that OUT is not lost if IN is no capture. */
    FILE *out = fopen(argv[3], "wb");
    if (!out) return fail_to_write(argv[3]);
    uint8_t header[24];
    bpftap_put_header(reader.order, reader.unit, reader.snap, header, sizeof header);
    if (fwrite(header, sizeof header, 1, out) != 1) return fail_to_write(argv[3]);
    struct bpftap_record record;
    unsigned long kept = 0;
    while ((record = bpftap_next(memory, size, &reader)).fault == BPFTAP_OK) {
        const uint8_t *packet = memory + record.offset;
        if (bpftap_program_run(program, packet, record.captured, record.wire)) {
            /* The whole record: its header of 16 bytes and the captured bytes. */
            if (fwrite(packet - 16, 16 + record.captured, 1, out) != 1) return fail_to_write(argv[3]);
            kept++;
        }
    }
    /* What is in its buffer is written here. */
    if (fclose(out) != 0) return fail_to_write(argv[3]);
    printf("%lu of %llu packets\n", kept, (unsigned long long)record.place);
    free(memory);
    free(program);
    return record.fault == BPFTAP_END ? 0 : fail(argv[2], record.fault, record.place);
}
