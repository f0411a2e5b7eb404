/* What expressions answer to the packets of a capture, by the three ways to run a program.
 *
 *     answers CAPTURE <EXPRESSIONS
 *
 * Prints a line for each expression: its fault, or a digit for each packet, 1 if it is accepted. */
#include "check.h"
#include <bpftap.h>

enum { MOST = 1000, SNAP = 262144 };

static struct bpftap_packet packets[MOST];
static struct bpftap_span spans[MOST];
static uint32_t each[MOST], spanned[MOST];

int main(int argc, char **argv) {
    static uint8_t memory[1 << 20];
    static char line[1 << 16];
    FILE *file = argc == 2 ? fopen(argv[1], "rb") : NULL;
    if (!file) return 2;
    size_t size = fread(memory, 1, sizeof memory, file), count = 0;
    fclose(file);
    struct bpftap_reader reader = bpftap_open(memory, size);
    struct bpftap_record record;
    while (count < MOST && (record = bpftap_next(memory, size, &reader)).fault == BPFTAP_OK) {
        packets[count] = (struct bpftap_packet){memory + record.offset, record.captured, record.wire};
        spans[count++] = (struct bpftap_span){record.offset, record.captured, record.wire};
    }
    struct bpftap_program *program = block(bpftap_program_size());
    while (fgets(line, sizeof line, stdin)) {
        struct bpftap_insn insns[BPFTAP_MAX_INSNS];
        struct bpftap_result made = bpftap_compile(line, strcspn(line, "\n"), SNAP, insns, BPFTAP_MAX_INSNS);
        if (made.fault) {
            char text[64];
            bpftap_fault_text(made.fault, made.place, text, sizeof text);
            puts(text);
            continue;
        }
        CHECK(bpftap_program_init(program, insns, made.size) == BPFTAP_OK);
        CHECK(bpftap_run_each(insns, made.size, packets, count, each, MOST).size == count);
        CHECK(bpftap_run_spans(insns, made.size, memory, size, spans, count, spanned, MOST).size == count);
        for (size_t i = 0; i < count; i++) {
            uint32_t answer = bpftap_program_run(program, packets[i].bytes, packets[i].captured, packets[i].wire);
            CHECK(answer == each[i] && answer == spanned[i] && (answer == 0 || answer == SNAP));
            putchar(answer ? '1' : '0');
        }
        putchar('\n');
    }
    free(program);
    return failures != 0;
}
