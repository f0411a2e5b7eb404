/* SPDX-License-Identifier: MIT OR Apache-2.0 */
/* The calls that read expressions, on a thread of their own if those are long: they may need more stack than a thread has. Such a call also
 * returns NO_MEMORY if there is no memory for the thread. */
#include <bpftap.h>

struct bpftap_result calls_compile(const char *text, size_t size, uint32_t snap, struct bpftap_insn *insns, size_t room);
struct bpftap_result calls_print(const char *text, size_t size, char *to, size_t room);
struct bpftap_result calls_hint(const char *text, size_t size, uint32_t fault, size_t place, char *to, size_t room);
struct bpftap_reason calls_why(const char *text, size_t size, const uint8_t *packet, size_t captured, uint32_t wire, char *to, size_t room);
struct bpftap_result calls_looks(const char *text, size_t size, const uint8_t *packet, size_t captured, uint32_t wire, struct bpftap_look *to, size_t room);
struct bpftap_comparison calls_compare(const char *first, size_t first_size, const char *second, size_t second_size, size_t budget,
                                       uint8_t *to, size_t room);

/* The calls of a prepared program. It lies in memory of Go, as bytes. */
uint32_t calls_prepare(uint8_t *program, const struct bpftap_insn *insns, size_t size);
uint32_t calls_run(const uint8_t *program, const uint8_t *packet, size_t captured, uint32_t wire);
void calls_run_spans(const uint8_t *program, const uint8_t *memory, size_t memory_size, const struct bpftap_span *spans, uint32_t *answers, size_t count);

/* Runs it on eight packets. Each is an argument, and not in an array, since memory that Go hands to C may have no pointers to memory of Go. */
#define CALLS_PACKET(n) const uint8_t *bytes##n, size_t captured##n, uint32_t wire##n
void calls_run_eight(const uint8_t *program, uint32_t *answers, CALLS_PACKET(0), CALLS_PACKET(1), CALLS_PACKET(2), CALLS_PACKET(3),
                     CALLS_PACKET(4), CALLS_PACKET(5), CALLS_PACKET(6), CALLS_PACKET(7));
