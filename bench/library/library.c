/* What a packet costs by the library, beside libpcap's program by bpf_filter in the same process.
 *
 *     library EXPRESSION
 *
 * 10 million packets of 100 bytes, 1,024 different ones; best of three; nanoseconds of processor time for a packet. */
#include <pcap/pcap.h>
#define BPFTAP_INSN struct bpf_insn
#include <bpftap.h>
#include <stdio.h>
#include <stdlib.h>
#include <string.h>
#include <time.h>

enum { PACKETS = 10000000, KINDS = 1024, SIZE = 100, ROUNDS = PACKETS / KINDS };

static uint8_t memory[KINDS * SIZE], *capture;
static struct bpftap_span spans[KINDS];
static uint32_t sizes[KINDS];
static struct bpftap_packet packets[KINDS];
static uint32_t answers[KINDS];
static struct bpf_insn ours[BPFTAP_MAX_INSNS];
static struct bpf_program theirs;
static struct bpftap_program *program;
static size_t size, capture_size;
static volatile uint64_t sum;

static double now(void) {
    struct timespec time;
    clock_gettime(CLOCK_PROCESS_CPUTIME_ID, &time);
    return (double)time.tv_sec + (double)time.tv_nsec * 1e-9;
}

/* IPv4 frames: three of four are TCP, a half of these from or to port 80. */
static void make_packets(void) {
    srand(1);
    for (int i = 0; i < KINDS; i++) {
        uint8_t *packet = memory + i * SIZE;
        for (int k = 0; k < SIZE; k++) packet[k] = (uint8_t)rand();
        packet[12] = 8, packet[13] = 0, packet[14] = 0x45, packet[20] = 0x40, packet[21] = 0;
        int kind = rand() % 4;
        packet[23] = kind == 3 ? 17 : 6;
        if (kind == 0) packet[36] = 0, packet[37] = 80;
        if (kind == 1) packet[34] = 0, packet[35] = 80;
        packets[i] = (struct bpftap_packet){packet, SIZE, SIZE};
        spans[i] = (struct bpftap_span){(uint64_t)i * SIZE, SIZE, SIZE};
        sizes[i] = SIZE;
    }
}

/* The same packets as a capture of a hundred rounds. */
static void make_capture(void) {
    capture = malloc(24 + 100 * KINDS * (SIZE + 16));
    capture_size = bpftap_put_header(0, 0, 262144, capture, 24).size;
    for (int i = 0; i < 100 * KINDS; i++) {
        struct bpftap_record record = {.seconds = (uint32_t)i, .wire = SIZE};
        capture_size += bpftap_put(0, 0, &record, memory + i % KINDS * SIZE, SIZE, capture + capture_size, SIZE + 16).size;
    }
}

static void libpcap(const struct bpf_insn *insns) {
    for (int i = 0; i < PACKETS; i++) sum += bpf_filter(insns, memory + i % KINDS * SIZE, SIZE, SIZE);
}

static void by_libpcap(void) { libpcap(theirs.bf_insns); }

static void ours_by_libpcap(void) { libpcap(ours); }

static void by_run(void) {
    for (int i = 0; i < PACKETS; i++) sum += bpftap_program_run(program, memory + i % KINDS * SIZE, SIZE, SIZE);
}

static void by_each(void) {
    for (int i = 0; i < ROUNDS; i++) sum += bpftap_run_each(ours, size, packets, KINDS, answers, KINDS).size + answers[i % KINDS];
}

static void by_spans(void) {
    for (int i = 0; i < ROUNDS; i++)
        sum += bpftap_run_spans(ours, size, memory, sizeof memory, spans, KINDS, answers, KINDS).size + answers[i % KINDS];
}

static void by_joined(void) {
    for (int i = 0; i < ROUNDS; i++)
        sum += bpftap_run_joined(ours, size, memory, sizeof memory, sizes, KINDS, answers, KINDS).size + answers[i % KINDS];
}

/* The same over the prepared program, one packet or 256 a call. */
static void by_program_each(int batch) {
    for (int i = 0; i < PACKETS; i += batch) {
        sum += bpftap_program_run_each(program, packets + i % KINDS, (size_t)batch, answers, (size_t)batch).size + answers[0];
    }
}

static void by_program_spans(int batch) {
    for (int i = 0; i < PACKETS; i += batch) {
        sum += bpftap_program_run_spans(program, memory, sizeof memory, spans + i % KINDS, (size_t)batch, answers, (size_t)batch).size + answers[0];
    }
}

static void by_program_joined(int batch) {
    for (int i = 0; i < PACKETS; i += batch) {
        const uint8_t *first = memory + i % KINDS * SIZE;
        size_t size = (size_t)batch * SIZE;
        sum += bpftap_program_run_joined(program, first, size, sizes, (size_t)batch, answers, (size_t)batch).size + answers[0];
    }
}

static void by_one_each(void) { by_program_each(1); }
static void by_one_span(void) { by_program_spans(1); }
static void by_one_joined(void) { by_program_joined(1); }
static void by_many_each(void) { by_program_each(256); }
static void by_many_spans(void) { by_program_spans(256); }
static void by_many_joined(void) { by_program_joined(256); }

static void by_next(void) {
    for (int i = 0; i < ROUNDS / 100; i++) {
        struct bpftap_reader reader = bpftap_open(capture, capture_size);
        struct bpftap_record record;
        while ((record = bpftap_next(capture, capture_size, &reader)).fault == BPFTAP_OK) sum += capture[record.offset] + record.wire;
    }
}

/* A listener that keeps each packet whole in buffers of 512 KiB, and each of its messages. */
static void by_listener(void) {
    enum { ROOM = 1 << 19 };
    static uint8_t buffers[3 * ROOM];
    struct bpftap_listener listener = {
        .store = {buffers, ROOM, 0}, .hold = {buffers + ROOM, ROOM, 0}, .snap = SIZE, .mode = BPFTAP_BUFFERED};
    struct bpftap_buffer batch = {buffers + 2 * ROOM, ROOM, 0};
    bpftap_listener_open(&listener);
    struct bpftap_record record = {.seconds = 1, .wire = SIZE};
    for (int i = 0; i < PACKETS; i++) {
        record.place = (uint64_t)i;
        if (bpftap_listener_arrive(&listener, SIZE, 0, &record, memory + i % KINDS * SIZE, SIZE) != BPFTAP_ROTATED) continue;
        bpftap_listener_read(&listener, &batch);
        struct bpftap_message message;
        for (size_t at = 0; (message = bpftap_listener_next(&batch, &at)).fault == BPFTAP_OK;) sum += batch.bytes[message.offset] + message.wire;
    }
}

static uint32_t word(const uint8_t *at) {
    uint32_t number;
    memcpy(&number, at, 4);
    return number;
}

/* A plain loop over the same capture that makes the same tests. */
static void by_plain_loop(void) {
    for (int i = 0; i < ROUNDS / 100; i++) {
        size_t at = 24;
        while (capture_size - at >= 16) {
            uint32_t captured = word(capture + at + 8);
            if (word(capture + at + 4) >= 1000000 || captured > 262144 || capture_size - at - 16 < captured) break;
            sum += capture[at + 16] + word(capture + at + 12);
            at += 16 + captured;
        }
    }
}

static double time_of(void (*run)(void)) {
    double began = now();
    run();
    return (now() - began) * 1e9 / PACKETS;
}

static void measure(const char *what, void (*run)(void)) {
    double best = 1e9;
    for (int i = 0; i < 3; i++) {
        double time = time_of(run);
        if (time < best) best = time;
    }
    printf("  %-38s %7.2f\n", what, best);
}

static int by_size(const void *one, const void *other) { return (*(const double *)one > *(const double *)other) - (*(const double *)one < *(const double *)other); }

/* Also how many times that of `bpftap_program_run` it is: the median of 9, each beside the other, since other work on the machine slows both. */
static void measure_beside_run(const char *what, void (*run)(void)) {
    enum { TIMES = 9 };
    double best = 1e9, ratios[TIMES];
    for (int i = 0; i < TIMES; i++) {
        double other = time_of(by_run), time = time_of(run);
        if (time < best) best = time;
        ratios[i] = time / other;
    }
    qsort(ratios, TIMES, sizeof *ratios, by_size);
    printf("  %-38s %7.2f, %.2f of a run\n", what, best, ratios[TIMES / 2]);
}

int main(int argc, char **argv) {
    if (argc != 2) return 2;
    make_packets();
    make_capture();
    struct bpftap_result made = bpftap_compile(argv[1], strlen(argv[1]), 262144, ours, BPFTAP_MAX_INSNS);
    if (made.fault) return 3;
    size = made.size;
    program = malloc(bpftap_program_size());
    if (bpftap_program_init(program, ours, size)) return 3;
    pcap_t *dead = pcap_open_dead(DLT_EN10MB, 262144);
    if (pcap_compile(dead, &theirs, argv[1], 1, PCAP_NETMASK_UNKNOWN)) return 3;
    if (!bpf_validate(ours, (int)size)) return 4;
    for (int i = 0; i < KINDS; i++) {
        uint32_t answer = bpf_filter(theirs.bf_insns, memory + i * SIZE, SIZE, SIZE);
        if (answer != bpf_filter(ours, memory + i * SIZE, SIZE, SIZE)) return 5;
        if (answer != bpftap_program_run(program, memory + i * SIZE, SIZE, SIZE)) return 5;
    }
    printf("%.60s: %zu instructions, libpcap's %u\n", argv[1], size, theirs.bf_len);
    measure("libpcap's program, bpf_filter", by_libpcap);
    measure("our program, bpf_filter", ours_by_libpcap);
    measure("our program, bpftap_program_run", by_run);
    measure("our program, bpftap_run_each", by_each);
    measure("our program, bpftap_run_spans", by_spans);
    measure("our program, bpftap_run_joined", by_joined);
    measure_beside_run("bpftap_program_run_each, 1 a call", by_one_each);
    measure_beside_run("bpftap_program_run_spans, 1 a call", by_one_span);
    measure_beside_run("bpftap_program_run_joined, 1 a call", by_one_joined);
    measure_beside_run("bpftap_program_run_each, 256 a call", by_many_each);
    measure_beside_run("bpftap_program_run_spans, 256 a call", by_many_spans);
    measure_beside_run("bpftap_program_run_joined, 256 a call", by_many_joined);
    measure("bpftap_next", by_next);
    measure("a listener, each message read", by_listener);
    measure("a plain loop over records", by_plain_loop);
    return 0;
}
