/* Two threads, each with a program and a listener of its own, and both with a program that they share. */
#include "check.h"
#include <bpftap.h>
#include <pthread.h>

enum { ROUNDS = 20000, ROOM = 720 };

static const uint8_t UDP[38] = {
    0xff, 0xff, 0xff, 0xff, 0xff, 0xff, 0, 1, 2, 3, 4, 5, 8, 0, 0x45, 0, 0, 0x18, 0, 0, 0, 0, 0x40, 17, 0, 0,
    10, 0, 0, 1, 10, 0, 0, 2, 0, 53, 0, 53};

static struct bpftap_program *shared;

struct job {
    const char *text;
    uint32_t answer;
    int wrong;
};

/* Leads a listener through packets, and returns what was wrong. Each ninth packet is kept and takes 72 bytes, so ten fill a buffer, and
 * both buffers are read after each hundred packets. */
static int listens(uint32_t number) {
    uint8_t *memory = block(3 * ROOM);
    struct bpftap_listener listener = {
        .store = {.bytes = memory, .room = ROOM}, .hold = {.bytes = memory + ROOM, .room = ROOM}, .snap = 38, .mode = BPFTAP_BUFFERED};
    struct bpftap_buffer batch = {.bytes = memory + 2 * ROOM, .room = ROOM};
    int wrong = bpftap_listener_open(&listener) != BPFTAP_OK;
    uint64_t next = 0;
    for (uint64_t i = 0; i < ROUNDS; i++) {
        struct bpftap_record packet = {.place = i, .wire = number};
        bpftap_listener_arrive(&listener, i % 9 == 0 ? 100 : 0, number, &packet, UDP, sizeof UDP);
        if (i % 100 != 99) continue;
        bpftap_listener_flush(&listener);
        wrong += bpftap_listener_read(&listener, &batch).fault != BPFTAP_OK;
        struct bpftap_message message;
        for (size_t at = 0; (message = bpftap_listener_next(&batch, &at)).fault == BPFTAP_OK; next += 9)
            wrong += message.place != next || message.capture != number || message.wire != number || memcmp(batch.bytes + message.offset, UDP, 38) != 0;
        bpftap_listener_flush(&listener);
        bpftap_listener_read(&listener, &batch);
        for (size_t at = 0; (message = bpftap_listener_next(&batch, &at)).fault == BPFTAP_OK; next += 9) wrong += message.place != next;
    }
    wrong += listener.received != ROUNDS || listener.matched != next / 9 || listener.dropped != 0;
    free(memory);
    return wrong;
}

/* Runs the shared program over batches, traces a run, and reads the expression again; returns what was wrong. */
static int shares(const struct job *job) {
    const struct bpftap_packet packets[2] = {{UDP, sizeof UDP, 38}, {UDP, 20, 38}};
    const uint32_t sizes[2] = {38, 38};
    const struct bpftap_span spans[2] = {{0, 38, 38}, {20, 38, 38}};
    uint32_t each[2], joined[2], spanned[2];
    int wrong = bpftap_program_run_each(shared, packets, 2, each, 2).size != 2;
    wrong += bpftap_program_run_joined(shared, UDP, sizeof UDP, sizes, 2, joined, 2).size != 2;
    wrong += bpftap_program_run_spans(shared, UDP, sizeof UDP, spans, 2, spanned, 2).size != 2;
    for (int i = 0; i < 2; i++) wrong += each[i] != 7 || joined[i] != 7 || spanned[i] != 7;
    static const struct bpftap_insn seven[1] = {{6, 0, 0, 7}};
    struct bpftap_executed executed[1];
    wrong += bpftap_trace(seven, 1, UDP, sizeof UDP, 38, executed, 1).answer != 7;
    struct bpftap_look looks[8];
    return wrong + (bpftap_looks(job->text, strlen(job->text), UDP, sizeof UDP, 38, looks, 8).fault != BPFTAP_OK);
}

static void *run(void *given) {
    struct job *job = given;
    struct bpftap_program *own = block(bpftap_program_size());
    struct bpftap_insn insns[BPFTAP_MAX_INSNS];
    for (int i = 0; i < ROUNDS; i++) {
        if (i % 100 == 0) {
            struct bpftap_result made = bpftap_compile(job->text, strlen(job->text), 100, insns, BPFTAP_MAX_INSNS);
            job->wrong += made.fault != BPFTAP_OK || bpftap_program_init(own, insns, made.size) != BPFTAP_OK;
            job->wrong += shares(job);
        }
        job->wrong += bpftap_program_run(own, UDP, sizeof UDP, sizeof UDP) != job->answer;
        job->wrong += bpftap_program_run(shared, UDP, sizeof UDP, sizeof UDP) != 7;
    }
    free(own);
    job->wrong += listens(job->answer + 1);
    return NULL;
}

int main(void) {
    static const struct bpftap_insn seven[1] = {{6, 0, 0, 7}};
    shared = block(bpftap_program_size());
    CHECK(bpftap_program_init(shared, seven, 1) == BPFTAP_OK);
    struct job jobs[2] = {{"udp port 53", 100, 0}, {"tcp or arp", 0, 0}};
    pthread_t threads[2];
    for (int i = 0; i < 2; i++) CHECK(pthread_create(threads + i, NULL, run, jobs + i) == 0);
    for (int i = 0; i < 2; i++) CHECK(pthread_join(threads[i], NULL) == 0);
    CHECK(jobs[0].wrong == 0 && jobs[1].wrong == 0);
    free(shared);
    return failures != 0;
}
