/* Makes each call on a thread with a small stack.
 *
 *     stacks KIB [BUDGET] <LINES    BUDGET: how many nodes bpftap_compare may take
 *
 * A line is two expressions with a tab between them; a call that takes one expression takes the first. For each line it prints how many
 * bytes of the stack each of `CALLS` touched. A stack that is too small ends the program by a signal. */
#define _GNU_SOURCE
#include "check.h"
#include <bpftap.h>
#include <pthread.h>
#include <sys/mman.h>

/* What lies below the stack is not mapped, so that a frame that is larger than a page faults too. */
enum { BELOW = 64 << 20, ROOM = 1 << 20, PAINT = 0xa5 };

static size_t budget = 20000;

/* A UDP packet from port 53 to port 53, of which every byte is captured. */
static const uint8_t UDP[42] = {
    0xff, 0xff, 0xff, 0xff, 0xff, 0xff, 0, 1, 2, 3, 4, 5, 8, 0, 0x45, 0, 0, 0x1c, 0, 0, 0, 0, 0x40, 17, 0, 0,
    10, 0, 0, 1, 10, 0, 0, 2, 0, 53, 0, 53, 0, 8, 0, 0};

static const char *first, *second;
static char *to;
static struct bpftap_capture capture;
static struct bpftap_insn insns[BPFTAP_MAX_INSNS];
static size_t size_of_program;

static void *compile(void *unused) {
    size_of_program = bpftap_compile(first, strlen(first), 96, insns, BPFTAP_MAX_INSNS).size;
    return unused;
}

static void *print(void *unused) {
    bpftap_print(first, strlen(first), to, ROOM);
    return unused;
}

/* At its end, and at a word in the middle. */
static void *hint(void *unused) {
    bpftap_hint(first, strlen(first), BPFTAP_SYNTAX, strlen(first), to, ROOM);
    bpftap_hint(first, strlen(first), BPFTAP_BAD_WORD, strlen(first) / 2, to, ROOM);
    return unused;
}

static void *why(void *unused) {
    for (size_t captured = 0; captured <= sizeof UDP; captured += sizeof UDP)
        bpftap_why(first, strlen(first), UDP, captured, sizeof UDP, to, ROOM);
    return unused;
}

static void *looks(void *unused) {
    for (size_t captured = 0; captured <= sizeof UDP; captured += sizeof UDP)
        bpftap_looks(first, strlen(first), UDP, captured, sizeof UDP, (struct bpftap_look *)to, ROOM / sizeof(struct bpftap_look));
    return unused;
}

static void *compare(void *unused) {
    bpftap_compare(first, strlen(first), second, strlen(second), budget, (uint8_t *)to, ROOM);
    return unused;
}

/* Plays a packet to a listener of the first expression. */
static void play(struct bpftap_replay (*call)(const char *, size_t, const char *, size_t, const struct bpftap_capture *, size_t, char *, size_t)) {
    static const char script[] = "arrive\nflush 0\nread 0\nclose 0\n";
    char *listeners = NULL;
    int size = asprintf(&listeners, "96 4096 %s\n", first);
    if (size < 0) exit(2);
    call(listeners, size, script, sizeof script - 1, &capture, 1, to, ROOM);
    free(listeners);
}

static void *steps(void *unused) {
    play(bpftap_steps);
    return unused;
}

static void *steps_json(void *unused) {
    play(bpftap_steps_json);
    return unused;
}

static void *answers(void *unused) {
    play(bpftap_steps_answers);
    return unused;
}

static void *picture(void *unused) {
    play(bpftap_picture);
    return unused;
}

/* The calls that read no expression, with the program that was compiled last. */
static void *others(void *unused) {
    struct bpftap_result listing = bpftap_write_listing(insns, size_of_program, to, ROOM);
    bpftap_read_listing(to, listing.size, insns, BPFTAP_MAX_INSNS);
    bpftap_image(insns, size_of_program, to, ROOM);
    bpftap_cut(capture.bytes, capture.size, insns, size_of_program, 0, (uint8_t *)to, ROOM);
    struct bpftap_program *program = block(bpftap_program_size());
    bpftap_program_init(program, insns, size_of_program);
    bpftap_program_run(program, UDP, sizeof UDP, sizeof UDP);
    uint32_t answer;
    bpftap_program_run_each(program, &(struct bpftap_packet){UDP, sizeof UDP, sizeof UDP}, 1, &answer, 1);
    bpftap_trace(insns, size_of_program, UDP, sizeof UDP, sizeof UDP, (struct bpftap_executed *)to, BPFTAP_MAX_INSNS);
    free(program);
    bpftap_run_spans(insns, size_of_program, UDP, sizeof UDP, &(struct bpftap_span){0, sizeof UDP, sizeof UDP}, 1, &answer, 1);
    bpftap_fault_text(BPFTAP_BAD_WORD, SIZE_MAX, to, ROOM);
    struct bpftap_reader reader = bpftap_open(capture.bytes, capture.size);
    bpftap_spans(capture.bytes, capture.size, &reader, &(struct bpftap_span){0, 0, 0}, 1);
    return unused;
}

static void *(*const CALLS[])(void *) = {compile, print, hint, why, looks, compare, steps, steps_json, answers, picture, others};

/* How much of a stack of this size a call touches. */
static size_t touched(void *(*call)(void *), uint8_t *stack, size_t size) {
    memset(stack, PAINT, size);
    pthread_attr_t attributes;
    pthread_t thread;
    if (pthread_attr_init(&attributes) || pthread_attr_setstack(&attributes, stack, size)) exit(2);
    if (pthread_create(&thread, &attributes, call, NULL) || pthread_join(thread, NULL)) exit(2);
    pthread_attr_destroy(&attributes);
    size_t untouched = 0;
    while (untouched < size && stack[untouched] == PAINT) untouched++;
    return size - untouched;
}

/* A capture of the packet. */
static struct bpftap_capture captured(void) {
    static uint8_t bytes[24 + 16 + sizeof UDP];
    struct bpftap_record record = {.wire = sizeof UDP};
    CHECK(bpftap_put_header(0, 0, 96, bytes, 24).fault == BPFTAP_OK);
    CHECK(bpftap_put(0, 0, &record, UDP, sizeof UDP, bytes + 24, sizeof bytes - 24).fault == BPFTAP_OK);
    return (struct bpftap_capture){bytes, sizeof bytes};
}

int main(int argc, char **argv) {
    size_t size = argc >= 2 ? strtoul(argv[1], NULL, 10) << 10 : 0;
    if (argc == 3) budget = strtoul(argv[2], NULL, 10);
    uint8_t *memory = mmap(NULL, BELOW + size, PROT_NONE, MAP_PRIVATE | MAP_ANONYMOUS | MAP_NORESERVE, -1, 0);
    if (size == 0 || memory == MAP_FAILED || mprotect(memory + BELOW, size, PROT_READ | PROT_WRITE)) return 2;
    to = block(ROOM);
    capture = captured();
    char *line = NULL;
    for (size_t room = 0; getline(&line, &room, stdin) > 0;) {
        line[strcspn(line, "\n")] = 0;
        char *tab = strchr(line, '\t');
        if (!tab) return 2;
        *tab = 0;
        first = line, second = tab + 1;
        for (size_t i = 0; i < sizeof CALLS / sizeof *CALLS; i++)
            printf("%zu%c", touched(CALLS[i], memory + BELOW, size), i + 1 < sizeof CALLS / sizeof *CALLS ? '\t' : '\n');
        fflush(stdout);
    }
    free(line);
    free(to);
    return failures != 0;
}
