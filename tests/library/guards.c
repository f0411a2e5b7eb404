/* Each call between guard pages: what it reads and what it writes lies at the end of a page before one that is not mapped, or at the begin of
 * one after such a page, so that a byte read or written beside it ends the program by a signal.
 *
 *     guards CAPTURE ROUNDS <EXPRESSIONS
 *
 * In each round an expression, a packet, and lengths that are cut at random. Rooms are what is needed, and one item less. */
#define _GNU_SOURCE
#include "check.h"
#include <bpftap.h>
#include <sys/mman.h>

enum { PAGE = 4096, PAGES = 80, REGIONS = 5, SNAP = 262144 };

/* Where the memory of each argument is, and the size of the part that is mapped. */
static uint8_t *regions[REGIONS];
static int is_last;

static void map_regions(void) {
    for (int i = 0; i < REGIONS; i++) {
        uint8_t *at = mmap(NULL, (PAGES + 2) * PAGE, PROT_NONE, MAP_PRIVATE | MAP_ANONYMOUS, -1, 0);
        if (at == MAP_FAILED || mprotect(at + PAGE, PAGES * PAGE, PROT_READ | PROT_WRITE)) exit(2);
        regions[i] = at + PAGE;
    }
}

/* Memory of this size beside a guard page. What was there is forgotten. */
static void *beside(int region, size_t size) {
    if (size > PAGES * PAGE) exit(2);
    uint8_t *at = is_last ? regions[region] + PAGES * PAGE - size : regions[region];
    memset(at, 0xa5, size);
    return at;
}

static void *copied(int region, const void *bytes, size_t size) {
    void *at = beside(region, size);
    if (size) memcpy(at, bytes, size);
    return at;
}

/* A number below another one, which looks random. */
static size_t below(size_t most) {
    static uint64_t state = 88172645463325252u;
    state ^= state << 13, state ^= state >> 7, state ^= state << 17;
    return most ? state % most : 0;
}

struct input {
    const char *text;
    size_t text_size;
    const uint8_t *packet;
    size_t captured;
    uint32_t wire;
};

/* Calls again with room for all, and with room for one item less: that one is refused and writes nothing. A text has a byte more. */
#define WITH_ROOM(region, type, extra, CALL)                                                \
    do {                                                                                    \
        size_t room = 0;                                                                    \
        type *to = NULL;                                                                    \
        size_t need = (CALL).size;                                                          \
        room = need + (extra), to = beside(region, room * sizeof *to);                      \
        CHECK((CALL).fault == BPFTAP_OK);                                                   \
        if (room > 0) {                                                                     \
            room--, to = beside(region, room * sizeof *to);                                 \
            CHECK((CALL).fault == BPFTAP_NO_ROOM && untouched(to, room * sizeof *to));      \
        }                                                                                   \
    } while (0)

static void read_texts(const struct input *in) {
    const char *text = copied(0, in->text, in->text_size);
    const uint8_t *packet = copied(1, in->packet, in->captured);
    WITH_ROOM(2, char, 1, bpftap_print(text, in->text_size, to, room));
    WITH_ROOM(2, char, 1, bpftap_why(text, in->text_size, packet, in->captured, in->wire, to, room));
    WITH_ROOM(2, struct bpftap_look, 0, bpftap_looks(text, in->text_size, packet, in->captured, in->wire, to, room));
    struct bpftap_comparison found = bpftap_compare(text, in->text_size, "udp", 3, 2000, beside(2, 1514), 1514);
    if (found.fault == BPFTAP_OK && found.size > 0) {
        uint8_t *to = beside(2, found.size - 1);
        CHECK(bpftap_compare(text, in->text_size, "udp", 3, 2000, to, found.size - 1).fault == BPFTAP_NO_ROOM && untouched(to, found.size - 1));
    }
    /* A text that ends anywhere is refused or compiled, and read no further. */
    size_t cut = below(in->text_size + 1);
    text = copied(0, in->text, cut);
    struct bpftap_result made = bpftap_compile(text, cut, SNAP, beside(2, BPFTAP_MAX_INSNS * 8), BPFTAP_MAX_INSNS);
    WITH_ROOM(2, char, 1, bpftap_hint(text, cut, made.fault, made.place, to, room));
    uint32_t fault = below(60);
    size_t place = below(cut + 2);
    WITH_ROOM(2, char, 1, bpftap_hint(text, cut, fault, place, to, room));
}

static void run_batches(const struct bpftap_program *program, const struct bpftap_insn *insns, size_t size, const struct input *in) {
    const uint8_t *packet = copied(1, in->packet, in->captured);
    uint32_t answer = bpftap_program_run(program, packet, in->captured, in->wire);
    struct bpftap_packet packets[2] = {{packet, in->captured, in->wire}, {packet + in->captured, 0, in->wire}};
    struct bpftap_span spans[3] = {{0, in->captured, in->wire}, {below(99), below(99), in->wire}, {below(9) - 1, UINT32_MAX, 60}};
    uint32_t sizes[3] = {in->captured, below(9), UINT32_MAX};
    const struct bpftap_packet *given = copied(3, packets, sizeof packets);
    for (int call = 0; call < 2; call++) {
        uint32_t *answers = beside(2, 2 * sizeof *answers);
        struct bpftap_result made = call ? bpftap_program_run_each(program, given, 2, answers, 2) : bpftap_run_each(insns, size, given, 2, answers, 2);
        CHECK(made.fault == BPFTAP_OK && made.size == 2 && answers[0] == answer);
    }
    const struct bpftap_span *where = copied(3, spans, sizeof spans);
    for (int call = 0; call < 2; call++) {
        uint32_t *answers = beside(2, 3 * sizeof *answers);
        struct bpftap_result made = call ? bpftap_program_run_spans(program, packet, in->captured, where, 3, answers, 3)
                                         : bpftap_run_spans(insns, size, packet, in->captured, where, 3, answers, 3);
        CHECK(made.fault == BPFTAP_OK && made.size == 3 && answers[0] == answer);
    }
    const uint32_t *lengths = copied(3, sizes, sizeof sizes);
    for (int call = 0; call < 2; call++) {
        uint32_t *answers = beside(2, 3 * sizeof *answers);
        struct bpftap_result made = call ? bpftap_program_run_joined(program, packet, in->captured, lengths, 3, answers, 3)
                                         : bpftap_run_joined(insns, size, packet, in->captured, lengths, 3, answers, 3);
        CHECK(made.fault == BPFTAP_OK && made.size == 3);
    }
    WITH_ROOM(2, struct bpftap_executed, 0, bpftap_trace(insns, size, packet, in->captured, in->wire, to, room));
}

/* The calls on instructions, which lie beside a guard page too, and on a program of them. */
static void run_programs(const struct input *in) {
    static struct bpftap_insn made[BPFTAP_MAX_INSNS];
    size_t size = bpftap_compile(in->text, in->text_size, SNAP, made, BPFTAP_MAX_INSNS).size;
    WITH_ROOM(2, struct bpftap_insn, 0, bpftap_compile(in->text, in->text_size, SNAP, to, room));
    const struct bpftap_insn *insns = copied(0, made, size * sizeof *insns);
    CHECK(bpftap_check(insns, size).fault == BPFTAP_OK);
    WITH_ROOM(2, char, 1, bpftap_image(insns, size, to, room));
    WITH_ROOM(2, char, 1, bpftap_write_listing(insns, size, to, room));
    static char listing[1 << 14];
    size_t listed = bpftap_write_listing(insns, size, listing, sizeof listing).size;
    const char *text = copied(1, listing, listed);
    WITH_ROOM(2, struct bpftap_insn, 0, bpftap_read_listing(text, listed, to, room));
    size_t cut = below(listed + 1);
    bpftap_read_listing(copied(1, listing, cut), cut, beside(2, BPFTAP_MAX_INSNS * 8), BPFTAP_MAX_INSNS);
    /* It is aligned as malloc aligns. */
    struct bpftap_program *program = beside(4, (bpftap_program_size() + 15) / 16 * 16);
    CHECK(bpftap_program_init(program, insns, size) == BPFTAP_OK);
    run_batches(program, insns, size, in);
}

/* A capture is read many records at a time: the spans are those of the records that are read one by one. */
static void read_spans(const uint8_t *memory, size_t end) {
    struct bpftap_reader *each = beside(1, sizeof *each), *many = beside(3, sizeof *many);
    *each = *many = bpftap_open(memory, end);
    struct bpftap_result found;
    do {
        size_t room = below(20);
        struct bpftap_span *spans = beside(2, room * sizeof *spans);
        found = bpftap_spans(memory, end, many, spans, room);
        for (size_t i = 0; i < found.size; i++) {
            struct bpftap_record record = bpftap_next(memory, end, each);
            CHECK(record.fault == BPFTAP_OK && spans[i].offset == record.offset && spans[i].captured == record.captured && spans[i].wire == record.wire);
        }
        CHECK(found.size == room || found.fault != BPFTAP_OK);
        CHECK(untouched(spans + found.size, (room - found.size) * sizeof *spans));
    } while (found.fault == BPFTAP_OK);
    struct bpftap_record last = bpftap_next(memory, end, each);
    CHECK(last.fault == found.fault && last.place == found.place && each->offset == many->offset && each->place == many->place);
}

/* A capture that ends anywhere: it is read, and cut into room for exactly what is kept. */
static void read_captures(const uint8_t *whole, size_t size) {
    size_t end = below(size + 1);
    end = end > PAGES * PAGE ? PAGES * PAGE : end;
    const uint8_t *memory = copied(0, whole, end);
    struct bpftap_reader *reader = beside(1, sizeof *reader);
    read_spans(memory, end);
    *reader = bpftap_open(memory, end);
    if (reader->fault) return;
    struct bpftap_record record;
    while ((record = bpftap_next(memory, end, reader)).fault == BPFTAP_OK)
        if (below(50) == 0) {
            const struct bpftap_record *given = copied(2, &record, sizeof record);
            size_t room = record.captured + 16;
            const uint8_t *bytes = copied(3, memory + record.offset, record.captured);
            CHECK(bpftap_put(below(2), below(2), given, bytes, record.captured, beside(4, room), room).size == room);
            CHECK(bpftap_put(0, 0, given, bytes, record.captured, beside(4, room - 1), room - 1).fault == BPFTAP_NO_ROOM);
        }
    static const struct bpftap_insn all[1] = {{6, 0, 0, 60}};
    struct bpftap_result cut = bpftap_cut(memory, end, all, 1, 0, beside(4, end), end);
    CHECK(bpftap_cut(memory, end, all, 1, 0, beside(4, cut.size), cut.size).fault == cut.fault);
    CHECK(bpftap_cut(memory, end, all, 1, 0, beside(4, cut.size - 1), cut.size - 1).fault == BPFTAP_NO_ROOM);
    CHECK(bpftap_put_header(0, 1, 96, beside(4, 24), 24).size == 24 && bpftap_put_header(0, 1, 96, beside(4, 23), 23).fault == BPFTAP_NO_ROOM);
}

/* A listener whose three buffers lie beside guard pages. */
static void keep_packets(const struct input *in) {
    size_t room = 32 + (in->captured + 7) / 8 * 8 + 8 * below(20);
    if (in->captured == 0 || room > PAGES * PAGE) return;
    struct bpftap_buffer store = {beside(0, room), room, 0}, hold = {beside(2, room), room, 0}, batch = {beside(3, room), room, 0};
    struct bpftap_listener listener = {.store = store, .hold = hold, .snap = in->captured, .mode = below(2)};
    CHECK(bpftap_listener_open(&listener) == BPFTAP_OK);
    struct bpftap_record record = {.wire = in->wire};
    const uint8_t *packet = copied(1, in->packet, in->captured);
    for (int i = 0; i < 9; i++) {
        bpftap_listener_arrive(&listener, below(2) * SNAP, 0, &record, packet, in->captured);
        if (below(3) == 0) bpftap_listener_flush(&listener);
        if (below(3)) continue;
        CHECK(bpftap_listener_read(&listener, &batch).fault == BPFTAP_OK);
        for (size_t at = 0; bpftap_listener_next(&batch, &at).fault == BPFTAP_OK;) CHECK(at <= batch.size);
    }
    /* Bytes that no call wrote are no reason to read past them. */
    memset(batch.bytes, (int)below(256), room), batch.size = room;
    struct bpftap_message message;
    for (size_t at = 0, n = 0; n < 99 && (message = bpftap_listener_next(&batch, &at)).fault == BPFTAP_OK; n++)
        CHECK(message.offset <= room && message.captured <= room - message.offset);
    bpftap_listener_close(&listener);
}

typedef struct bpftap_replay (*steps)(const char *, size_t, const char *, size_t, const struct bpftap_capture *, size_t, char *, size_t);

static void play_steps(const struct input *in, const uint8_t *whole, size_t size) {
    static const steps CALLS[] = {bpftap_steps, bpftap_steps_json, bpftap_steps_answers, bpftap_steps_answers_json, bpftap_picture};
    static const char script[] = "arrive\narrive\nflush 0\narrive\nread 0\nclose 0\n";
    char *line = NULL;
    int line_size = asprintf(&line, "96 4096 %.*s\n", (int)in->text_size, in->text);
    if (line_size < 0) exit(2);
    size_t end = size > 2000 ? 2000 : size;
    struct bpftap_capture captures[1] = {{copied(3, whole, end), end}};
    const struct bpftap_capture *given = copied(4, captures, sizeof captures);
    const char *listeners = copied(0, line, line_size), *played = copied(1, script, sizeof script - 1);
    for (size_t i = 0; i < sizeof CALLS / sizeof *CALLS; i++) {
        struct bpftap_replay made = CALLS[i](listeners, line_size, played, sizeof script - 1, given, 1, NULL, 0);
        char *to = beside(2, made.size + 1);
        CHECK(CALLS[i](listeners, line_size, played, sizeof script - 1, given, 1, to, made.size + 1).size == made.size);
        to = beside(2, made.size);
        made = CALLS[i](listeners, line_size, played, sizeof script - 1, given, 1, to, made.size);
        CHECK(made.fault == BPFTAP_NO_ROOM && untouched(to, made.size));
    }
    free(line);
}

static void write_names(void) {
    uint32_t fault = below(100);
    size_t place = below(SIZE_MAX);
    WITH_ROOM(2, char, 1, bpftap_fault_text(fault, place, to, room));
    WITH_ROOM(2, char, 1, bpftap_version(to, room));
}

int main(int argc, char **argv) {
    static uint8_t whole[1 << 20];
    FILE *file = argc == 3 ? fopen(argv[1], "rb") : NULL;
    if (!file) return 2;
    size_t size = fread(whole, 1, sizeof whole, file);
    fclose(file);
    map_regions();
    char *line = NULL;
    size_t room = 0;
    struct bpftap_reader reader = bpftap_open(whole, size);
    for (long rounds = strtol(argv[2], NULL, 10); rounds > 0 && getline(&line, &room, stdin) > 0; rounds--) {
        struct bpftap_record record = bpftap_next(whole, size, &reader);
        if (record.fault) reader = bpftap_open(whole, size), record = bpftap_next(whole, size, &reader);
        size_t captured = below(3) ? record.captured : below(record.captured + 1);
        struct input in = {line, strcspn(line, "\n"), whole + record.offset, captured, record.wire};
        is_last = rounds % 2;
        keep_packets(&in), write_names(), read_captures(whole, size);
        static struct bpftap_insn made[BPFTAP_MAX_INSNS];
        if (bpftap_compile(in.text, in.text_size, SNAP, made, BPFTAP_MAX_INSNS).fault) continue;
        read_texts(&in), run_programs(&in);
        if (rounds % 10 < 2) play_steps(&in, whole, size);
    }
    free(line);
    return failures != 0;
}
