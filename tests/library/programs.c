/* Batches over a prepared program, runs step by step, what expressions look at, pictures; and NULL wherever there are no items. */
#include "check.h"
#include <bpftap.h>

/* 38 bytes from 10.0.0.1 to 10.0.0.2, from port 53 to port 53: TCP, and UDP. */
static const uint8_t TCP[38] = {
    0xff, 0xff, 0xff, 0xff, 0xff, 0xff, 0, 1, 2, 3, 4, 5, 8, 0, 0x45, 0, 0, 0x18, 0, 0, 0, 0, 0x40, 6, 0, 0,
    10, 0, 0, 1, 10, 0, 0, 2, 0, 53, 0, 53};

static const uint8_t UDP[38] = {
    0xff, 0xff, 0xff, 0xff, 0xff, 0xff, 0, 1, 2, 3, 4, 5, 8, 0, 0x45, 0, 0, 0x18, 0, 0, 0, 0, 0x40, 17, 0, 0,
    10, 0, 0, 1, 10, 0, 0, 2, 0, 53, 0, 53};

/* `tcpdump -ddd ip`: 96 bytes of each IPv4 packet. */
static const struct bpftap_insn IP[4] = {{40, 0, 0, 12}, {21, 0, 1, 2048}, {6, 0, 0, 96}, {6, 0, 0, 0}};

static struct bpftap_program *prepared(const struct bpftap_insn *insns, size_t size) {
    struct bpftap_program *program = block(bpftap_program_size());
    bpftap_program_init(program, insns, size);
    return program;
}

static void runs_batches(void) {
    struct bpftap_program *program = prepared(IP, 4);
    struct bpftap_packet packets[3] = {{UDP, sizeof UDP, sizeof UDP}, {TCP, 0, 60}, {TCP, sizeof TCP, 60}};
    uint32_t *answers = block(4 * sizeof *answers);
    struct bpftap_result result = bpftap_program_run_each(program, packets, 3, answers, 4);
    CHECK(result.fault == BPFTAP_OK && result.size == 3 && result.place == 0);
    CHECK(answers[0] == 96 && answers[1] == 0 && answers[2] == 96 && untouched(answers + 3, sizeof *answers));
    memset(answers, 0xa5, 4 * sizeof *answers);
    result = bpftap_program_run_each(program, packets, 3, answers, 2);
    CHECK(result.fault == BPFTAP_NO_ROOM && result.size == 3 && untouched(answers, 4 * sizeof *answers));

    uint8_t *memory = block(2 * sizeof UDP);
    memcpy(memory, UDP, sizeof UDP);
    memcpy(memory + sizeof UDP, TCP, sizeof TCP);
    struct bpftap_span spans[5] = {{0, 38, 38}, {38, 38, 38}, {38, 13, 38}, {76, 38, 38}, {UINT64_MAX, UINT32_MAX, 38}};
    uint32_t seen[5];
    result = bpftap_program_run_spans(program, memory, 76, spans, 5, seen, 5);
    CHECK(result.fault == BPFTAP_OK && result.size == 5);
    CHECK(seen[0] == 96 && seen[1] == 96 && seen[2] == 0 && seen[3] == 0 && seen[4] == 0);
    CHECK(bpftap_program_run_spans(program, memory, 76, spans, 5, seen, 4).fault == BPFTAP_NO_ROOM);

    uint32_t const sizes[4] = {38, 38, 38, 0};
    result = bpftap_program_run_joined(program, memory, 76, sizes, 4, seen, 5);
    CHECK(result.fault == BPFTAP_OK && result.size == 4 && seen[0] == 96 && seen[1] == 96 && seen[2] == 0 && seen[3] == 0);
    CHECK(bpftap_program_run_joined(program, memory, 76, sizes, 4, seen, 3).fault == BPFTAP_NO_ROOM);

    /* A program that was refused rejects every packet of a batch too. */
    CHECK(bpftap_program_init(program, IP, 3) == BPFTAP_JUMP_OUT);
    result = bpftap_program_run_each(program, packets, 3, answers, 4);
    CHECK(result.fault == BPFTAP_OK && answers[0] == 0 && answers[1] == 0 && answers[2] == 0);
    free(memory);
    free(answers);
    free(program);
}

/* The same answers as one run after the other, over programs that load from packets of every length. */
static void batches_answer_as_runs_do(void) {
    static const char *const texts[] = {"udp port 53", "tcp or len > 30", "ip[2:2] - 20 < 5", "not net 10.0.0.0/8", "ether[37] = 53"};
    for (size_t i = 0; i < sizeof texts / sizeof *texts; i++) {
        struct bpftap_insn insns[BPFTAP_MAX_INSNS];
        size_t size = bpftap_compile(texts[i], strlen(texts[i]), 96, insns, BPFTAP_MAX_INSNS).size;
        struct bpftap_program *program = prepared(insns, size);
        struct bpftap_packet packets[2 * 39];
        uint32_t batch[2 * 39], checked[2 * 39];
        for (uint32_t n = 0; n < 39; n++) packets[2 * n] = (struct bpftap_packet){UDP, n, 38}, packets[2 * n + 1] = (struct bpftap_packet){TCP, n, n};
        CHECK(bpftap_program_run_each(program, packets, 78, batch, 78).size == 78 && bpftap_run_each(insns, size, packets, 78, checked, 78).size == 78);
        for (size_t n = 0; n < 78; n++)
            CHECK(batch[n] == checked[n] && batch[n] == bpftap_program_run(program, packets[n].bytes, packets[n].captured, packets[n].wire));
        free(program);
    }
}

static int is(struct bpftap_executed seen, size_t place, uint32_t a, uint32_t x, uint32_t cell, uint32_t value) {
    return seen.place == place && seen.accumulator == a && seen.index == x && seen.cell == cell && seen.value == value;
}

static void traces(void) {
    struct bpftap_executed *to = block(6 * sizeof *to);
    struct bpftap_traced traced = bpftap_trace(IP, 4, UDP, sizeof UDP, sizeof UDP, to, 6);
    CHECK(traced.fault == BPFTAP_OK && traced.answer == 96 && traced.size == 3 && traced.place == 0);
    CHECK(is(to[0], 0, 2048, 0, BPFTAP_NO_CELL, 0) && is(to[1], 1, 2048, 0, BPFTAP_NO_CELL, 0) && is(to[2], 2, 2048, 0, BPFTAP_NO_CELL, 0));
    CHECK(untouched(to + 3, 3 * sizeof *to));

    /* The length on the wire goes to the accumulator, cell 3, the index register; then X = 0 divides, which ends the run. */
    static const struct bpftap_insn stores[6] = {{0x80, 0, 0, 0}, {2, 0, 0, 3}, {0x61, 0, 0, 3}, {1, 0, 0, 0}, {0x3c, 0, 0, 0}, {0x16, 0, 0, 0}};
    traced = bpftap_trace(stores, 6, UDP, 14, 1500, to, 6);
    CHECK(traced.fault == BPFTAP_OK && traced.answer == 0 && traced.size == 5);
    CHECK(is(to[0], 0, 1500, 0, BPFTAP_NO_CELL, 0) && is(to[1], 1, 1500, 0, 3, 1500) && is(to[2], 2, 1500, 1500, BPFTAP_NO_CELL, 0));
    CHECK(is(to[3], 3, 1500, 0, BPFTAP_NO_CELL, 0) && is(to[4], 4, 1500, 0, BPFTAP_NO_CELL, 0));

    /* A load past the captured bytes ends the run where it is. */
    traced = bpftap_trace(IP, 4, UDP, 13, sizeof UDP, to, 6);
    CHECK(traced.fault == BPFTAP_OK && traced.answer == 0 && traced.size == 1 && is(to[0], 0, 0, 0, BPFTAP_NO_CELL, 0));

    memset(to, 0xa5, 6 * sizeof *to);
    traced = bpftap_trace(IP, 4, UDP, sizeof UDP, sizeof UDP, to, 2);
    CHECK(traced.fault == BPFTAP_NO_ROOM && traced.answer == 96 && traced.size == 3 && untouched(to, 6 * sizeof *to));
    traced = bpftap_trace(IP, 3, UDP, sizeof UDP, sizeof UDP, to, 6);
    CHECK(traced.fault == BPFTAP_JUMP_OUT && traced.answer == 0 && traced.size == 0 && traced.place == 1 && untouched(to, 6 * sizeof *to));
    free(to);
}

static struct bpftap_result looks(const char *text, const uint8_t *packet, size_t captured, struct bpftap_look *to, size_t room) {
    char *copy = text_block(text);
    struct bpftap_result result = bpftap_looks(copy, strlen(text), packet, captured, 1500, to, room);
    free(copy);
    return result;
}

static int at(struct bpftap_look look, size_t offset, size_t size) { return look.offset == offset && look.size == size; }

static void looks_where_it_is_asked(void) {
    struct bpftap_look *to = block(8 * sizeof *to);
    /* Of `or` the second part is asked after a No: the type and the protocol, the length on the wire. */
    struct bpftap_result result = looks("udp or len > 100", TCP, sizeof TCP, to, 8);
    CHECK(result.fault == BPFTAP_OK && result.size == 3 && at(to[0], 12, 2) && at(to[1], 23, 1) && at(to[2], 0, 0));
    CHECK(untouched(to + 3, 5 * sizeof *to));
    result = looks("udp or len > 100", UDP, sizeof UDP, to, 8);
    CHECK(result.fault == BPFTAP_OK && result.size == 2 && at(to[0], 12, 2) && at(to[1], 23, 1));

    /* What was not captured is looked at too, and nothing after it. */
    result = looks("udp or len > 100", UDP, 20, to, 8);
    CHECK(result.fault == BPFTAP_OK && result.size == 2 && at(to[1], 23, 1));
    result = looks("ip[2:2] = ether[37]", UDP, sizeof UDP, to, 8);
    CHECK(result.fault == BPFTAP_OK && result.size == 3 && at(to[0], 12, 2) && at(to[1], 16, 2) && at(to[2], 37, 1));
    CHECK(looks("", UDP, sizeof UDP, to, 0).fault == BPFTAP_OK);

    memset(to, 0xa5, 8 * sizeof *to);
    result = looks("udp or len > 100", TCP, sizeof TCP, to, 2);
    CHECK(result.fault == BPFTAP_NO_ROOM && result.size == 3 && untouched(to, 8 * sizeof *to));
    result = looks("udp or", TCP, sizeof TCP, to, 8);
    CHECK(result.fault == BPFTAP_SYNTAX && result.place == 6 && untouched(to, 8 * sizeof *to));
    result = looks("udp\xff", TCP, sizeof TCP, to, 8);
    CHECK(result.fault == BPFTAP_NOT_TEXT && result.place == 3);
    free(to);
}

static const uint8_t CAPTURE[24 + 16 + 38 + 8] = {
    0xd4, 0xc3, 0xb2, 0xa1, 2, 0, 4, 0, 0, 0, 0, 0, 0, 0, 0, 0, 0, 0, 4, 0, 1, 0, 0, 0, 1, 0, 0, 0, 7, 0, 0, 0, 38, 0, 0, 0, 60};

static void draws(void) {
    static const char listeners[] = "96 4096 ip\n", script[] = "arrive\nflush 0\nread 0\n";
    size_t lines = strlen(listeners), words = strlen(script);
    struct bpftap_capture captures[1] = {{CAPTURE, 24 + 16 + 38}};
    struct bpftap_replay needed = bpftap_picture(listeners, lines, script, words, captures, 1, NULL, 0);
    CHECK(needed.fault == BPFTAP_NO_ROOM && needed.size > 500);
    char *text = block(needed.size + 1);
    struct bpftap_replay drawn = bpftap_picture(listeners, lines, script, words, captures, 1, text, needed.size);
    CHECK(drawn.fault == BPFTAP_NO_ROOM && drawn.size == needed.size && untouched(text, needed.size + 1));
    drawn = bpftap_picture(listeners, lines, script, words, captures, 1, text, needed.size + 1);
    CHECK(drawn.fault == BPFTAP_OK && drawn.size == needed.size && strlen(text) == drawn.size);
    CHECK(!strncmp(text, "<svg", 4) && !strcmp(text + drawn.size - 7, "</svg>\n") && strstr(text, "flush 0"));

    /* A torn record is drawn up to there, and returned. */
    captures[0].size = sizeof CAPTURE;
    needed = bpftap_picture(listeners, lines, script, words, captures, 1, NULL, 0);
    text = realloc(text, needed.size + 1);
    drawn = bpftap_picture(listeners, lines, script, words, captures, 1, text, needed.size + 1);
    CHECK(drawn.fault == BPFTAP_TORN_RECORD && drawn.number == 0 && drawn.place == 1 && drawn.size == needed.size && strlen(text) == drawn.size);
    drawn = bpftap_picture(listeners, lines, "arrive\nread 1\n", 14, captures, 1, text, needed.size + 1);
    CHECK(drawn.fault == BPFTAP_NO_LISTENER && drawn.place == 1 && drawn.size == 0);
    drawn = bpftap_picture("96 4096 tcp and 80\n", 19, script, words, captures, 1, text, needed.size + 1);
    CHECK(drawn.fault == BPFTAP_NO_QUALIFIER && drawn.number == 0);
    free(text);
}

/* Where there are no items a pointer may be NULL, whatever the call. */
static void takes_null(void) {
    uint8_t room[4096];
    char *text = (char *)room;
    struct bpftap_insn insns[BPFTAP_MAX_INSNS];
    struct bpftap_program *program = prepared(IP, 4);
    size_t size = bpftap_compile(NULL, 0, 96, insns, BPFTAP_MAX_INSNS).size;
    CHECK(size == 1 && bpftap_compile(NULL, 0, 96, NULL, 0).fault == BPFTAP_NO_ROOM);
    CHECK(bpftap_check(NULL, 0).fault == BPFTAP_EMPTY && bpftap_read_listing(NULL, 0, NULL, 0).fault == BPFTAP_BAD_LINE);
    CHECK(bpftap_write_listing(NULL, 0, NULL, 0).fault == BPFTAP_EMPTY && bpftap_write_listing(IP, 4, NULL, 0).fault == BPFTAP_NO_ROOM);
    CHECK(bpftap_image(NULL, 0, NULL, 0).fault == BPFTAP_EMPTY && bpftap_image(IP, 4, NULL, 0).fault == BPFTAP_NO_ROOM);
    CHECK(bpftap_print(NULL, 0, text, sizeof room).size == 0 && bpftap_print(NULL, 0, NULL, 0).fault == BPFTAP_NO_ROOM);
    CHECK(bpftap_program_run(program, NULL, 0, 60) == 0);
    struct bpftap_packet packet = {NULL, 0, 60};
    uint32_t answer = 7;
    CHECK(bpftap_program_run_each(program, &packet, 1, &answer, 1).size == 1 && answer == 0);
    CHECK(bpftap_program_run_each(program, NULL, 0, NULL, 0).fault == BPFTAP_OK && bpftap_run_each(IP, 4, NULL, 0, NULL, 0).fault == BPFTAP_OK);
    CHECK(bpftap_program_run_each(program, &packet, 1, NULL, 0).fault == BPFTAP_NO_ROOM && bpftap_run_each(NULL, 0, NULL, 0, NULL, 0).fault == BPFTAP_EMPTY);
    struct bpftap_span span = {9, 9, 60};
    CHECK(bpftap_program_run_spans(program, NULL, 0, &span, 1, &answer, 1).size == 1 && answer == 0);
    CHECK(bpftap_program_run_spans(program, NULL, 0, NULL, 0, NULL, 0).fault == BPFTAP_OK && bpftap_run_spans(IP, 4, NULL, 0, NULL, 0, NULL, 0).fault == BPFTAP_OK);
    CHECK(bpftap_program_run_joined(program, NULL, 0, NULL, 0, NULL, 0).fault == BPFTAP_OK && bpftap_run_joined(IP, 4, NULL, 0, NULL, 0, NULL, 0).fault == BPFTAP_OK);
    CHECK(bpftap_trace(IP, 4, NULL, 0, 60, NULL, 0).fault == BPFTAP_NO_ROOM && bpftap_trace(NULL, 0, NULL, 0, 60, NULL, 0).fault == BPFTAP_EMPTY);
    CHECK(bpftap_looks(NULL, 0, NULL, 0, 60, NULL, 0).fault == BPFTAP_OK && bpftap_looks("ip", 2, NULL, 0, 60, NULL, 0).fault == BPFTAP_NO_ROOM);
    CHECK(bpftap_why(NULL, 0, NULL, 0, 60, text, sizeof room).verdict == BPFTAP_YES && bpftap_why("ip", 2, NULL, 0, 60, NULL, 0).verdict == BPFTAP_ABORT);
    CHECK(bpftap_compare(NULL, 0, NULL, 0, 2000, NULL, 0).answer == BPFTAP_SAME && bpftap_compare("ip", 2, NULL, 0, 2000, NULL, 0).fault == BPFTAP_NO_ROOM);
    struct bpftap_reader reader = bpftap_open(NULL, 0);
    CHECK(reader.fault == BPFTAP_SHORT_HEADER && bpftap_next(NULL, 0, &reader).fault == BPFTAP_SHORT_HEADER);
    reader = bpftap_open(CAPTURE, 24);
    reader.offset = 0;
    CHECK(bpftap_next(NULL, 0, &reader).fault == BPFTAP_END);
    struct bpftap_record record = {.wire = 60};
    CHECK(bpftap_put_header(0, 0, 96, NULL, 0).fault == BPFTAP_NO_ROOM && bpftap_put(0, 0, &record, NULL, 0, room, sizeof room).size == 16);
    CHECK(bpftap_put(0, 0, &record, NULL, 0, NULL, 0).fault == BPFTAP_NO_ROOM);
    CHECK(bpftap_cut(NULL, 0, NULL, 0, 0, NULL, 0).fault == BPFTAP_EMPTY && bpftap_cut(NULL, 0, IP, 4, 0, NULL, 0).fault == BPFTAP_SHORT_HEADER);
    struct bpftap_listener listener = {.snap = 96};
    CHECK(bpftap_listener_open(&listener) == BPFTAP_BAD_CAPACITY && listener.closed == 1);
    CHECK(bpftap_listener_arrive(&listener, 96, 0, &record, NULL, 0) == BPFTAP_CLOSED && !bpftap_listener_flush(&listener));
    struct bpftap_buffer batch = {.bytes = NULL};
    CHECK(bpftap_listener_read(&listener, &batch).size == 0 && bpftap_listener_next(&batch, &(size_t){0}).fault == BPFTAP_END);
    listener = (struct bpftap_listener){.store = {.bytes = room, .room = 2048}, .hold = {.bytes = room + 2048, .room = 2048}, .snap = 96};
    CHECK(bpftap_listener_open(&listener) == BPFTAP_OK && bpftap_listener_arrive(&listener, 96, 0, &record, NULL, 0) == BPFTAP_STORED);
    CHECK(bpftap_steps(NULL, 0, NULL, 0, NULL, 0, text, sizeof room).size == 0 && bpftap_steps(NULL, 0, NULL, 0, NULL, 0, NULL, 0).fault == BPFTAP_NO_ROOM);
    CHECK(bpftap_steps_json(NULL, 0, NULL, 0, NULL, 0, text, sizeof room).size == 0);
    CHECK(bpftap_steps_answers(NULL, 0, NULL, 0, NULL, 0, text, sizeof room).size == 0);
    CHECK(bpftap_steps_answers_json(NULL, 0, NULL, 0, NULL, 0, NULL, 0).fault == BPFTAP_NO_ROOM);
    CHECK(bpftap_picture(NULL, 0, NULL, 0, NULL, 0, NULL, 0).fault == BPFTAP_NO_ROOM);
    CHECK(bpftap_fault_text(BPFTAP_SYNTAX, 3, NULL, 0).fault == BPFTAP_NO_ROOM && bpftap_version(NULL, 0).fault == BPFTAP_NO_ROOM);
    free(program);
}

/* A buffer whose `size` is above its room, and bytes that are no records: a message never reaches past the bytes. */
static void messages_stay_within(void) {
    uint8_t *bytes = block(96);
    for (int fill = 0; fill < 256; fill++) {
        memset(bytes, fill, 96);
        struct bpftap_buffer batch = {.bytes = bytes, .room = 96, .size = fill % 2 ? 96 : SIZE_MAX};
        for (size_t from = 0; from < 100; from++) {
            size_t place = from;
            struct bpftap_message message = bpftap_listener_next(&batch, &place);
            if (message.fault == BPFTAP_OK)
                CHECK(message.offset <= 96 && message.captured <= 96 - message.offset && place > from && place <= 96);
            else
                CHECK(message.fault == BPFTAP_END && place == from);
        }
    }
    free(bytes);
}

/* Every name is that of one number. */
static void names_are_of_one_number(void) {
    static char names[128][64];
    for (uint32_t fault = 0; fault < 128; fault++) {
        CHECK(bpftap_fault_text(fault, 0, names[fault], sizeof names[fault]).fault == BPFTAP_OK);
        for (uint32_t other = 0; other < fault; other++) CHECK(!strcmp(names[fault], "Unknown") || strcmp(names[fault], names[other]));
    }
    char line[64];
    CHECK(bpftap_fault_text(BPFTAP_RECORD_TOO_LONG, 4, line, sizeof line).fault == BPFTAP_OK && !strcmp(line, "RecordTooLong 4"));
    CHECK(bpftap_fault_text(BPFTAP_STEPS_TOO_MANY, 4, line, sizeof line).fault == BPFTAP_OK && !strcmp(line, "StepsTooMany"));
}

int main(void) {
    runs_batches();
    batches_answer_as_runs_do();
    traces();
    looks_where_it_is_asked();
    draws();
    takes_null();
    messages_stay_within();
    names_are_of_one_number();
    return failures != 0;
}
