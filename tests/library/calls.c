/* Each call of the library: its worked examples, every fault, and memory that is one item short. */
#include "check.h"
#include <bpftap.h>

enum { SNAP = 262144 };

/* What the version has after its blank. */
#ifdef __aarch64__
#define PROCESSOR "aarch64"
#else
#define PROCESSOR "x86-64-v2"
#endif

/* 38 bytes from 10.0.0.1 to 10.0.0.2, from port 53 to port 53: TCP, and UDP. */
static const uint8_t TCP[38] = {
    0xff, 0xff, 0xff, 0xff, 0xff, 0xff, 0, 1, 2, 3, 4, 5, 8, 0, 0x45, 0, 0, 0x18, 0, 0, 0, 0, 0x40, 6, 0, 0,
    10, 0, 0, 1, 10, 0, 0, 2, 0, 53, 0, 53};

static const uint8_t UDP[38] = {
    0xff, 0xff, 0xff, 0xff, 0xff, 0xff, 0, 1, 2, 3, 4, 5, 8, 0, 0x45, 0, 0, 0x18, 0, 0, 0, 0, 0x40, 17, 0, 0,
    10, 0, 0, 1, 10, 0, 0, 2, 0, 53, 0, 53};

/* `tcpdump -ddd ip`: 96 bytes of each IPv4 packet. */
static const char IP_LISTING[] = "4\n40 0 0 12\n21 0 1 2048\n6 0 0 96\n6 0 0 0\n";
static const struct bpftap_insn IP[4] = {{40, 0, 0, 12}, {21, 0, 1, 2048}, {6, 0, 0, 96}, {6, 0, 0, 0}};

static struct bpftap_result compile(const char *text, uint32_t snap, struct bpftap_insn *insns, size_t room) {
    char *copy = text_block(text);
    struct bpftap_result result = bpftap_compile(copy, strlen(text), snap, insns, room);
    free(copy);
    return result;
}

static void compiles(void) {
    struct bpftap_insn *insns = block(BPFTAP_MAX_INSNS * sizeof *insns);
    struct bpftap_result result = compile("udp", SNAP, insns, BPFTAP_MAX_INSNS);
    CHECK(result.fault == BPFTAP_OK && result.size > 0 && result.size <= BPFTAP_MAX_INSNS && result.place == 0);
    size_t size = result.size;
    CHECK(untouched(insns + size, (BPFTAP_MAX_INSNS - size) * sizeof *insns));

    /* Exactly the room that it needs, one instruction less, and none. */
    struct bpftap_insn *exact = block(size * sizeof *exact);
    result = compile("udp", SNAP, exact, size);
    CHECK(result.fault == BPFTAP_OK && result.size == size && !memcmp(exact, insns, size * sizeof *exact));
    memset(exact, 0xa5, size * sizeof *exact);
    result = compile("udp", SNAP, exact, size - 1);
    CHECK(result.fault == BPFTAP_NO_ROOM && result.size == size && untouched(exact, size * sizeof *exact));
    result = compile("udp", SNAP, exact, 0);
    CHECK(result.fault == BPFTAP_NO_ROOM && result.size == size && untouched(exact, size * sizeof *exact));
    free(exact);
    free(insns);
}

struct refusal {
    const char *text;
    uint32_t fault;
    size_t place;
};

/* The examples of docs/FAULTS.md and docs/LANGUAGE.md, with the byte that each fault is at. */
static const struct refusal REFUSALS[] = {
    {"tcp port #", BPFTAP_BAD_BYTE, 9},
    {"port http", BPFTAP_BAD_WORD, 5},
    {"port 08", BPFTAP_BAD_NUMBER, 5},
    {"tcp and", BPFTAP_SYNTAX, 7},
    {"80", BPFTAP_NO_QUALIFIER, 0},
    {"tcp host 10.0.0.1", BPFTAP_BAD_QUALIFIER, 0},
    {"host 10.0", BPFTAP_BAD_IDENTIFIER, 5},
    {"net 10.0.0.1/8", BPFTAP_NET_BITS, 4},
    {"port 65536", BPFTAP_OUT_OF_RANGE, 5},
    {"len / 0 = 1", BPFTAP_DIVIDE_BY_ZERO, 6},
    {"udp\xff", BPFTAP_NOT_TEXT, 3},
};

static void refuses_expressions(void) {
    struct bpftap_insn insns[BPFTAP_MAX_INSNS];
    for (size_t i = 0; i < sizeof REFUSALS / sizeof *REFUSALS; i++) {
        const struct refusal *wanted = REFUSALS + i;
        memset(insns, 0xa5, sizeof insns);
        struct bpftap_result result = compile(wanted->text, SNAP, insns, BPFTAP_MAX_INSNS);
        if (result.fault != wanted->fault || result.place != wanted->place) printf("%s: %u at %zu\n", wanted->text, result.fault, result.place);
        CHECK(result.fault == wanted->fault && result.place == wanted->place && result.size == 0);
        CHECK(untouched(insns, sizeof insns));
        char to[200];
        result = bpftap_print(wanted->text, strlen(wanted->text), to, sizeof to);
        CHECK(result.fault == wanted->fault && result.place == wanted->place);
        struct bpftap_reason reason = bpftap_why(wanted->text, strlen(wanted->text), TCP, sizeof TCP, sizeof TCP, to, sizeof to);
        CHECK(reason.fault == wanted->fault && reason.place == wanted->place && reason.verdict == BPFTAP_NO);
    }
}

static void refuses_long_and_deep_expressions(void) {
    struct bpftap_insn insns[BPFTAP_MAX_INSNS];
    char text[8300];

    /* 8,192 blanks are the empty expression, and one more is too long. */
    memset(text, ' ', sizeof text);
    struct bpftap_result result = bpftap_compile(text, 8192, SNAP, insns, BPFTAP_MAX_INSNS);
    CHECK(result.fault == BPFTAP_OK);
    result = bpftap_compile(text, 8193, SNAP, insns, BPFTAP_MAX_INSNS);
    CHECK(result.fault == BPFTAP_TEXT_TOO_LONG);
    char to[100];
    CHECK(bpftap_print(text, 8192, to, sizeof to).fault == BPFTAP_OK && bpftap_print(text, 8193, to, sizeof to).fault == BPFTAP_TEXT_TOO_LONG);
    CHECK(bpftap_why(text, 8192, TCP, sizeof TCP, sizeof TCP, to, sizeof to).fault == BPFTAP_OK);
    CHECK(bpftap_why(text, 8193, TCP, sizeof TCP, sizeof TCP, to, sizeof to).fault == BPFTAP_TEXT_TOO_LONG);

    /* 65 open parentheses. */
    size_t size = 0;
    for (int i = 0; i < 65; i++) text[size++] = '(';
    text[size++] = 'i', text[size++] = 'p';
    for (int i = 0; i < 65; i++) text[size++] = ')';
    result = bpftap_compile(text, size, SNAP, insns, BPFTAP_MAX_INSNS);
    CHECK(result.fault == BPFTAP_TOO_NESTED && result.place == 64);

    /* A sum that is read from its right end needs a word of scratch memory for each step. */
    size = 0;
    for (int i = 0; i < 18; i++) size += (size_t)sprintf(text + size, "(len + ");
    size += (size_t)sprintf(text + size, "len");
    for (int i = 0; i < 18; i++) text[size++] = ')';
    size += (size_t)sprintf(text + size, " = 1");
    result = bpftap_compile(text, size, SNAP, insns, BPFTAP_MAX_INSNS);
    CHECK(result.fault == BPFTAP_TOO_DEEP);

    /* 300 different relations. */
    size = 0;
    for (int i = 0; i < 300; i++) size += (size_t)sprintf(text + size, "%sip[%d] = len", i ? " or " : "", i);
    result = bpftap_compile(text, size, SNAP, insns, BPFTAP_MAX_INSNS);
    CHECK(result.fault == BPFTAP_TOO_LONG);

    CHECK(compile("ip", 0, insns, BPFTAP_MAX_INSNS).fault == BPFTAP_BAD_SNAP);
    CHECK(compile("ip", SNAP + 1, insns, BPFTAP_MAX_INSNS).fault == BPFTAP_BAD_SNAP);
    CHECK(compile("ip", SNAP, insns, BPFTAP_MAX_INSNS).fault == BPFTAP_OK);
    CHECK(compile("ip", 1, insns, BPFTAP_MAX_INSNS).fault == BPFTAP_OK);
}

static void checks(void) {
    static struct bpftap_insn many[BPFTAP_MAX_INSNS + 1];
    struct bpftap_result result = bpftap_check(IP, 4);
    CHECK(result.fault == BPFTAP_OK && result.size == 4);
    CHECK(bpftap_check(IP, 0).fault == BPFTAP_EMPTY);
    CHECK(bpftap_check(IP, 1).fault == BPFTAP_NO_RETURN);
    for (int i = 0; i <= BPFTAP_MAX_INSNS; i++) many[i] = (struct bpftap_insn){6, 0, 0, 0};
    CHECK(bpftap_check(many, BPFTAP_MAX_INSNS).fault == BPFTAP_OK);
    CHECK(bpftap_check(many, BPFTAP_MAX_INSNS + 1).fault == BPFTAP_TOO_MANY);
    struct {
        struct bpftap_insn insn;
        uint32_t fault;
    } const bad[] = {
        {{0xffff, 0, 0, 0}, BPFTAP_UNKNOWN_CODE},
        {{0x15, 200, 0, 0}, BPFTAP_JUMP_OUT},
        {{0x60, 0, 0, 16}, BPFTAP_CELL},
        {{0x34, 0, 0, 0}, BPFTAP_ZERO_DIVISOR},
    };
    for (int i = 0; i < 4; i++) {
        many[7] = bad[i].insn;
        result = bpftap_check(many, 10);
        CHECK(result.fault == bad[i].fault && result.place == 7 && result.size == 0);
    }
}

static void lists(void) {
    struct bpftap_insn insns[5];
    memset(insns, 0xa5, sizeof insns);
    struct bpftap_result result = bpftap_read_listing(IP_LISTING, strlen(IP_LISTING), insns, 5);
    CHECK(result.fault == BPFTAP_OK && result.size == 4 && !memcmp(insns, IP, sizeof IP) && untouched(insns + 4, sizeof *insns));
    result = bpftap_read_listing(IP_LISTING, strlen(IP_LISTING), insns, 3);
    CHECK(result.fault == BPFTAP_NO_ROOM && result.size == 4);
    result = bpftap_read_listing("2\n6 0 0 0\n6 0 0\n", 16, insns, 5);
    CHECK(result.fault == BPFTAP_BAD_LINE && result.place == 3);
    CHECK(bpftap_read_listing("2\n6 0 0 0\n", 10, insns, 5).fault == BPFTAP_COUNT);
    result = bpftap_read_listing("2\n21 9 9 0\n6 0 0 0\n", 19, insns, 5);
    CHECK(result.fault == BPFTAP_JUMP_OUT && result.place == 0);

    /* The zero byte needs room as well. */
    size_t size = strlen(IP_LISTING);
    char *to = block(size + 2);
    result = bpftap_write_listing(IP, 4, to, size + 1);
    CHECK(result.fault == BPFTAP_OK && result.size == size && !strcmp(to, IP_LISTING) && untouched(to + size + 1, 1));
    memset(to, 0xa5, size + 2);
    result = bpftap_write_listing(IP, 4, to, size);
    CHECK(result.fault == BPFTAP_NO_ROOM && result.size == size && untouched(to, size + 2));
    CHECK(bpftap_write_listing(IP, 0, to, size).fault == BPFTAP_EMPTY && untouched(to, size + 2));
    free(to);

    static const char image[] =
        "(000) ldh      [12]\n(001) jeq      #0x800           jt 2\tjf 3\n(002) ret      #96\n(003) ret      #0\n";
    char text[200];
    result = bpftap_image(IP, 4, text, sizeof text);
    CHECK(result.fault == BPFTAP_OK && result.size == strlen(image) && !strcmp(text, image));
    CHECK(bpftap_image(IP, 4, text, strlen(image)).fault == BPFTAP_NO_ROOM);
    CHECK(bpftap_image(IP, 3, text, sizeof text).fault == BPFTAP_JUMP_OUT);
}

static void runs(void) {
    struct bpftap_insn insns[BPFTAP_MAX_INSNS];
    size_t size = compile("udp", SNAP, insns, BPFTAP_MAX_INSNS).size;
    struct bpftap_program *program = block(bpftap_program_size());
    CHECK(bpftap_program_init(program, insns, size) == BPFTAP_OK);
    CHECK(bpftap_program_run(program, UDP, sizeof UDP, sizeof UDP) == SNAP);
    CHECK(bpftap_program_run(program, TCP, sizeof TCP, sizeof TCP) == 0);
    CHECK(bpftap_program_run(program, UDP, 23, sizeof UDP) == 0);
    CHECK(bpftap_program_run(program, UDP, 0, sizeof UDP) == 0);

    /* The length on the wire is the one that is passed. */
    size = compile("len = 1500", 7, insns, BPFTAP_MAX_INSNS).size;
    CHECK(bpftap_program_init(program, insns, size) == BPFTAP_OK);
    CHECK(bpftap_program_run(program, UDP, sizeof UDP, 1500) == 7);
    CHECK(bpftap_program_run(program, UDP, sizeof UDP, sizeof UDP) == 0);

    /* After a fault the program rejects every packet. */
    CHECK(bpftap_program_init(program, IP, 0) == BPFTAP_EMPTY);
    CHECK(bpftap_program_run(program, UDP, sizeof UDP, 1500) == 0);
    CHECK(bpftap_program_init(program, IP, 3) == BPFTAP_JUMP_OUT);
    CHECK(bpftap_program_run(program, UDP, sizeof UDP, 1500) == 0);
    free(program);
}

static void runs_batches(void) {
    struct bpftap_packet packets[3] = {{UDP, sizeof UDP, sizeof UDP}, {TCP, 0, 60}, {TCP, sizeof TCP, 60}};
    uint32_t *answers = block(4 * sizeof *answers);
    struct bpftap_result result = bpftap_run_each(IP, 4, packets, 3, answers, 4);
    CHECK(result.fault == BPFTAP_OK && result.size == 3);
    CHECK(answers[0] == 96 && answers[1] == 0 && answers[2] == 96 && untouched(answers + 3, sizeof *answers));
    memset(answers, 0xa5, 4 * sizeof *answers);
    result = bpftap_run_each(IP, 4, packets, 3, answers, 2);
    CHECK(result.fault == BPFTAP_NO_ROOM && result.size == 3 && untouched(answers, 4 * sizeof *answers));
    result = bpftap_run_each(IP, 2, packets, 3, answers, 4);
    CHECK(result.fault == BPFTAP_JUMP_OUT && result.place == 1 && untouched(answers, 4 * sizeof *answers));
    result = bpftap_run_each(IP, 4, packets, 0, answers, 0);
    CHECK(result.fault == BPFTAP_OK && result.size == 0 && untouched(answers, 4 * sizeof *answers));

    uint8_t *memory = block(2 * sizeof UDP);
    memcpy(memory, UDP, sizeof UDP);
    memcpy(memory + sizeof UDP, TCP, sizeof TCP);
    struct bpftap_span spans[5] = {{0, 38, 38}, {38, 38, 38}, {38, 13, 38}, {76, 38, 38}, {UINT64_MAX, UINT32_MAX, 38}};
    uint32_t seen[5];
    result = bpftap_run_spans(IP, 4, memory, 76, spans, 5, seen, 5);
    CHECK(result.fault == BPFTAP_OK && result.size == 5);
    CHECK(seen[0] == 96 && seen[1] == 96 && seen[2] == 0 && seen[3] == 0 && seen[4] == 0);

    /* What lies past the memory is not captured. */
    result = bpftap_run_spans(IP, 4, memory, 51, spans, 5, seen, 5);
    CHECK(result.fault == BPFTAP_OK && seen[0] == 96 && seen[1] == 0);
    CHECK(bpftap_run_spans(IP, 4, memory, 76, spans, 5, seen, 4).fault == BPFTAP_NO_ROOM);
    CHECK(bpftap_run_spans(IP, 0, memory, 76, spans, 5, seen, 5).fault == BPFTAP_EMPTY);
    free(memory);
    free(answers);
}

/* Packets that lie one after the other: of the third some bytes, of the fourth none are in the memory. */
static void runs_joined(void) {
    uint8_t *memory = block(2 * sizeof UDP + 14);
    memcpy(memory, UDP, sizeof UDP);
    memcpy(memory + sizeof UDP, TCP, sizeof TCP);
    memcpy(memory + 2 * sizeof UDP, UDP, 14);
    uint32_t const sizes[5] = {38, 38, 38, 38, 0};
    uint32_t *answers = block(6 * sizeof *answers);
    struct bpftap_result result = bpftap_run_joined(IP, 4, memory, 90, sizes, 5, answers, 6);
    CHECK(result.fault == BPFTAP_OK && result.size == 5);
    CHECK(answers[0] == 96 && answers[1] == 96 && answers[2] == 96 && answers[3] == 0 && answers[4] == 0);
    CHECK(untouched(answers + 5, sizeof *answers));

    /* What lies past the memory is not captured, whatever the sizes come to. */
    uint32_t const most[2] = {UINT32_MAX, UINT32_MAX};
    result = bpftap_run_joined(IP, 4, memory, 13, most, 2, answers, 6);
    CHECK(result.fault == BPFTAP_OK && answers[0] == 0 && answers[1] == 0);
    memset(answers, 0xa5, 6 * sizeof *answers);
    result = bpftap_run_joined(IP, 4, memory, 90, sizes, 5, answers, 4);
    CHECK(result.fault == BPFTAP_NO_ROOM && result.size == 5 && untouched(answers, 6 * sizeof *answers));
    result = bpftap_run_joined(IP, 2, memory, 90, sizes, 5, answers, 6);
    CHECK(result.fault == BPFTAP_JUMP_OUT && result.place == 1 && untouched(answers, 6 * sizeof *answers));
    result = bpftap_run_joined(IP, 4, memory, 0, sizes, 0, answers, 0);
    CHECK(result.fault == BPFTAP_OK && result.size == 0 && untouched(answers, 6 * sizeof *answers));
    free(memory);
    free(answers);
}

static void says_why(void) {
    static const char text[] = "ip and not (udp or tcp port 81)";
    struct {
        size_t captured;
        uint32_t verdict;
        const char *line;
    } const wanted[] = {
        {38, BPFTAP_YES, "Yes not tcp port 81"},
        {23, BPFTAP_ABORT, "Abort not udp, byte 23 is not captured"},
        {0, BPFTAP_ABORT, "Abort ip, byte 12 is not captured"},
    };
    for (int i = 0; i < 3; i++) {
        size_t size = strlen(wanted[i].line);
        char *to = block(size + 1);
        struct bpftap_reason reason = bpftap_why(text, strlen(text), TCP, wanted[i].captured, 38, to, size + 1);
        CHECK(reason.fault == BPFTAP_OK && reason.verdict == wanted[i].verdict && reason.size == size);
        if (strcmp(to, wanted[i].line)) printf("%s, wanted %s\n", to, wanted[i].line);
        memset(to, 0xa5, size + 1);
        reason = bpftap_why(text, strlen(text), TCP, wanted[i].captured, 38, to, size);
        CHECK(reason.fault == BPFTAP_NO_ROOM && reason.verdict == wanted[i].verdict && reason.size == size && untouched(to, size + 1));
        free(to);
    }
    char to[100];
    struct bpftap_reason reason = bpftap_why("tcp", 3, UDP, sizeof UDP, sizeof UDP, to, sizeof to);
    CHECK(reason.fault == BPFTAP_OK && reason.verdict == BPFTAP_NO && !strcmp(to, "No tcp"));
}

static void prints(void) {
    static const char text[] = "tcp dst port 80 or 443";
    static const char wanted[] = "tcp dst port 80 or tcp dst port 443";
    char *to = block(sizeof wanted);
    struct bpftap_result result = bpftap_print(text, strlen(text), to, sizeof wanted);
    CHECK(result.fault == BPFTAP_OK && result.size == strlen(wanted) && !strcmp(to, wanted));
    memset(to, 0xa5, sizeof wanted);
    result = bpftap_print(text, strlen(text), to, strlen(wanted));
    CHECK(result.fault == BPFTAP_NO_ROOM && result.size == strlen(wanted) && untouched(to, sizeof wanted));
    free(to);
    char line[40];
    CHECK(bpftap_print("", 0, line, sizeof line).size == 0 && line[0] == 0);
    CHECK(bpftap_fault_text(BPFTAP_BAD_WORD, 4, line, sizeof line).size == 9 && !strcmp(line, "BadWord 4"));
    CHECK(bpftap_fault_text(BPFTAP_LINK_TYPE, 4, line, sizeof line).size == 8 && !strcmp(line, "LinkType"));
    CHECK(bpftap_fault_text(BPFTAP_BAD_WORD, 4, line, 9).fault == BPFTAP_NO_ROOM);
    CHECK(bpftap_fault_text(12345, 4, line, sizeof line).fault == BPFTAP_OK && !strcmp(line, "Unknown"));
    CHECK(bpftap_version(line, sizeof line).fault == BPFTAP_OK && strlen(line) >= 5 && !strcmp(strchr(line, ' '), " " PROCESSOR));
    CHECK(bpftap_version(line, 0).fault == BPFTAP_NO_ROOM);
}

/* What helps at each kind of fault, and at none. */
static void hints(void) {
    static const char LONG[] = "its program may have more than 512 instructions: cut it into parts, with a `bpftap cut` for each,\n"
                               "or try whether libpcap finds a shorter one: tcpdump -y EN10MB -ddd EXPR > f.bpf, then -f f.bpf with cut, check or explain";
    static const char OTHER[] = "service names are not supported: write a number, as in `port 80`, for `nfs`\n"
                                "libpcap may read that: tcpdump -y EN10MB -ddd EXPR > f.bpf, then -f f.bpf with cut, check or explain";
    struct {
        const char *text;
        uint32_t fault;
        size_t place;
        const char *hint;
    } const wanted[] = {
        {"src prot 17", BPFTAP_BAD_WORD, 4, "did you mean `port`?"},
        {"tcp and host", BPFTAP_SYNTAX, 12, "write an address after `host`, as in `host 192.0.2.1`"},
        {"port nfs", BPFTAP_BAD_WORD, 5, OTHER},
        {"ip[0] / 0 = 1", BPFTAP_DIVIDE_BY_ZERO, 8, "division by zero"},
        {"", BPFTAP_TEXT_TOO_LONG, 0, "an expression has at most 8192 bytes: cut it into parts, with a `bpftap cut` for each"},
        {"ip", BPFTAP_TOO_LONG, 0, LONG},
        {"ip", BPFTAP_TOO_DEEP, 0, "write long sums from the left, `a + b + c`, not `a + (b + c)`: a relation has 16 words of memory"},
        {"ip", BPFTAP_BAD_SNAP, 0, ""},
        {"ip", BPFTAP_OK, 0, ""},
        {"ip", BPFTAP_NO_MEMORY, 0, ""},
        {"ip", BPFTAP_LINK_TYPE, 0, ""},
        {"ip", UINT32_MAX, 0, ""},
    };
    for (size_t i = 0; i < sizeof wanted / sizeof *wanted; i++) {
        size_t size = strlen(wanted[i].hint), text_size = strlen(wanted[i].text);
        char *text = text_block(wanted[i].text), *to = block(size + 1);
        struct bpftap_result result = bpftap_hint(text, text_size, wanted[i].fault, wanted[i].place, to, size + 1);
        CHECK(result.fault == BPFTAP_OK && result.size == size && result.place == 0);
        if (strcmp(to, wanted[i].hint)) printf("%s, wanted %s\n", to, wanted[i].hint), failures++;
        memset(to, 0xa5, size + 1);
        result = bpftap_hint(text, text_size, wanted[i].fault, wanted[i].place, to, size);
        CHECK(result.fault == BPFTAP_NO_ROOM && result.size == size && untouched(to, size + 1));
        free(text);
        free(to);
    }
    /* A place past the text is its end, and one inside of a character does no harm. */
    char to[1024];
    CHECK(bpftap_hint("tcp and", 7, BPFTAP_SYNTAX, SIZE_MAX, to, sizeof to).fault == BPFTAP_OK);
    CHECK(bpftap_hint("host \xc3\xa9", 7, BPFTAP_BAD_BYTE, 6, to, sizeof to).fault == BPFTAP_OK);
    struct bpftap_result result = bpftap_hint("host \xff", 6, BPFTAP_BAD_BYTE, 5, to, sizeof to);
    CHECK(result.fault == BPFTAP_NOT_TEXT && result.place == 5 && result.size == 0);
}

/* A capture of two packets, little-endian with microseconds, of 24 + 54 + 54 bytes. */
static uint8_t *capture(void) {
    static const uint8_t header[24] = {0xd4, 0xc3, 0xb2, 0xa1, 2, 0, 4, 0, 0, 0, 0, 0, 0, 0, 0, 0, 0, 0, 4, 0, 1, 0, 0, 0};
    static const uint8_t first[16] = {1, 0, 0, 0, 7, 0, 0, 0, 38, 0, 0, 0, 60, 0, 0, 0};
    static const uint8_t second[16] = {2, 0, 0, 0, 0x3f, 0x42, 0x0f, 0, 38, 0, 0, 0, 38, 0, 0, 0};
    uint8_t *memory = block(132);
    memcpy(memory, header, 24);
    memcpy(memory + 24, first, 16);
    memcpy(memory + 40, TCP, 38);
    memcpy(memory + 78, second, 16);
    memcpy(memory + 94, UDP, 38);
    return memory;
}

static void reads(void) {
    uint8_t *memory = capture();
    struct bpftap_reader reader = bpftap_open(memory, 132);
    CHECK(reader.fault == BPFTAP_OK && reader.offset == 24 && reader.place == 0 && reader.order == 0 && reader.unit == 0 && reader.snap == SNAP);
    struct bpftap_record record = bpftap_next(memory, 132, &reader);
    CHECK(record.fault == BPFTAP_OK && record.place == 0 && record.seconds == 1 && record.nanos == 7000 && record.captured == 38);
    CHECK(record.wire == 60 && record.offset == 40 && reader.offset == 78 && reader.place == 1);
    record = bpftap_next(memory, 132, &reader);
    CHECK(record.fault == BPFTAP_OK && record.place == 1 && record.seconds == 2 && record.nanos == 999999000 && record.offset == 94);
    for (int i = 0; i < 2; i++) {
        record = bpftap_next(memory, 132, &reader);
        CHECK(record.fault == BPFTAP_END && record.place == 2 && record.captured == 0 && reader.offset == 132 && reader.place == 2);
    }

    /* A memory that ends inside a record, at each of its bytes. */
    for (size_t size = 79; size < 132; size++) {
        uint8_t *torn = block(size);
        memcpy(torn, memory, size);
        struct bpftap_reader at = bpftap_open(torn, size);
        CHECK(bpftap_next(torn, size, &at).fault == BPFTAP_OK);
        record = bpftap_next(torn, size, &at);
        CHECK(record.fault == BPFTAP_TORN_RECORD && record.place == 1 && at.offset == 78 && at.place == 1);
        free(torn);
    }

    /* A reader past the memory has nothing before it, and one that has read all that can be counted reads no more. */
    reader.offset = SIZE_MAX;
    CHECK(bpftap_next(memory, 132, &reader).fault == BPFTAP_END && reader.offset == SIZE_MAX);
    reader.offset = 24, reader.place = UINT64_MAX;
    CHECK(bpftap_next(memory, 132, &reader).fault == BPFTAP_COUNT_FULL && reader.offset == 24);
    reader.place = UINT64_MAX - 1;
    CHECK(bpftap_next(memory, 132, &reader).fault == BPFTAP_OK && reader.place == UINT64_MAX);

    reader = bpftap_open(memory, 132);
    memory[30] = 0xff;
    CHECK(bpftap_next(memory, 132, &reader).fault == BPFTAP_BAD_FRACTION && reader.offset == 24);
    memory[30] = 0, memory[34] = 0xff;
    CHECK(bpftap_next(memory, 132, &reader).fault == BPFTAP_RECORD_TOO_LONG && reader.offset == 24);

    /* A reader whose header was refused gives that fault again. */
    reader = bpftap_open(memory, 23);
    for (int i = 0; i < 2; i++) {
        record = bpftap_next(memory, 132, &reader);
        CHECK(record.fault == BPFTAP_SHORT_HEADER && record.place == 0 && record.offset == 0 && record.captured == 0 && record.wire == 0);
        CHECK(reader.fault == BPFTAP_SHORT_HEADER && reader.offset == 0 && reader.place == 0);
    }

    CHECK(bpftap_open(memory, 23).fault == BPFTAP_SHORT_HEADER);
    CHECK(bpftap_open(memory, 0).fault == BPFTAP_SHORT_HEADER);
    memory[20] = 101;
    CHECK(bpftap_open(memory, 132).fault == BPFTAP_LINK_TYPE);
    memory[4] = 1;
    CHECK(bpftap_open(memory, 132).fault == BPFTAP_VERSION);
    memory[0] = 0x0a;
    CHECK(bpftap_open(memory, 132).fault == BPFTAP_NOT_SAVEFILE);
    free(memory);
}

/* The spans of many records at once: as many as there is room for, and up to what is none. */
static void reads_spans(void) {
    uint8_t *memory = capture();
    struct bpftap_span *spans = block(3 * sizeof *spans);
    struct bpftap_reader reader = bpftap_open(memory, 132);
    struct bpftap_result result = bpftap_spans(memory, 132, &reader, spans, 0);
    CHECK(result.fault == BPFTAP_OK && result.size == 0 && reader.offset == 24 && reader.place == 0);
    result = bpftap_spans(memory, 132, &reader, spans, 1);
    CHECK(result.fault == BPFTAP_OK && result.size == 1 && result.place == 0 && reader.offset == 78 && reader.place == 1);
    CHECK(spans[0].offset == 40 && spans[0].captured == 38 && spans[0].wire == 60 && untouched(spans + 1, 2 * sizeof *spans));
    result = bpftap_spans(memory, 132, &reader, spans + 1, 1);
    CHECK(result.fault == BPFTAP_OK && result.size == 1 && reader.offset == 132 && reader.place == 2);
    CHECK(spans[1].offset == 94 && spans[1].captured == 38 && spans[1].wire == 38);
    for (int i = 0; i < 2; i++) {
        result = bpftap_spans(memory, 132, &reader, spans + 2, 1);
        CHECK(result.fault == BPFTAP_END && result.size == 0 && result.place == 2 && reader.offset == 132 && untouched(spans + 2, sizeof *spans));
    }
    memset(spans, 0xa5, 3 * sizeof *spans);
    reader = bpftap_open(memory, 131);
    result = bpftap_spans(memory, 131, &reader, spans, 3);
    CHECK(result.fault == BPFTAP_TORN_RECORD && result.size == 1 && result.place == 1 && reader.offset == 78 && reader.place == 1);
    CHECK(spans[0].offset == 40 && untouched(spans + 1, 2 * sizeof *spans));
    reader = bpftap_open(memory, 23);
    result = bpftap_spans(memory, 132, &reader, spans, 3);
    CHECK(result.fault == BPFTAP_SHORT_HEADER && result.size == 0 && result.place == 0 && reader.offset == 0);
    reader = bpftap_open(memory, 132), reader.place = UINT64_MAX - 1;
    result = bpftap_spans(memory, 132, &reader, spans, 3);
    CHECK(result.fault == BPFTAP_COUNT_FULL && result.size == 1 && result.place == UINT64_MAX && reader.offset == 78);
    free(spans);
    free(memory);
}

/* The spans of a capture by windows of it, each of these many bytes, as the header says: every record once, with its bytes. */
static void reads_spans_by_windows(size_t room) {
    enum { RECORDS = 50, SIZE = 24 + RECORDS * 54 };
    uint8_t *memory = capture(), *whole = block(SIZE), *window = block(room);
    memcpy(whole, memory, 24);
    for (size_t n = 0; n < RECORDS; n++) memcpy(whole + 24 + 54 * n, memory + 24 + 54 * (n % 2), 54), whole[24 + 54 * n + 16] = (uint8_t)n;
    size_t taken = room, held = room, seen = 0;
    memcpy(window, whole, room);
    struct bpftap_reader reader = bpftap_open(window, held);
    struct bpftap_span spans[3];
    for (;;) {
        struct bpftap_result result = bpftap_spans(window, held, &reader, spans, 3);
        for (size_t i = 0; i < result.size; i++, seen++) CHECK(spans[i].captured == 38 && spans[i].wire == (seen % 2 ? 38 : 60) && window[spans[i].offset] == seen);
        if (result.fault == BPFTAP_OK) continue;
        CHECK(result.fault == BPFTAP_TORN_RECORD || result.fault == BPFTAP_END);
        if (taken == SIZE) break;
        held -= reader.offset;
        memmove(window, window + reader.offset, held);
        size_t more = room - held < SIZE - taken ? room - held : SIZE - taken;
        memcpy(window + held, whole + taken, more);
        held += more, taken += more, reader.offset = 0;
    }
    CHECK(seen == RECORDS && reader.place == RECORDS && reader.offset == held);
    free(window);
    free(whole);
    free(memory);
}

static void writes(void) {
    uint8_t *wanted = capture(), *to = block(132);
    struct bpftap_reader reader = bpftap_open(wanted, 132);
    struct bpftap_result result = bpftap_put_header(reader.order, reader.unit, reader.snap, to, 24);
    CHECK(result.fault == BPFTAP_OK && result.size == 24);
    size_t size = 24;
    struct bpftap_record record;
    while ((record = bpftap_next(wanted, 132, &reader)).fault == BPFTAP_OK) {
        result = bpftap_put(reader.order, reader.unit, &record, wanted + record.offset, record.captured, to + size, 53);
        CHECK(result.fault == BPFTAP_NO_ROOM && result.size == 54 && untouched(to + size, 54));
        result = bpftap_put(reader.order, reader.unit, &record, wanted + record.offset, record.captured, to + size, 132 - size);
        CHECK(result.fault == BPFTAP_OK && result.size == 54);
        size += result.size;
    }
    CHECK(size == 132 && !memcmp(to, wanted, 132));
    memset(to, 0xa5, 132);
    CHECK(bpftap_put_header(1, 1, 7, to, 23).fault == BPFTAP_NO_ROOM && untouched(to, 132));
    static const uint8_t big[24] = {0xa1, 0xb2, 0x3c, 0x4d, 0, 2, 0, 4, 0, 0, 0, 0, 0, 0, 0, 0, 0, 0, 0, 7, 0, 0, 0, 1};
    CHECK(bpftap_put_header(1, 1, 7, to, 24).fault == BPFTAP_OK && !memcmp(to, big, 24));

    uint8_t *much = block(SNAP + 1), *room = block(SNAP + 17);
    record = (struct bpftap_record){.place = 5, .nanos = 999999999};
    result = bpftap_put(0, 1, &record, much, SNAP + 1, room, SNAP + 17);
    CHECK(result.fault == BPFTAP_RECORD_TOO_LONG && result.place == 5 && untouched(room, SNAP + 17));
    result = bpftap_put(0, 1, &record, much, SNAP, room, SNAP + 17);
    CHECK(result.fault == BPFTAP_OK && result.size == SNAP + 16);
    record.nanos++;
    result = bpftap_put(0, 1, &record, much, SNAP, room, SNAP + 17);
    CHECK(result.fault == BPFTAP_BAD_FRACTION && result.place == 5);
    free(room);
    free(much);
    free(to);
    free(wanted);
}

static void cuts(void) {
    static const struct bpftap_insn all[1] = {{6, 0, 0, SNAP}};
    uint8_t *memory = capture(), *to = block(132);
    struct bpftap_result result = bpftap_cut(memory, 132, all, 1, 0, to, 132);
    CHECK(result.fault == BPFTAP_OK && result.size == 132 && !memcmp(to, memory, 132));
    result = bpftap_cut(memory, 132, all, 1, 20, to, 132);
    CHECK(result.fault == BPFTAP_OK && result.size == 96 && to[16] == 20 && to[32] == 20 && to[36] == 60);
    CHECK(!memcmp(to + 40, TCP, 20) && !memcmp(to + 76, UDP, 20));
    memset(to, 0xa5, 132);
    result = bpftap_cut(memory, 132, all, 1, 20, to, 95);
    CHECK(result.fault == BPFTAP_NO_ROOM && result.size == 96 && untouched(to, 132));

    /* The packets before a torn record are written, and the fault is returned with its place. */
    result = bpftap_cut(memory, 131, all, 1, 20, to, 132);
    CHECK(result.fault == BPFTAP_TORN_RECORD && result.place == 1 && result.size == 60 && untouched(to + 60, 72));
    result = bpftap_cut(memory, 131, all, 1, 20, to, 59);
    CHECK(result.fault == BPFTAP_NO_ROOM && result.size == 60);
    memset(to, 0xa5, 132);
    CHECK(bpftap_cut(memory, 23, all, 1, 20, to, 132).fault == BPFTAP_SHORT_HEADER && untouched(to, 132));
    CHECK(bpftap_cut(memory, 132, all, 0, 20, to, 132).fault == BPFTAP_EMPTY && untouched(to, 132));
    free(to);
    free(memory);
}

static struct bpftap_replay plays(const char *listeners, const char *script, const struct bpftap_capture *captures, size_t count, char *to, size_t room) {
    char *lines = text_block(listeners), *words = text_block(script);
    struct bpftap_replay replay = bpftap_steps(lines, strlen(listeners), words, strlen(script), captures, count, to, room);
    free(lines);
    free(words);
    return replay;
}

static struct bpftap_replay plays_json(const char *listeners, const char *script, const struct bpftap_capture *captures, size_t count, char *to, size_t room) {
    char *lines = text_block(listeners), *words = text_block(script);
    struct bpftap_replay replay = bpftap_steps_json(lines, strlen(listeners), words, strlen(script), captures, count, to, room);
    free(lines);
    free(words);
    return replay;
}

/* The reports as JSON Lines, and the fault of a listener. */
static void plays_steps_as_json(void) {
    static const char wanted[] =
        "{\"listener\":0,\"received\":2,\"matched\":1,\"dropped\":0}\n{\"listener\":0,\"batch\":0}\n"
        "{\"listener\":0,\"batch\":0,\"capture\":0,\"place\":1,\"seconds\":2,\"nanoseconds\":999999000,\"length\":38,\"kept\":10}\n"
        "{\"listener\":0,\"held\":true}\n";
    uint8_t *memory = capture();
    struct bpftap_capture captures[1] = {{memory, 132}};
    size_t size = strlen(wanted);
    char *to = block(size + 1);
    struct bpftap_replay replay = plays_json("10 4096 udp", "arrive\narrive\nflush 0\nread 0", captures, 1, to, size + 1);
    CHECK(replay.fault == BPFTAP_OK && replay.size == size && replay.number == 0 && replay.place == 0 && !strcmp(to, wanted));
    memset(to, 0xa5, size + 1);
    replay = plays_json("10 4096 udp", "arrive\narrive\nflush 0\nread 0", captures, 1, to, size);
    CHECK(replay.fault == BPFTAP_NO_ROOM && replay.size == size && untouched(to, size + 1));
    replay = plays_json("10 4096 udp\n10 4096 port http", "", captures, 1, to, size + 1);
    CHECK(replay.fault == BPFTAP_BAD_WORD && replay.number == 1 && replay.place == 5 && replay.size == 0 && untouched(to, size + 1));
    captures[0].size = 131;
    replay = plays_json("10 4096 udp", "arrive\narrive", captures, 1, to, size + 1);
    CHECK(replay.fault == BPFTAP_TORN_RECORD && replay.number == 0 && replay.place == 1 && replay.size == strlen(to));
    free(to);
    free(memory);
}

static void plays_steps(void) {
    static const char wanted[] =
        "listener 0 received 2 matched 1 dropped 0\nbatch 0\ncapture 0 place 1 time 2.999999000 len 38 kept 10\nheld\n"
        "listener 1 received 0 matched 0 dropped 0\nheld\n";
    static const char listeners[] = "10 4096 udp\n0 300000 ip", script[] = "close 1\narrive\narrive\nflush 0\nread 0";
    uint8_t *memory = capture();
    struct bpftap_capture captures[2] = {{memory, 132}, {memory, 131}};
    size_t size = strlen(wanted);
    char *to = block(size + 1);
    struct bpftap_replay replay = plays(listeners, script, captures, 1, to, size + 1);
    CHECK(replay.fault == BPFTAP_OK && replay.size == size && replay.number == 0 && replay.place == 0 && !strcmp(to, wanted));
    memset(to, 0xa5, size + 1);
    replay = plays(listeners, script, captures, 1, to, size);
    CHECK(replay.fault == BPFTAP_NO_ROOM && replay.size == size && untouched(to, size + 1));
    free(to);

    /* Without a capture no packet arrives. */
    char text[400];
    replay = plays("10 4096 udp", "arrive", captures, 0, text, sizeof text);
    CHECK(replay.fault == BPFTAP_OK && !strcmp(text, "listener 0 received 0 matched 0 dropped 0\nheld\n"));

    /* The packets before a torn record are played, and the fault is returned with its capture. */
    replay = plays(listeners, "arrive\narrive\narrive\narrive", captures, 2, text, sizeof text);
    CHECK(replay.fault == BPFTAP_TORN_RECORD && replay.number == 1 && replay.place == 1 && replay.size == strlen(text));
    CHECK(!strncmp(text, "listener 0 received 3 matched 1 dropped 0\n", 42));
    replay = plays(listeners, "arrive\narrive\narrive\narrive", captures, 2, text, 5);
    CHECK(replay.fault == BPFTAP_NO_ROOM && replay.number == 0 && replay.place == 0);

    struct {
        const char *listeners, *script;
        uint32_t fault, number;
        size_t place;
    } const bad[] = {
        {"10 4096 udp\n10 x udp", "", BPFTAP_LISTENERS, 0, 2}, {"10 4096 udp", "arrive\n\narrive", BPFTAP_SCRIPT, 0, 2},
        {"10 4096 udp", "arrive\nread 1", BPFTAP_NO_LISTENER, 0, 1}, {"10 4096 udp\n10 4096 port http", "", BPFTAP_BAD_WORD, 1, 5},
        {"10 4096 udp\n10 47 udp", "", BPFTAP_BAD_CAPACITY, 1, 0},
    };
    memset(text, 0xa5, sizeof text);
    for (size_t i = 0; i < sizeof bad / sizeof *bad; i++) {
        replay = plays(bad[i].listeners, bad[i].script, captures, 1, text, sizeof text);
        CHECK(replay.fault == bad[i].fault && replay.number == bad[i].number && replay.place == bad[i].place && replay.size == 0);
        CHECK(untouched(text, sizeof text));
    }
    captures[1].size = 23;
    replay = plays(listeners, script, captures, 2, text, sizeof text);
    CHECK(replay.fault == BPFTAP_SHORT_HEADER && replay.number == 1 && replay.size == 0 && untouched(text, sizeof text));
    char many[65 * 12 + 1] = "";
    for (int i = 0; i < 65; i++) strcat(many, "10 4096 udp\n");
    CHECK(plays(many, "", captures, 1, text, sizeof text).fault == BPFTAP_STEPS_TOO_MANY);
    free(memory);
}

static struct bpftap_comparison compare(const char *first, const char *second, size_t budget, uint8_t *to, size_t room) {
    char *one = text_block(first), *other = text_block(second);
    struct bpftap_comparison result = bpftap_compare(one, strlen(first), other, strlen(second), budget, to, room);
    free(one);
    free(other);
    return result;
}

static uint32_t verdict_of(const char *text, const uint8_t *packet, size_t captured, uint32_t wire) {
    char line[200];
    struct bpftap_reason reason = bpftap_why(text, strlen(text), packet, captured, wire, line, sizeof line);
    CHECK(reason.fault == BPFTAP_OK);
    return reason.verdict;
}

enum { BUDGET = 2000000 };

static void compares(void) {
    uint8_t to[2000];
    memset(to, 0xa5, sizeof to);
    struct bpftap_comparison result = compare("port 80", "src port 80 or dst port 80", BUDGET, to, sizeof to);
    CHECK(result.fault == BPFTAP_OK && result.answer == BPFTAP_SAME && result.size == 0 && result.wire == 0 && result.cause == 0);
    result = compare("", "ip or not ip", BUDGET, to, 0);
    CHECK(result.fault == BPFTAP_OK && result.answer != BPFTAP_SAME && untouched(to, sizeof to));

    /* A packet that one accepts and the other rejects, with exactly the room that it needs, and one byte less. */
    result = compare("tcp", "udp", BUDGET, to, sizeof to);
    CHECK(result.fault == BPFTAP_OK && result.answer == BPFTAP_DIFFER && result.size > 23 && result.size <= result.wire && result.cause == 0);
    size_t size = result.size;
    uint32_t tcp = verdict_of("tcp", to, size, result.wire), udp = verdict_of("udp", to, size, result.wire);
    CHECK((tcp == BPFTAP_YES && udp == BPFTAP_NO) || (tcp == BPFTAP_NO && udp == BPFTAP_YES));
    CHECK(untouched(to + size, sizeof to - size));
    uint8_t *exact = block(size);
    result = compare("tcp", "udp", BUDGET, exact, size);
    CHECK(result.fault == BPFTAP_OK && result.size == size && !memcmp(exact, to, size));
    memset(exact, 0xa5, size);
    result = compare("tcp", "udp", BUDGET, exact, size - 1);
    CHECK(result.fault == BPFTAP_NO_ROOM && result.answer == BPFTAP_DIFFER && result.size == size && untouched(exact, size));
    free(exact);

    result = compare("tcp", "udp", 1, to, sizeof to);
    CHECK(result.fault == BPFTAP_OK && result.answer == BPFTAP_NOT_DECIDED && result.cause == BPFTAP_BUDGET && result.size == 0);

    /* Where the order of two addresses shows, it is on a packet that is cut short. */
    result = compare("host 10.0.0.1 or host 10.0.0.2", "host 10.0.0.2 or host 10.0.0.1", BUDGET, to, sizeof to);
    CHECK(result.answer == BPFTAP_SHORT || (result.answer == BPFTAP_NOT_DECIDED && result.cause == BPFTAP_GRAPHS));

    struct {
        const char *first, *second;
        uint32_t fault, number;
        size_t place;
    } const bad[] = {
        {"port http", "tcp and", BPFTAP_BAD_WORD, 0, 5}, {"tcp", "tcp and", BPFTAP_SYNTAX, 1, 7}, {"tcp", "\xff", BPFTAP_NOT_TEXT, 1, 0},
    };
    memset(to, 0xa5, sizeof to);
    for (size_t i = 0; i < sizeof bad / sizeof *bad; i++) {
        result = compare(bad[i].first, bad[i].second, BUDGET, to, sizeof to);
        CHECK(result.fault == bad[i].fault && result.number == bad[i].number && result.place == bad[i].place && result.size == 0);
        CHECK(result.answer == BPFTAP_NOT_DECIDED && result.cause == 0 && result.wire == 0 && untouched(to, sizeof to));
    }
}

int main(void) {
    compiles();
    refuses_expressions();
    refuses_long_and_deep_expressions();
    checks();
    lists();
    runs();
    runs_batches();
    runs_joined();
    says_why();
    prints();
    hints();
    reads();
    reads_spans();
    for (size_t room = 54; room <= 300; room++) reads_spans_by_windows(room);
    writes();
    cuts();
    plays_steps();
    plays_steps_as_json();
    compares();
    return failures != 0;
}
