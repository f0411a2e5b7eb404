/* Memory that is refused: the Nth call of malloc or realloc fails, for each N in turn, until none does. A call then returns NO_MEMORY
 * and writes nothing, or does what it does undisturbed. Linked with --wrap=malloc and --wrap=realloc. */
#include "check.h"
#include <bpftap.h>

void *__real_malloc(size_t size);
void *__real_realloc(void *at, size_t size);
void *__wrap_malloc(size_t size);
void *__wrap_realloc(void *at, size_t size);

/* How many more calls succeed; less than 0: all. */
static long left = -1;
static int refused;

static int refuses(void) {
    if (left < 0) return 0;
    if (left-- > 0) return 0;
    left = 0;
    refused = 1;
    return 1;
}

void *__wrap_malloc(size_t size) { return refuses() ? NULL : __real_malloc(size); }
void *__wrap_realloc(void *at, size_t size) { return refuses() ? NULL : __real_realloc(at, size); }

static const char TEXT[] = "tcp port 80 or (udp and ip[2:2] > len - 14 and not net 10.0.0.0/8)";
static const struct bpftap_insn ALL[1] = {{6, 0, 0, 262144}};
static uint8_t packet[60], capture[24 + 76];

enum { ROOM = 16384 };

/* What a call returns and writes, and which call it is. */
struct seen {
    uint32_t fault;
    size_t size;
    unsigned char written[ROOM];
};

static struct seen call(int which) {
    struct seen seen;
    memset(seen.written, 0xa5, ROOM);
    char *text = (char *)seen.written;
    struct bpftap_result result = {0, 0, 0};
    struct bpftap_reason reason;
    struct bpftap_replay replay;
    struct bpftap_comparison comparison;
    struct bpftap_traced traced;
    static const char listeners[] = "96 4096 tcp port 80\n96 4096i ip\n", script[] = "arrive\nflush 0\nread 1\nread 0\n";
    const struct bpftap_capture captures[2] = {{capture, sizeof capture}, {capture, sizeof capture}};
    int json = which == 8;
    switch (which) {
        case 0: result = bpftap_compile(TEXT, strlen(TEXT), 100, (void *)seen.written, ROOM / 8); break;
        case 1: result = bpftap_write_listing(ALL, 1, text, ROOM); break;
        case 2: result = bpftap_image(ALL, 1, text, ROOM); break;
        case 3: result = bpftap_print(TEXT, strlen(TEXT), text, ROOM); break;
        case 4: result = bpftap_cut(capture, sizeof capture, ALL, 1, 0, seen.written, ROOM); break;
        case 5: result = bpftap_hint("ip.src == 10.0.0.1 and tcp", 26, BPFTAP_BAD_WORD, 3, text, ROOM); break;
        case 6:
        case 8:
            replay = (json ? bpftap_steps_json : bpftap_steps)(listeners, strlen(listeners), script, strlen(script), captures, 2, text, ROOM);
            result.fault = replay.fault, result.size = replay.size;
            break;
        case 10:
            traced = bpftap_trace(ALL, 1, packet, sizeof packet, sizeof packet, (void *)seen.written, ROOM / sizeof(struct bpftap_executed));
            result.fault = traced.fault, result.size = traced.size;
            break;
        case 11: result = bpftap_looks(TEXT, strlen(TEXT), packet, sizeof packet, sizeof packet, (void *)seen.written, ROOM / sizeof(struct bpftap_look)); break;
        case 13:
            replay = bpftap_steps_answers(listeners, strlen(listeners), script, strlen(script), captures, 2, text, ROOM);
            result.fault = replay.fault, result.size = replay.size;
            break;
        case 12:
            replay = bpftap_picture(listeners, strlen(listeners), script, strlen(script), captures, 2, text, ROOM);
            result.fault = replay.fault, result.size = replay.size;
            break;
        case 9:
            comparison = bpftap_compare("tcp", 3, "udp", 3, 2000000, seen.written, ROOM);
            result.fault = comparison.fault, result.size = comparison.size;
            break;
        default:
            reason = bpftap_why(TEXT, strlen(TEXT), packet, sizeof packet, sizeof packet, text, ROOM);
            result.fault = reason.fault, result.size = reason.size;
    }
    seen.fault = result.fault, seen.size = result.size;
    return seen;
}

int main(void) {
    static const uint8_t header[24] = {0xd4, 0xc3, 0xb2, 0xa1, 2, 0, 4, 0, 0, 0, 0, 0, 0, 0, 0, 0, 0, 0, 4, 0, 1, 0, 0, 0};
    memcpy(capture, header, 24);
    capture[32] = capture[36] = 60;
    for (int which = 0; which < 14; which++) {
        static struct seen whole;
        whole = call(which);
        CHECK(whole.fault == BPFTAP_OK && whole.size > 0);
        long n = 0;
        do {
            refused = 0, left = n++;
            struct seen seen = call(which);
            left = -1;
            if (refused)
                CHECK(seen.fault == BPFTAP_NO_MEMORY && seen.size == 0 && untouched(seen.written, ROOM));
            else
                CHECK(seen.fault == BPFTAP_OK && seen.size == whole.size && !memcmp(seen.written, whole.written, ROOM));
        } while (refused && n < 10000);
        CHECK(n > 1);
    }
    /* The name of a fault takes none. */
    char name[64];
    refused = 0, left = 0;
    struct bpftap_result named = bpftap_fault_text(BPFTAP_NO_MEMORY, 4, name, sizeof name);
    left = -1;
    CHECK(named.fault == BPFTAP_OK && named.size == 8 && !refused && !strcmp(name, "NoMemory"));
    return failures != 0;
}
