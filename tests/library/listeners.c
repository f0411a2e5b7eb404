/* The calls of a listener: its worked example, every answer and fault, and buffers that are exactly full. */
#include "check.h"
#include <bpftap.h>

/* Room for the records of two messages of 8 bytes: each has 32 bytes of fields. */
enum { SNAP = 8, ROOM = 80 };

static const uint8_t DATA[16] = {1, 2, 3, 4, 5, 6, 7, 8, 9, 10, 11, 12, 13, 14, 15, 16};

static struct bpftap_buffer buffer(size_t room) {
    return (struct bpftap_buffer){.bytes = block(room), .room = room, .size = 12345};
}

static struct bpftap_listener opened(uint32_t mode) {
    struct bpftap_listener listener;
    memset(&listener, 0xa5, sizeof listener);
    listener.store = buffer(ROOM), listener.hold = buffer(ROOM), listener.snap = SNAP, listener.mode = mode;
    CHECK(bpftap_listener_open(&listener) == BPFTAP_OK);
    CHECK(listener.received == 0 && listener.matched == 0 && listener.dropped == 0 && listener.closed == 0);
    CHECK(listener.store.size == 0 && listener.hold.size == 0 && listener.store.room == ROOM && listener.hold.room == ROOM);
    CHECK(listener.snap == SNAP && listener.mode == mode);
    return listener;
}

static void freed(struct bpftap_listener *listener, struct bpftap_buffer *batch) {
    free(listener->store.bytes);
    free(listener->hold.bytes);
    if (batch) free(batch->bytes);
}

/* A packet arrives, of which the first bytes were captured; its number is its place. */
static uint32_t arrives(struct bpftap_listener *listener, uint32_t answer, uint64_t number, size_t captured) {
    struct bpftap_record packet = {.place = number, .seconds = 7, .nanos = 999999999, .wire = 1500, .captured = 77, .offset = 99, .fault = 3};
    uint8_t *bytes = block(captured);
    memcpy(bytes, DATA, captured);
    uint32_t fed = bpftap_listener_arrive(listener, answer, 0x80000001, &packet, bytes, captured);
    free(bytes);
    return fed;
}

/* The next message of a batch is the packet with this number, of which so many bytes were kept. */
static void gives(const struct bpftap_buffer *batch, size_t *at, uint64_t number, uint32_t kept) {
    size_t before = *at;
    struct bpftap_message message = bpftap_listener_next(batch, at);
    CHECK(message.fault == BPFTAP_OK && message.place == number && message.capture == 0x80000001 && message.seconds == 7);
    CHECK(message.nanos == 999999999 && message.wire == 1500 && message.captured == kept && message.offset == before + 32);
    CHECK(!memcmp(batch->bytes + message.offset, DATA, kept) && *at == before + 32 + (kept + 7) / 8 * 8);
}

static void ends(const struct bpftap_buffer *batch, size_t *at) {
    size_t before = *at;
    struct bpftap_message message = bpftap_listener_next(batch, at);
    CHECK(message.fault == BPFTAP_END && *at == before && message.offset == before && message.captured == 0 && message.wire == 0);
}

static void opens(void) {
    struct {
        uint32_t snap, fault;
        size_t store, hold;
    } const rows[] = {
        {0, BPFTAP_BAD_SNAP, 80, 80}, {BPFTAP_MAX_SNAP + 1, BPFTAP_BAD_SNAP, BPFTAP_MAX_CAPACITY, BPFTAP_MAX_CAPACITY},
        {8, BPFTAP_BAD_CAPACITY, 39, 39}, {9, BPFTAP_BAD_CAPACITY, 47, 47}, {8, BPFTAP_BAD_CAPACITY, 40, 41},
        {8, BPFTAP_BAD_CAPACITY, 41, 40}, {8, BPFTAP_BAD_CAPACITY, BPFTAP_MAX_CAPACITY + 1, BPFTAP_MAX_CAPACITY + 1},
        {8, BPFTAP_BAD_CAPACITY, 0, 0}, {BPFTAP_MAX_SNAP, BPFTAP_BAD_CAPACITY, BPFTAP_MAX_SNAP + 31, BPFTAP_MAX_SNAP + 31},
        {8, BPFTAP_OK, 40, 40}, {9, BPFTAP_OK, 48, 48}, {1, BPFTAP_OK, 40, 40}, {BPFTAP_MAX_SNAP, BPFTAP_OK, BPFTAP_MAX_SNAP + 32, BPFTAP_MAX_SNAP + 32},
        {1, BPFTAP_OK, BPFTAP_MAX_CAPACITY, BPFTAP_MAX_CAPACITY},
    };
    for (size_t i = 0; i < sizeof rows / sizeof *rows; i++) {
        struct bpftap_listener listener = {.store = buffer(rows[i].store), .hold = buffer(rows[i].hold), .received = 5, .matched = 4, .dropped = 3, .snap = rows[i].snap};
        CHECK(bpftap_listener_open(&listener) == rows[i].fault && (listener.closed == 0) == (rows[i].fault == BPFTAP_OK));
        CHECK(listener.received == 0 && listener.matched == 0 && listener.dropped == 0 && listener.store.size == 0 && listener.hold.size == 0);
        CHECK(listener.snap == rows[i].snap && listener.store.room == rows[i].store && listener.hold.room == rows[i].hold);
        if (rows[i].fault) {
            struct bpftap_buffer batch = buffer(rows[i].store);
            CHECK(arrives(&listener, 100, 0, 8) == BPFTAP_CLOSED && !bpftap_listener_flush(&listener));
            struct bpftap_result read = bpftap_listener_read(&listener, &batch);
            CHECK(read.fault == BPFTAP_OK && read.size == 0 && listener.received == 0);
            free(batch.bytes);
        }
        CHECK(untouched(listener.store.bytes, rows[i].store) && untouched(listener.hold.bytes, rows[i].hold));
        freed(&listener, NULL);
    }
}

static void keeps_and_drops(void) {
    struct bpftap_listener listener = opened(BPFTAP_BUFFERED);
    struct bpftap_buffer batch = buffer(ROOM);
    CHECK(arrives(&listener, 0, 0, 16) == BPFTAP_PASSED && listener.store.size == 0 && untouched(listener.store.bytes, ROOM));
    CHECK(arrives(&listener, UINT32_MAX, 1, 16) == BPFTAP_STORED && listener.store.size == 40);
    CHECK(arrives(&listener, 5, 2, 16) == BPFTAP_STORED && listener.store.size == ROOM);
    struct bpftap_result read = bpftap_listener_read(&listener, &batch);
    CHECK(read.fault == BPFTAP_OK && read.size == 0 && batch.size == 0);
    CHECK(arrives(&listener, 100, 3, 3) == BPFTAP_ROTATED && listener.store.size == 40 && listener.hold.size == ROOM);
    CHECK(arrives(&listener, 100, 4, 0) == BPFTAP_STORED && listener.store.size == 72);
    CHECK(arrives(&listener, 100, 5, 0) == BPFTAP_DROPPED && listener.store.size == 72);
    CHECK(listener.received == 6 && listener.matched == 5 && listener.dropped == 1);
    CHECK(!bpftap_listener_flush(&listener));

    read = bpftap_listener_read(&listener, &batch);
    CHECK(read.fault == BPFTAP_OK && read.size == ROOM && batch.size == ROOM && batch.room == ROOM && listener.hold.size == 0);
    size_t at = 0;
    gives(&batch, &at, 1, 8);
    gives(&batch, &at, 2, 5);
    ends(&batch, &at);
    CHECK(at == ROOM);

    CHECK(bpftap_listener_flush(&listener) && !bpftap_listener_flush(&listener) && listener.store.size == 0);
    CHECK(bpftap_listener_read(&listener, &batch).size == 72);
    at = 0;
    gives(&batch, &at, 3, 3);
    gives(&batch, &at, 4, 0);
    ends(&batch, &at);
    CHECK(bpftap_listener_read(&listener, &batch).size == 0 && batch.size == 0 && !bpftap_listener_flush(&listener));
    freed(&listener, &batch);
}

static void hands_over_at_once(void) {
    struct bpftap_listener listener = opened(BPFTAP_IMMEDIATE);
    struct bpftap_buffer batch = buffer(ROOM);
    CHECK(arrives(&listener, 100, 1, 8) == BPFTAP_HELD && listener.hold.size == 40 && listener.store.size == 0);
    CHECK(arrives(&listener, 100, 2, 8) == BPFTAP_STORED && arrives(&listener, 100, 3, 8) == BPFTAP_STORED);
    CHECK(arrives(&listener, 100, 4, 8) == BPFTAP_DROPPED && bpftap_listener_read(&listener, &batch).size == 40);
    CHECK(arrives(&listener, 100, 5, 8) == BPFTAP_ROTATED);
    CHECK(listener.received == 5 && listener.matched == 5 && listener.dropped == 1);
    freed(&listener, &batch);
}

static void closes(void) {
    struct bpftap_listener listener = opened(BPFTAP_BUFFERED);
    struct bpftap_buffer batch = buffer(ROOM);
    CHECK(arrives(&listener, 100, 1, 8) == BPFTAP_STORED && bpftap_listener_flush(&listener) && arrives(&listener, 100, 2, 8) == BPFTAP_STORED);
    bpftap_listener_close(&listener);
    CHECK(arrives(&listener, 100, 3, 8) == BPFTAP_CLOSED && arrives(&listener, 0, 4, 8) == BPFTAP_CLOSED && !bpftap_listener_flush(&listener));
    CHECK(bpftap_listener_read(&listener, &batch).size == 0 && listener.hold.size == 40 && listener.store.size == 40);
    CHECK(listener.received == 2 && listener.matched == 2 && listener.dropped == 0);
    bpftap_listener_close(&listener);
    freed(&listener, &batch);
}

/* A buffer of another room is not taken, and bytes that are no records are not read past. */
static void refuses_other_buffers(void) {
    struct bpftap_listener listener = opened(BPFTAP_BUFFERED);
    CHECK(arrives(&listener, 100, 1, 8) == BPFTAP_STORED && bpftap_listener_flush(&listener));
    for (size_t room = ROOM - 1; room <= ROOM + 1; room += 2) {
        struct bpftap_buffer batch = buffer(room);
        struct bpftap_result read = bpftap_listener_read(&listener, &batch);
        CHECK(read.fault == BPFTAP_BAD_CAPACITY && read.size == 0 && batch.size == 12345 && listener.hold.size == 40 && untouched(batch.bytes, room));
        free(batch.bytes);
    }
    for (size_t size = 0; size < 100; size++) {
        struct bpftap_buffer batch = {.bytes = block(size), .room = size, .size = SIZE_MAX};
        size_t at = 0;
        ends(&batch, &at);
        at = SIZE_MAX;
        ends(&batch, &at);
        free(batch.bytes);
    }
    freed(&listener, NULL);
}

int main(void) {
    opens();
    keeps_and_drops();
    hands_over_at_once();
    closes();
    refuses_other_buffers();
    return failures != 0;
}
