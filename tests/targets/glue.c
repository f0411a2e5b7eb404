/* Prints what the functions of release/glue.c answer, a line for each. The numbers are written by hand: musl's printf would want more than the toolchain has. */
#include <errno.h>
#include <pthread.h>
#include <stdint.h>
#include <stdlib.h>
#include <string.h>
#include <unistd.h>

struct found { uint64_t some; void *at; };
long rattle_arg_count(void);
long rattle_arg(unsigned long at, uint8_t *to, unsigned long room);
int rattle_errno(void);
void rattle_set_errno(int error);
struct found rattle_alloc(size_t size, size_t align);
struct found rattle_realloc(void *at, size_t old, size_t size, size_t align);
void rattle_dealloc(void *at);
int statx(int folder, const char *path, int flags, unsigned mask, void *to);
long __write(int file, const void *from, size_t length);

static void put(const char *text) { __write(1, text, strlen(text)); }

static void put_number(long number) {
    char digits[24], *at = digits + sizeof digits - 1;
    unsigned long left = number < 0 ? -(unsigned long)number : (unsigned long)number;
    *at = 0;
    do *--at = '0' + left % 10; while (left /= 10);
    if (number < 0) put("-");
    put(at);
}

static void line(const char *name, long number) {
    put(name);
    put(" ");
    put_number(number);
    put("\n");
}

/* Whether a file is there, and what it was for `statx`: its inode. */
static void file(const char *path) {
    uint64_t words[32];
    int status = statx(-100, path, 0, 0x7ff, words);
    line("statx", status ? -rattle_errno() : (long)words[4]);
}

static void memory(void) {
    struct found one = rattle_alloc(0, 16);
    line("no bytes", (long)one.some);
    memset(one.at, 1, 16);
    one = rattle_realloc(one.at, 0, 1 << 20, 1);
    memset(one.at, 1, 1 << 20);
    line("more", (long)one.some);
    struct found too_much = rattle_realloc(one.at, 1 << 20, (size_t)1 << 62, 1);
    line("too much", (long)too_much.some);
    line("its address", too_much.at != NULL);
    rattle_dealloc(one.at);
    line("too much at first", (long)rattle_alloc((size_t)1 << 62, 1).some);
}

/* As much stack as a thread has under glibc. */
static void *deep(void *given) {
    volatile char room[7 << 20];
    for (size_t at = 0; at < sizeof room; at += 4096) room[at] = 1;
    return given;
}

#ifdef __x86_64__
struct leaf { unsigned cpuid[4], active[4]; };
const struct leaf *__x86_get_cpuid_feature_leaf(unsigned leaf);
static void processor(void) {
    const struct leaf *one = __x86_get_cpuid_feature_leaf(0), *two = __x86_get_cpuid_feature_leaf(2);
    line("has x86-64-v2", (one->active[2] & 0x982201) == 0x982201 && (two->active[2] & 1) == 1);
    line("other leaves", __x86_get_cpuid_feature_leaf(1)->active[1] | __x86_get_cpuid_feature_leaf(9)->active[0]);
}
#else
static void processor(void) {}
#endif

int main(int count, char **words) {
    uint8_t room[4];
    line("count", rattle_arg_count());
    for (long at = 0; at <= rattle_arg_count(); at++) {
        long length = rattle_arg((unsigned long)at, room, sizeof room);
        line("word", length);
        if (length > 0 && memcmp(room, words[at], (size_t)length)) line("another word", at);
    }
    line("given", count);
    line("far", rattle_arg((unsigned long)-1, room, sizeof room));
    rattle_set_errno(EPIPE);
    line("errno", rattle_errno());
    file("glue.c");
    file("none");
    memory();
    pthread_t thread;
    void *back = NULL;
    if (!pthread_create(&thread, NULL, deep, room)) pthread_join(thread, &back);
    line("thread", back == room);
    processor();
    return 0;
}
