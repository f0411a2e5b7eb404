/* SPDX-License-Identifier: MIT OR Apache-2.0 */
/* What a static program has below its proofs beside musl: `./build --targets` compiles and links it. No proof covers it. The toolchain's own functions of
 * these names are in its archives libos_c.a and liblibc_c.a, which are for x86-64 alone, and take the C library to be glibc. */
#include <errno.h>
#include <stdint.h>
#include <sys/syscall.h>
#include <unistd.h>

static int count;
static char **words;

int __real_main(int, char **);

/* The toolchain keeps the command line in a constructor, and musl passes constructors nothing. The linker calls this in place of `main`. */
int __wrap_main(int given, char **from) {
    count = given;
    words = from;
    return __real_main(given, from);
}

/* How many words the command line has. */
long rattle_arg_count(void) {
    return count;
}

/* Copies a word of the command line, and returns its length; -1 if there is none, -2 if it is longer than the room. */
long rattle_arg(unsigned long at, uint8_t *to, unsigned long room) {
    unsigned long length = 0;
    if (at >= (unsigned long)(long)count || !words[at]) return -1;
    for (; words[at][length]; length++) {
        if (length == room) return -2;
        to[length] = words[at][length];
    }
    return (long)length;
}

/* musl 1.2.3 has no `statx`, by which a program asks whether two paths lead to one file. */
struct statx;
int statx(int folder, const char *path, int flags, unsigned mask, struct statx *to) {
    return (int)syscall(SYS_statx, folder, path, flags, mask, to);
}

/* glibc's name for `write`, by which a program on a processor that lacks instructions says so. */
long __write(int file, const void *from, size_t length) {
    return write(file, from, length);
}

#ifdef __x86_64__
/* glibc's answer to which instructions the processor has: the four registers of CPUID, and what of them the system lets a program use. A program asks for those
 * of x86-64-v2, which need nothing of the system. Leaf 0 is CPUID's 1, leaf 2 its 0x80000001; no other one is asked for. */
struct leaf { unsigned cpuid[4], active[4]; };
const struct leaf *__x86_get_cpuid_feature_leaf(unsigned leaf) {
    static struct leaf none, asked[2];
    if (leaf != 0 && leaf != 2) return &none;
    struct leaf *to = &asked[leaf / 2];
    __asm__("cpuid" : "=a"(to->active[0]), "=b"(to->active[1]), "=c"(to->active[2]), "=d"(to->active[3]) : "a"(leaf ? 0x80000001u : 1u), "c"(0));
    for (int at = 0; at < 4; at++) to->cpuid[at] = to->active[at];
    return to;
}
#else
/* The error of the last call: for x86-64 it is in the toolchain's archives. Memory is in heap.c. */
int rattle_errno(void) {
    return errno;
}
void rattle_set_errno(int error) {
    errno = error;
}
#endif
