/* What the tests of the library share. */
#ifndef CHECK_H
#define CHECK_H
#include <stdio.h>
#include <stdlib.h>
#include <string.h>

static int failures;

#define CHECK(holds)                                                       \
    do {                                                                   \
        if (!(holds)) {                                                    \
            printf("%s:%d: %s\n", __FILE__, __LINE__, #holds);             \
            failures++;                                                    \
        }                                                                  \
    } while (0)

/* A block of exactly this size, so that AddressSanitizer and valgrind see each byte that is read or written past it. */
static inline void *block(size_t size) {
    void *at = malloc(size ? size : 1);
    if (!at) exit(2);
    memset(at, 0xa5, size);
    return at;
}

/* A copy of a text in a block of its own, without the zero byte that ends it. */
static inline char *text_block(const char *text) {
    char *at = block(strlen(text));
    memcpy(at, text, strlen(text));
    return at;
}

/* Whether all bytes are still as `block` left them. */
static inline int untouched(const void *at, size_t size) {
    const unsigned char *bytes = at;
    for (size_t i = 0; i < size; i++)
        if (bytes[i] != 0xa5) return 0;
    return 1;
}
#endif
