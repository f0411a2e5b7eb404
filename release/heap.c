/* SPDX-License-Identifier: MIT OR Apache-2.0 */
/* Memory for proved code on aarch64, for which the toolchain has none: `./build --targets` links it into the static program, into libbpftap.a and into
 * libbpftap.so.1. It is the C library's, of whichever program there is. No proof covers it. */
#include <stddef.h>
#include <stdint.h>
#include <stdlib.h>

/* A block, and whether it is there. One of no bytes has as many as its alignment, which is never more than what malloc keeps: 16. */
struct found { uint64_t some; void *at; };
static char nothing;
static struct found found(void *at) {
    return (struct found){at != NULL, at ? at : &nothing};
}

struct found rattle_alloc(size_t size, size_t align) {
    return found(malloc(size ? size : align));
}
struct found rattle_realloc(void *at, size_t old, size_t size, size_t align) {
    (void)old;
    return found(realloc(at, size ? size : align));
}
void rattle_dealloc(void *at) {
    free(at);
}
