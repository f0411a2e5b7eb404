/* SPDX-License-Identifier: MIT OR Apache-2.0 */
/* A file as a whole, for the examples that read captures. */
#include <stdint.h>
#include <stdio.h>
#include <stdlib.h>

/* The bytes of a file, which the caller frees, and how many there are; NULL if it cannot be read whole. */
static inline uint8_t *read_file(const char *path, size_t *size) {
    FILE *file = fopen(path, "rb");
    if (!file) return NULL;
    uint8_t *bytes = NULL;
    long end = fseek(file, 0, SEEK_END) == 0 ? ftell(file) : -1;
    if (end >= 0 && fseek(file, 0, SEEK_SET) == 0 && (bytes = (uint8_t *)malloc((size_t)end + 1)) != NULL) {
        *size = (size_t)end;
        if (fread(bytes, 1, *size, file) != *size) {
            free(bytes);
            bytes = NULL;
        }
    }
    fclose(file);
    return bytes;
}
