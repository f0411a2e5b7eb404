/* Compares pairs of expressions that ask for a byte too far away, each a line with a tab between them: nothing else may be answered of them. */
#include "bpftap.h"
#include "check.h"

#define MOST 1000

int main(void) {
    static char line[MOST];
    while (fgets(line, sizeof line, stdin)) {
        char *tab = strchr(line, '\t');
        size_t second = tab ? strcspn(tab + 1, "\n") : 0;
        CHECK(tab != NULL);
        if (!tab) break;
        uint8_t to[1];
        struct bpftap_comparison found = bpftap_compare(line, (size_t)(tab - line), tab + 1, second, 2000000, to, 0);
        CHECK(found.fault == BPFTAP_OK && found.answer == BPFTAP_NOT_DECIDED && found.cause == BPFTAP_FAR);
    }
    return failures != 0;
}
