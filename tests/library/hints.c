/* What helps at the fault of each expression: a line for each, with a tab where the hint has the end of a line.
 *
 *     hints <EXPRESSIONS */
#include "check.h"
#include <bpftap.h>

/* Prints what helps at the fault for which a text is not compiled; nothing for one that is. */
static void print_hint(const char *text, size_t size) {
    static struct bpftap_insn insns[BPFTAP_MAX_INSNS];
    struct bpftap_result refused = bpftap_compile(text, size, BPFTAP_MAX_SNAP, insns, BPFTAP_MAX_INSNS);
    char hint[1024];
    CHECK(bpftap_hint(text, size, refused.fault, refused.place, hint, sizeof hint).fault == BPFTAP_OK);
    char *end = strchr(hint, '\n');
    if (end) *end = '\t';
    puts(hint);
}

int main(void) {
    static char line[1 << 14];
    while (fgets(line, sizeof line, stdin)) print_hint(line, strcspn(line, "\n"));
    return failures != 0;
}
