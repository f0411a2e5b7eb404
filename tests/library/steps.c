/* Plays a script to listeners over captures, by bpftap_steps, with --json by bpftap_steps_json, and with --answers or --answers-json by
 * bpftap_steps_answers and its neighbour.
 *
 *     steps [--json | --answers | --answers-json] LISTENERS SCRIPT CAPTURE..
 *
 * Prints what `bpftap steps` prints, on standard error too, with its exit status; of the answers what `steps -v` prints before the reports.
 * Faults are printed as text in either form. */
#include "check.h"
#include <bpftap.h>

/* A file, in a block of exactly its size. */
static struct bpftap_capture content(const char *path) {
    FILE *file = fopen(path, "rb");
    if (!file || fseek(file, 0, SEEK_END)) exit(9);
    size_t size = ftell(file);
    uint8_t *bytes = block(size);
    rewind(file);
    if (fread(bytes, 1, size, file) != size) exit(9);
    fclose(file);
    return (struct bpftap_capture){bytes, size};
}

/* What the program prints before the name of a fault of a listener or a capture. */
static const char *owner(uint32_t fault) {
    if (fault == BPFTAP_BAD_CAPACITY) return "Open";
    if (fault >= BPFTAP_SHORT_HEADER && fault < BPFTAP_BAD_CAPACITY) return "Capture";
    if (fault == BPFTAP_TOO_LONG || fault == BPFTAP_TOO_DEEP) return "Compile";
    if (fault >= BPFTAP_TEXT_TOO_LONG && fault < BPFTAP_TOO_LONG) return "Expression";
    return NULL;
}

static void print_fault(struct bpftap_replay replay) {
    char text[64];
    bpftap_fault_text(replay.fault, replay.place, text, sizeof text);
    /* The two names that the program prints otherwise. */
    if (replay.fault == BPFTAP_STEPS_TOO_MANY) strcpy(text, "TooMany");
    if (replay.fault == BPFTAP_RECORD_TOO_LONG) snprintf(text, sizeof text, "TooLong %zu", replay.place);
    const char *of = owner(replay.fault);
    if (of)
        fprintf(stderr, "bpftap: %s %u %s\n", of, replay.number, text);
    else
        fprintf(stderr, "bpftap: %s\n", text);
}

int main(int argc, char **argv) {
    const char *form = argc > 1 && !strncmp(argv[1], "--", 2) ? argv[1] : "";
    struct bpftap_replay (*play)(const char *, size_t, const char *, size_t, const struct bpftap_capture *, size_t, char *, size_t) =
        !strcmp(form, "--json") ? bpftap_steps_json : !strcmp(form, "--answers") ? bpftap_steps_answers
        : *form ? bpftap_steps_answers_json : bpftap_steps;
    if (*form) argc--, argv++;
    if (argc < 3) return 9;
    struct bpftap_capture files[100];
    for (int i = 1; i < argc && i <= 100; i++) files[i - 1] = content(argv[i]);
    const char *listeners = (const char *)files[0].bytes, *script = (const char *)files[1].bytes;
    size_t lines = files[0].size, words = files[1].size, count = argc - 3;

    /* Without room the size is returned, or the fault for which there are no reports. */
    struct bpftap_replay needed = play(listeners, lines, script, words, files + 2, count, (char[1]){0}, 0), replay = needed;
    if (needed.fault == BPFTAP_NO_ROOM) {
        char *text = block(needed.size + 1);
        replay = play(listeners, lines, script, words, files + 2, count, text, needed.size);
        CHECK(replay.fault == BPFTAP_NO_ROOM && replay.size == needed.size && untouched(text, needed.size + 1));
        replay = play(listeners, lines, script, words, files + 2, count, text, needed.size + 1);
        CHECK(replay.size == needed.size && strlen(text) == needed.size);
        fwrite(text, 1, replay.size, stdout);
        free(text);
    }
    if (replay.fault) print_fault(replay);
    for (int i = 1; i < argc; i++) free((void *)files[i - 1].bytes);
    if (failures) return 9;
    return replay.fault == BPFTAP_OK ? 0 : needed.fault == BPFTAP_NO_ROOM ? 2 : 1;
}
