/* The files of a text: its whole units, in parts of at most 16,384 bytes where a unit has no more. */
#include "tokenizer.c"
#include <stdint.h>
#include <stdio.h>
#include <stdlib.h>
#include <string.h>

enum { PART_LIMIT = 16384 };

/* The end of the first unit from a place on, or the end of the text. */
static size_t unit_end(const uint8_t *text, size_t length, size_t from) {
    static const char mark[] = "end architecture rtl;\n";
    size_t size = sizeof mark - 1;
    for (size_t at = from; at + size <= length; at++)
        if (text[at] == 'e' && memcmp(text + at, mark, size) == 0) return at + size;
    return length;
}

/* Where each part begins, and where the last one ends. */
static size_t *cut_parts(const uint8_t *text, size_t length, size_t *count) {
    size_t *starts = malloc((length / 16 + 2) * sizeof *starts);
    if (!starts) return 0;
    *count = 0;
    for (size_t at = 0; at < length;) {
        size_t end = unit_end(text, length, at);
        while (end < length) {
            size_t next = unit_end(text, length, end);
            if (next - at > PART_LIMIT) break;
            end = next;
        }
        starts[(*count)++] = at;
        at = end;
    }
    starts[*count] = length;
    return starts;
}

/* Measures a file as parts and as one, and prints by `measure`; `unequal` is said where that gives up. The exit of a bench
 * that is called `BENCH FILE ROUNDS`. */
static int measure_file(int count, char **words,
                        int (*measure)(const char *name, const uint8_t *text, const size_t *starts, size_t parts, long rounds),
                        const char *unequal) {
    if (count != 3) return 2;
    FILE *file = fopen(words[1], "rb");
    long rounds = atol(words[2]);
    if (!file || rounds < 1) return 2;
    uint8_t *text = malloc(4194304);
    if (!text) return 2;
    size_t whole[2] = {0, fread(text, 1, 4194304, file)}, parts;
    size_t *starts = cut_parts(text, whole[1], &parts);
    if (!starts) return 2;
    fill_classes();
    if (!measure("files of at most 16,384 bytes", text, starts, parts, rounds) ||
        !measure("one file", text, whole, 1, rounds)) {
        puts(unequal);
        return 1;
    }
    return 0;
}
