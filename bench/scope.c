/* Times the visible libraries of hostile projects, without the scans that they are made from: contexts in a ring, each
 * with a library of its own, in both directions of their files and in a shuffled order; contexts that each refer to
 * all; and a file that names many libraries and has many packages. Ends with 1 where the first unit doesn't see the last of
 * these libraries, or sees one that nothing names.
 *
 *   scope ROUNDS
 */
#include "times.h"
#include <stdbool.h>
#include <stdint.h>
#include <stdio.h>
#include <stdlib.h>
#include <string.h>

struct seen {
    bool whole;
    bool sees;
};

void bench_files(const uint8_t *text, size_t length, const size_t *ends, size_t count, struct seen *out);
void bench_scopes(const uint8_t *text, size_t length, const size_t *ends, size_t count, const uint8_t *library,
                  size_t library_length, struct seen *out);

static char *text;
static size_t length, ends[4096];

/* A ring of contexts: each refers to the one of the next number in a full cycle of x -> factor * x + step. */
static void make_ring(size_t count, size_t factor, size_t step) {
    length = 0;
    for (size_t i = 0; i < count; i++) {
        length += sprintf(text + length, "context c%zu is library l%zu; context work.c%zu; end;", i, i,
                          (factor * i + step) % count);
        ends[i] = length;
    }
}

/* Contexts that each refer to all. */
static void make_net(size_t count) {
    length = 0;
    for (size_t i = 0; i < count; i++) {
        length += sprintf(text + length, "context c%zu is library l%zu, l; context l.c0", i, i);
        for (size_t j = 1; j < count; j++) length += sprintf(text + length, ",l.c%zu", j);
        length += sprintf(text + length, "; end;");
        ends[i] = length;
    }
}

/* One file of so many bytes: half of it names libraries, the other half is packages that name none. The number of names, of
 * which the package `z` sees all. */
static size_t make_names(size_t bytes) {
    size_t names = 0;
    length = sprintf(text, "library l0");
    while (length < bytes / 2) length += sprintf(text + length, ",l%zu", ++names);
    length += sprintf(text + length, ";package z is end;");
    for (size_t i = 0; length < bytes; i++) length += sprintf(text + length, "package p%zu is end;", i);
    ends[0] = length;
    return names + 1;
}

/* The median seconds of the whole call less those of the scans. */
static bool measure(const char *name, size_t count, size_t last, long rounds) {
    double *scans = malloc(rounds * sizeof *scans), *all = malloc(rounds * sizeof *all);
    struct seen seen = {0};
    char library[32];
    size_t library_length = sprintf(library, "l%zu", last);
    if (!scans || !all) return false;
    for (long i = 0; i < rounds; i++) {
        double from = now();
        bench_files((uint8_t *)text, length, ends, count, &seen);
        scans[i] = now() - from;
        if (!seen.whole) return false;
        from = now();
        bench_scopes((uint8_t *)text, length, ends, count, (uint8_t *)library, library_length, &seen);
        all[i] = now() - from;
        if (!seen.whole || !seen.sees) return false;
    }
    bench_scopes((uint8_t *)text, length, ends, count, (uint8_t *)"none", 4, &seen);
    if (!seen.whole || seen.sees) return false;
    double a = median(scans, rounds), b = median(all, rounds);
    printf("%s: %.3f seconds, scans %.3f\n", name, b - a, a);
    fflush(stdout);
    free(scans);
    free(all);
    return true;
}

int main(int count, char **words) {
    long rounds = count == 2 ? atol(words[1]) : 0;
    text = malloc(100000000);
    if (rounds < 1 || !text) return 2;
    make_ring(4096, 1, 1);
    if (!measure("ring of 4096, each to the next file", 4096, 4095, rounds)) return 1;
    make_ring(4096, 1, 4095);
    if (!measure("ring of 4096, each to the file before", 4096, 4095, rounds)) return 1;
    make_ring(4096, 1229, 2731);
    if (!measure("ring of 4096, shuffled", 4096, 4095, rounds)) return 1;
    make_net(2700);
    if (!measure("2700 that each refer to all", 2700, 2699, rounds)) return 1;
    size_t names = make_names(1000000);
    if (!measure("1 MB of names and packages", 1, names - 1, rounds)) return 1;
    names = make_names(4000000);
    if (!measure("4 MB of names and packages", 1, names - 1, rounds)) return 1;
    return 0;
}
