/* Measures the outline of texts whose units have parentheses that don't match: the time at 4,194,304 bytes is at most 5
 * times that at 1,048,576 bytes, or this ends with 1.
 *
 *   outline ROUNDS
 */
#include "times.h"
#include <malloc.h>
#include <stdbool.h>
#include <stdint.h>
#include <stdio.h>
#include <stdlib.h>
#include <string.h>

struct scanned {
    bool whole, faulty;
    uint64_t tokens, comments;
};

struct outlined {
    bool whole, faulty;
    uint64_t units;
};

void bench_scan(const uint8_t *text, size_t length, struct scanned *out);
void bench_outline(const uint8_t *text, size_t length, struct outlined *out);

enum { SMALL = 1048576, LARGE = 4194304, LIMIT = 5 };
static const char *units[] = {"entity e is)function end;\n", "entity e is function( end;\n"};
static uint8_t text[LARGE];

/* The median time of an outline without its scan, of a text of so many bytes that repeats a unit; ends where the number
 * of units isn't right. */
static double measure(const char *unit, size_t bytes, long rounds, double *times) {
    size_t length = strlen(unit), count = bytes / length;
    memset(text, ' ', bytes);
    for (size_t i = 0; i < count; i++) memcpy(text + i * length, unit, length);
    for (long i = 0; i < rounds; i++) {
        struct scanned scanned;
        struct outlined outlined;
        double from = now();
        bench_scan(text, bytes, &scanned);
        double between = now();
        bench_outline(text, bytes, &outlined);
        times[i] = (now() - between) - (between - from);
        if (!scanned.whole || !outlined.whole || outlined.units != count) {
            puts("the units are wrong");
            exit(1);
        }
    }
    return median(times, rounds);
}

int main(int count, char **words) {
    long rounds = count == 2 ? atol(words[1]) : 0;
    double *times = rounds > 0 ? malloc(rounds * sizeof *times) : NULL;
    bool linear = true;
    if (!times) return 2;
    /* Memory is kept from round to round, so that this measures the outline and not the system's fresh pages. */
    mallopt(M_MMAP_MAX, 0);
    mallopt(M_TRIM_THRESHOLD, 1 << 30);
    for (size_t i = 0; i < sizeof units / sizeof *units; i++) {
        double small = measure(units[i], SMALL, rounds, times), large = measure(units[i], LARGE, rounds, times);
        printf("%.*s: outline of %d bytes %.1f ms, of %d bytes %.1f ms, ratio %.2f\n", (int)strlen(units[i]) - 1, units[i],
               SMALL, small * 1e3, LARGE, large * 1e3, large / small);
        linear = linear && large <= LIMIT * small;
    }
    if (!linear) puts("the outline takes more than its share of time");
    return !linear;
}
