/* Compares the proved scanner with the plain one, over the parts of a file as files of a project, and over it as one: so
 * many rounds of each in turn, and the least.
 *
 *   compare FILE ROUNDS
 */
#include "parts.c"
#include "times.h"
#include <stdbool.h>
#include <stdio.h>

struct scanned {
    bool whole, faulty;
    uint64_t tokens, comments;
};

void bench_scan(const uint8_t *text, size_t length, struct scanned *out);

/* Runs both over the parts in turn, and prints the least. */
static int measure(const char *name, const uint8_t *text, const size_t *starts, size_t parts, long rounds) {
    double *plain = malloc(rounds * sizeof *plain), *proved = malloc(rounds * sizeof *proved);
    if (!plain || !proved) return 0;
    for (long i = 0; i < rounds; i++) {
        uint64_t tokens = 0, comments = 0;
        double from = now();
        for (size_t part = 0; part < parts; part++) {
            struct scan scan = {0};
            if (!cut_new(text + starts[part], starts[part + 1] - starts[part], &scan)) return 0;
            tokens += scan.count;
            comments += scan.comment_count;
            free_scan(&scan);
        }
        plain[i] = now() - from;

        from = now();
        for (size_t part = 0; part < parts; part++) {
            struct scanned scanned;
            bench_scan(text + starts[part], starts[part + 1] - starts[part], &scanned);
            if (!scanned.whole) return 0;
            tokens -= scanned.tokens;
            comments -= scanned.comments;
        }
        proved[i] = now() - from;
        if (tokens != 0 || comments != 0) return 0;
    }
    double a = least(plain, rounds), b = least(proved, rounds), length = starts[parts] - starts[0];
    printf("%s: plain C %.0f bytes per second, proved %.0f, ratio of bytes per second %.2f\n", name, length / a, length / b, a / b);
    free(plain);
    free(proved);
    return 1;
}

int main(int count, char **words) {
    return measure_file(count, words, measure, "the two scanners differ, or there is no memory");
}
