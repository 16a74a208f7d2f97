/* Compares scanning, outline and references together with the plain tokenizer, over the parts of a file as files of a
 * project, and over it as one: so many rounds of each in turn, and the least.
 *
 *   refs FILE ROUNDS
 */
#include "parts.c"
#include "times.h"
#include <stdbool.h>
#include <stdio.h>

struct referred {
    bool whole, faulty;
    uint64_t refs;
};

void bench_refs(const uint8_t *text, size_t length, struct referred *out);

/* Runs both over the parts in turn, and prints the least. */
static int measure(const char *name, const uint8_t *text, const size_t *starts, size_t parts, long rounds) {
    double *plain = malloc(rounds * sizeof *plain), *proved = malloc(rounds * sizeof *proved);
    if (!plain || !proved) return 0;
    uint64_t refs = 0;
    for (long i = 0; i < rounds; i++) {
        double from = now();
        for (size_t part = 0; part < parts; part++) {
            struct scan scan = {0};
            if (!cut_new(text + starts[part], starts[part + 1] - starts[part], &scan)) return 0;
            free_scan(&scan);
        }
        plain[i] = now() - from;

        refs = 0;
        from = now();
        for (size_t part = 0; part < parts; part++) {
            struct referred referred;
            bench_refs(text + starts[part], starts[part + 1] - starts[part], &referred);
            if (!referred.whole) return 0;
            refs += referred.refs;
        }
        proved[i] = now() - from;
    }
    double a = least(plain, rounds), b = least(proved, rounds), length = starts[parts] - starts[0];
    printf("%s: plain C %.0f bytes per second, with outline and %llu references %.0f, ratio of bytes per second %.2f\n",
           name, length / a, (unsigned long long)refs, length / b, a / b);
    free(plain);
    free(proved);
    return 1;
}

int main(int count, char **words) {
    return measure_file(count, words, measure, "the text has a fault, or there is no memory");
}
