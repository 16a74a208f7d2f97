/* Compares the opening of a store of passes, and the list of its files, with the least that both have to do: a copy of the side into
 * fresh memory, and a comparison of each artefact. The side is in memory. What the library takes to make a disk of it is measured
 * by a call of its own, and taken off. Then 1,024 look-ups, as the difference of eleven and of one of each; and the memory of a process
 * that holds or opens the store, less that of one that makes the disk alone, beside the side.
 *
 *   passes ROUNDS
 */
#include "times.h"
#include <malloc.h>
#include <signal.h>
#include <stdbool.h>
#include <stdint.h>
#include <stdio.h>
#include <string.h>
#include <sys/mman.h>
#include <sys/resource.h>
#include <sys/time.h>
#include <sys/wait.h>
#include <unistd.h>

struct known {
    bool whole;
    uint64_t runs;
};

void bench_side(const uint8_t *side, size_t length, struct known *out);

void bench_passes(const uint8_t *side, size_t length, const uint8_t *files, size_t files_length, const uint8_t *names,
                  size_t names_length, uint64_t times, struct known *out);

enum { FILES = 1025, RUNS = 1024, NAME = 8, ARTEFACT = 8192, FILE_BYTES = NAME + ARTEFACT, SIDE_BYTES = 16000000 };
static uint8_t *side, files[FILES * FILE_BYTES], names[RUNS * NAME];
static size_t length, places[FILES];

static void put(const void *bytes, size_t count) {
    memcpy(side + length, bytes, count);
    length += count;
}

static void put_byte(uint8_t byte) { put(&byte, 1); }

/* a number in four bytes, the low one first, as on this machine */
static void put_number(size_t number) { put(&(uint32_t){(uint32_t)number}, 4); }

static void put_text(const void *bytes, size_t count) {
    put_number(count);
    put(bytes, count);
}

/* the name of a file or a case, by its number */
static void name(uint8_t *at, size_t number) {
    char digits[NAME + 1];
    snprintf(digits, sizeof digits, "n%07zu", number);
    memcpy(at, digits, NAME);
}

static void make_files(void) {
    uint64_t seed = 1;
    for (size_t file = 0; file < FILES; file++) {
        uint8_t *at = files + file * FILE_BYTES;
        name(at, file);
        for (size_t i = 0; i < ARTEFACT; i += sizeof seed) {
            seed = seed * 6364136223846793005u + 1442695040888963407u;
            memcpy(at + NAME + i, &seed, sizeof seed);
        }
    }
    for (size_t run = 0; run < RUNS; run++) name(names + run * NAME, run);
}

/* a new list of all files */
static void put_list(void) {
    put_byte(1);
    put_number(FILES);
    for (size_t file = 0; file < FILES; file++) {
        const uint8_t *at = files + file * FILE_BYTES;
        put_text("l", 1);
        put_text(at, NAME);
        put_byte(1);
        put_number(ARTEFACT);
        places[file] = length;
        put(at + NAME, ARTEFACT);
    }
}

/* a payload with its commit byte and length: the pass of a run over the list, which is new for the first one */
static void put_pass(size_t run) {
    put_byte(1);
    size_t begin = length;
    put_number(0);
    put_text("l", 1);
    put_text("tb", 2);
    put_text("sim", 3);
    put_text("tb.vhd", 6);
    put_number(1);
    put_text(names + run * NAME, NAME);
    put("\0\0", 2);
    put_number(1);
    put_text("ghdl", 4);
    if (run == 0)
        put_list();
    else
        put("\0\0\0\0\0\0\0\0\0", 9);
    put_text("", 0);
    size_t end = length;
    length = begin;
    put_number(end - begin - 4);
    length = end;
}

/* a side of form 5 and generation 1 */
static void make_side(void) {
    put("\1VUNITREC\5\1\0\0\0\0\0\0\0", 18);
    for (size_t run = 0; run < RUNS; run++) put_pass(run);
    put_byte(0);
}

/* seconds of a copy of the side and a comparison of all artefacts, or less than 0 */
static double plain(void) {
    double from = now();
    uint8_t *copy = malloc(length);
    if (!copy) return -1;
    memcpy(copy, side, length);
    size_t same = 0;
    for (size_t file = 0; file < FILES; file++)
        same += memcmp(copy + places[file], files + file * FILE_BYTES + NAME, ARTEFACT) == 0;
    double took = now() - from;
    free(copy);
    return same == FILES ? took : -1;
}

static double made(void) {
    struct known out = {0};
    double from = now();
    bench_side(side, length, &out);
    return out.whole ? now() - from : -1;
}

/* seconds of a disk, its store, a list of files if wanted, and so many look-ups of each run, or less than 0 */
static double opened(bool lists, uint64_t times) {
    struct known out = {0};
    double from = now();
    bench_passes(side, length, files, lists ? sizeof files : 0, names, times ? sizeof names : 0, times, &out);
    double took = now() - from;
    return out.whole && out.runs == (times ? RUNS : 0) ? took : -1;
}

/* resident bytes, as a timer finds them while a process is about its look-ups */
static volatile size_t *held;

static void look(int number) {
    (void)number;
    FILE *file = fopen("/proc/self/statm", "r");
    size_t pages, resident;
    if (file && fscanf(file, "%zu %zu", &pages, &resident) == 2) *held = resident * (size_t)sysconf(_SC_PAGESIZE);
}

/* The peak of memory in bytes of a process: 0 makes the disk, 1 opens the store, and 2 goes on with 3,000 times each look-up. What is
 * freed goes back to the system. 0 without an answer. */
static size_t peak(int work) {
    pid_t child = fork();
    if (child == 0) {
        mallopt(M_MMAP_THRESHOLD, 65536);
        signal(SIGALRM, look);
        struct itimerval timer = {.it_value = {.tv_sec = 1}};
        if (work == 2) setitimer(ITIMER_REAL, &timer, NULL);
        _exit((work == 0 ? made() : work == 1 ? opened(false, 0) : opened(true, 3000)) < 0);
    }
    int status;
    struct rusage usage;
    if (child < 0 || wait4(child, &status, 0, &usage) < 0 || status) return 0;
    return (size_t)usage.ru_maxrss * 1024;
}

int main(int count, char **words) {
    long rounds = count == 2 ? atol(words[1]) : 0;
    side = malloc(SIDE_BYTES);
    if (rounds < 1 || !side) return 2;
    make_files();
    make_side();
    held = mmap(NULL, sizeof *held, PROT_READ | PROT_WRITE, MAP_SHARED | MAP_ANONYMOUS, -1, 0);
    if (held == MAP_FAILED) return 1;
    size_t disk = peak(0), store = peak(1);
    if (!disk || !store || !peak(2) || !*held) return 1;
    double *times[4];
    for (int i = 0; i < 4; i++)
        if (!(times[i] = malloc(rounds * sizeof *times[i]))) return 1;
    for (long i = 0; i < rounds; i++) {
        double found[] = {plain(), made(), opened(false, 0), opened(true, 0), opened(true, 1), opened(true, 11)};
        for (int k = 0; k < 6; k++)
            if (found[k] < 0) return 1;
        times[0][i] = found[0];
        times[1][i] = found[2] - found[1];
        times[2][i] = found[3] - found[1];
        times[3][i] = (found[5] - found[4]) / 10;
    }
    double middle[4];
    for (int i = 0; i < 4; i++) middle[i] = median(times[i], rounds) * 1000;
    printf("a side of %zu bytes: opening %.2f ms, with the list of %d files %.2f, beside %.2f for a copy and a comparison: ratio %.2f\n",
           length, middle[1], FILES, middle[2], middle[0], middle[2] / middle[0]);
    printf("%d look-ups: %.2f ms\n", RUNS, middle[3]);
    printf("memory: held %.2f times the side, at the peak of opening %.2f\n", (double)(*held - disk) / length, (double)(store - disk) / length);
    return 0;
}
