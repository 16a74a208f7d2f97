/* A compiler and a simulator that do nothing but what is asked of any: both read their whole input.

   With `compile` it prints an artefact of so many bytes: the path of the file, and dots. With `simulate` it writes results in
   which all cases pass. Where DIGESTS names a folder, it leaves a digest of the request there too, under the name of the run.

   usage: test_child compile BYTES
          test_child simulate */
#include <fcntl.h>
#include <stdint.h>
#include <stdio.h>
#include <stdlib.h>
#include <string.h>
#include <unistd.h>

/* Of a request that isn't digested only the beginning is kept. */
enum { CHUNK = 65536, KEPT = 65536, ROOM = 1 << 26 };
static uint8_t input[ROOM];

struct text { const uint8_t *at; uint32_t length; };

/* What of the input is still to be looked at. */
struct rest { const uint8_t *at, *end; };

static void fail(const char *what) {
    perror(what);
    exit(1);
}

static void refuse(void) {
    puts("bad request");
    exit(2);
}

/* Reads the input to its end, and gives its length. */
static size_t read_input(int is_kept) {
    size_t length = 0;
    for (;;) {
        size_t place = is_kept || length < KEPT ? length : KEPT;
        ssize_t count;
        if (place + CHUNK > ROOM) refuse();
        count = read(0, input + place, CHUNK);
        if (count < 0) fail("read");
        if (count == 0) return length;
        length += (size_t)count;
    }
}

static uint32_t take_number(struct rest *rest) {
    uint32_t number = 0;
    if (rest->end - rest->at < 4) refuse();
    for (int at = 0; at < 4; at++) number |= (uint32_t)rest->at[at] << 8 * at;
    rest->at += 4;
    return number;
}

static struct text take_text(struct rest *rest) {
    struct text text = { .length = take_number(rest) };
    if ((size_t)(rest->end - rest->at) < text.length) refuse();
    text.at = rest->at;
    rest->at += text.length;
    return text;
}

/* The beginning of the input, after its mark. */
static struct rest after_mark(const char *mark, size_t length) {
    if (length < 4 || memcmp(input, mark, 4)) refuse();
    return (struct rest){ input + 4, input + (length < KEPT ? length : KEPT) };
}

static void compile(size_t size) {
    struct rest rest = after_mark("VRC1", read_input(0));
    struct text path;
    char *artefact = malloc(size + 1);
    take_text(&rest);
    path = take_text(&rest);
    if (!artefact || path.length > size) fail("memory");
    memset(artefact, '.', size);
    memcpy(artefact, path.at, path.length);
    if (fwrite(artefact, 1, size, stdout) != size || fflush(stdout)) fail("write");
}

/* A number that another input hardly has. */
static uint64_t digest_of(size_t length) {
    uint64_t digest = length;
    for (size_t at = 0; at < length; at += 8) {
        uint64_t word;
        memcpy(&word, input + at, 8);
        digest = (digest ^ word) * 0x100000001b3;
        digest ^= digest >> 32;
    }
    return digest;
}

/* Leaves the digest under the name of the folder that the results are in. */
static void leave_digest(const char *digests, char *results, size_t length) {
    char path[8192], *end = strrchr(results, '/'), *name;
    FILE *file;
    if (!end) refuse();
    *end = 0;
    name = strrchr(results, '/');
    snprintf(path, sizeof path, "%s/%s", digests, name ? name + 1 : results);
    file = fopen(path, "w");
    if (!file || fprintf(file, "%zu bytes %016llx\n", length, (unsigned long long)digest_of(length)) < 0 || fclose(file)) fail(path);
}

static void simulate(void) {
    const char *digests = getenv("DIGESTS");
    size_t length = read_input(digests != NULL);
    struct rest rest = after_mark("VRB1", length), cases;
    struct text results;
    char path[4096];
    FILE *file;
    uint32_t count;
    for (int name = 0; name < 3; name++) take_text(&rest);
    count = take_number(&rest);
    cases = rest;
    for (uint32_t at = 0; at < count; at++) take_text(&rest);
    take_text(&rest);
    results = take_text(&rest);
    if (results.length >= sizeof path) refuse();
    memcpy(path, results.at, results.length);
    path[results.length] = 0;
    file = fopen(path, "w");
    if (!file) fail(path);
    for (uint32_t at = 0; at < count; at++) {
        struct text name = take_text(&cases);
        fprintf(file, "test_start:%.*s\n", (int)name.length, (const char *)name.at);
    }
    fputs("test_suite_done\n", file);
    if (fclose(file)) fail(path);
    if (digests) leave_digest(digests, path, length);
}

int main(int count, char **words) {
    if (count == 3 && !strcmp(words[1], "compile")) {
        compile(strtoul(words[2], NULL, 10));
    } else if (count == 2 && !strcmp(words[1], "simulate")) {
        simulate();
    } else {
        fprintf(stderr, "usage: test_child compile BYTES | test_child simulate\n");
        return 2;
    }
    return 0;
}
