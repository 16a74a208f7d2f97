/* What opening a store and comparing the texts with it has to do at least: reads a side of the store into fresh memory,
 * and compares the texts of files, which are in memory already, with a stored copy of them. Prints the seconds of the
 * comparison alone, and of both.
 *
 *   reopen LIST COPY SIDE
 */
#include <stdio.h>
#include <stdlib.h>
#include <string.h>
#include <time.h>

struct bytes {
    unsigned char *at;
    size_t length;
};

static double now(void) {
    struct timespec time;
    clock_gettime(CLOCK_MONOTONIC, &time);
    return time.tv_sec + time.tv_nsec / 1e9;
}

static struct bytes read_file(const char *path) {
    FILE *file = fopen(path, "rb");
    if (!file || fseek(file, 0, SEEK_END)) exit(1);
    struct bytes bytes = {0};
    bytes.length = (size_t)ftell(file);
    rewind(file);
    bytes.at = malloc(bytes.length ? bytes.length : 1);
    if (!bytes.at || fread(bytes.at, 1, bytes.length, file) != bytes.length) exit(1);
    fclose(file);
    return bytes;
}

int main(int count, char **words) {
    if (count != 4) return 2;
    FILE *list = fopen(words[1], "r");
    if (!list) return 1;
    static struct bytes texts[4096];
    char path[1100];
    size_t files = 0;
    while (files < 4096 && fgets(path, sizeof path, list)) {
        path[strcspn(path, "\n")] = 0;
        texts[files++] = read_file(path);
    }
    struct bytes copy = read_file(words[2]);
    double begun = now();
    struct bytes side = read_file(words[3]);
    double read = now();
    size_t same = 0, offset = 0;
    for (size_t at = 0; at < files; at++) {
        if (offset + texts[at].length > copy.length) return 1;
        same += memcmp(texts[at].at, copy.at + offset, texts[at].length) == 0;
        offset += texts[at].length;
    }
    double compared = now();
    if (same != files || side.length == 0) return 1;
    printf("%.9f %.9f\n", compared - read, compared - begun);
    return 0;
}
