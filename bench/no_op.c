/* The floor of a run with nothing to do: reads every file of a list, compares it with its part of a stored copy, and
   keeps the tokens of all. It makes no units, names and dependencies.

   usage: no_op LIST COPY */
#include "tokenizer.c"
#include <fcntl.h>
#include <stdio.h>
#include <string.h>
#include <sys/stat.h>
#include <unistd.h>

static void fail(const char *what) {
    perror(what);
    exit(1);
}

/* A file with one byte more than it has, and its length. */
static uint8_t *read_file(const char *path, size_t *length) {
    struct stat found;
    ssize_t count;
    int file = open(path, O_RDONLY | O_CLOEXEC);
    uint8_t *text;
    if (file < 0 || fstat(file, &found)) fail(path);
    text = malloc((size_t)found.st_size + 1);
    if (!text) fail("memory");
    for (*length = 0; (count = read(file, text + *length, (size_t)found.st_size + 1 - *length)) > 0;) *length += (size_t)count;
    if (count < 0) fail(path);
    close(file);
    return text;
}

int main(int count, char **words) {
    char line[2048];
    size_t room, at = 0, files = 0, tokens = 0;
    uint8_t *copy;
    struct scan *scans = NULL;
    uint8_t **texts = NULL;
    FILE *list;
    if (count != 3) {
        fprintf(stderr, "usage: no_op LIST COPY\n");
        return 2;
    }
    fill_classes();
    copy = read_file(words[2], &room);
    list = fopen(words[1], "r");
    if (!list) fail(words[1]);
    while (fgets(line, sizeof line, list)) {
        size_t length;
        line[strcspn(line, "\n")] = 0;
        scans = realloc(scans, (files + 1) * sizeof *scans);
        texts = realloc(texts, (files + 1) * sizeof *texts);
        if (!scans || !texts) fail("memory");
        memset(&scans[files], 0, sizeof *scans);
        texts[files] = read_file(line, &length);
        if (length > room - at || memcmp(copy + at, texts[files], length)) {
            printf("%s differs\n", line);
            return 1;
        }
        at += length;
        if (!cut_new(texts[files], length, &scans[files])) fail("tokens");
        tokens += scans[files].count;
        files++;
    }
    printf("%zu files, %zu bytes, %zu tokens\n", files, at, tokens);
    return 0;
}
