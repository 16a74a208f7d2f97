/* The floor of runs of tests: starts the simulator of each run in order, so many at once, with the input that the runner
   gives it, takes whichever child ends first, and reads what it printed and its results. Before a start it makes the folder
   of the results and removes old ones. It reads no project and no store, and puts no request together: each is its own
   beginning and then the built files, which are the same for all.

   A run of the list is four texts, each after its length in four bytes: the name of its case, the beginning of its request,
   the path of its results, and what these have to be. It says what the runner says of runs that have passed.

   usage: test_loop RUNS BUILT SLOTS PROGRAM [WORD ..] */
#include "children.c"
#include <errno.h>
#include <sys/stat.h>

struct run {
    struct child child; /* (first, so that a child leads to its run) */
    struct bytes name, beginning, path, wanted;
};

static struct bytes read_path(const char *path) {
    struct bytes found = {0};
    int file = open(path, O_RDONLY | O_CLOEXEC);
    if (file < 0) fail(path);
    read_all(file, &found);
    return found;
}

/* The next text of a list, with a byte 0 after it. */
static struct bytes take_text(const struct bytes *list, size_t *at) {
    struct bytes text = {0};
    uint32_t length = 0;
    if (list->length - *at < 4) fail("the list");
    for (int digit = 0; digit < 4; digit++) length |= (uint32_t)list->at[*at + digit] << 8 * digit;
    *at += 4;
    if (list->length - *at < length) fail("the list");
    add(&text, list->at + *at, length);
    add(&text, "", 1);
    text.length--;
    *at += length;
    return text;
}

static struct run *read_runs(const char *path, uint32_t *count) {
    struct bytes list = read_path(path);
    struct run *runs = NULL;
    size_t at = 0;
    for (*count = 0; at < list.length; ++*count) {
        struct run *run;
        runs = realloc(runs, (*count + 1) * sizeof *runs);
        if (!runs) fail("memory");
        run = &runs[*count];
        memset(run, 0, sizeof *run);
        run->name = take_text(&list, &at);
        run->beginning = take_text(&list, &at);
        run->path = take_text(&list, &at);
        run->wanted = take_text(&list, &at);
    }
    return runs;
}

/* Makes the folders that a path lies in, and removes a file that it names. */
static void clear_results(char *path) {
    for (char *end = strchr(path, '/'); end; end = strchr(end + 1, '/')) {
        *end = 0;
        if (mkdir(path, 0777) && errno != EEXIST) fail(path);
        *end = '/';
    }
    if (unlink(path) && errno != ENOENT) fail(path);
}

static void start(struct children *all, char **words, struct run *run, const struct bytes *built) {
    struct bytes parts[] = { run->beginning, *built };
    clear_results((char *)run->path.at);
    start_child(all, &run->child, words, parts, 2);
}

/* Whether a run has left the results that it has to. */
static int has_passed(const struct run *run) {
    struct bytes found = read_path((const char *)run->path.at);
    int is_same = found.length == run->wanted.length && !memcmp(found.at, run->wanted.at, found.length);
    free(found.at);
    return is_same;
}

int main(int count, char **words) {
    uint32_t total, slots, next = 0;
    struct run *runs;
    struct bytes built;
    struct children all;
    if (count < 5) {
        fprintf(stderr, "usage: test_loop RUNS BUILT SLOTS PROGRAM [WORD ..]\n");
        return 2;
    }
    runs = read_runs(words[1], &total);
    built = read_path(words[2]);
    slots = (uint32_t)strtoul(words[3], NULL, 10);
    all = no_children(slots);
    while (next < total || all.count) {
        struct run *run;
        if (next < total && all.count < slots) {
            start(&all, words + 4, &runs[next++], &built);
            continue;
        }
        run = (struct run *)take_any(&all);
        if (!has_passed(run)) {
            fprintf(stderr, "test_loop: other results of %s\n", run->name.at);
            return 1;
        }
    }
    for (uint32_t at = 0; at < total; at++) printf("pass %s\n", runs[at].name.at);
    printf("==== Summary\npass %u of %u\nfail 0 of %u\nskip 0 of %u\nAll passed!\n", total, total, total, total);
    return 0;
}
