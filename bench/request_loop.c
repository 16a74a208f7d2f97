/* The floor of runs over many children whose inputs are known: starts one child for each job of a list, in order, so many at
   once, hands it its input, reads the outputs as they come, and takes whichever ends first. Nothing is read, kept or compared.

   A job is one byte and a text with its length before it in four bytes. The byte is the second word of the child: `a` for
   child-analyse, `b` for child-bench; with `w` there is no child: all that run are waited for.

   usage: request_loop JOBS SLOTS PROGRAM */
#include "children.c"

static uint32_t number_at(const struct bytes *from, size_t at) {
    uint32_t number;
    if (at + 4 > from->length) fail("jobs");
    memcpy(&number, from->at + at, 4);
    return number;
}

static void take_one(struct children *all, uint32_t *ended) {
    struct child *child = take_any(all);
    free(child->output.at);
    free(child);
    ++*ended;
}

int main(int count, char **words) {
    char *child_words[] = { NULL, "child-analyse", NULL };
    struct bytes jobs = { 0 };
    struct children all;
    uint32_t slots, ended = 0;
    int from;
    if (count != 4) {
        fprintf(stderr, "usage: request_loop JOBS SLOTS PROGRAM\n");
        return 2;
    }
    from = open(words[1], O_RDONLY | O_CLOEXEC);
    if (from < 0) fail(words[1]);
    read_all(from, &jobs);
    slots = (uint32_t)strtoul(words[2], NULL, 10);
    child_words[0] = words[3];
    all = no_children(slots);
    for (size_t at = 0; at < jobs.length;) {
        uint32_t length = number_at(&jobs, at + 1);
        struct bytes input = { .at = jobs.at + at + 5, .length = length };
        struct child *child;
        if (jobs.at[at] == 'w') {
            while (all.count) take_one(&all, &ended);
            at += 5;
            continue;
        }
        if (at + 5 + length > jobs.length) fail("jobs");
        if (all.count == slots) take_one(&all, &ended);
        child = calloc(1, sizeof *child);
        if (!child) fail("memory");
        child_words[1] = jobs.at[at] == 'a' ? "child-analyse" : "child-bench";
        start_child(&all, child, child_words, &input, 1);
        at += 5 + length;
    }
    while (all.count) take_one(&all, &ended);
    printf("%u children\n", ended);
    return 0;
}
