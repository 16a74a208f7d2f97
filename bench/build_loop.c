/* The floor of a first build: starts the compiler of each file as soon as all that it depends on is compiled, so many at
   once, with the input that the runner gives it, reads the outputs as they come, takes whichever child ends first, and
   commits a record of the same bytes with the same syncs. It reads no project, scans nothing and looks for no old record.

   A line of the list is a path and the numbers of all files that it depends on, rising. Each is a file of `lib`. The program
   is started with the words, and is looked for in PATH; without words it is the runner itself, as its own compiler.

   usage: build_loop LIST SLOTS STORE PROGRAM [WORD ..] */
#include "children.c"

struct file {
    struct child child; /* (first, so that a child leads to its file; what it has printed is the artefact) */
    char *path;
    uint32_t *needs, count;
    int started, done;
    struct bytes source;
};

static void add_number(struct bytes *to, uint64_t number, int width) {
    uint8_t digits[8];
    for (int at = 0; at < width; at++) digits[at] = (uint8_t)(number >> 8 * at);
    add(to, digits, (size_t)width);
}

static void add_text(struct bytes *to, const void *text, size_t length) {
    add_number(to, length, 4);
    add(to, text, length);
}

static struct file *read_list(const char *path, uint32_t *count) {
    struct file *files = NULL;
    char *line = NULL;
    size_t room = 0;
    FILE *list = fopen(path, "r");
    if (!list) fail(path);
    for (*count = 0; getline(&line, &room, list) > 0; ++*count) {
        struct file *file;
        char *word = strtok(line, " \n");
        files = realloc(files, (*count + 1) * sizeof *files);
        if (!files) fail("memory");
        file = &files[*count];
        memset(file, 0, sizeof *file);
        file->path = strdup(word);
        file->needs = malloc((*count + 1) * sizeof *file->needs);
        if (!file->path || !file->needs) fail("memory");
        while ((word = strtok(NULL, " \n"))) file->needs[file->count++] = (uint32_t)strtoul(word, NULL, 10);
    }
    fclose(list);
    return files;
}

/* Starts the compiler of a file. */
static void start(struct children *all, char **words, struct file *files, struct file *file) {
    static struct bytes request;
    request.length = 0;
    add(&request, "VRC1", 4);
    add_text(&request, "lib", 3);
    add_text(&request, file->path, strlen(file->path));
    add_text(&request, file->source.at, file->source.length);
    add_number(&request, file->count, 4);
    for (uint32_t at = 0; at < file->count; at++) {
        struct file *need = &files[file->needs[at]];
        add_text(&request, "lib", 3);
        add_text(&request, need->path, strlen(need->path));
        add_text(&request, need->child.output.at, need->child.output.length);
    }
    start_child(all, &file->child, words, &request, 1);
    file->started = 1;
}

/* The texts of the store by their numbers, and where each is found: a number and one more, or 0. */
struct texts { const struct bytes **all; uint64_t count; uint32_t *found, room; };

static struct texts no_texts(uint32_t files) {
    struct texts texts = { .all = malloc((2 * files + 1) * sizeof *texts.all), .room = 16 };
    while (texts.room < 8 * (uint64_t)files) texts.room *= 2;
    texts.found = calloc(texts.room, sizeof *texts.found);
    if (!texts.all || !texts.found) fail("memory");
    return texts;
}

static uint64_t hash_of(const struct bytes *text) {
    uint64_t hash = text->length, word;
    size_t at = 0;
    for (; at + 8 <= text->length; at += 8) {
        memcpy(&word, text->at + at, 8);
        hash = (hash ^ word) * 0x9e3779b97f4a7c15u;
        hash ^= hash >> 29;
    }
    for (; at < text->length; at++) hash = (hash ^ text->at[at]) * 0x9e3779b97f4a7c15u;
    return hash ^ hash >> 32;
}

/* Adds the number of a text, or where it isn't there yet the text, which then is. */
static void add_ref(struct bytes *to, struct texts *texts, const struct bytes *text) {
    uint32_t at = (uint32_t)hash_of(text) & (texts->room - 1);
    for (; texts->found[at]; at = (at + 1) & (texts->room - 1)) {
        const struct bytes *other = texts->all[texts->found[at] - 1];
        if (other->length == text->length && (!text->length || !memcmp(other->at, text->at, text->length))) {
            add_number(to, 0, 1);
            add_number(to, texts->found[at] - 1, 8);
            return;
        }
    }
    texts->all[texts->count++] = text;
    texts->found[at] = (uint32_t)texts->count;
    add_number(to, 1, 1);
    add_text(to, text->at, text->length);
}

/* Writes length, payload and a closed gate, syncs, opens the gate, and syncs. */
static void commit(int store, uint64_t *gate, char **command, const struct file *file, const uint64_t *numbers, struct texts *texts) {
    static struct bytes record;
    uint32_t length, words = 0;
    record.length = 0;
    add_number(&record, 0, 4);
    add_number(&record, 1, 1);
    add_text(&record, "lib", 3);
    add_text(&record, file->path, strlen(file->path));
    while (command[words]) words++;
    add_number(&record, words, 4);
    for (uint32_t at = 0; at < words; at++) add_text(&record, command[at], strlen(command[at]));
    add_ref(&record, texts, &file->source);
    add_number(&record, file->count, 4);
    for (uint32_t at = 0; at < file->count; at++) add_number(&record, numbers[file->needs[at]], 8);
    add_ref(&record, texts, &file->child.output);
    length = (uint32_t)(record.length - 4);
    memcpy(record.at, &length, 4);
    add_number(&record, 0, 1);
    if (pwrite(store, record.at, record.length, (off_t)*gate + 1) != (ssize_t)record.length || fdatasync(store)) fail("store");
    if (pwrite(store, "\1", 1, (off_t)*gate) != 1 || fdatasync(store)) fail("store");
    *gate += record.length;
}

static int can_start(const struct file *files, const struct file *file) {
    for (uint32_t at = file->count; at > 0; at--) {
        if (!files[file->needs[at - 1]].done) return 0;
    }
    return 1;
}

int main(int count, char **words) {
    static char *own_words[] = { NULL, "child-analyse", NULL }, *own_command[] = { "@self", "child-analyse", NULL };
    uint32_t total, slots, ended = 0, first = 0;
    uint64_t gate = 18, *numbers;
    struct file *files;
    struct children all;
    struct texts texts;
    char **started, **recorded;
    int store;
    if (count < 5) {
        fprintf(stderr, "usage: build_loop LIST SLOTS STORE PROGRAM [WORD ..]\n");
        return 2;
    }
    files = read_list(words[1], &total);
    slots = (uint32_t)strtoul(words[2], NULL, 10);
    own_words[0] = words[4];
    started = count > 5 ? words + 4 : own_words;
    recorded = count > 5 ? words + 4 : own_command;
    numbers = malloc(total * sizeof *numbers);
    all = no_children(slots);
    store = open(words[3], O_RDWR | O_CREAT | O_TRUNC | O_CLOEXEC, 0644);
    if (store < 0 || !numbers) fail(words[3]);
    texts = no_texts(total);
    if (pwrite(store, "\1VUNITREC\3\1\0\0\0\0\0\0\0\0", 19, 0) != 19 || fdatasync(store)) fail("store");
    for (uint32_t at = 0; at < total; at++) {
        int from = open(files[at].path, O_RDONLY | O_CLOEXEC);
        if (from < 0) fail(files[at].path);
        read_all(from, &files[at].source);
    }
    while (ended < total) {
        uint32_t next = total, at;
        struct file *file;
        while (first < total && files[first].started) first++;
        for (at = first; at < total && all.count < slots && next == total; at++) {
            if (!files[at].started && can_start(files, &files[at])) next = at;
        }
        if (next < total) {
            start(&all, started, files, &files[next]);
            continue;
        }
        file = (struct file *)take_any(&all);
        numbers[file - files] = ended++;
        commit(store, &gate, recorded, file, numbers, &texts);
        file->done = 1;
    }
    printf("%u files\n", ended);
    return 0;
}
