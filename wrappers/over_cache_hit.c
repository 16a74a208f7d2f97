/* The short way of over_cache for a compile request whose answer is there: what over_cache.py, cache_key.py, cache_state.py, cache_request.py
   and cache_folder.py do, without an interpreter. It writes nothing, and says nothing: wherever something is otherwise than usual, it hands
   the whole request over to over_cache.py, which does all again.

   usage: over_cache_hit PYTHON START_MODULE SHIM COMMAND [WORD ..] <REQUEST

   `over_cache --build` compiles it. */

#define _GNU_SOURCE
#include <errno.h>
#include <fcntl.h>
#include <limits.h>
#include <poll.h>
#include <signal.h>
#include <stdint.h>
#include <stdio.h>
#include <stdlib.h>
#include <string.h>
#include <sys/mman.h>
#include <sys/stat.h>
#include <sys/wait.h>
#include <time.h>
#include <unistd.h>

enum { TEXT_DIGEST = 8, ENTRY_DIGEST = 20, SUM = 16, NAME = 14, SHORTEST = 256, MOST_EQUAL = 64, DAY = 86400, AWAY = 300 };
enum { ANSWERS_WITHIN = 2000, IN_MEMORY = 67108864, MEMO_LIMIT = 4194304 };
static const char MAGIC[] = "over_cache entry 1\n";

typedef struct {
    unsigned char *data;
    size_t length, room;
} Bytes;

/* What is handed over. */
static Bytes request;
static char **handed_over;

/* Has over_cache.py do it: with the request as its standard input. */
static void hand_over(void) {
    int file = memfd_create("request", 0);
    for (size_t at = 0; at < request.length;) {
        ssize_t count = write(file, request.data + at, request.length - at);
        if (count < 0) _exit(75);
        at += (size_t)count;
    }
    if (file < 0 || lseek(file, 0, SEEK_SET) < 0 || dup2(file, 0) < 0) _exit(75);
    close(file);
    execv(handed_over[0], handed_over);
    _exit(75);
}

static void add(Bytes *bytes, const void *data, size_t length) {
    if (bytes->length + length > bytes->room) {
        bytes->room = (bytes->length + length) * 2 + 256;
        bytes->data = realloc(bytes->data, bytes->room);
        if (!bytes->data) _exit(75);
    }
    memcpy(bytes->data + bytes->length, data, length);
    bytes->length += length;
}

static void add_with_length(Bytes *bytes, const void *data, size_t length) {
    unsigned char number[4] = {length & 255, length >> 8 & 255, length >> 16 & 255, length >> 24 & 255};
    add(bytes, number, 4);
    add(bytes, data, length);
}

static uint32_t number_at(const unsigned char *data) {
    return data[0] | (uint32_t)data[1] << 8 | (uint32_t)data[2] << 16 | (uint32_t)data[3] << 24;
}

static void to_hex(const unsigned char *data, size_t length, char *text) {
    for (size_t at = 0; at < length; at++) sprintf(text + 2 * at, "%02x", data[at]);
}

/* BLAKE2b (RFC 7693), whose input is in one piece. */
static const uint64_t IV[8] = {0x6a09e667f3bcc908, 0xbb67ae8584caa73b, 0x3c6ef372fe94f82b, 0xa54ff53a5f1d36f1,
                               0x510e527fade682d1, 0x9b05688c2b3e6c1f, 0x1f83d9abfb41bd6b, 0x5be0cd19137e2179};
static const unsigned char SIGMA[10][16] = {
    {0, 1, 2, 3, 4, 5, 6, 7, 8, 9, 10, 11, 12, 13, 14, 15}, {14, 10, 4, 8, 9, 15, 13, 6, 1, 12, 0, 2, 11, 7, 5, 3},
    {11, 8, 12, 0, 5, 2, 15, 13, 10, 14, 3, 6, 7, 1, 9, 4}, {7, 9, 3, 1, 13, 12, 11, 14, 2, 6, 5, 10, 4, 0, 15, 8},
    {9, 0, 5, 7, 2, 4, 10, 15, 14, 1, 11, 12, 6, 8, 3, 13}, {2, 12, 6, 10, 0, 11, 8, 3, 4, 13, 7, 5, 15, 14, 1, 9},
    {12, 5, 1, 15, 14, 13, 4, 10, 0, 7, 6, 3, 9, 2, 8, 11}, {13, 11, 7, 14, 12, 1, 3, 9, 5, 0, 15, 4, 8, 6, 2, 10},
    {6, 15, 14, 9, 11, 3, 0, 8, 12, 2, 13, 7, 1, 4, 10, 5}, {10, 2, 8, 4, 7, 6, 1, 5, 15, 11, 9, 14, 3, 12, 13, 0}};

static uint64_t turned(uint64_t word, int by) { return word >> by | word << (64 - by); }

static void mix(uint64_t *v, int a, int b, int c, int d, uint64_t x, uint64_t y) {
    v[a] += v[b] + x;
    v[d] = turned(v[d] ^ v[a], 32);
    v[c] += v[d];
    v[b] = turned(v[b] ^ v[c], 24);
    v[a] += v[b] + y;
    v[d] = turned(v[d] ^ v[a], 16);
    v[c] += v[d];
    v[b] = turned(v[b] ^ v[c], 63);
}

static void compress(uint64_t *h, const unsigned char *block, uint64_t count, int is_last) {
    uint64_t v[16], m[16];
    memcpy(m, block, 128);
    for (int at = 0; at < 8; at++) v[at] = h[at], v[at + 8] = IV[at];
    v[12] ^= count;
    if (is_last) v[14] = ~v[14];
    for (int round = 0; round < 12; round++) {
        const unsigned char *s = SIGMA[round % 10];
        for (int at = 0; at < 4; at++) mix(v, at, 4 + at, 8 + at, 12 + at, m[s[2 * at]], m[s[2 * at + 1]]);
        for (int at = 0; at < 4; at++)
            mix(v, at, 4 + (at + 1) % 4, 8 + (at + 2) % 4, 12 + (at + 3) % 4, m[s[8 + 2 * at]], m[s[9 + 2 * at]]);
    }
    for (int at = 0; at < 8; at++) h[at] ^= v[at] ^ v[at + 8];
}

static void blake2b(const unsigned char *data, size_t length, size_t size, const char *person, unsigned char *digest) {
    uint64_t h[8], personal[2] = {0, 0};
    unsigned char block[128] = {0};
    size_t at = 0;
    memcpy(personal, person, strlen(person));
    memcpy(h, IV, sizeof h);
    h[0] ^= 0x01010000 ^ size;
    h[6] ^= personal[0];
    h[7] ^= personal[1];
    for (; length - at > 128; at += 128) compress(h, data + at, at + 128, 0);
    memcpy(block, data + at, length - at);
    compress(h, block, length, 1);
    memcpy(digest, h, size);
}

static int has_sum(const unsigned char *data, size_t length) {
    unsigned char sum[SUM];
    if (length < SUM) return 0;
    blake2b(data, length - SUM, SUM, "over_cache", sum);
    return memcmp(sum, data + length - SUM, SUM) == 0;
}

/* CRC-32 as zlib has it, eight bytes at once. */
static uint32_t crc_table[8][256];

static void fill_crc_table(void) {
    for (uint32_t at = 0; at < 256; at++) {
        uint32_t value = at;
        for (int bit = 0; bit < 8; bit++) value = value & 1 ? value >> 1 ^ 0xedb88320 : value >> 1;
        crc_table[0][at] = value;
    }
    for (int row = 1; row < 8; row++)
        for (int at = 0; at < 256; at++)
            crc_table[row][at] = crc_table[row - 1][at] >> 8 ^ crc_table[0][crc_table[row - 1][at] & 255];
}

static uint32_t crc32_of(const unsigned char *data, size_t length) {
    uint32_t value = 0xffffffff;
    for (; length >= 8; data += 8, length -= 8) {
        uint32_t low = value ^ number_at(data), high = number_at(data + 4);
        value = crc_table[7][low & 255] ^ crc_table[6][low >> 8 & 255] ^ crc_table[5][low >> 16 & 255] ^ crc_table[4][low >> 24] ^
                crc_table[3][high & 255] ^ crc_table[2][high >> 8 & 255] ^ crc_table[1][high >> 16 & 255] ^ crc_table[0][high >> 24];
    }
    for (; length; data++, length--) value = value >> 8 ^ crc_table[0][(value ^ *data) & 255];
    return ~value;
}

/* Reads a regular file whole; 0 where it can't. A byte 0 stands behind it. */
static int read_file(const char *path, Bytes *into, struct stat *found, size_t limit) {
    int file = open(path, O_RDONLY | O_NONBLOCK | O_CLOEXEC);
    if (file < 0) return 0;
    int is_read = fstat(file, found) == 0 && S_ISREG(found->st_mode) && (size_t)found->st_size <= limit;
    into->length = 0;
    if (is_read) {
        size_t length = (size_t)found->st_size;
        if (length + 1 > into->room) {
            into->room = length + 1;
            into->data = realloc(into->data, into->room);
            if (!into->data) _exit(75);
        }
        while (into->length < length) {
            ssize_t count = read(file, into->data + into->length, length - into->length);
            if (count <= 0) break;
            into->length += (size_t)count;
        }
        is_read = into->length == length;
        into->data[into->length] = 0;
    }
    close(file);
    return is_read;
}

/* Standard input, which is handed over where it is long. */
static void read_request(void) {
    for (;;) {
        if (request.room - request.length < 65536) {
            request.room = request.room * 2 + 131072;
            request.data = realloc(request.data, request.room);
            if (!request.data) _exit(75);
        }
        ssize_t count = read(0, request.data + request.length, request.room - request.length);
        if (count < 0 && errno == EINTR) continue;
        if (count < 0) _exit(75);
        if (count == 0) return;
        request.length += (size_t)count;
        if (request.length > IN_MEMORY) break;
    }
    char name[PATH_MAX];
    const char *base = getenv("TMPDIR");
    snprintf(name, sizeof name, "%s/over_cache_XXXXXX", base && *base ? base : "/tmp");
    int file = mkstemp(name);
    if (file < 0 || unlink(name) < 0) _exit(75);
    for (;;) {
        for (size_t at = 0; at < request.length;) {
            ssize_t count = write(file, request.data + at, request.length - at);
            if (count < 0) _exit(75);
            at += (size_t)count;
        }
        ssize_t count = read(0, request.data, request.room);
        if (count < 0) _exit(75);
        if (count == 0) break;
        request.length = (size_t)count;
    }
    if (lseek(file, 0, SEEK_SET) < 0 || dup2(file, 0) < 0) _exit(75);
    execv(handed_over[0], handed_over);
    _exit(75);
}

/* The first command of a name in PATH that is no link to over_cache or over_engine, as one that can speak for itself. */
static int find_command(const char *name, const char *path, char *command) {
    char real[PATH_MAX];
    if (strchr(name, '/')) return 0;
    for (const char *begin = path;; begin++) {
        size_t length = strcspn(begin, ":");
        if (length && *begin == '/' && length + strlen(name) + 2 < PATH_MAX) {
            struct stat found;
            sprintf(command, "%.*s%s%s", (int)length, begin, begin[length - 1] == '/' ? "" : "/", name);
            if (stat(command, &found) == 0 && S_ISREG(found.st_mode) && access(command, X_OK) == 0 && realpath(command, real)) {
                const char *base = strrchr(real, '/') + 1;
                if (strcmp(base, "over_cache") && strcmp(base, "over_engine")) return 1;
            }
        }
        begin += length;
        if (!*begin) return 0;
    }
}

static void add_named(Bytes *named, const char *word) {
    char number[32];
    add(named, number, (size_t)sprintf(number, "%zu:", strlen(word)));
    add(named, word, strlen(word));
}

static char state_folder[PATH_MAX];

static int find_state_folder(void) {
    struct stat found;
    const char *base = getenv("TMPDIR");
    snprintf(state_folder, sizeof state_folder, "%s/over_cache_%d", base && *base ? base : "/tmp", (int)getuid());
    return lstat(state_folder, &found) == 0 && (found.st_mode & 0170077) == 0040000 && found.st_uid == getuid();
}

static void state_path(const char *kind, const Bytes *named, char *path) {
    unsigned char digest[ENTRY_DIGEST];
    char text[2 * ENTRY_DIGEST + 1];
    blake2b(named->data, named->length, ENTRY_DIGEST, "", digest);
    to_hex(digest, ENTRY_DIGEST, text);
    snprintf(path, PATH_MAX, "%.3000s/%s_%s", state_folder, kind, text);
}

/* Where the line of a state ends that is a file's, a folder's or nothing's as it is now; NULL where it is another one. */
static const char *state_end(const char *state, const char *path) {
    char present[160] = "absent\n";
    struct stat found;
    if (stat(path, &found) == 0)
        snprintf(present, sizeof present, "%lld %lld %lld %llu %llu\n", (long long)found.st_size,
                 (long long)found.st_mtim.tv_sec * 1000000000 + found.st_mtim.tv_nsec,
                 (long long)found.st_ctim.tv_sec * 1000000000 + found.st_ctim.tv_nsec, (unsigned long long)found.st_ino,
                 (unsigned long long)found.st_dev);
    else if (errno != ENOENT)
        return NULL;
    return strncmp(state, present, strlen(present)) == 0 ? state + strlen(present) : NULL;
}

/* Adds to what is asked the key that was remembered for the command; 0 where that doesn't stand. */
static int add_key(Bytes *asked, const char *command, const char *path, char **words) {
    static Bytes named, memo;
    char file[PATH_MAX], present[PATH_MAX];
    struct stat found;
    if (!getcwd(present, sizeof present)) return 0;
    add_named(&named, command);
    add_named(&named, path);
    add_named(&named, present);
    for (char **word = words; *word; word++) add_named(&named, *word);
    state_path("key_2", &named, file);
    if (!read_file(file, &memo, &found, MEMO_LIMIT) || !has_sum(memo.data, memo.length)) return 0;
    memo.data[memo.length - SUM] = 0;
    char *text = (char *)memo.data, *end;
    if (strtoull(text, &end, 10) != named.length || *end != '\n') return 0;
    text = end + 1;
    if (memo.length - (size_t)(text - (char *)memo.data) < named.length || memcmp(text, named.data, named.length) != 0) return 0;
    text += named.length;
    const char *last = (char *)memo.data + memo.length - SUM;
    unsigned long long count = strtoull(text, &end, 10), size = strtoull(end, &end, 10);
    if (*end != '\n') return 0;
    const char *paths = end + 1, *state = paths;
    for (unsigned long long left = count; left; left--)
        if ((state += strlen(state) + 1) > last) return 0;
    const char *key = state + size;
    if (size > (size_t)(last - state)) return 0;
    for (; count; count--, paths += strlen(paths) + 1)
        if (!(state = state_end(state, paths))) return 0;
    if (state != key) return 0;
    size_t length = (size_t)(last - key);
    const char *own = getenv("OVER_CACHE_KEY");
    if (!length && !(own && *own)) return 0;
    add_with_length(asked, key, length);
    add_with_length(asked, own ? own : "", own ? strlen(own) : 0);
    return 1;
}

/* Whether the folder answers, which a process of its own asks, and nobody was told that it doesn't. */
static int answers(const char *folder) {
    Bytes named = {0};
    char path[PATH_MAX], limit[PATH_MAX];
    struct stat found;
    int ends[2];
    add_named(&named, folder);
    state_path("away", &named, path);
    if (lstat(path, &found) == 0 || pipe(ends) < 0) return 0;
    snprintf(limit, sizeof limit, "%.3000s/limit", folder);
    pid_t child = fork();
    if (child == 0) {
        char byte;
        for (int at = 0; at < 3; at++) close(at);
        close(ends[0]);
        int file = open(limit, O_RDONLY);
        if (file >= 0 && read(file, &byte, 1) < 0) _exit(1);
        _exit(0);
    }
    close(ends[1]);
    struct pollfd waiting = {ends[0], POLLIN, 0};
    int has_answered = child > 0 && poll(&waiting, 1, ANSWERS_WITHIN) > 0;
    close(ends[0]);
    if (child > 0 && !has_answered) kill(child, SIGKILL);
    if (has_answered) waitpid(child, NULL, 0);
    return has_answered;
}

/* Where a text of the request ends that begins with its length there; 0 where it isn't whole. */
static size_t text_end(size_t at) {
    if (request.length < 4 || at > request.length - 4) return 0;
    size_t end = at + 4 + number_at(request.data + at);
    return end <= request.length ? end : 0;
}

static void add_part(Bytes *outline, size_t begin, size_t end, int is_text) {
    unsigned char head[5] = {is_text, (end - begin) & 255, (end - begin) >> 8 & 255, (end - begin) >> 16 & 255, (end - begin) >> 24 & 255};
    unsigned char digest[TEXT_DIGEST];
    add(outline, head, 5);
    if (!is_text) {
        add(outline, request.data + begin, end - begin);
        return;
    }
    uint32_t sum = crc32_of(request.data + begin, end - begin);
    for (int at = 0; at < 4; at++) digest[at] = sum >> 8 * at & 255, digest[4 + at] = head[1 + at];
    add(outline, digest, TEXT_DIGEST);
}

/* Adds the parts of a compile request; 0 where it is none. */
static int add_outline(Bytes *outline) {
    size_t begin = 0, at = 4, end;
    if (request.length < 4 || memcmp(request.data, "VRC1", 4) != 0) return 0;
    for (int name = 0; name < 2; name++)
        if (!(at = text_end(at))) return 0;
    if (!(end = text_end(at))) return 0;
    if (end - at - 4 >= SHORTEST) {
        add_part(outline, begin, at + 4, 0);
        add_part(outline, at + 4, end, 1);
        begin = end;
    }
    at = end;
    if (request.length - at < 4) return 0;
    uint32_t count = number_at(request.data + at);
    add_part(outline, begin, at += 4, 0);
    begin = at;
    for (; count; count--) {
        if (!(at = text_end(at)) || !(at = text_end(at)) || !(end = text_end(at))) return 0;
        add_part(outline, begin, at + 4, 0);
        add_part(outline, at + 4, end, end - at - 4 >= SHORTEST);
        begin = at = end;
    }
    return at == request.length;
}

static const char *cache;

static void text_path(const unsigned char *name, char *path) {
    char text[2 * NAME + 1];
    to_hex(name, NAME, text);
    snprintf(path, PATH_MAX, "%.3000s/%.2s/%.14s-%s.text1", cache, text, text + 2, text + 16);
}

/* Whether parts stand for the request from `*at` on, which is moved to their end. */
static int stands_for(const unsigned char *parts, size_t length, size_t *at, int is_list) {
    static Bytes text;
    char path[PATH_MAX];
    struct stat found;
    for (size_t place = 0; place < length;) {
        if (length - place < 5) return 0;
        unsigned kind = parts[place];
        size_t count = number_at(parts + place + 1), size = kind == 0 ? count : NAME;
        place += 5;
        if (length - place < size || kind > 2 || (kind == 2 && is_list)) return 0;
        const unsigned char *value = parts + place;
        place += size;
        if (kind != 0) {
            text_path(value, path);
            if (!read_file(path, &text, &found, count + SUM) || text.length != count + SUM) return 0;
            value = text.data;
        }
        if (kind == 2) {
            unsigned char *list = malloc(count + 1);
            if (!list || !has_sum(text.data, text.length)) return 0;
            memcpy(list, text.data, count);
            if (!stands_for(list, count, at, 1)) return 0;
            free(list);
            continue;
        }
        if (request.length - *at < count || memcmp(request.data + *at, value, count) != 0) return 0;
        *at += count;
    }
    return 1;
}

static int put(int descriptor, const unsigned char *data, size_t length) {
    while (length) {
        ssize_t count = write(descriptor, data, length);
        if (count < 0 && errno == EINTR) continue;
        if (count < 0) return errno == EPIPE ? 128 + SIGPIPE : 75;
        data += count;
        length -= (size_t)count;
    }
    return 0;
}

/* Ends the program with the answer of an entry, if it is one of just what was asked. */
static void answer_by(const Bytes *entry, const struct stat *found, const Bytes *asked, int is_written) {
    size_t head = sizeof MAGIC - 1, at = head, length = entry->length - SUM, begins[6], ends[6], count = 0, end = 0;
    if (entry->length < head + SUM || memcmp(entry->data, MAGIC, head) != 0 || !has_sum(entry->data, entry->length)) return;
    for (; at < length && count < 6; count++) {
        if (length - at < 4 || length - at - 4 < number_at(entry->data + at)) return;
        begins[count] = at + 4;
        at = ends[count] = at + 4 + number_at(entry->data + at);
    }
    if (count != 5 || at != length) return;
    if (ends[1] - begins[1] != asked->length || memcmp(entry->data + begins[1], asked->data, asked->length) != 0) return;
    if (!stands_for(entry->data + begins[2], ends[2] - begins[2], &end, 0) || end != request.length) return;
    double age = (double)time(NULL) - (double)found->st_mtim.tv_sec;
    if (is_written && !(age >= 0 && age < DAY)) hand_over();
    int code = put(2, entry->data + begins[4], ends[4] - begins[4]);
    int written = put(1, entry->data + begins[3], ends[3] - begins[3]);
    (void)code;
    _exit(written);
}

/* Looks for the entry, and ends the program where it is there. */
static void look(const char *name, const char *path, char **words) {
    static Bytes asked, outline, entry;
    char command[PATH_MAX], file[PATH_MAX], text[2 * ENTRY_DIGEST + 1];
    unsigned char digest[ENTRY_DIGEST];
    struct stat found;
    const char *only_read = getenv("OVER_CACHE_READ_ONLY");
    if (!find_state_folder() || !find_command(name, path, command)) return;
    add_with_length(&asked, name, strlen(name));
    if (!add_key(&asked, command, path, words)) return;
    for (char **word = words; *word; word++) add_with_length(&asked, *word, strlen(*word));
    add(&outline, asked.data, asked.length);
    fill_crc_table();
    if (!add_outline(&outline) || !answers(cache)) return;
    if (stat(cache, &found) != 0 || found.st_mode & 0002) return;
    blake2b(outline.data, outline.length, ENTRY_DIGEST, "", digest);
    to_hex(digest, ENTRY_DIGEST, text);
    for (int number = 0; number < MOST_EQUAL; number++) {
        snprintf(file, sizeof file, "%.3000s/%.2s/%s.%d.entry1", cache, text, text + 2, number);
        if (!read_file(file, &entry, &found, IN_MEMORY)) {
            /* (over_cache.py needn't ask again what was asked just now) */
            setenv("OVER_CACHE_LOOKED", cache, 1);
            return;
        }
        answer_by(&entry, &found, &asked, !(only_read && strcmp(only_read, "1") == 0));
    }
}

int main(int count, char **arguments) {
    if (count < 5) return 75;
    /* PYTHON -IS START_MODULE over_cache SHIM COMMAND WORD .. */
    handed_over = calloc((size_t)count + 4, sizeof *handed_over);
    if (!handed_over) return 75;
    handed_over[0] = arguments[1];
    handed_over[1] = "-IS";
    handed_over[2] = arguments[2];
    handed_over[3] = "over_cache";
    memcpy(handed_over + 4, arguments + 3, (size_t)(count - 3) * sizeof *handed_over);
    const char *path = getenv("PATH");
    cache = getenv("OVER_CACHE");
    size_t length = cache ? strlen(cache) : 0;
    if (length < 2 || length > 3000 || cache[0] != '/' || cache[length - 1] == '/' || strstr(cache, "//") || strstr(cache, "/.") || !path ||
        getenv("OVER_ENGINE_INSIDE") || strcmp(arguments[4], "over_cache") == 0 || (count > 5 && strcmp(arguments[5], "--cache-key") == 0)) {
        execv(handed_over[0], handed_over);
        return 75;
    }
    unsetenv("OVER_CACHE_LOOKED");
    signal(SIGPIPE, SIG_IGN);
    read_request();
    look(arguments[4], path, arguments + 5);
    signal(SIGPIPE, SIG_DFL);
    hand_over();
}
