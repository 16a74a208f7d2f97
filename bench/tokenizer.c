/* A plain tokenizer of VHDL for the same table of pieces as the crate vhdl_lex, to compare its speed with (compare.c). */
#include <stdint.h>
#include <stdlib.h>

enum kind { WORD, EXTENDED, NUMBER, STR, CHAR, TICK, SYMBOL, HIGH };

struct token {
    uint8_t kind;
    uint32_t start, end;
};

enum { LINE_END = 1, IN_NUMBER = 2, IN_WORD = 4 };
static uint8_t classes[256];

static const char *reserved[] = {
    "abs", "access", "after", "alias", "all", "and", "architecture", "array", "assert", "assume", "assume_guarantee",
    "attribute", "begin", "block", "body", "buffer", "bus", "case", "component", "configuration", "constant", "context",
    "cover", "default", "disconnect", "downto", "else", "elsif", "end", "entity", "exit", "fairness", "file", "for",
    "force", "function", "generate", "generic", "group", "guarded", "if", "impure", "in", "inertial", "inout", "is",
    "label", "library", "linkage", "literal", "loop", "map", "mod", "nand", "new", "next", "nor", "not", "null", "of",
    "on", "open", "or", "others", "out", "package", "parameter", "port", "postponed", "procedure", "process",
    "property", "protected", "pure", "range", "record", "register", "reject", "release", "rem", "report", "restrict",
    "restrict_guarantee", "return", "rol", "ror", "select", "sequence", "severity", "shared", "signal", "sla", "sll",
    "sra", "srl", "strong", "subtype", "then", "to", "transport", "type", "unaffected", "units", "until", "use",
    "variable", "vmode", "vprop", "vunit", "wait", "when", "while", "with", "xnor", "xor",
};

static void fill_classes(void) {
    for (int c = 0; c < 256; c++) {
        int word = (c >= 'a' && c <= 'z') || (c >= 'A' && c <= 'Z') || (c >= '0' && c <= '9') || c == '_';
        classes[c] = (word ? IN_WORD | IN_NUMBER : 0) | (c == '.' || c == '#' ? IN_NUMBER : 0) |
                     (c >= 10 && c <= 13 ? LINE_END : 0);
    }
}

/* Compares a word with a name in lower case. */
static int compare(const uint8_t *word, size_t length, const char *name) {
    for (size_t i = 0; i < length; i++) {
        int c = word[i] >= 'A' && word[i] <= 'Z' ? word[i] + 32 : word[i];
        if (c != (uint8_t)name[i]) return c < (uint8_t)name[i] ? -1 : 1;
    }
    return name[length] ? -1 : 0;
}

static int is_reserved(const uint8_t *word, size_t length) {
    size_t low = 0, high = sizeof reserved / sizeof *reserved;
    while (low < high) {
        size_t middle = (low + high) / 2;
        int order = compare(word, length, reserved[middle]);
        if (order == 0) return 1;
        if (order < 0) high = middle; else low = middle + 1;
    }
    return 0;
}

static int stands_tick(const uint8_t *text, const struct token *last) {
    switch (last->kind) {
    case WORD:
        return !is_reserved(text + last->start, last->end - last->start) ||
               compare(text + last->start, last->end - last->start, "all") == 0 ||
               compare(text + last->start, last->end - last->start, "subtype") == 0;
    case EXTENDED: case STR: case CHAR: return 1;
    case SYMBOL: return text[last->start] == ')' || text[last->start] == ']';
    default: return 0;
    }
}

/* The furthest end of a string or an extended identifier, or 0. */
static size_t marked_end(const uint8_t *text, size_t length, size_t at, uint8_t mark) {
    size_t end = 0;
    for (size_t i = at + 1; i < length && !(classes[text[i]] & LINE_END); i++) {
        if (text[i] == mark) {
            end = i + 1;
            if (i + 1 == length || text[i + 1] != mark) return end;
            i++;
        }
    }
    return end;
}

struct scan {
    struct token *tokens;
    size_t count, room;
    struct span { uint32_t start, end; } *comments;
    size_t comment_count, comment_room;
};

static int push(struct scan *scan, uint8_t kind, size_t start, size_t end) {
    if (scan->count == scan->room) {
        scan->room = scan->room * 2 + 16;
        struct token *more = realloc(scan->tokens, scan->room * sizeof *more);
        if (!more) return 0;
        scan->tokens = more;
    }
    scan->tokens[scan->count++] = (struct token){kind, (uint32_t)start, (uint32_t)end};
    return 1;
}

static int push_comment(struct scan *scan, size_t start, size_t end) {
    if (scan->comment_count == scan->comment_room) {
        scan->comment_room = scan->comment_room * 2 + 16;
        struct span *more = realloc(scan->comments, scan->comment_room * sizeof *more);
        if (!more) return 0;
        scan->comments = more;
    }
    scan->comments[scan->comment_count++] = (struct span){(uint32_t)start, (uint32_t)end};
    return 1;
}

/* 1, or 0 at a fault or out of memory. */
static int cut(const uint8_t *text, size_t length, struct scan *scan) {
    size_t at = 0;
    if (length >= 3 && text[0] == 0xEF && text[1] == 0xBB && text[2] == 0xBF) at = 3;
    while (at < length) {
        uint8_t c = text[at];
        size_t end = at + 1;
        switch (c) {
        case 9: case 10: case 11: case 12: case 13: case ' ':
            at = end;
            continue;
        case '-':
            if (end < length && text[end] == '-') {
                while (end < length && !(classes[text[end]] & LINE_END)) end++;
                if (!push_comment(scan, at, end)) return 0;
                at = end;
                continue;
            }
            break;
        case '/':
            if (end < length && text[end] == '*') {
                for (end = at + 2; end + 1 < length && !(text[end] == '*' && text[end + 1] == '/'); end++) {}
                if (end + 1 >= length) return 0;
                at = end + 2;
                continue;
            }
            break;
        case '`':
            while (end < length && !(classes[text[end]] & LINE_END)) end++;
            at = end;
            continue;
        case '"': case '\\':
            end = marked_end(text, length, at, c);
            if (!end || !push(scan, c == '"' ? STR : EXTENDED, at, end)) return 0;
            at = end;
            continue;
        case '\'':
            if (at + 2 < length && text[at + 2] == '\'' &&
                !(scan->count && stands_tick(text, &scan->tokens[scan->count - 1]))) {
                if (!push(scan, CHAR, at, at + 3)) return 0;
                at += 3;
            } else {
                if (!push(scan, TICK, at, end)) return 0;
                at = end;
            }
            continue;
        }
        uint8_t kind = SYMBOL;
        if (c >= '0' && c <= '9') {
            while (end < length && classes[text[end]] & IN_NUMBER) end++;
            kind = NUMBER;
        } else if (classes[c] & IN_WORD && c != '_') {
            while (end < length && classes[text[end]] & IN_WORD) end++;
            kind = WORD;
        } else if (c >= 128) {
            kind = HIGH;
        }
        if (!push(scan, kind, at, end)) return 0;
        at = end;
    }
    return 1;
}

/* The same of a text whose tokens have no room yet. */
static int cut_new(const uint8_t *text, size_t length, struct scan *scan) {
    scan->room = length / 4 + 1;
    scan->tokens = malloc(scan->room * sizeof *scan->tokens);
    return scan->tokens && cut(text, length, scan);
}

static void free_scan(struct scan *scan) {
    free(scan->tokens);
    free(scan->comments);
}
