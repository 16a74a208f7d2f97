/* Compares the way from texts to a graph (scan, outline, references, links, order, graph) with the plain tokenizer, which
 * does the first alone, over projects of files of at most 16,384 bytes: 1,024 of them, each of which refers to up to 4
 * files before it in its group of 64, and 1,024 of which each refers to 4 earlier ones anywhere. So many rounds of each in
 * turn, and the least seconds. The library is handed one text, and copies its files first: the seconds of that, with those
 * of the project file, are measured by a call that does no more, and taken off. Then how the first grows to 4,096 files;
 * and hostile projects: a cycle of 4,096 files, a file with 100,000 references to one unit, and 4,096 files that each refer
 * to all before them by loose references of a few bytes, which is 8.4 million.
 *
 *   graph ROUNDS
 */
#include "times.h"
#include "tokenizer.c"
#include <stdarg.h>
#include <stdbool.h>
#include <stdio.h>
#include <string.h>

struct graphed {
    bool whole, cyclic;
    uint64_t files, deps;
};

struct sourced {
    bool whole;
    uint64_t files;
};

void bench_sources(const uint8_t *csv, size_t csv_length, const uint8_t *text, size_t length, const size_t *ends,
                   size_t count, struct sourced *out);

void bench_graph(const uint8_t *csv, size_t csv_length, const uint8_t *text, size_t length, const size_t *ends, size_t count,
                 struct graphed *out);

enum { FILES = 4096, FILE_BYTES = 16384, TEXT_BYTES = 80000000 };
static char *text, *csv;
static size_t length, csv_length, count, ends[FILES];
static uint64_t seed;

static void put(const char *format, ...) {
    va_list rest;
    va_start(rest, format);
    length += vsprintf(text + length, format, rest);
    va_end(rest);
}

/* a number below an end, by a linear congruential generator */
static size_t any_below(size_t end) {
    seed = seed * 6364136223846793005u + 1442695040888963407u;
    return (seed >> 33) % end;
}

static void begin(void) { length = csv_length = count = 0, seed = 1; }

static void end_file(void) {
    csv_length += sprintf(csv + csv_length, "l, f%zu.vhd\n", count);
    ends[count++] = length;
}

/* An entity with an architecture, as they are written, which instantiates so many others. */
static void put_unit(size_t file, size_t unit, const size_t *used, size_t uses) {
    put("-- Unit %zu of file %zu of a design that was generated for measurements.\nlibrary ieee;\n"
        "use ieee.std_logic_1164.all;\nuse ieee.numeric_std.all;\n\nentity fifo_%zu_%zu is\n  generic (\n"
        "    width_g : positive := 32;   -- bits of a word\n    depth_g : natural  := 2**4\n  );\n  port (\n"
        "    clk, rst   : in  std_logic;\n    write_en   : in  std_logic;\n"
        "    write_data : in  std_logic_vector(width_g - 1 downto 0);\n    read_en    : in  std_logic;\n"
        "    read_data  : out std_logic_vector(width_g - 1 downto 0);\n    full       : out std_logic;\n"
        "    empty      : out std_logic\n  );\nend entity fifo_%zu_%zu;\n\n", unit, file, file, unit, file, unit);
    put("architecture rtl of fifo_%zu_%zu is\n"
        "  type memory_t is array (0 to depth_g - 1) of std_logic_vector(write_data'range);\n"
        "  signal memory : memory_t := (others => (others => '0'));\n"
        "  signal head, tail : integer range 0 to depth_g - 1 := 0;\n  signal count_r : unsigned(15 downto 0) := x\"%04zx\";\n"
        "  constant name_c : string := \"fifo \"\"%zu\"\" of \" & integer'image(depth_g);\nbegin\n", file, unit, file, unit);
    for (size_t i = 0; i < uses; i++)
        put("  user_%zu : entity work.fifo_%zu_0 port map (clk => clk, rst => rst, empty => open);\n\n", i, used[i]);
    put("  -- writes and reads go on side by side\n  main : process (clk)\n    variable next_v : integer;\n  begin\n"
        "    if rising_edge(clk) then\n      if rst = '1' then\n        head <= 0; tail <= 0;\n"
        "        count_r <= (others => '0');\n      else\n"
        "        if write_en = '1' and count_r /= to_unsigned(depth_g, count_r'length) then\n"
        "          memory(head) <= write_data;\n          next_v := (head + 1) mod depth_g;\n          head <= next_v;\n"
        "          count_r <= count_r + 1;\n        elsif read_en = '1' and count_r > 0 then\n"
        "          read_data <= memory(tail);\n          tail <= (tail + 1) mod depth_g;\n          count_r <= count_r - 1;\n"
        "        end if;\n      end if;\n    end if;\n  end process main;\n\n");
    put("  full <= '1' when count_r = depth_g else '0';\n  empty <= '1' when count_r = 0 else '0';\n\n"
        "  checks : if %zu > 3 generate\n"
        "    assert depth_g < 16#FFFF# report name_c & \": too deep at \" & time'image(now) severity failure;\n"
        "  end generate checks;\nend architecture rtl;\n\n", unit);
}

/* A project of so many files. Each uses up to 4 files before it in its group, or, with a group of 0, 4 earlier ones. */
static void make_project(size_t files, size_t group) {
    begin();
    for (size_t file = 0; file < files; file++) {
        size_t used[4], uses = 0, from = length, size;
        for (size_t i = 1; i <= 4; i++) {
            if (group && file % group >= i) used[uses++] = file - i;
            if (!group && file > 0) used[uses++] = any_below(file);
        }
        size_t unit = 0;
        do {
            size_t before = length;
            put_unit(file, unit, used, unit ? 0 : uses);
            size = length - before;
            unit++;
        } while (length - from + size + 16 <= FILE_BYTES);
        end_file();
    }
}

/* Files in a ring, each of which uses the next. */
static void make_cycle(size_t files) {
    begin();
    for (size_t file = 0; file < files; file++) {
        put("use work.p%zu.all; package p%zu is end;", (file + 1) % files, file);
        end_file();
    }
}

/* A package, and a file with so many references to it. */
static void make_many(size_t references) {
    begin();
    put("package p is end;");
    end_file();
    put("architecture a of e is begin end; entity e is end; package q is constant c : t := ");
    for (size_t i = 0; i < references; i++) put("work.p + ");
    put("0; end;");
    end_file();
}

/* Files that each refer to all before them, by names of a few bytes. */
static void make_dense(size_t files) {
    begin();
    for (size_t file = 0; file < files; file++) {
        put("library l;package p%zx is constant c:t:=", file);
        for (size_t used = 0; used < file; used++) put("l.p%zx ", used);
        put(";end;");
        end_file();
    }
}

/* The seconds of the plain tokenizer over all files, or less than 0. */
static double tokenize(void) {
    double from = now();
    for (size_t file = 0; file < count; file++) {
        size_t start = file ? ends[file - 1] : 0, size = ends[file] - start;
        struct scan scan = {0};
        if (!cut_new((uint8_t *)text + start, size, &scan)) return -1;
        free_scan(&scan);
    }
    return now() - from;
}

/* The seconds of a graph, and what it has, or less than 0. */
static double graph(struct graphed *out) {
    double from = now();
    bench_graph((uint8_t *)csv, csv_length, (uint8_t *)text, length, ends, count, out);
    return out->whole || out->cyclic ? now() - from : -1;
}

/* The seconds that the project and its texts take before there is a way to go, or less than 0. */
static double sources(void) {
    struct sourced out;
    double from = now();
    bench_sources((uint8_t *)csv, csv_length, (uint8_t *)text, length, ends, count, &out);
    return out.whole ? now() - from : -1;
}

/* The least seconds from texts to a graph in so many rounds, beside the tokenizer's. */
static double measure(const char *name, long rounds, bool beside) {
    double least = 1e9, plain = 1e9, copy = 1e9;
    struct graphed found = {0};
    for (long i = 0; i < rounds; i++) {
        double a = beside ? tokenize() : 0, b = sources(), c = graph(&found);
        if (a < 0 || b < 0 || c < 0) return -1;
        plain = a < plain ? a : plain;
        copy = b < copy ? b : copy;
        least = c < least ? c : least;
    }
    least -= copy;
    printf("%s: %zu bytes, %llu files, %llu dependencies, %.3f seconds after %.3f for the texts", name, length,
           (unsigned long long)found.files, (unsigned long long)found.deps, least, copy);
    if (beside) printf(", ratio of the plain tokenizer's bytes per second %.2f", plain / least);
    puts(found.cyclic ? ", a cycle" : "");
    fflush(stdout);
    return least;
}

int main(int words, char **word) {
    long rounds = words == 2 ? atol(word[1]) : 0;
    text = malloc(TEXT_BYTES);
    csv = malloc(FILES * 32);
    if (rounds < 1 || !text || !csv) return 2;
    fill_classes();
    double some, many;
    if (make_project(1024, 64), (some = measure("groups of 64", rounds, true)) < 0) return 1;
    if (make_project(4096, 64), (many = measure("four times as many", rounds, false)) < 0) return 1;
    printf("growth from 1,024 to 4,096 files: %.2f\n", many / some);
    if (make_project(1024, 0), measure("4 earlier files anywhere", rounds, true) < 0) return 1;
    if (make_cycle(1024), (some = measure("cycle", rounds, false)) < 0) return 1;
    if (make_cycle(4096), (many = measure("cycle, four times as many", rounds, false)) < 0) return 1;
    printf("growth: %.2f\n", many / some);
    if (make_many(25000), (some = measure("25,000 references to one unit", rounds, false)) < 0) return 1;
    if (make_many(100000), (many = measure("100,000 references to one unit", rounds, false)) < 0) return 1;
    printf("growth: %.2f\n", many / some);
    if (make_dense(4096), measure("each file to all before it", 1, false) < 0) return 1;
    return 0;
}
