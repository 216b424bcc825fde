/* Prints how long a whole sq_build takes, as a ratio to the same algorithm in plain C, in one process, on the texts of reads.c. The query is the first eight distinct words of the text,
 * or the eighth alone; there are twice as many slots as distinct words. Each figure is the quickest of several turns, in which the two are called one after the other. Then how a
 * build grows with its text, and what a nearly full table costs. */
#include "clock.h"
#include "plain.h"
#include "texts.h"

#include <stdio.h>
#include <stdlib.h>

enum { MOST_NODES = 65536, MOST_WORDS = 8, MOST_SLOTS = 4 * MOST_NODES, LETTERS = 8192, MB = 1048576, LEAST_TURNS = 7, LEAST_US = 300000, SIZES = 3 };

/* How many nodes a text of 16 MB has; shorter ones have their part of them. */
static const size_t nodes_of[SHAPES] = {65536, 8192, 65536, 65536, 65536, 65536};
static const size_t sizes[SIZES] = {1 * MB, 4 * MB, 16 * MB};

static size_t nodes_at(int shape, int size) {
    return nodes_of[shape] * (sizes[size] / MB) / 16;
}

typedef struct built {
    uint32_t slots[MOST_SLOTS], parents[MOST_NODES], tags[MOST_NODES], firsts[MOST_NODES], lasts[MOST_NODES], ends[MOST_WORDS];
    uint32_t occurrences[MOST_NODES * MOST_WORDS], counts[MOST_NODES * MOST_WORDS], work[3 * MOST_NODES];
} built;

static built proved_index, plain_index;

/* The query: the bytes of its words, and where each of them ends. */
static uint8_t words[LETTERS];
static uint32_t word_ends[MOST_WORDS];
static size_t asked;

#define ROW(row) row, sizeof row / sizeof *row
#define QUERY text, length, words, word_ends[asked - 1], word_ends, asked
#define LENT(b)                                                                                                                                                              \
    (b).slots, slots, ROW((b).parents), ROW((b).tags), ROW((b).firsts), ROW((b).lasts), ROW((b).ends), ROW((b).occurrences), ROW((b).counts), ROW((b).work)

static sq_reply proved(size_t length, size_t slots) {
    return sq_build(QUERY, LENT(proved_index));
}

static sq_reply plain(size_t length, size_t slots) {
    return plain_build(QUERY, LENT(plain_index));
}

static void stop(const char *why) {
    fprintf(stderr, "builds: %s\n", why);
    exit(1);
}

/* ---- the query */
static int is_letter(uint8_t byte) {
    return (byte >= '0' && byte <= '9') || (byte >= 'A' && byte <= 'Z') || (byte >= 'a' && byte <= 'z');
}

/* The lowest slot above `last`: that of the next word in order of first appearance. */
static uint32_t next_slot(uint32_t last) {
    uint32_t best = 0;
    for (size_t i = 0; i < MOST_SLOTS; i++)
        if (plain_index.slots[i] > last && (best == 0 || plain_index.slots[i] < best))
            best = plain_index.slots[i];
    return best;
}

/* One word more for the query: the one that the slot names. None of the texts has a comment inside a word. */
static void ask(uint32_t slot) {
    size_t at = asked == 0 ? 0 : word_ends[asked - 1];
    for (size_t i = slot - 1; is_letter(text[i]); i++) {
        if (at == LETTERS)
            stop("the words of the query are too long");
        words[at++] = text[i];
    }
    word_ends[asked++] = (uint32_t)at;
}

/* Makes the query, by the table of a build for some word; says how many distinct words the text has. */
static size_t ask_all(size_t length, size_t many) {
    size_t distinct = 0;
    words[0] = 'a';
    word_ends[0] = asked = 1;
    if (plain(length, MOST_SLOTS).refusal != SQ_OK)
        stop("plain refuses");
    for (size_t i = 0; i < MOST_SLOTS; i++)
        distinct += plain_index.slots[i] != 0;
    uint32_t slot = 0;
    asked = 0;
    for (size_t j = 0; j < MOST_WORDS; j++) {
        slot = next_slot(slot);
        if (many == MOST_WORDS || j + 1 == MOST_WORDS)
            ask(slot);
    }
    return distinct;
}

/* ---- two builds */
typedef struct way {
    sq_reply (*build)(size_t length, size_t slots);
    size_t slots;
} way;

typedef struct figure {
    double a, b;
    size_t nodes;
} figure;

static double took(way w, size_t length, size_t *nodes) {
    double start = now();
    sq_reply r = w.build(length, w.slots);
    double end = now();
    if (r.refusal != SQ_OK)
        stop("a build is refused");
    *nodes = r.total;
    return end - start;
}

/* The quickest turn of each, in microseconds for one call. */
static figure measure(way a, way b, size_t length) {
    figure best = {1e18, 1e18, 0};
    double begun = now();
    for (int turn = 0; turn < LEAST_TURNS || now() - begun < LEAST_US; turn++) {
        double first = took(a, length, &best.nodes), second = took(b, length, &best.nodes);
        if (first < best.a)
            best.a = first;
        if (second < best.b)
            best.b = second;
    }
    return best;
}

static int same_row(const uint32_t *a, const uint32_t *b, size_t length) {
    for (size_t i = 0; i < length; i++)
        if (a[i] != b[i])
            return 0;
    return 1;
}

#define SAME(row) same_row(proved_index.row, plain_index.row, sizeof proved_index.row / sizeof *proved_index.row)

static void compare(size_t slots) {
    if (!same_row(proved_index.slots, plain_index.slots, slots) || !SAME(parents) || !SAME(tags) || !SAME(firsts) || !SAME(lasts) || !SAME(ends) || !SAME(occurrences) ||
        !SAME(counts) || !SAME(work))
        stop("the two build different indexes");
}

/* ---- what is printed */

/* How many nanoseconds the library takes for a byte. */
static double print(int shape, size_t nodes, size_t bytes, size_t many) {
    size_t length = make_text(shape, nodes, bytes), distinct = ask_all(length, many);
    way a = {proved, 2 * distinct}, b = {plain, 2 * distinct};
    figure f = measure(a, b, length);
    compare(2 * distinct);
    printf("%-24s %9lu %6lu %6lu %2lu %11.1f %11.1f %7.2f %9.2f\n", text_names[shape], (unsigned long)length, (unsigned long)f.nodes, (unsigned long)distinct, (unsigned long)many, f.a,
           f.b, f.a / f.b, f.a * 1e3 / (double)length);
    return f.a * 1e3 / (double)length;
}

static void print_growth(double (*each)[SIZES]) {
    printf("\nHow many times as long a byte takes in a longer text, with as many more nodes\ntext                     4 to 1 MB  16 to 1 MB\n");
    for (int shape = 0; shape < SHAPES; shape++)
        printf("%-24s %9.2f %11.2f\n", text_names[shape], each[shape][1] / each[shape][0], each[shape][2] / each[shape][0]);
}

/* One slot more than distinct words, against twice as many. Of the longest texts one such build can take seconds. */
static void print_full(void) {
    printf("\nWhat a nearly full table costs: one slot more than distinct words, against twice as many slots\ntext                         bytes  words    twice us     full us   times\n");
    for (int shape = 0; shape < SHAPES; shape++)
        for (int i = 0; i + 1 < SIZES; i++) {
            size_t length = make_text(shape, nodes_at(shape, i), sizes[i]), distinct = ask_all(length, MOST_WORDS);
            way twice = {proved, 2 * distinct}, full = {proved, distinct + 1};
            figure f = measure(twice, full, length);
            printf("%-24s %9lu %6lu %11.1f %11.1f %7.2f\n", text_names[shape], (unsigned long)length, (unsigned long)distinct, f.a, f.b, f.b / f.a);
        }
}

int main(void) {
    double each[SHAPES][SIZES];
    printf("text                         bytes  nodes  words  k   proved us    plain us   ratio ns a byte\n");
    print(SCHEDULE, MOST_NODES, 2 * MB, MOST_WORDS);
    print(DISTINCT, MOST_NODES, 1 * MB, MOST_WORDS);
    print(NESTED, MOST_NODES, 1 * MB, MOST_WORDS);
    for (int shape = 0; shape < SHAPES; shape++)
        for (int i = 0; i < SIZES; i++)
            each[shape][i] = print(shape, nodes_at(shape, i), sizes[i], MOST_WORDS);
    for (int shape = 0; shape < SHAPES; shape++)
        print(shape, nodes_of[shape], 16 * MB, 1);
    print_growth(each);
    print_full();
    return 0;
}
