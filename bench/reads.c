/* Prints how long a whole sq_read takes, as a ratio to the same algorithm in plain C, in one process; with EXPAT, how many times as long expat takes as sq_read, or as plain C where
 * PLAIN_ALONE says that there is no library to call. Each figure is the quickest of several turns, in which the two are called one after the other. Then how a read grows with its text. */
#include "clock.h"
#include "plain.h"
#include "texts.h"

#include <stdio.h>
#include <stdlib.h>

enum { MOST_NODES = 65536, MB = 1048576, LEAST_TURNS = 7, LEAST_US = 300000, SIZES = 3 };

/* How many nodes a text of 16 MB has; shorter ones have their part of them. */
static const size_t nodes_of[SHAPES] = {65536, 8192, 65536, 65536, 65536, 65536};
static const size_t sizes[SIZES] = {1 * MB, 4 * MB, 16 * MB};

typedef struct lent_tree {
    uint32_t parents[MOST_NODES], tags[MOST_NODES], firsts[MOST_NODES], lasts[MOST_NODES], work[3 * MOST_NODES];
} lent_tree;

/* ---- the reader that the other one is compared with */
#if defined EXPAT && !defined PLAIN_ALONE
#define BASE "proved"
#define base_read sq_read
#else
#define BASE "plain"
#define base_read plain_read
#endif

static lent_tree base_tree;

#define LENT(t) (t).parents, MOST_NODES, (t).tags, MOST_NODES, (t).firsts, MOST_NODES, (t).lasts, MOST_NODES, (t).work, 3 * MOST_NODES

static void stop(const char *why) {
    fprintf(stderr, "reads: %s\n", why);
    exit(1);
}

/* ---- the other reader, and what must be the same in the two */
#ifdef EXPAT
#include <expat.h>

#define OTHER "expat"
#define MEASURED base

static size_t elements, characters;

static void started(void *none, const XML_Char *name, const XML_Char **attributes) {
    (void)none, (void)name, (void)attributes;
    elements++;
}

static void ended(void *none, const XML_Char *name) {
    (void)none, (void)name;
}

static void said(void *none, const XML_Char *letters, int length) {
    (void)none, (void)letters;
    characters += (size_t)length;
}

static void other(size_t length) {
    XML_Parser parser = XML_ParserCreate(NULL);
    elements = characters = 0;
    if (parser == NULL)
        stop("no memory");
    XML_SetElementHandler(parser, started, ended);
    XML_SetCharacterDataHandler(parser, said);
    if (XML_Parse(parser, (const char *)text, (int)length, 1) != XML_STATUS_OK)
        stop("expat refuses");
    XML_ParserFree(parser);
}

static int same(size_t nodes) {
    size_t tagged = 0;
    for (size_t v = 0; v < nodes; v++)
        tagged += base_tree.tags[v] != 0;
    return tagged == elements;
}
#else
#define OTHER "proved"
#define MEASURED other

static lent_tree other_tree;
static sq_reply other_reply;

static void other(size_t length) {
    other_reply = sq_read(text, length, LENT(other_tree));
}

static int same(size_t nodes) {
    const lent_tree *a = &base_tree, *b = &other_tree;
    if (other_reply.refusal != SQ_OK || other_reply.place != 0 || other_reply.total != nodes)
        return 0;
    for (size_t v = 0; v < MOST_NODES; v++)
        if (a->parents[v] != b->parents[v] || a->tags[v] != b->tags[v] || a->firsts[v] != b->firsts[v] || a->lasts[v] != b->lasts[v])
            return 0;
    for (size_t i = 0; i < 3 * MOST_NODES; i++)
        if (a->work[i] != 0 || b->work[i] != 0)
            return 0;
    return 1;
}
#endif

typedef struct figure {
    double base, other;
    size_t length, nodes;
} figure;

/* The quickest turn of each, in microseconds for one call. */
static figure measure(int shape, size_t nodes, size_t bytes) {
    figure best = {1e18, 1e18, make_text(shape, nodes, bytes), 0};
    double begun = now();
    for (int turn = 0; turn < LEAST_TURNS || now() - begun < LEAST_US; turn++) {
        double start = now();
        other(best.length);
        double middle = now();
        sq_reply r = base_read(text, best.length, LENT(base_tree));
        double end = now();
        if (r.refusal != SQ_OK)
            stop(BASE " refuses");
        best.nodes = r.total;
        if (middle - start < best.other)
            best.other = middle - start;
        if (end - middle < best.base)
            best.base = end - middle;
    }
    if (!same(best.nodes))
        stop("the two read different trees");
    return best;
}

static double print(int shape, size_t nodes, size_t bytes) {
    figure f = measure(shape, nodes, bytes);
    printf("%-24s %9lu %6lu %11.1f %11.1f %7.2f %9.2f\n", text_names[shape], (unsigned long)f.length, (unsigned long)f.nodes, f.other, f.base, f.other / f.base,
           f.MEASURED * 1e3 / (double)f.length);
    return f.MEASURED;
}

int main(void) {
    double took[SHAPES][SIZES];
    printf("text                         bytes  nodes %8s us %8s us   ratio ns a byte\n", OTHER, BASE);
    print(SCHEDULE, MOST_NODES, 2 * MB);
    print(DISTINCT, MOST_NODES, 1 * MB);
    print(NESTED, MOST_NODES, 1 * MB);
    for (int shape = 0; shape < SHAPES; shape++)
        for (int i = 0; i < SIZES; i++)
            took[shape][i] = print(shape, nodes_of[shape] * (sizes[i] / MB) / 16, sizes[i]);
    printf("\nHow many times as long a read takes with 4 times the bytes and nodes\ntext                     1 to 4 MB  4 to 16 MB\n");
    for (int shape = 0; shape < SHAPES; shape++)
        printf("%-24s %9.2f %11.2f\n", text_names[shape], took[shape][1] / took[shape][0], took[shape][2] / took[shape][1]);
    return 0;
}
