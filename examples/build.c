/* Searches an XML text for words. Builds the index of the file for the words that it is told, at most eight, letters without case; says at how many nodes each word stands; and prints, for
 * each answer of ELCA, the places of its first and last byte and the first line of that part of the text. Or it says why the text or the words are refused. The words Chop and
 * EET of examples/schedule.xml give examples/build.out.
 * Status 0: the answers or the refusal are printed; 1: something could not be read or written; 2: wrong usage. */
#include "text.h"

enum { MOST_WORDS = 8, LINE = 100 };

/* As much as any text and any query need, so that there is always room. Each word of a text has a byte behind it that is of no word: so a slot for each byte is at least two for each word,
 * which keeps a build quick. Only as many slots as the text has bytes are lent. */
static uint32_t slots[MOST_BYTES + 1];
static uint32_t parents[MOST_NODES], tags[MOST_NODES], firsts[MOST_NODES], lasts[MOST_NODES];
static uint32_t ends[MOST_WORDS], occurrences[MOST_WORDS * MOST_NODES], counts[MOST_WORDS * MOST_NODES];

/* A build takes three entries of work for each node, and a search for k words k + 2. */
static uint32_t work[(MOST_WORDS + 2) * MOST_NODES];

/* The answers, and for each of them its own count of each word. */
static uint32_t out[MOST_NODES], own[MOST_WORDS * MOST_NODES];

/* The words one after the other, and where each of them ends. */
typedef struct query {
    uint8_t *words;
    uint32_t *ends;
    size_t bytes, count;
} query;

static size_t length_of(const char *word) {
    size_t length = 0;
    while (word[length] != '\0')
        length++;
    return length;
}

/* All words are lent as they are told, be they too many or no words: the library judges them. */
static query take_words(size_t count, char **word) {
    query q = {NULL, malloc(count * sizeof *q.ends), 0, count};
    size_t bytes = 0;
    for (size_t j = 0; j < count; j++)
        bytes += length_of(word[j]);
    q.words = malloc(bytes + 1);
    if (q.words == NULL || q.ends == NULL)
        stop("build");
    for (size_t j = 0; j < count; j++) {
        for (const char *c = word[j]; *c != '\0'; c++)
            q.words[q.bytes++] = (uint8_t)*c;
        q.ends[j] = (uint32_t)q.bytes;
    }
    return q;
}

static sq_reply build(size_t length, query q) {
    return sq_build(text, length, q.words, q.bytes, q.ends, q.count, slots, length, parents, MOST_NODES, tags, MOST_NODES, firsts, MOST_NODES, lasts, MOST_NODES, ends,
                    MOST_WORDS, occurrences, MOST_WORDS * MOST_NODES, counts, MOST_WORDS * MOST_NODES, work, 3 * MOST_NODES);
}

/* Of what was built, exactly as many entries as there are nodes, words and occurrences. */
static sq_reply search(size_t n, size_t k) {
    return sq_elca(parents, n, tags, n, (uint32_t)k, 0, ends, k, occurrences, ends[k - 1], counts, k * n, work, (k + 2) * n, out, n, own, k * n);
}

/* ---- what is printed */
/* The words in lower case, as they are compared. */
static void print_words(query q) {
    size_t at = 0, from = 0;
    for (size_t j = 0; j < q.count; j++) {
        size_t nodes = ends[j] - from;
        for (; at < q.ends[j]; at++)
            print_byte(q.words[at] >= 'A' && q.words[at] <= 'Z' ? q.words[at] + 32 : q.words[at]);
        if (nodes == 0)
            printf(": nowhere in the text\n");
        else
            printf(": at %lu node%s\n", (unsigned long)nodes, nodes == 1 ? "" : "s");
        from = ends[j];
    }
}

/* The first place that is not white space, or the one after the last. */
static size_t after_white(size_t at, size_t last) {
    while (at <= last && (text[at] == ' ' || text[at] == '\t' || text[at] == '\r' || text[at] == '\n'))
        at++;
    return at;
}

/* The first line of a part of the text that is not blank, or as much of it as a terminal has place for; dots where more follows. */
static void print_line(size_t first, size_t last) {
    size_t begin = after_white(first, last), at = begin;
    while (at <= last && at < begin + LINE && text[at] != '\r' && text[at] != '\n')
        print_byte(text[at++]);
    printf("%s\n", after_white(at, last) <= last ? " ..." : "");
}

static void print_answers(size_t many) {
    for (size_t i = 0; i < many; i++) {
        printf("bytes %lu to %lu: ", (unsigned long)firsts[out[i]], (unsigned long)lasts[out[i]]);
        print_line(firsts[out[i]], lasts[out[i]]);
    }
    if (many == 0)
        printf("no part of the text has all the words\n");
}

static void print_size(size_t length, query q) {
    if (length > MOST_BYTES)
        printf("SIZE: the text has more than 16,777,216 bytes\n");
    else if (q.count > MOST_WORDS)
        printf("SIZE: there are more than 8 words\n");
    else
        printf("SIZE: a word is empty, or has a byte that is no ASCII letter or digit\n");
}

static void print_refusal(sq_reply r, size_t length, query q) {
    if (r.refusal == SQ_SIZE)
        print_size(length, q);
    else if (r.refusal == SQ_ROOM)
        printf("ROOM: a buffer is too short for this text and these words\n");
    else
        print_refused_text(r, length);
}

/* An index that was built is never refused: what the search replies is tested all the same. */
static void print(size_t length, query q) {
    sq_reply r = build(length, q);
    if (r.refusal == SQ_OK) {
        print_words(q);
        r = search(r.total, q.count);
    }
    if (r.refusal == SQ_OK)
        print_answers(r.total);
    else
        print_refusal(r, length, q);
}

int main(int words, char **word) {
    if (words < 3 || word[1][0] == '-') {
        fprintf(stderr, "usage: build FILE WORD...\n");
        return 2;
    }
    size_t length = take(word[1]);
    query q = take_words((size_t)words - 2, word + 2);
    print(length, q);
    free(q.words);
    free(q.ends);
    return all_written();
}
