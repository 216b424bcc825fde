/* sq_build in plain C: the judge; a pass over the words that fills the table and counts the entries of the lists; the reader, which judges once more; a pass over the words that
 * flags the nodes of the query's words where their counts will be; the lists, from the flags; and then the counts. */
#include "plain.h"

/* Its functions on bytes and its judge serve here. It is taken in whole, and not parted: where the reader alone is measured, it stays the program that it is, since a second caller moves its loops. */
#include "plain_read.c"

enum { MOST_WORDS = 8 };

#define FNV_START 2166136261u
#define FNV_FACTOR 16777619u

/* ---- a word where it stands in a text that was judged, comments inside it included */

/* A letter in lower case, a digit as it is, and 0 for any other byte. */
static uint32_t fold(uint8_t byte) {
    uint32_t small = byte | 32u;
    if (small >= 'a')
        return small <= 'z' ? small : 0;
    return byte >= '0' && byte <= '9' ? byte : 0;
}

/* The place behind the comment at a place, or the place itself where none stands there. */
static size_t behind(bytes text, size_t at) {
    return is(text, at, '<') && is(text, at + 1, '!') ? dashes(text, at + 4) + 3 : at;
}

/* The place of the next letter or digit of the word that goes on at a place, or the length where it has no more. */
static size_t letter_from(bytes text, size_t at) {
    while (at < text.length && fold(text.at[at]) == 0) {
        size_t next = behind(text, at);
        if (next == at)
            return text.length;
        at = next;
    }
    return at;
}

static int same_word(bytes text, size_t a, size_t b) {
    for (;;) {
        a = letter_from(text, a);
        b = letter_from(text, b);
        if (a >= text.length || b >= text.length)
            return a >= text.length && b >= text.length;
        if (fold(text.at[a]) != fold(text.at[b]))
            return 0;
        a++;
        b++;
    }
}

/* Whether the word at a place is the one that is lent. */
static int is_word(bytes text, size_t at, bytes word) {
    for (size_t j = 0; j < word.length; j++) {
        at = letter_from(text, at);
        if (at >= text.length || fold(text.at[at]) != fold(word.at[j]))
            return 0;
        at++;
    }
    return letter_from(text, at) >= text.length;
}

static uint32_t hash_step(uint32_t hash, uint32_t byte) {
    return (hash ^ byte) * FNV_FACTOR;
}

/* The hash of the word at a place, which becomes the place behind its last letter or digit. */
static uint32_t hash_word(bytes text, size_t *at) {
    uint32_t hash = FNV_START;
    size_t i = *at;
    while (i < text.length) {
        uint32_t letter = fold(text.at[i]);
        if (letter != 0) {
            hash = hash_step(hash, letter);
            *at = ++i;
            continue;
        }
        size_t next = behind(text, i);
        if (next == i)
            break;
        i = next;
    }
    return hash;
}

/* ---- the next word of a text that was judged */

/* Where the pass is; the node of what stands there, in data the next one; whether it is in a start tag; and whether the data since the last tag makes a node. */
typedef struct pass {
    size_t at, node;
    int tag, solid;
} pass;

/* The first place from `at` on with a letter, a digit, a `<` or the other byte, or the length. */
static size_t quiet_end(bytes text, size_t at, uint8_t other) {
    while (at < text.length && fold(text.at[at]) == 0 && text.at[at] != '<' && text.at[at] != other)
        at++;
    return at;
}

/* Over a comment, an end tag, or the `<` of another tag. */
static void over_markup(bytes text, pass *p) {
    uint8_t second = text.at[p->at + 1];
    if (second == '!') {
        p->at = dashes(text, p->at + 4) + 3;
        return;
    }
    p->at = second == '/' ? find(text, p->at, '>') + 1 : p->at + 1;
    p->tag = second != '/';
    p->node += p->solid ? 1 : 0;
    p->solid = 0;
}

/* Over markup, the `>` of a start tag, or a reference. */
static void over(bytes text, pass *p) {
    if (text.at[p->at] == '<') {
        over_markup(text, p);
    } else if (p->tag) {
        p->at++;
        p->node++;
        p->tag = 0;
    } else {
        p->at = find(text, p->at, ';') + 1;
        p->solid = 1;
    }
}

/* On to the first byte of the next word; 0 where there is none. */
static int next_word(bytes text, pass *p) {
    for (;;) {
        size_t from = p->at;
        p->at = quiet_end(text, from, p->tag ? '>' : '&');
        if (p->at >= text.length)
            return 0;
        if (!p->tag && !p->solid)
            p->solid = fold(text.at[p->at]) != 0 || white(text, from) < p->at;
        if (fold(text.at[p->at]) != 0)
            return 1;
        over(text, p);
    }
}

/* ---- the words of a query */
typedef struct query {
    const uint8_t *words;
    const uint32_t *ends;
    size_t count;
    uint32_t hashes[MOST_WORDS];
} query;

static bytes word_of(const query *q, size_t j) {
    size_t from = j == 0 ? 0 : q->ends[j - 1];
    bytes word = {q->words + from, q->ends[j] - from};
    return word;
}

/* Whether there are 1 to 8 words, the ends rise to the length of the bytes, and every byte is a letter or a digit. */
static int is_query(const uint8_t *words, size_t words_len, const uint32_t *ends, size_t count) {
    if (count == 0 || count > MOST_WORDS || ends[count - 1] != words_len || ends[0] == 0)
        return 0;
    for (size_t j = 1; j < count; j++)
        if (ends[j] <= ends[j - 1])
            return 0;
    for (size_t i = 0; i < words_len; i++)
        if (fold(words[i]) == 0)
            return 0;
    return 1;
}

static void hash_query(query *q) {
    for (size_t j = 0; j < q->count; j++) {
        bytes word = word_of(q, j);
        q->hashes[j] = FNV_START;
        for (size_t i = 0; i < word.length; i++)
            q->hashes[j] = hash_step(q->hashes[j], fold(word.at[i]));
    }
}

/* Whether the word at a place, with this hash, is word j of the query. */
static int is_asked(bytes text, size_t at, uint32_t hash, const query *q, size_t j) {
    return hash == q->hashes[j] && is_word(text, at, word_of(q, j));
}

/* ---- the first pass over the words */

/* Puts the word at a place into the table, where it is not in it yet; 0 where no slot is free for it. */
static int enter(bytes text, uint32_t *slots, size_t slots_len, size_t at, uint32_t hash) {
    if (slots_len == 0)
        return 0;
    size_t i = hash % slots_len;
    for (size_t steps = 0; steps < slots_len; steps++) {
        if (slots[i] == 0) {
            slots[i] = (uint32_t)at + 1;
            return 1;
        }
        if (same_word(text, at, slots[i] - 1))
            return 1;
        if (++i == slots_len)
            i = 0;
    }
    return 0;
}

/* How many words of the query stand at a place for the first time at its node. `lasts` has for each word one more than the last node at which it stood, or 0. */
static size_t tally(bytes text, size_t at, uint32_t hash, size_t node, const query *q, size_t *lasts) {
    size_t count = 0;
    for (size_t j = 0; j < q->count; j++)
        if (lasts[j] != node + 1 && is_asked(text, at, hash, q, j)) {
            lasts[j] = node + 1;
            count++;
        }
    return count;
}

/* Fills the table, and says how many entries the lists have; 0 where the words outnumber the slots. */
static int gather(bytes text, const query *q, uint32_t *slots, size_t slots_len, size_t *total) {
    size_t lasts[MOST_WORDS] = {0};
    pass p = {0, 0, 0, 0};
    clear(slots, slots_len);
    *total = 0;
    while (next_word(text, &p)) {
        size_t at = p.at;
        uint32_t hash = hash_word(text, &p.at);
        if (!enter(text, slots, slots_len, at, hash))
            return 0;
        *total += tally(text, at, hash, p.node, q, lasts);
    }
    return 1;
}

/* ---- the second pass over the words, and what is made of its flags */

/* Word j's row are the n entries from j * n on: 1 for each node at which the word stands. */
static void flag_all(bytes text, const query *q, size_t n, uint32_t *rows) {
    pass p = {0, 0, 0, 0};
    clear(rows, q->count * n);
    while (next_word(text, &p)) {
        size_t at = p.at;
        uint32_t hash = hash_word(text, &p.at);
        for (size_t j = 0; j < q->count; j++)
            if (is_asked(text, at, hash, q, j))
                rows[j * n + p.node] = 1;
    }
}

static void write_lists(const uint32_t *rows, size_t n, size_t count, uint32_t *ends, uint32_t *occurrences) {
    size_t at = 0;
    for (size_t j = 0; j < count; j++) {
        for (size_t v = 0; v < n; v++)
            if (rows[j * n + v] != 0)
                occurrences[at++] = (uint32_t)v;
        ends[j] = (uint32_t)at;
    }
}

static void sum_rows(const uint32_t *parents, size_t n, size_t count, uint32_t *rows) {
    for (size_t j = 0; j < count; j++) {
        uint32_t *row = rows + j * n;
        for (size_t v = n; v-- > 1;)
            row[parents[v]] += row[v];
    }
}

/* ---- the whole */
static sq_reply no_room(uint32_t *slots, size_t slots_len) {
    clear(slots, slots_len);
    return reply(SQ_ROOM, 0, 0);
}

sq_reply plain_build(const uint8_t *text, size_t text_len, const uint8_t *words, size_t words_len, const uint32_t *word_ends, size_t word_ends_len, uint32_t *slots,
                     size_t slots_len, uint32_t *parents, size_t parents_len, uint32_t *tags, size_t tags_len, uint32_t *firsts, size_t firsts_len, uint32_t *lasts,
                     size_t lasts_len, uint32_t *ends, size_t ends_len, uint32_t *occurrences, size_t occurrences_len, uint32_t *counts, size_t counts_len, uint32_t *work,
                     size_t work_len) {
    bytes lent = {text, text_len};
    query q = {words, word_ends, word_ends_len, {0}};
    size_t total;
    if (!is_query(words, words_len, word_ends, word_ends_len) || text_len > MOST_BYTES)
        return reply(SQ_SIZE, 0, 0);
    sq_reply r = judge(lent);
    if (r.refusal != SQ_OK)
        return r;
    size_t n = r.total, k = word_ends_len;
    if (parents_len < n || tags_len < n || firsts_len < n || lasts_len < n || work_len < 3 * n || ends_len < k || counts_len < k * n)
        return no_room(slots, slots_len);
    hash_query(&q);
    if (!gather(lent, &q, slots, slots_len, &total) || occurrences_len < total)
        return no_room(slots, slots_len);
    r = plain_read(text, text_len, parents, parents_len, tags, tags_len, firsts, firsts_len, lasts, lasts_len, work, work_len);
    flag_all(lent, &q, n, counts);
    write_lists(counts, n, k, ends, occurrences);
    sum_rows(parents, n, k, counts);
    return r;
}
