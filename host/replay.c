/* Replays the cases of a case file (second/README.md says its layout) through include/sonquilate.h, from standard input. For
 * each case one line: its number, the call, the reply, and the final content of each slice that the call may write, as its
 * length and a hash: of a search work, out and own, of a search without counts the stack, out and own, of a node's reason work,
 * of the reader parents, tags, firsts, lasts and work, of the word dictionary slots, parents, tags, firsts, lasts, ends,
 * occurrences, counts and work. A reason itself stands between the reply and work.
 * Every slice stands between fences of its own, and what is lent to be read is hashed before and after: a write to
 * anything else, or past a slice's ends, stops the run with status 3. In every other case an empty slice is lent
 * as a null pointer. Text and words stand at every alignment in turn. */
#include "sonquilate.h"

#include <stdio.h>
#include <stdlib.h>

#define SEARCH_CASE 0x53514C43u
#define MERGE_CASE 0x53514C4Du
#define REASON_CASE 0x53514C57u
#define READ_CASE 0x53514C52u
#define BUILD_CASE 0x53514C42u
#define FENCE 0xA5A5A5A5u

enum { WORDS = 8 }; /* the most that there may be */
enum { PARENTS, TAGS, ENDS, OCCURRENCES, COUNTS, WORK, OUT, OWN, SLICES };
enum { CHECK, ELCA, SLCA, VALID, SEARCHES };
enum { MERGE_ELCA, MERGE_SLCA, MERGES };
enum { READ_PARENTS, READ_TAGS, READ_FIRSTS, READ_LASTS, READ_WORK, READ_SLICES };
enum { BUILD_WORD_ENDS, BUILD_SLOTS, BUILD_PARENTS, BUILD_TAGS, BUILD_FIRSTS, BUILD_LASTS, BUILD_ENDS, BUILD_OCCURRENCES,
       BUILD_COUNTS, BUILD_WORK, BUILD_SLICES };

static const char *const names[SEARCHES] = {"check", "elca", "slca", "valid"};
static const char *const merge_names[MERGES] = {"merge_elca", "merge_slca"};

typedef struct slice {
    uint32_t *at;
    size_t length;
} slice;

typedef struct entries {
    sq_entry *at;
    size_t length;
} entries;

typedef struct bytes {
    uint8_t *at;
    size_t length;
} bytes;

#define LENT(s) (s).at, (s).length

static void stop(int status, const char *why, unsigned long index) {
    fprintf(stderr, "replay: case %lu: %s\n", index, why);
    exit(status);
}

/* Reads `length` numbers, little-endian; 0 where the input ends before. */
static int numbers(uint32_t *to, size_t length) {
    unsigned char four[4];
    for (size_t i = 0; i < length; i++) {
        if (fread(four, 1, 4, stdin) != 4)
            return 0;
        to[i] = four[0] | (uint32_t)four[1] << 8 | (uint32_t)four[2] << 16 | (uint32_t)four[3] << 24;
    }
    return 1;
}

#define HASH_START 14695981039346656037u
#define HASH_FACTOR 1099511628211u

/* The hash h, once so many numbers more are hashed. */
static uint64_t hash_on(uint64_t h, const uint32_t *at, size_t length) {
    for (size_t i = 0; i < length; i++)
        for (int byte = 0; byte < 4; byte++)
            h = (h ^ (at[i] >> 8 * byte & 255u)) * HASH_FACTOR;
    return h;
}

static uint64_t hash(slice s) {
    return hash_on(HASH_START, s.at, s.length);
}

static uint64_t hash_bytes(bytes b) {
    uint64_t h = HASH_START;
    for (size_t i = 0; i < b.length; i++)
        h = (h ^ b.at[i]) * HASH_FACTOR;
    return h;
}

static void *memory(size_t size, unsigned long index) {
    void *at = malloc(size);
    if (at == NULL)
        stop(1, "no memory", index);
    return at;
}

static slice lend(size_t length, unsigned long index) {
    uint32_t *with_fences = memory((length + 2) * sizeof(uint32_t), index);
    with_fences[0] = FENCE;
    with_fences[length + 1] = FENCE;
    slice s = {with_fences + 1, length};
    if (!numbers(s.at, length))
        stop(1, "the file ends inside a case", index);
    return s;
}

static void take_back(slice s, unsigned long index) {
    if (s.at[-1] != FENCE || s.at[s.length] != FENCE)
        stop(3, "a write past a slice", index);
    free(s.at - 1);
}

/* In every other case an empty slice is a null pointer. */
static slice as_lent(slice s, unsigned long index) {
    slice null = {NULL, 0};
    return s.length == 0 && index % 2 == 1 ? null : s;
}

static void print_reply(sq_reply r) {
    printf(" %u %u %u", (unsigned)r.refusal, (unsigned)r.place, (unsigned)r.total);
}

static void print_hash(size_t length, uint64_t h) {
    printf(" %lu:%016llx", (unsigned long)length, (unsigned long long)h);
}

static void print_slices(const slice *s, int from, int to) {
    for (int i = from; i < to; i++)
        print_hash(s[i].length, hash(s[i]));
    printf("\n");
}

/* What is lent to be read comes first among the slices: it is hashed before a call, and held against that after it. */
static void hash_lent(const slice *s, int count, uint64_t *hashes) {
    for (int i = 0; i < count; i++)
        hashes[i] = hash(s[i]);
}

static void hold_lent(const slice *s, int count, const uint64_t *hashes, unsigned long index) {
    for (int i = 0; i < count; i++)
        if (hash(s[i]) != hashes[i])
            stop(3, "a write to what is lent to be read", index);
}

/* ---- a search */

static sq_reply call(uint32_t search, uint32_t p, uint32_t q, const slice *s) {
#define INDEX LENT(s[PARENTS]), LENT(s[TAGS]), p, q, LENT(s[ENDS]), LENT(s[OCCURRENCES]), LENT(s[COUNTS]), LENT(s[WORK])
    switch (search) {
    case ELCA:
        return sq_elca(INDEX, LENT(s[OUT]), LENT(s[OWN]));
    case SLCA:
        return sq_slca(INDEX, LENT(s[OUT]));
    case VALID:
        return sq_valid(INDEX, LENT(s[OUT]));
    default:
        return sq_check(INDEX);
    }
#undef INDEX
}

static void try(unsigned long index, uint32_t search, uint32_t p, uint32_t q, const slice *s) {
    uint64_t before[WORK];
    slice lent[SLICES];
    hash_lent(s, WORK, before);
    for (int i = 0; i < SLICES; i++)
        lent[i] = as_lent(s[i], index);
    sq_reply r = call(search, p, q, lent);
    hold_lent(s, WORK, before, index);
    printf("%lu %s", index, names[search]);
    print_reply(r);
    print_slices(s, WORK, SLICES);
}

static void replay_search(unsigned long index) {
    uint32_t head[3 + SLICES];
    slice s[SLICES];
    if (!numbers(head, 3 + SLICES) || head[0] >= SEARCHES)
        stop(1, "no case file", index);
    for (int i = 0; i < SLICES; i++)
        s[i] = lend(head[3 + i], index);
    try(index, head[0], head[1], head[2], s);
    for (int i = 0; i < SLICES; i++)
        take_back(s[i], index);
}

/* ---- a search without counts */

enum { MERGE_OUT = OCCURRENCES + 1, MERGE_OWN, MERGE_SLICES };

/* Reads an entry, field by field; 0 where the input ends before. */
static int entry_numbers(sq_entry *to) {
    return numbers(&to->node, 1) && numbers(to->own, WORDS) && numbers(to->covered, WORDS);
}

static uint64_t hash_entries(entries stack) {
    uint64_t h = HASH_START;
    for (size_t i = 0; i < stack.length; i++) {
        h = hash_on(h, &stack.at[i].node, 1);
        h = hash_on(h, stack.at[i].own, WORDS);
        h = hash_on(h, stack.at[i].covered, WORDS);
    }
    return h;
}

/* The fences of a stack are whole entries. */
static void set_fence(sq_entry *at) {
    at->node = FENCE;
    for (int j = 0; j < WORDS; j++)
        at->own[j] = at->covered[j] = FENCE;
}

static int fence_stands(const sq_entry *at) {
    int stands = at->node == FENCE;
    for (int j = 0; j < WORDS; j++)
        stands = stands && at->own[j] == FENCE && at->covered[j] == FENCE;
    return stands;
}

static entries lend_stack(size_t length, unsigned long index) {
    sq_entry *with_fences = memory((length + 2) * sizeof(sq_entry), index);
    entries stack = {with_fences + 1, length};
    set_fence(with_fences);
    set_fence(stack.at + length);
    for (size_t i = 0; i < length; i++)
        if (!entry_numbers(stack.at + i))
            stop(1, "the file ends inside a case", index);
    return stack;
}

static void take_back_stack(entries stack, unsigned long index) {
    if (!fence_stands(stack.at - 1) || !fence_stands(stack.at + stack.length))
        stop(3, "a write past the stack", index);
    free(stack.at - 1);
}

static sq_reply call_merge(uint32_t search, uint32_t p, uint32_t q, const slice *s, entries stack) {
#define LISTS LENT(s[PARENTS]), LENT(s[TAGS]), p, q, LENT(s[ENDS]), LENT(s[OCCURRENCES]), LENT(stack)
    if (search == MERGE_ELCA)
        return sq_merge_elca(LISTS, LENT(s[MERGE_OUT]), LENT(s[MERGE_OWN]));
    return sq_merge_slca(LISTS, LENT(s[MERGE_OUT]));
#undef LISTS
}

static void try_merge(unsigned long index, uint32_t search, uint32_t p, uint32_t q, const slice *s, entries stack) {
    uint64_t before[MERGE_OUT];
    slice lent[MERGE_SLICES];
    entries lent_stack = stack;
    hash_lent(s, MERGE_OUT, before);
    for (int i = 0; i < MERGE_SLICES; i++)
        lent[i] = as_lent(s[i], index);
    if (stack.length == 0 && index % 2 == 1)
        lent_stack.at = NULL;
    sq_reply r = call_merge(search, p, q, lent, lent_stack);
    hold_lent(s, MERGE_OUT, before, index);
    printf("%lu %s", index, merge_names[search]);
    print_reply(r);
    print_hash(stack.length, hash_entries(stack));
    print_slices(s, MERGE_OUT, MERGE_SLICES);
}

/* Of the lengths, that of the stack stands between those of the occurrences and of out. */
static void replay_merge(unsigned long index) {
    uint32_t head[3 + MERGE_SLICES + 1];
    const uint32_t *lengths = head + 3;
    slice s[MERGE_SLICES];
    if (!numbers(head, 3 + MERGE_SLICES + 1) || head[0] >= MERGES)
        stop(1, "no case file", index);
    for (int i = 0; i < MERGE_OUT; i++)
        s[i] = lend(lengths[i], index);
    entries stack = lend_stack(lengths[MERGE_OUT], index);
    for (int i = MERGE_OUT; i < MERGE_SLICES; i++)
        s[i] = lend(lengths[i + 1], index);
    try_merge(index, head[0], head[1], head[2], s, stack);
    for (int i = 0; i < MERGE_SLICES; i++)
        take_back(s[i], index);
    take_back_stack(stack, index);
}

/* ---- a node's reason */

enum { REASON_SLICES = WORK + 1 };

static void print_reason(sq_explanation e) {
    print_reply(e.reply);
    printf(" %u %u", (unsigned)e.reason, (unsigned)e.word);
    for (int j = 0; j < WORDS; j++)
        printf("%c%u", j == 0 ? ' ' : ',', (unsigned)e.occurrences[j]);
}

static void try_reason(unsigned long index, uint32_t p, uint32_t q, uint32_t node, const slice *s) {
    uint64_t before[WORK];
    slice lent[REASON_SLICES];
    hash_lent(s, WORK, before);
    for (int i = 0; i < REASON_SLICES; i++)
        lent[i] = as_lent(s[i], index);
    sq_explanation e = sq_reason(LENT(lent[PARENTS]), LENT(lent[TAGS]), p, q, LENT(lent[ENDS]), LENT(lent[OCCURRENCES]),
                                 LENT(lent[COUNTS]), node, LENT(lent[WORK]));
    hold_lent(s, WORK, before, index);
    printf("%lu reason", index);
    print_reason(e);
    print_slices(s, WORK, REASON_SLICES);
}

static void replay_reason(unsigned long index) {
    uint32_t head[3 + REASON_SLICES];
    slice s[REASON_SLICES];
    if (!numbers(head, 3 + REASON_SLICES))
        stop(1, "no case file", index);
    for (int i = 0; i < REASON_SLICES; i++)
        s[i] = lend(head[3 + i], index);
    try_reason(index, head[0], head[1], head[2], s);
    for (int i = 0; i < REASON_SLICES; i++)
        take_back(s[i], index);
}

/* ---- bytes */

enum { BYTE_FENCE = 8 };

/* Where the fences of bytes stand: before and behind them. */
static uint8_t *fence(bytes b, int behind) {
    return behind ? b.at + b.length : b.at - BYTE_FENCE;
}

/* Bytes that begin so far behind an aligned place. */
static bytes lend_bytes(size_t length, unsigned shift, unsigned long index) {
    uint8_t *with_fences = memory(length + 2 * BYTE_FENCE + 3, index);
    uint8_t zeros[3];
    size_t padding = (4 - length % 4) % 4;
    bytes b = {with_fences + shift + BYTE_FENCE, length};
    for (int behind = 0; behind < 2; behind++)
        for (int i = 0; i < BYTE_FENCE; i++)
            fence(b, behind)[i] = FENCE & 255u;
    if (fread(b.at, 1, length, stdin) != length || fread(zeros, 1, padding, stdin) != padding)
        stop(1, "the file ends inside a case", index);
    return b;
}

static void take_back_bytes(bytes b, unsigned shift, unsigned long index) {
    for (int behind = 0; behind < 2; behind++)
        for (int i = 0; i < BYTE_FENCE; i++)
            if (fence(b, behind)[i] != (FENCE & 255u))
                stop(3, "a write past bytes", index);
    free(fence(b, 0) - shift);
}

static bytes bytes_as_lent(bytes b, unsigned long index) {
    bytes null = {NULL, 0};
    return b.length == 0 && index % 2 == 1 ? null : b;
}

/* ---- the reader */

static void try_read(unsigned long index, bytes text, const slice *s) {
    uint64_t before = hash_bytes(text);
    bytes lent_text = bytes_as_lent(text, index);
    slice lent[READ_SLICES];
    for (int i = 0; i < READ_SLICES; i++)
        lent[i] = as_lent(s[i], index);
    sq_reply r = sq_read(LENT(lent_text), LENT(lent[READ_PARENTS]), LENT(lent[READ_TAGS]), LENT(lent[READ_FIRSTS]),
                         LENT(lent[READ_LASTS]), LENT(lent[READ_WORK]));
    if (hash_bytes(text) != before)
        stop(3, "a write to the text", index);
    printf("%lu read", index);
    print_reply(r);
    print_slices(s, READ_PARENTS, READ_SLICES);
}

static void replay_read(unsigned long index) {
    uint32_t head[1 + READ_SLICES];
    unsigned shift = index % 4;
    slice s[READ_SLICES];
    if (!numbers(head, 1 + READ_SLICES))
        stop(1, "no case file", index);
    bytes text = lend_bytes(head[0], shift, index);
    for (int i = 0; i < READ_SLICES; i++)
        s[i] = lend(head[1 + i], index);
    try_read(index, text, s);
    for (int i = 0; i < READ_SLICES; i++)
        take_back(s[i], index);
    take_back_bytes(text, shift, index);
}

/* ---- the word dictionary */

static void try_build(unsigned long index, bytes text, bytes words, const slice *s) {
    uint64_t text_before = hash_bytes(text), words_before = hash_bytes(words), before[BUILD_SLOTS];
    bytes lent_text = bytes_as_lent(text, index), lent_words = bytes_as_lent(words, index);
    slice lent[BUILD_SLICES];
    hash_lent(s, BUILD_SLOTS, before);
    for (int i = 0; i < BUILD_SLICES; i++)
        lent[i] = as_lent(s[i], index);
    sq_reply r = sq_build(LENT(lent_text), LENT(lent_words), LENT(lent[BUILD_WORD_ENDS]), LENT(lent[BUILD_SLOTS]),
                          LENT(lent[BUILD_PARENTS]), LENT(lent[BUILD_TAGS]), LENT(lent[BUILD_FIRSTS]), LENT(lent[BUILD_LASTS]),
                          LENT(lent[BUILD_ENDS]), LENT(lent[BUILD_OCCURRENCES]), LENT(lent[BUILD_COUNTS]),
                          LENT(lent[BUILD_WORK]));
    if (hash_bytes(text) != text_before)
        stop(3, "a write to the text", index);
    if (hash_bytes(words) != words_before)
        stop(3, "a write to the words", index);
    hold_lent(s, BUILD_SLOTS, before, index);
    printf("%lu build", index);
    print_reply(r);
    print_slices(s, BUILD_SLOTS, BUILD_SLICES);
}

static void replay_build(unsigned long index) {
    uint32_t head[2 + BUILD_SLICES];
    unsigned text_shift = index % 4, words_shift = index / 4 % 4;
    slice s[BUILD_SLICES];
    if (!numbers(head, 2 + BUILD_SLICES))
        stop(1, "no case file", index);
    bytes text = lend_bytes(head[0], text_shift, index);
    bytes words = lend_bytes(head[1], words_shift, index);
    for (int i = 0; i < BUILD_SLICES; i++)
        s[i] = lend(head[2 + i], index);
    try_build(index, text, words, s);
    for (int i = 0; i < BUILD_SLICES; i++)
        take_back(s[i], index);
    take_back_bytes(text, text_shift, index);
    take_back_bytes(words, words_shift, index);
}

int main(void) {
    uint32_t magic;
    for (unsigned long index = 0; numbers(&magic, 1); index++) {
        if (magic == SEARCH_CASE)
            replay_search(index);
        else if (magic == MERGE_CASE)
            replay_merge(index);
        else if (magic == REASON_CASE)
            replay_reason(index);
        else if (magic == READ_CASE)
            replay_read(index);
        else if (magic == BUILD_CASE)
            replay_build(index);
        else
            stop(1, "no case file", index);
    }
    return 0;
}
