/* The calls of sonquilate.h in plain C, by the same algorithms and with no proof: what bench.c, reads.c and builds.c measure the library against. */
#ifndef PLAIN_H
#define PLAIN_H

#include "sonquilate.h"

typedef struct lent {
    const uint32_t *parents, *tags, *ends, *occurrences, *counts;
    size_t nodes, tags_len, ends_len, occurrences_len, counts_len;
    uint32_t p, q;
} lent;

sq_reply plain_check(const lent *x, uint32_t *work, size_t work_len);
sq_reply plain_elca(const lent *x, uint32_t *work, size_t work_len, uint32_t *out, size_t out_len, uint32_t *own, size_t own_len);
sq_reply plain_slca(const lent *x, uint32_t *work, size_t work_len, uint32_t *out, size_t out_len);
/* Over three rows: the closest entity of each node, which is the node itself where it is one; then two rows of zeros. Where the tree breaks a rule nothing is touched. */
void plain_closest(const lent *x, uint32_t *rows);
sq_reply plain_valid(const lent *x, uint32_t *work, size_t work_len, uint32_t *out, size_t out_len);
/* These read no counts. */
sq_reply plain_merge_elca(const lent *x, sq_entry *stack, size_t stack_len, uint32_t *out, size_t out_len, uint32_t *own, size_t own_len);
sq_reply plain_merge_slca(const lent *x, sq_entry *stack, size_t stack_len, uint32_t *out, size_t out_len);
/* Why ELCA lists the node, or does not. */
sq_explanation plain_reason(const lent *x, uint32_t node, uint32_t *work, size_t work_len);
/* In plain_read.c. */
sq_reply plain_read(const uint8_t *text, size_t text_len, uint32_t *parents, size_t parents_len, uint32_t *tags, size_t tags_len, uint32_t *firsts, size_t firsts_len,
                    uint32_t *lasts, size_t lasts_len, uint32_t *work, size_t work_len);
/* In plain_build.c, which has plain_read too. */
sq_reply plain_build(const uint8_t *text, size_t text_len, const uint8_t *words, size_t words_len, const uint32_t *word_ends, size_t word_ends_len, uint32_t *slots,
                     size_t slots_len, uint32_t *parents, size_t parents_len, uint32_t *tags, size_t tags_len, uint32_t *firsts, size_t firsts_len, uint32_t *lasts,
                     size_t lasts_len, uint32_t *ends, size_t ends_len, uint32_t *occurrences, size_t occurrences_len, uint32_t *counts, size_t counts_len, uint32_t *work,
                     size_t work_len);

#endif
