/* sonquilate.h: XML keyword search over a lent index, the reader that makes the index's tree of XML text, and the builder that
 * makes the whole index of XML text and the words of a query; version 0.1.
 *
 * What is not declared here is no interface. No function allocates, keeps a pointer, or has a state of its own: the caller
 * owns every buffer. Calls that share nothing but what is only read, the index or the text, may run at once: each needs its
 * own of every buffer that it writes.
 *
 * [P: d] marks what is proved of the library for every input, on the machine of the language that it is written in, by
 * equations with the definitions d. [T] marks what is only tested. docs/TRUST.md says what a proof covers and in which file
 * a definition is.
 *
 * THE LENT INDEX. All numbers are uint32_t; a slice is a pointer and then its length, in entries.
 *   parents      n entries: the parent of each node, 0 for the root; nodes are numbered in document order from 0
 *   tags         n entries: 0 for text, any other number for an element of that tag
 *   p, q         how many positive and how many negative words; k = p + q, a sum that never wraps; words 0 to p - 1 are positive
 *   ends         k entries: the occurrences of word j are occurrences[ends[j - 1]] to occurrences[ends[j] - 1], from 0 for word 0
 *   occurrences  for each word, one after the other, the nodes at which it occurs, strictly increasing
 *   counts       k * n entries: counts[j * n + v] is the number of occurrences of word j under node v
 *   work         at least (k + 2) * n entries, with any content
 *   stack        at least 64 entries of sq_entry, with any content: one for each level that a tree may have. Quickest at the
 *                begin of a page: an entry is stored whole, and one that straddles two pages takes longer
 * "Under v" means at v itself or at a descendant of v. sq_merge_elca and sq_merge_slca take the stack, and neither counts nor
 * work; the other calls on an index take counts and work, and no stack.
 *
 * WHICH ENGINE. Where counts are kept: sq_elca and sq_slca, which also hold every count against the lists. Where none are kept,
 * as in small depots, or the words are rare: sq_merge_elca and sq_merge_slca, which find the answers in the tree and the lists
 * alone. On every index that the first two accept, these give the same nodes, own counts and total [P: engines_agree]. They take
 * no counts, and so accept an index whatever counts are kept beside it.
 *
 * THE LENT TEXT, for sq_read and sq_build: bytes, of a profile of XML 1.0 in ASCII.
 *   document    one root element, with white space and comments before and after it
 *   element     a start tag, content and an end tag with the same name, or an empty-element tag; no attributes; white space
 *               in a tag only before its > or />
 *   name        a letter, _ or :, then any of letters, digits, - . _ and :, with upper and lower case apart
 *   content     elements, data, references and comments in any order
 *   data        any characters but < and &, and never ]]> in one piece; a reference or a comment in between parts it
 *   reference   &amp; &lt; &gt; &apos; or &quot; and no other
 *   comment     <!--, then any characters without -- among them or - at their end, then -->; so <!--> and <!---> are beginnings
 *   character   the bytes 9, 10, 13 and 32 to 127; of these 9, 10, 13 and 32 are white space
 * No part of it: XML declaration, byte-order mark, DOCTYPE, processing instructions, CDATA sections, other references.
 *
 * THE TREE OF A TEXT. Elements are nodes. All data and references between two tags, comments dropped, are one node, called
 * text in the index; where all of it is white space there is none. Nodes are numbered in document order from 0, the root; n
 * is how many there are. Places count bytes from 0, and a node's last place is that of its last byte, not of the next.
 *   parents      the parent of each node, 0 for the root
 *   tags         0 for a node of data; for an element the number of its name, from 1, in order of first appearance
 *   firsts       an element's first <; the first byte of the data, white space included
 *   lasts        the > of an element's end tag or empty-element tag; the last byte of the data, white space included
 * Such a tree is one that the searches take: its parents and tags never give SQ_TREE. [P: read-lawful]
 *
 * THE WORDS OF A TEXT, for sq_build. A word is a longest run of ASCII letters and digits in the data of a node, or in an element's
 * name at its first tag. Letters are compared without case. In data comments are dropped, so no<!--x-->rth is one word; and a
 * reference is read as its character, so a&lt;b has the words a and b. In a name - . _ and : part words. End tags and comments
 * have no words. A word stands at the node of its data or of its element. [P: document_words]
 *
 * THE LENT QUERY, for sq_build: k words, one after the other, in upper or lower case; the same word may stand twice.
 *   words        the bytes of all words, with nothing between them
 *   word_ends    k entries: word j is words[word_ends[j - 1]] to words[word_ends[j] - 1], from 0 for word 0
 *
 * THE TABLE OF A TEXT'S WORDS, for sq_build: slots, as many as are lent.
 *   a slot       0 where it is free; else one more than the place in the text of a word's first byte, where it stands first
 *   which slot   each distinct word has one, in order of first appearance: that of its 32-bit FNV-1a hash modulo the slots, or the
 *                next free one, where slot 0 follows the last. The hash is of its bytes in lower case, comments left out
 * So a word is in the text exactly if a search from the slot of its hash on, slot after slot, meets it before a free slot and
 * before all slots are met. Words with one hash are told apart by their bytes. [P: word_table]
 *
 * REPLIES of all calls but sq_read and sq_build. Of the refusals that apply the lowest number is given; a length is asked for
 * where the call takes the slice. [P: check_reply, elca_reply, slca_reply, valid_reply, merge_elca_reply, merge_slca_reply, reason_reply]
 *   number      given exactly when                                                             place                  total
 *   SQ_OK       nothing below applies                                                          0                      the answers
 *   SQ_SIZE     n is not from 1 to 65,536, p not from 1 to 8, or k above 8; tags are not       0                      0
 *               n, ends not k or counts not k * n long; work is shorter than (k + 2) * n,
 *               or the stack than 64; in all but sq_check and sq_valid also: q is above 0
 *   SQ_TREE     node 0 is text or not its own parent; a later node's parent is not the         the lowest such node   0
 *               node before it or an ancestor of that, or is text; a level is above 64,
 *               where the root's is 1
 *   SQ_LIST     a word's end is below the one before or above the occurrences' length,         the lowest such word   0
 *               the last end is not that length, or a list is not strictly increasing
 *               below n
 *   SQ_COUNT    an entry of counts is not the number of occurrences                            the lowest such entry  0
 *   SQ_ROOM     out, or own in sq_elca and sq_merge_elca, is too short for the answers         0                      the answers
 *   SQ_NODE     in sq_reason alone: node is n or more                                          0                      0
 * sq_check and sq_reason have no answers: their total is always 0, and they never give SQ_ROOM. sq_merge_elca and sq_merge_slca
 * take no counts, and never give SQ_COUNT. "The answers" is how many there are.
 *
 * REPLIES of sq_read. SQ_SIZE goes before all others; of SQ_MARKUP and SQ_TREE the one whose byte comes first is given; SQ_ROOM
 * comes last. [P: read_reply]
 *   number      given exactly when                                                             place                  total
 *   SQ_OK       nothing below applies                                                          0                      n
 *   SQ_SIZE     text is longer than 16,777,216 bytes                                           0                      0
 *   SQ_MARKUP   the text is not of the profile. Its byte is the first at which no text of      this byte              0
 *               the profile goes on, or text_len where the text only stops short
 *   SQ_TREE     a node is of level 65, where the root's is 1, or is numbered 65,536. Its       the lowest such node   0
 *               byte is the > of that element's first tag, or the first byte of that
 *               data which is not white space
 *   SQ_ROOM     parents, tags, firsts or lasts is shorter than n, or work than 3 * n           0                      n
 *
 * REPLIES of sq_build. SQ_SIZE goes before all others; of SQ_MARKUP and SQ_TREE the one whose byte comes first is given; SQ_ROOM
 * comes last. [P: build_reply]
 *   number      given exactly when                                                             place                  total
 *   SQ_OK       nothing below applies                                                          0                      n
 *   SQ_SIZE     text is longer than 16,777,216 bytes; k is not from 1 to 8; the first          0                      0
 *               word end is 0, a later one not above the one before it, or the last not
 *               words_len; or a byte of words is no letter and no digit
 *   SQ_MARKUP   as in sq_read                                                                  this byte              0
 *   SQ_TREE     as in sq_read                                                                  the lowest such node   0
 *   SQ_ROOM     the text has more distinct words than there are slots; parents, tags,          0                      0
 *               firsts or lasts is shorter than n, work than 3 * n, ends than k,
 *               occurrences than all k lists together, or counts than k * n
 *
 * BUFFERS of all calls but sq_read and sq_build. The index is only read. Under SQ_SIZE nothing is touched. Under every other
 * reply the first (k + 2) * n entries of work are 0, or the first 64 of the stack, in every field, and the rest is untouched. out
 * and own are as lent under every refusal; under SQ_OK their first entries are written, and later entries stay. [P: work_after,
 * stack_after, elca_out, elca_own, slca_out, valid_out, merge_elca_out, merge_elca_own, merge_slca_out]
 * BUFFERS of sq_read. The text is only read. Under every refusal nothing is touched. Under SQ_OK the first n entries of
 * parents, tags, firsts and lasts are written, the first 3 * n of work are 0, and later entries of all five stay.
 * [P: Reads]
 * BUFFERS of sq_build. The text, words and word_ends are only read. Under SQ_SIZE, SQ_MARKUP and SQ_TREE nothing is touched. Under
 * SQ_ROOM every slot is 0, and all else is as lent. Under SQ_OK every slot is written; so are the first n entries of parents,
 * tags, firsts and lasts, the first k of ends, the first ends[k - 1] of occurrences and the first k * n of counts; the first 3 * n
 * of work are 0; and later entries of all eight stay. [P: Builds]
 *
 * ASKED OF C, which no proof can see: each pointer to numbers, or to the entries of a stack, is aligned for uint32_t, and each
 * pointer valid for its length, for writing too where it is not const; what may be written overlaps nothing else that is lent.
 * A slice of length 0 is neither read nor written, and may be lent as a null pointer [T].
 * That these declarations fit the code, and that nothing is written past a slice: [T].
 */
#ifndef SONQUILATE_H
#define SONQUILATE_H

#include <stddef.h>
#include <stdint.h>

#ifdef __cplusplus
extern "C" {
#endif

#define SQ_OK 0u
#define SQ_SIZE 1u
#define SQ_TREE 2u
#define SQ_LIST 3u
#define SQ_COUNT 4u
#define SQ_ROOM 5u
#define SQ_MARKUP 7u
#define SQ_NODE 10u

/* The cases of a reason. 0 is none of them: it stands under a refusal. */
#define SQ_NOT_FULL 1u
#define SQ_NOT_LISTED 2u
#define SQ_LISTED 3u

typedef struct sq_reply {
    uint32_t refusal;
    uint32_t place;
    uint32_t total;
} sq_reply;

/* An entry of the stack: a node and, for each of the 8 words that there may be, two counts of the word's occurrences under it:
 * the node's own, and those that full nodes below it cover. What it holds is a matter of the call alone: nothing that a call
 * gives depends on what is lent in it. */
typedef struct sq_entry {
    uint32_t node;
    uint32_t own[8];
    uint32_t covered[8];
} sq_entry;

/* What sq_reason gives: a reply; the case of the reason, and the word that it names; and the occurrences that the case SQ_LISTED
 * has, one for each word. What a case does not have is 0, and so is everything but the reply under a refusal. */
typedef struct sq_explanation {
    sq_reply reply;
    uint32_t reason;
    uint32_t word;
    uint32_t occurrences[8];
} sq_explanation;

/* The index check alone. q may be above 0.
 * Replies: SQ_SIZE, SQ_TREE, SQ_LIST, SQ_COUNT, in this order, or SQ_OK with total 0. [P: check_reply]
 * Buffers: work as above. [P: work_after] */
sq_reply sq_check(const uint32_t *parents, size_t parents_len, const uint32_t *tags, size_t tags_len, uint32_t p, uint32_t q,
                  const uint32_t *ends, size_t ends_len, const uint32_t *occurrences, size_t occurrences_len,
                  const uint32_t *counts, size_t counts_len, uint32_t *work, size_t work_len);

/* ELCA. A node is full if each word occurs under it. Its own count for a word is the number of the word's occurrences under
 * it that are under no full node below it. The answers are the full nodes whose own counts are all 1 or more. q must be 0.
 * Replies: those of sq_check in its order, then SQ_ROOM where out is shorter than the answers or own than p times as many,
 * or SQ_OK. [P: elca_reply]
 * Buffers: under SQ_OK out begins with the nodes, increasing, and own with p own counts for each of them, in word order; the
 * rest of both stays. Under a refusal both are as lent. Work as above. [P: elca_out, elca_own, work_after] */
sq_reply sq_elca(const uint32_t *parents, size_t parents_len, const uint32_t *tags, size_t tags_len, uint32_t p, uint32_t q,
                 const uint32_t *ends, size_t ends_len, const uint32_t *occurrences, size_t occurrences_len,
                 const uint32_t *counts, size_t counts_len, uint32_t *work, size_t work_len, uint32_t *out, size_t out_len,
                 uint32_t *own, size_t own_len);

/* SLCA. The answers are the full nodes with no full node below them. q must be 0.
 * Replies: those of sq_check in its order, then SQ_ROOM where out is shorter than the answers, or SQ_OK. [P: slca_reply]
 * Buffers: under SQ_OK out begins with the nodes, increasing, and the rest stays. Under a refusal it is as lent. Work as
 * above. [P: slca_out, work_after] */
sq_reply sq_slca(const uint32_t *parents, size_t parents_len, const uint32_t *tags, size_t tags_len, uint32_t p, uint32_t q,
                 const uint32_t *ends, size_t ends_len, const uint32_t *occurrences, size_t occurrences_len,
                 const uint32_t *counts, size_t counts_len, uint32_t *work, size_t work_len, uint32_t *out, size_t out_len);

/* Valid SLCA: the search with NOT. Only positive words make a node full. The answers are the full nodes with no full node
 * below them under which each positive word has a valid occurrence: one that is neither at a negator nor below one. With
 * q = 0 they are those of sq_slca.
 *   A negator is the closest entity of a text node at which a negative word occurs: the nearest entity above that node, or
 *   the root where there is none. At other nodes a negative word has no effect.
 *   A node's type is the row of tags from the root down to it, its own tag included. A node is an entity if it, or any
 *   other node of its type, has a sibling with the same tag: where one train has two legs, the single leg of another train
 *   is an entity too. The root, text nodes, and nodes with exactly one child, which is text, are never entities; but where
 *   one of this last kind has a sibling with its tag, this counts for the other nodes of its type.
 * Replies: those of sq_check in its order, then SQ_ROOM where out is shorter than the answers, or SQ_OK. [P: valid_reply]
 * Buffers: under SQ_OK out begins with the nodes, increasing, and the rest stays. Under a refusal it is as lent. Work as
 * above. [P: valid_out, work_after] */
sq_reply sq_valid(const uint32_t *parents, size_t parents_len, const uint32_t *tags, size_t tags_len, uint32_t p, uint32_t q,
                  const uint32_t *ends, size_t ends_len, const uint32_t *occurrences, size_t occurrences_len,
                  const uint32_t *counts, size_t counts_len, uint32_t *work, size_t work_len, uint32_t *out, size_t out_len);

/* ELCA without counts: the answers of sq_elca, in the same order and with the same own counts. q must be 0. A word with an
 * empty list gives no answers, and is no refusal.
 * Replies: SQ_SIZE, SQ_TREE, SQ_LIST, in this order, then SQ_ROOM where out is shorter than the answers or own than p times as
 * many, or SQ_OK. [P: merge_elca_reply]
 * Buffers: under SQ_OK out begins with the nodes, increasing, and own with p own counts for each of them, in word order; the
 * rest of both stays. Under a refusal both are as lent. The stack as above. [P: merge_elca_out, merge_elca_own, stack_after] */
sq_reply sq_merge_elca(const uint32_t *parents, size_t parents_len, const uint32_t *tags, size_t tags_len, uint32_t p,
                       uint32_t q, const uint32_t *ends, size_t ends_len, const uint32_t *occurrences, size_t occurrences_len,
                       sq_entry *stack, size_t stack_len, uint32_t *out, size_t out_len, uint32_t *own, size_t own_len);

/* SLCA without counts: the answers of sq_slca, in the same order. q must be 0. A word with an empty list gives no answers, and
 * is no refusal.
 * Replies: SQ_SIZE, SQ_TREE, SQ_LIST, in this order, then SQ_ROOM where out is shorter than the answers, or SQ_OK.
 * [P: merge_slca_reply]
 * Buffers: under SQ_OK out begins with the nodes, increasing, and the rest stays. Under a refusal it is as lent. The stack as
 * above. [P: merge_slca_out, stack_after] */
sq_reply sq_merge_slca(const uint32_t *parents, size_t parents_len, const uint32_t *tags, size_t tags_len, uint32_t p,
                       uint32_t q, const uint32_t *ends, size_t ends_len, const uint32_t *occurrences, size_t occurrences_len,
                       sq_entry *stack, size_t stack_len, uint32_t *out, size_t out_len);

/* Why is this node listed? The reason why sq_elca lists a node, or does not, on the same index. q must be 0. Of each node exactly
 * one of three cases holds, with one word, and it is given [P: told_after, one-reason]:
 *   SQ_NOT_FULL    the node is not full: word `word` has no occurrence under it, and each word before it has one
 *   SQ_NOT_LISTED  the node is full; its own count for word `word` is 0, so that every occurrence of this word under it is under
 *                  a full node below it; and its own count for each word before it is 1 or more
 *   SQ_LISTED      sq_elca lists the node [P: listed_exactly]; for each word j below p, occurrences[j] is the lowest of the word's
 *                  occurrences that are the node's own [P: lowest_after, lowest-right]; from p on they are 0, and so is word
 * In the first two cases all occurrences are 0. Words are counted from 0. A word with an empty list is missing under every node,
 * and is no refusal. In a dispatcher's words, of document 01's schedule with a station as word 0 and a zone as word 1:
 *   "node 7 is not full: word 1 does not occur under it"
 *   "node 1 is full, but every occurrence of word 1 under it is under a smaller full node"
 *   "node 0 is listed: its first own word 0 is at node 17, its first own word 1 at node 15"
 * Replies: those of sq_check in its order, then SQ_NODE where node is n or more, or SQ_OK. [P: reason_reply]
 * Buffers: work as above. [P: work_after] */
sq_explanation sq_reason(const uint32_t *parents, size_t parents_len, const uint32_t *tags, size_t tags_len, uint32_t p,
                         uint32_t q, const uint32_t *ends, size_t ends_len, const uint32_t *occurrences,
                         size_t occurrences_len, const uint32_t *counts, size_t counts_len, uint32_t node, uint32_t *work,
                         size_t work_len);

/* The reader: from the bytes of a text to its tree, as above. With 65,536 entries in each of parents, tags, firsts and lasts and
 * 196,608 in work it never gives SQ_ROOM.
 * Replies: SQ_SIZE; SQ_MARKUP or SQ_TREE, whichever comes first in the text; SQ_ROOM; or SQ_OK with total n. [P: read_reply]
 * Buffers: under SQ_OK the rows of the tree, and work, as above. Under a refusal all are as lent. [P: Reads] */
sq_reply sq_read(const uint8_t *text, size_t text_len, uint32_t *parents, size_t parents_len, uint32_t *tags, size_t tags_len,
                 uint32_t *firsts, size_t firsts_len, uint32_t *lasts, size_t lasts_len, uint32_t *work, size_t work_len);

/* The builder: from the bytes of a text and the words of a query to an index, and the table of the text's words. n is how many
 * nodes the text has, k is word_ends_len.
 *   slots           the table of the words of the text, as above
 *   parents, tags   the tree of the text; firsts and lasts its places, as sq_read gives them
 *   occurrences     for each word of the query, in the query's order, the nodes at which it stands, increasing; none for a word
 *                   that is not in the text, which is no refusal [P: list_for]
 *   ends, counts    where each word's list ends, and all k * n counts, as in the lent index [P: ends_for, counts_for]
 * These lengths never give SQ_ROOM: 65,536 of parents, tags, firsts and lasts, 196,608 of work, k of ends, k * 65,536 of
 * occurrences and counts [P: build_reply]; and text_len / 2 slots, since each word of a text has a byte behind it that is of no
 * word [T]. A build is quick where there are twice as many slots as distinct words, and slow where nearly all get filled.
 * What to lend to a search then: of parents and tags n entries; p = k, q = 0; of ends k, of occurrences ends[k - 1] and of counts
 * k * n entries; at least (k + 2) * n of work, which may be the same; and firsts and lasts say where an answer stands in the text.
 * Such an index is never refused: with n entries in out and k * n in own sq_elca gives SQ_OK. [P: built-accepted]
 * Replies: SQ_SIZE; SQ_MARKUP or SQ_TREE, whichever comes first in the text; SQ_ROOM with total 0; or SQ_OK with total n.
 * [P: build_reply]
 * Buffers: under SQ_OK as said. Under SQ_ROOM every slot is 0, and all else as lent; under another refusal all are as lent.
 * [P: Builds] */
sq_reply sq_build(const uint8_t *text, size_t text_len, const uint8_t *words, size_t words_len, const uint32_t *word_ends,
                  size_t word_ends_len, uint32_t *slots, size_t slots_len, uint32_t *parents, size_t parents_len, uint32_t *tags,
                  size_t tags_len, uint32_t *firsts, size_t firsts_len, uint32_t *lasts, size_t lasts_len, uint32_t *ends,
                  size_t ends_len, uint32_t *occurrences, size_t occurrences_len, uint32_t *counts, size_t counts_len,
                  uint32_t *work, size_t work_len);

#ifdef __cplusplus
}
#endif

#endif
