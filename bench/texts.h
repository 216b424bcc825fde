/* Texts of the reader's profile for the bench: made anew by the same numbers at each run. */
#ifndef TEXTS_H
#define TEXTS_H

#include <stddef.h>
#include <stdint.h>

enum { MOST_TEXT = 16777216, SCHEDULE = 0, NOTES, DISTINCT, PREFIXES, COMB, NESTED, SHAPES };

extern const char *const text_names[SHAPES];
extern uint8_t text[MOST_TEXT];

/* Fills `text` with some `nodes` nodes in some `bytes` bytes, never more of either; says how long it is. */
size_t make_text(int shape, size_t nodes, size_t bytes);

#endif
