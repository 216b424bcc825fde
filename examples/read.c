/* Reads XML text, from the file that it is told or from standard input, and prints its tree: one line for each node, with its number, its parent, its tag, the places of its
 * first and last byte, and the element's name or the data as they stand in the text. Or it says why the text is refused, and where.
 * Status 0: the tree or the refusal is printed; 1: something could not be read or written; 2: wrong usage. */
#include "text.h"

enum { FIRST_ROOM = 1024 };

typedef struct tree {
    uint32_t *parents, *tags, *firsts, *lasts, *work;
    size_t room;
} tree;

/* Buffers for so many nodes, in one block of memory: four rows, and three for work. */
static tree with_room(size_t nodes) {
    uint32_t *rows = malloc(7 * nodes * sizeof *rows);
    if (rows == NULL)
        stop("read");
    tree t = {rows, rows + nodes, rows + 2 * nodes, rows + 3 * nodes, rows + 4 * nodes, nodes};
    return t;
}

static sq_reply read_into(tree t, size_t length) {
    return sq_read(text, length, t.parents, t.room, t.tags, t.room, t.firsts, t.room, t.lasts, t.room, t.work, 3 * t.room);
}

static void print_data(size_t first, size_t last) {
    printf("\"");
    for (size_t i = first; i <= last; i++)
        print_quoted(text[i]);
    printf("\"");
}

/* In a text that is accepted, a name ends at white space, `/` or `>`. */
static void print_name(size_t at) {
    while (text[at] > ' ' && text[at] != '/' && text[at] != '>')
        print_byte(text[at++]);
}

static void print_tree(tree t, size_t nodes) {
    printf(" node parent   tag    first     last\n");
    for (size_t v = 0; v < nodes; v++) {
        printf("%5lu %6lu %5lu %8lu %8lu ", (unsigned long)v, (unsigned long)t.parents[v], (unsigned long)t.tags[v], (unsigned long)t.firsts[v], (unsigned long)t.lasts[v]);
        if (t.tags[v] == 0)
            print_data(t.firsts[v], t.lasts[v]);
        else
            print_name(t.firsts[v] + 1);
        printf("\n");
    }
}

static void print_refusal(sq_reply r, size_t length) {
    if (r.refusal == SQ_SIZE)
        printf("SIZE: more than 16,777,216 bytes\n");
    else
        print_refused_text(r, length);
}

int main(int words, char **word) {
    if (words > 2 || (words == 2 && word[1][0] == '-')) {
        fprintf(stderr, "usage: read [FILE]\n");
        return 2;
    }
    size_t length = take(words == 2 ? word[1] : NULL);
    tree t = with_room(FIRST_ROOM);
    sq_reply r = read_into(t, length);
    if (r.refusal == SQ_ROOM) {
        free(t.parents);
        t = with_room(r.total);
        r = read_into(t, length);
    }
    if (r.refusal == SQ_OK)
        print_tree(t, r.total);
    else
        print_refusal(r, length);
    free(t.parents);
    return all_written();
}
