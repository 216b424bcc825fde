/* What read.c and build.c share: the text that is read, what they print of its bytes and of a refusal, and the end of a program whose output must not be lost. */
#ifndef TEXT_H
#define TEXT_H

#include <sonquilate.h>

#include <stdio.h>
#include <stdlib.h>

enum { MOST_BYTES = 16777216, MOST_NODES = 65536 };

/* One byte more than a text may have, so that a longer one is refused. */
static uint8_t text[MOST_BYTES + 1];

static void stop(const char *what) {
    perror(what);
    exit(1);
}

/* Reads the file, or standard input where it has no name, and says how many bytes there are; status 1 where they cannot be read. */
static size_t take(const char *path) {
    FILE *from = path == NULL ? stdin : fopen(path, "rb");
    size_t length = from == NULL ? 0 : fread(text, 1, MOST_BYTES + 1, from);
    if (from == NULL || ferror(from))
        stop(path == NULL ? "standard input" : path);
    if (path != NULL)
        fclose(from);
    return length;
}

/* A byte that would break the line is printed as C writes it. */
static void print_byte(uint8_t byte) {
    if (byte == '\n')
        printf("\\n");
    else if (byte == '\r')
        printf("\\r");
    else if (byte == '\t')
        printf("\\t");
    else if (byte == '\\')
        printf("\\\\");
    else if (byte < ' ' || byte > '~')
        printf("\\x%02X", byte);
    else
        printf("%c", byte);
}

/* The same between quotes, which it must not end. */
static void print_quoted(uint8_t byte) {
    if (byte == '"')
        printf("\\");
    print_byte(byte);
}

/* Bytes are counted from 0, lines and the bytes in a line from 1. */
static void print_markup(size_t place, size_t length) {
    size_t line = 1, column = 1;
    for (size_t i = 0; i < place; i++) {
        column = text[i] == '\n' ? 1 : column + 1;
        line += text[i] == '\n';
    }
    printf("MARKUP at byte %lu, line %lu, column %lu: ", (unsigned long)place, (unsigned long)line, (unsigned long)column);
    if (place == length) {
        printf("the text stops short\n");
    } else {
        printf("\"");
        print_quoted(text[place]);
        printf("\" cannot stand there\n");
    }
}

/* Why a text is refused whose length is allowed. A reply that neither program can get is printed in numbers. */
static void print_refused_text(sq_reply r, size_t length) {
    if (r.refusal == SQ_MARKUP)
        print_markup(r.place, length);
    else if (r.refusal == SQ_TREE && r.place < MOST_NODES)
        printf("TREE at node %lu: it is of level 65\n", (unsigned long)r.place);
    else if (r.refusal == SQ_TREE)
        printf("TREE at node 65536: there are more than 65,536 nodes\n");
    else
        printf("refusal %lu, place %lu, total %lu\n", (unsigned long)r.refusal, (unsigned long)r.place, (unsigned long)r.total);
}

/* The status: 1, and why on standard error, where something that was printed is lost. */
static int all_written(void) {
    int lost = ferror(stdout);
    if (fclose(stdout) != 0 || lost) {
        perror("standard output");
        return 1;
    }
    return 0;
}

#endif
