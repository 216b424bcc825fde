/* What expat, a parser of XML in wide use, sees in the texts of a case file (second/README.md says its layout), from standard
 * input. For each text `INDEX broken`, or `INDEX whole n` and a line for each node, `NODE PARENT FIRST LAST element N` or
 * `NODE PARENT FIRST LAST data D`, where N is the name and D the characters, each as its length and a hash. A node of data is all
 * that expat reports between two tags, if some of it is not white space.
 * Nothing but the text of a case is used. The program is for the machine that it is compiled on. */
#include <expat.h>

#include <inttypes.h>
#include <stdint.h>
#include <stdio.h>
#include <stdlib.h>
#include <string.h>

#define READ_CASE 0x53514C52u

enum { SLICES = 5 };

typedef struct node {
    size_t parent;
    XML_Index first, last;
    int is_data;
    size_t length;
    uint64_t hash;
} node;

typedef struct seen {
    XML_Parser parser;
    node *nodes;
    size_t n, room;
    size_t *open;
    size_t depth, depth_room;
    node data;  /* since the last tag */
    int some;   /* whether there is any */
    int solid;  /* whether some of it is not white space */
} seen;

static void stop(const char *why) {
    fprintf(stderr, "expat: %s\n", why);
    exit(1);
}

static uint64_t hashed(uint64_t hash, const char *at, size_t length) {
    for (size_t i = 0; i < length; i++)
        hash = (hash ^ (unsigned char)at[i]) * 1099511628211u;
    return hash;
}

#define HASH_START 14695981039346656037u

static void *longer(void *at, size_t *room, size_t size) {
    *room = 2 * *room + 64;
    at = realloc(at, *room * size);
    if (at == NULL)
        stop("no memory");
    return at;
}

static size_t add(seen *s, node v) {
    if (s->n == s->room)
        s->nodes = longer(s->nodes, &s->room, sizeof(node));
    v.parent = s->depth == 0 ? 0 : s->open[s->depth - 1];
    s->nodes[s->n] = v;
    return s->n++;
}

/* At a tag: what was held is a node or nothing. */
static void end_data(seen *s) {
    if (s->solid)
        add(s, s->data);
    s->some = s->solid = 0;
}

static XML_Index last_byte(const seen *s) {
    return XML_GetCurrentByteIndex(s->parser) + XML_GetCurrentByteCount(s->parser) - 1;
}

static void XMLCALL on_start(void *user, const XML_Char *name, const XML_Char **attributes) {
    seen *s = user;
    node v = {.first = XML_GetCurrentByteIndex(s->parser), .length = strlen(name)};
    if (attributes[0] != NULL)
        stop("an attribute");
    v.hash = hashed(HASH_START, name, v.length);
    end_data(s);
    size_t number = add(s, v);
    if (s->depth == s->depth_room)
        s->open = longer(s->open, &s->depth_room, sizeof(size_t));
    s->open[s->depth++] = number;
}

static void XMLCALL on_end(void *user, const XML_Char *name) {
    seen *s = user;
    (void)name;
    end_data(s);
    s->depth--;
    s->nodes[s->open[s->depth]].last = last_byte(s);
}

static void XMLCALL on_data(void *user, const XML_Char *at, int length) {
    seen *s = user;
    if (!s->some) {
        node fresh = {.first = XML_GetCurrentByteIndex(s->parser), .is_data = 1, .hash = HASH_START};
        s->data = fresh;
        s->some = 1;
    }
    s->data.last = last_byte(s);
    s->data.length += (size_t)length;
    s->data.hash = hashed(s->data.hash, at, (size_t)length);
    for (int i = 0; i < length; i++)
        s->solid = s->solid || strchr(" \t\r\n", at[i]) == NULL;
}

static void print(unsigned long index, const seen *s) {
    printf("%lu whole %zu\n", index, s->n);
    for (size_t i = 0; i < s->n; i++) {
        const node *v = &s->nodes[i];
        printf("%zu %zu %ld %ld %s %zu:%016" PRIx64 "\n", i, v->parent, (long)v->first, (long)v->last, v->is_data ? "data" : "element",
               v->length, v->hash);
    }
}

static void look(unsigned long index, const char *text, size_t length) {
    seen s = {.parser = XML_ParserCreate(NULL)};
    if (s.parser == NULL)
        stop("no memory");
    XML_SetUserData(s.parser, &s);
    XML_SetElementHandler(s.parser, on_start, on_end);
    XML_SetCharacterDataHandler(s.parser, on_data);
    if (XML_Parse(s.parser, text, (int)length, 1) == XML_STATUS_OK)
        print(index, &s);
    else
        printf("%lu broken\n", index);
    XML_ParserFree(s.parser);
    free(s.nodes);
    free(s.open);
}

static int number(uint32_t *to) {
    unsigned char four[4];
    if (fread(four, 1, 4, stdin) != 4)
        return 0;
    *to = four[0] | (uint32_t)four[1] << 8 | (uint32_t)four[2] << 16 | (uint32_t)four[3] << 24;
    return 1;
}

static char *take(size_t length) {
    char *at = malloc(length + 1);
    if (at == NULL)
        stop("no memory");
    if (fread(at, 1, length, stdin) != length)
        stop("the file ends inside a case");
    return at;
}

int main(void) {
    uint32_t magic, length, slices[SLICES];
    for (unsigned long index = 0; number(&magic); index++) {
        if (magic != READ_CASE || !number(&length))
            stop("no case file");
        for (int i = 0; i < SLICES; i++)
            if (!number(&slices[i]))
                stop("no case file");
        char *text = take((size_t)(length + 3u) / 4 * 4);
        for (int i = 0; i < SLICES; i++)
            free(take((size_t)slices[i] * 4));
        look(index, text, length);
        free(text);
    }
    return 0;
}
