/* sq_read in plain C: a pass that judges the text and writes nothing, a pass that writes the tree but for the numbers of the names, and then these numbers. */
#include "plain.h"

/* ---- classes: each is a power of two, and a set of classes is their sum */
enum { NO_CHAR = 1, LESS = 2, AMPERSAND = 4, BRACKET = 8, GREATER = 16, WHITE = 32, OTHER = 64, DIGIT = 128, LETTER = 256, HYPHEN = 512 };
enum { NAMECHARS = DIGIT + LETTER + HYPHEN, PLAINS = WHITE + OTHER + NAMECHARS, COMMENTEDS = LESS + AMPERSAND + BRACKET + GREATER + WHITE + OTHER + DIGIT + LETTER };

static const uint32_t classes[256] = {
    1, 1, 1, 1, 1, 1, 1, 1, 1, 32, 32, 1, 1, 32, 1, 1, /* tab, line feed, carriage return */
    1, 1, 1, 1, 1, 1, 1, 1, 1, 1, 1, 1, 1, 1, 1, 1, /**/
    32, 64, 64, 64, 64, 64, 4, 64, 64, 64, 64, 64, 64, 512, 128, 64, /*   ! " # $ % & ' ( ) * + , - . / */
    128, 128, 128, 128, 128, 128, 128, 128, 128, 128, 256, 64, 2, 64, 16, 64, /* 0 1 2 3 4 5 6 7 8 9 : ; < = > ? */
    64, 256, 256, 256, 256, 256, 256, 256, 256, 256, 256, 256, 256, 256, 256, 256, /* @ A B C D E F G H I J K L M N O */
    256, 256, 256, 256, 256, 256, 256, 256, 256, 256, 256, 64, 64, 8, 64, 256, /* P Q R S T U V W X Y Z [ \ ] ^ _ */
    64, 256, 256, 256, 256, 256, 256, 256, 256, 256, 256, 256, 256, 256, 256, 256, /* ` a b c d e f g h i j k l m n o */
    256, 256, 256, 256, 256, 256, 256, 256, 256, 256, 256, 64, 64, 64, 64, 64, /* p q r s t u v w x y z { | } ~ DEL */
    1, 1, 1, 1, 1, 1, 1, 1, 1, 1, 1, 1, 1, 1, 1, 1,
    1, 1, 1, 1, 1, 1, 1, 1, 1, 1, 1, 1, 1, 1, 1, 1,
    1, 1, 1, 1, 1, 1, 1, 1, 1, 1, 1, 1, 1, 1, 1, 1,
    1, 1, 1, 1, 1, 1, 1, 1, 1, 1, 1, 1, 1, 1, 1, 1,
    1, 1, 1, 1, 1, 1, 1, 1, 1, 1, 1, 1, 1, 1, 1, 1,
    1, 1, 1, 1, 1, 1, 1, 1, 1, 1, 1, 1, 1, 1, 1, 1,
    1, 1, 1, 1, 1, 1, 1, 1, 1, 1, 1, 1, 1, 1, 1, 1,
    1, 1, 1, 1, 1, 1, 1, 1, 1, 1, 1, 1, 1, 1, 1, 1,
};

typedef struct bytes {
    const uint8_t *at;
    size_t length;
} bytes;

/* The first place from `at` on whose class is none of the set, or the length. */
static size_t skip(bytes text, size_t at, uint32_t set) {
    while (at < text.length && (classes[text.at[at]] & set) != 0)
        at++;
    return at;
}

static int is_white(uint8_t byte) {
    return byte == ' ' || byte == '\t' || byte == '\r' || byte == '\n';
}

static size_t white(bytes text, size_t at) {
    while (at < text.length && is_white(text.at[at]))
        at++;
    return at;
}

/* The first place from `at` on at which the byte stands, or the length: four bytes a turn. */
static size_t find(bytes text, size_t at, uint8_t byte) {
    for (; at < text.length && text.length - at >= 4; at += 4) {
        if (text.at[at] == byte)
            return at;
        if (text.at[at + 1] == byte)
            return at + 1;
        if (text.at[at + 2] == byte)
            return at + 2;
        if (text.at[at + 3] == byte)
            return at + 3;
    }
    while (at < text.length && text.at[at] != byte)
        at++;
    return at;
}

/* The first place from `at` on with a byte above 32, or the length. */
static size_t rise(bytes text, size_t at) {
    while (at < text.length && text.at[at] <= ' ')
        at++;
    return at;
}

/* How many of `size` bytes are the same from two places on. */
static size_t common(bytes text, size_t at, size_t other, size_t size) {
    size_t i = 0;
    while (i < size && other + i < text.length && text.at[at + i] == text.at[other + i])
        i++;
    return i;
}

static int is(bytes text, size_t at, uint8_t byte) {
    return at < text.length && text.at[at] == byte;
}

/* ---- pieces of markup */
enum { END, DATA, COMMENT, START, EMPTY, CLOSE, NONE };

/* mid: of a tag, the place after its name; of data, its first place that is not white space. end: the place after a whole piece; else the place at which none goes on. */
typedef struct piece {
    int kind, whole;
    size_t mid, end;
} piece;

static piece made(int kind, int whole, size_t mid, size_t end) {
    piece p = {kind, whole, mid, end};
    return p;
}

/* How far the text goes on with the letters. */
static size_t follow(bytes text, size_t at, const char *letters) {
    while (*letters != 0 && is(text, at, (uint8_t)*letters)) {
        at++;
        letters++;
    }
    return at;
}

/* The letters that a reference must have, by those after its `&`. */
static const char *reference_at(bytes text, size_t at) {
    if (is(text, at, 'l'))
        return "lt;";
    if (is(text, at, 'g'))
        return "gt;";
    if (is(text, at, 'q'))
        return "quot;";
    return is(text, at, 'a') && is(text, at + 1, 'm') ? "amp;" : "apos;";
}

static piece data_at(bytes text, size_t from) {
    size_t mid = white(text, from), run = from;
    if (is(text, mid, '<'))
        return made(DATA, 1, mid, mid);
    size_t at = skip(text, mid, PLAINS);
    while (at < text.length && text.at[at] != '<') {
        uint32_t class = classes[text.at[at]];
        size_t after = at + 1;
        if (class == AMPERSAND) {
            after = follow(text, at + 1, reference_at(text, at + 1));
            if (text.at[after - 1] != ';')
                return made(DATA, 0, mid, after);
            run = after;
        } else if (class == NO_CHAR || (class == GREATER && at >= run + 2 && text.at[at - 1] == ']' && text.at[at - 2] == ']')) {
            return made(DATA, 0, mid, at);
        }
        at = skip(text, after, PLAINS);
    }
    return made(DATA, 1, mid, at);
}

/* From `<!` on. */
static piece comment_at(bytes text, size_t from) {
    size_t at = follow(text, from + 2, "--");
    if (at < from + 4)
        return made(COMMENT, 0, at, at);
    for (;;) {
        at = skip(text, at, COMMENTEDS);
        if (!is(text, at, '-'))
            return made(COMMENT, 0, at, at);
        if (is(text, at + 1, '-'))
            return is(text, at + 2, '>') ? made(COMMENT, 1, at, at + 3) : made(COMMENT, 0, at, at + 2);
        at++;
    }
}

/* From `<` and a letter on. */
static piece start_at(bytes text, size_t from) {
    size_t mid = skip(text, from + 1, NAMECHARS), at = white(text, mid);
    if (is(text, at, '>'))
        return made(START, 1, mid, at + 1);
    if (!is(text, at, '/'))
        return made(START, 0, mid, at);
    return is(text, at + 1, '>') ? made(EMPTY, 1, mid, at + 2) : made(EMPTY, 0, mid, at + 1);
}

/* From `</` on. */
static piece close_at(bytes text, size_t from) {
    if (from + 2 >= text.length || classes[text.at[from + 2]] != LETTER)
        return made(CLOSE, 0, from + 2, from + 2);
    size_t mid = skip(text, from + 2, NAMECHARS), at = white(text, mid);
    return is(text, at, '>') ? made(CLOSE, 1, mid, at + 1) : made(CLOSE, 0, mid, at);
}

static piece piece_at(bytes text, size_t at) {
    if (at >= text.length)
        return made(END, 1, at, at);
    if (text.at[at] != '<')
        return data_at(text, at);
    if (at + 1 < text.length && classes[text.at[at + 1]] == LETTER)
        return start_at(text, at);
    if (is(text, at + 1, '/'))
        return close_at(text, at);
    if (is(text, at + 1, '!'))
        return comment_at(text, at);
    return made(NONE, 0, at + 1, at + 1);
}

/* ---- the first pass */
enum { MOST_LEVELS = 64, MOST_NODES = 65536, MOST_BYTES = 16777216 };

static sq_reply reply(uint32_t refusal, size_t place, size_t total) {
    sq_reply r = {refusal, (uint32_t)place, (uint32_t)total};
    return r;
}

/* The place behind the end tag of the name that is open, where it stands at a place without white space; else the place itself. */
static size_t bare_close(bytes text, size_t at, size_t name, size_t size) {
    size_t end = at + 2 + size;
    if (end >= text.length || text.at[at] != '<' || text.at[at + 1] != '/' || text.at[end] != '>' || common(text, name, at + 2, size) != size)
        return at;
    return end + 1;
}

/* SQ_OK with the number of nodes, or the refusal. */
static sq_reply judge(bytes text) {
    size_t places[MOST_LEVELS], sizes[MOST_LEVELS];
    size_t at = 0, depth = 0, met = 0;
    int solid = 0, rooted = 0;
    for (;;) {
        size_t closed = depth == 0 ? at : bare_close(text, at, places[depth - 1], sizes[depth - 1]);
        if (at < closed) {
            at = closed;
            depth--;
            solid = 0;
            continue;
        }
        piece p = piece_at(text, at);
        switch (p.kind) {
        case END:
            return rooted && depth == 0 ? reply(SQ_OK, 0, met) : reply(SQ_MARKUP, at, 0);
        case DATA:
            if (depth == 0) {
                if (p.mid < p.end || !p.whole)
                    return reply(SQ_MARKUP, p.mid, 0);
            } else if (p.mid < p.end && !solid) {
                if (depth == MOST_LEVELS || met == MOST_NODES)
                    return reply(SQ_TREE, met, 0);
                met++;
                solid = 1;
            }
            break;
        case START:
        case EMPTY:
            if (rooted && depth == 0)
                return reply(SQ_MARKUP, at + 1, 0);
            if (!p.whole)
                break;
            if (depth == MOST_LEVELS || met == MOST_NODES)
                return reply(SQ_TREE, met, 0);
            if (p.kind == START) {
                places[depth] = at + 1;
                sizes[depth] = p.mid - (at + 1);
                depth++;
            }
            met++;
            solid = 0;
            rooted = 1;
            break;
        case CLOSE:
            if (depth == 0)
                return reply(SQ_MARKUP, at + 1, 0);
            {
                size_t size = sizes[depth - 1], same = common(text, places[depth - 1], at + 2, size);
                if (same != size || p.mid != at + 2 + size)
                    return reply(SQ_MARKUP, at + 2 + same, 0);
            }
            depth--;
            solid = 0;
            break;
        default:
            break;
        }
        if (!p.whole)
            return reply(SQ_MARKUP, p.end, 0);
        at = p.end;
    }
}

/* ---- the second pass, over a text that was judged: a piece is told by its last byte */
typedef struct tree {
    uint32_t *parents, *tags, *firsts, *lasts;
} tree;

/* The data since the last tag. */
typedef struct data {
    size_t first, last;
    int any, solid;
} data;

static void put(tree t, size_t v, size_t parent, uint32_t tag, size_t first, size_t last) {
    t.parents[v] = (uint32_t)parent;
    t.tags[v] = tag;
    t.firsts[v] = (uint32_t)first;
    t.lasts[v] = (uint32_t)last;
}

static void hold(data *d, piece p, size_t at) {
    if (!d->any)
        d->first = at;
    d->last = p.end - 1;
    d->any = 1;
    d->solid |= p.mid < p.end;
}

/* The place of the next two hyphens. */
static size_t dashes(bytes text, size_t at) {
    while (at + 1 < text.length && (text.at[at] != '-' || text.at[at + 1] != '-'))
        at++;
    return at;
}

static piece skim_at(bytes text, size_t at) {
    if (at >= text.length)
        return made(END, 1, at, at);
    if (text.at[at] != '<') {
        size_t mid = rise(text, at);
        return made(DATA, 1, mid, find(text, mid, '<'));
    }
    if (is(text, at + 1, '!'))
        return made(COMMENT, 1, at, dashes(text, at + 4) + 3);
    size_t last = find(text, at + 1, '>');
    return made(is(text, at + 1, '/') ? CLOSE : text.at[last - 1] == '/' ? EMPTY : START, 1, at, last + 1);
}

/* Parents, places, and in tags 1 for an element and 0 for data. */
static void build(bytes text, tree t) {
    size_t open[MOST_LEVELS], at = 0, depth = 0, met = 0;
    data held = {0, 0, 0, 0};
    for (;;) {
        piece p = skim_at(text, at);
        if (p.kind == END)
            return;
        if (p.kind == DATA) {
            hold(&held, p, at);
        } else if (p.kind != COMMENT) {
            if (held.solid) {
                put(t, met, open[depth - 1], 0, held.first, held.last);
                met++;
            }
            held.any = held.solid = 0;
            if (p.kind == CLOSE) {
                depth--;
                t.lasts[open[depth]] = (uint32_t)(p.end - 1);
            } else {
                put(t, met, depth == 0 ? 0 : open[depth - 1], 1, at, p.end - 1);
                if (p.kind == START)
                    open[depth++] = met;
                met++;
            }
        }
        at = p.end;
    }
}

/* ---- the numbers of the names: a tree by differing bits, over three rows of work: left links, right links, bits. The node that first has a name is its leader. A link is 2 v for
 * the leaf of the leader v, 2 v + 1 for the inner node that was made for it. Node 0, the first leader, needs no inner node: its left entry is the link to begin with. A name's bits
 * are counted from the lowest of its first byte on; past its end they are 0. */
typedef struct names {
    bytes text;
    const uint32_t *firsts;
    uint32_t *left, *right, *bits;
} names;

static size_t name_end(bytes text, size_t at) {
    return skip(text, at, NAMECHARS);
}

static int bit_at(bytes text, size_t name, size_t end, uint32_t bit) {
    size_t at = name + bit / 8;
    return at < end && (text.at[at] >> bit % 8) % 2 == 1;
}

/* The leader to whose leaf a name leads. */
static uint32_t leaf_of(const names *n, size_t name, size_t end) {
    uint32_t link = n->left[0];
    while (link % 2 == 1)
        link = bit_at(n->text, name, end, n->bits[link / 2]) ? n->right[link / 2] : n->left[link / 2];
    return link / 2;
}

/* The link to which a name leads before the bits from `bit` on are asked for. */
static uint32_t *slot(const names *n, size_t name, size_t end, uint32_t bit) {
    uint32_t *link = n->left;
    while (*link % 2 == 1 && n->bits[*link / 2] < bit)
        link = bit_at(n->text, name, end, n->bits[*link / 2]) ? n->right + *link / 2 : n->left + *link / 2;
    return link;
}

/* Puts the name of v in, which first differs from the others at `bit`. */
static void put_in(const names *n, uint32_t v, size_t name, size_t end, uint32_t bit) {
    uint32_t *link = slot(n, name, end, bit), old = *link;
    int set = bit_at(n->text, name, end, bit);
    n->bits[v] = bit;
    n->left[v] = set ? old : 2 * v;
    n->right[v] = set ? 2 * v : old;
    *link = 2 * v + 1;
}

static uint32_t name_byte(bytes text, size_t at) {
    return at < text.length && (classes[text.at[at]] & NAMECHARS) != 0 ? text.at[at] : 0;
}

static uint32_t lowest(uint32_t byte) {
    uint32_t i = 0;
    while (byte % 2 == 0) {
        byte /= 2;
        i++;
    }
    return i;
}

/* The leader of v's name: v itself where the name is new, which is then put in. */
static uint32_t leader_of(const names *n, uint32_t v, size_t name, size_t end) {
    uint32_t found = leaf_of(n, name, end);
    size_t other = n->firsts[found] + 1, same = common(n->text, name, other, end - name);
    uint32_t apart = name_byte(n->text, name + same) ^ name_byte(n->text, other + same);
    if (apart == 0)
        return found;
    put_in(n, v, name, end, (uint32_t)(8 * same) + lowest(apart));
    return v;
}

/* The names met lately, each node at the key of its name, are asked before the tree while they are few. */
enum { FEW = 256 };

static uint32_t key_of(bytes text, size_t name, size_t end) {
    return (5u * text.at[name] + 17u * text.at[end - 1] + (uint32_t)(end - name)) % FEW;
}

static int same_name(bytes text, size_t name, size_t end, size_t other) {
    return common(text, name, other, end - name) == end - name && name_byte(text, other + (end - name)) == 0;
}

static void number(bytes text, tree t, size_t nodes, uint32_t *work) {
    names n = {text, t.firsts, work, work + nodes, work + 2 * nodes};
    uint32_t lately[FEW] = {0}, count = 1;
    work[0] = 0;
    t.tags[0] = 1;
    for (uint32_t v = 1; v < nodes; v++)
        if (t.tags[v] != 0) {
            size_t name = t.firsts[v] + 1, end = name_end(text, name);
            if (count < FEW) {
                uint32_t *guess = &lately[key_of(text, name, end)];
                if (t.tags[*guess] != 0 && same_name(text, name, end, t.firsts[*guess] + 1)) {
                    t.tags[v] = t.tags[*guess];
                    continue;
                }
                *guess = v;
            }
            uint32_t leader = leader_of(&n, v, name, end);
            t.tags[v] = leader == v ? ++count : t.tags[leader];
        }
}

static void clear(uint32_t *from, size_t length) {
    for (size_t i = 0; i < length; i++)
        from[i] = 0;
}

sq_reply plain_read(const uint8_t *text, size_t text_len, uint32_t *parents, size_t parents_len, uint32_t *tags, size_t tags_len, uint32_t *firsts, size_t firsts_len,
                    uint32_t *lasts, size_t lasts_len, uint32_t *work, size_t work_len) {
    bytes lent = {text, text_len};
    tree t = {parents, tags, firsts, lasts};
    if (text_len > MOST_BYTES)
        return reply(SQ_SIZE, 0, 0);
    sq_reply r = judge(lent);
    if (r.refusal != SQ_OK)
        return r;
    size_t n = r.total;
    if (parents_len < n || tags_len < n || firsts_len < n || lasts_len < n || work_len < 3 * n)
        return reply(SQ_ROOM, 0, n);
    build(lent, t);
    number(lent, t, n, work);
    clear(work, 3 * n);
    return r;
}
