#include "texts.h"

const char *const text_names[SHAPES] = {"schedule", "long notes", "distinct names", "names, 200 bytes shared", "names, deep bit tree", "63 levels"};
uint8_t text[MOST_TEXT];

/* How long the text is so far, and how many nodes it has. */
static size_t length, met;
static uint64_t state;

static uint32_t below(uint32_t limit) {
    state = state * 6364136223846793005u + 1442695040888963407u;
    return (uint32_t)((state >> 33) % limit);
}

static void byte(int c) {
    text[length++] = (uint8_t)c;
}

static void say(const char *letters) {
    while (*letters != 0)
        byte(*letters++);
}

static void repeat(int c, size_t many) {
    while (many-- > 0)
        byte(c);
}

static void line(size_t depth) {
    byte('\n');
    repeat(' ', 2 * depth);
}

static void open_tag(const char *name) {
    byte('<');
    say(name);
    byte('>');
    met++;
}

static void close_tag(const char *name) {
    say("</");
    say(name);
    byte('>');
}

static void empty_tag(const char *tag) {
    say(tag);
    met++;
}

static void data(const char *letters) {
    say(letters);
    met++;
}

static const char *one_of(const char *const *list, size_t many) {
    return list[below((uint32_t)many)];
}

#define ONE_OF(list) one_of(list, sizeof(list) / sizeof *(list))

static const char *const words[] = {"clock", "goes", "back", "at", "the", "border", "station", "wait", "for", "night", "train", "one", "hour", "later", "crew", "change", "passports"};

/* A node of data: at least one word, some `bytes` bytes and at most 30 more, in lines of some 80; now and then a reference. */
static void prose(size_t bytes) {
    size_t to = length + bytes, turn = length + 80;
    met++;
    do {
        say(ONE_OF(words));
        say(below(40) == 0 ? " &amp;" : below(12) == 0 ? "," : "");
        byte(length < turn ? ' ' : '\n');
        turn = length < turn ? turn : length + 80;
    } while (length < to);
}

/* ---- a schedule: trains of 2 to 4 legs, indented; 22 names */
static const char *const stations[] = {"Basel SBB", "Buchs SG", "Feldkirch", "Innsbruck Hbf", "Brennero/Brenner", "Verona Porta Nuova", "Chop", "Zahony", "Budapest-Keleti", "Hegyeshalom"};
static const char *const operators[] = {"Night Rail", "Trans Alpine", "Danube Sleepers"};
static const char *const zones[] = {"CET", "EET", "CEST", "EEST"};
static const char *const cars[] = {"<sleeper/>", "<couchette/>", "<seats />", "<diner/>"};
static const char *const remarks[] = {"note", "note", "clock", "customs", "crew"};
static const char *const hours[] = {"20:40", "21:58", "23:05", "00:17", "01:30", "02:59", "04:12", "06:36"};

static void field(size_t depth, const char *name, const char *letters) {
    line(depth);
    open_tag(name);
    data(letters);
    close_tag(name);
}

static void stop(const char *name, const char *hour) {
    line(3);
    open_tag(name);
    field(4, "station", ONE_OF(stations));
    field(4, hour, ONE_OF(hours));
    line(3);
    close_tag(name);
}

static void leg(size_t note) {
    const char *remark = ONE_OF(remarks);
    line(2);
    open_tag("leg");
    stop("from", "departs");
    stop("to", "arrives");
    field(3, below(3) ? "zone" : "border", ONE_OF(zones));
    line(3);
    empty_tag(ONE_OF(cars));
    line(3);
    open_tag(remark);
    prose(note);
    close_tag(remark);
    line(2);
    close_tag("leg");
}

static void train(size_t note) {
    line(1);
    open_tag("train");
    field(2, "operator", ONE_OF(operators));
    field(2, "days", "daily");
    if (below(4) == 0) {
        line(2);
        say("<!-- merged from the second feed -->");
    }
    for (uint32_t legs = 2 + below(3); legs > 0; legs--)
        leg(note);
    line(1);
    close_tag("train");
}

/* A leg has 16 nodes and, without its note, some 260 bytes. */
static void fill_schedule(size_t nodes, size_t bytes) {
    size_t each = 16 * (bytes / nodes), note = each > 260 ? each - 260 : 1;
    while (met + 69 <= nodes && length + 4 * (note + 600) <= bytes)
        train(note);
}

/* ---- long notes, each with a comment in it */
static void fill_notes(size_t nodes, size_t bytes) {
    size_t half = bytes / nodes;
    while (met + 2 <= nodes && length + 2 * half + 200 <= bytes) {
        line(1);
        open_tag("note");
        prose(half);
        say("<!-- checked -->");
        prose(half);
        met--;
        close_tag("note");
    }
}

/* ---- elements with names of their own */
enum { SHARED = 200 };

/* Names of equal length, random after the bytes that all of them share. */
static void fill_distinct(size_t shared, size_t nodes, size_t bytes) {
    size_t each = bytes / nodes, own = each > shared + 9 ? each - shared - 3 : 6;
    while (met + 1 <= nodes && length + shared + own + 9 <= bytes) {
        byte('<');
        repeat('s', shared);
        for (size_t i = 0; i < own; i++)
            byte('a' + (int)below(26));
        say("/>");
        met++;
    }
}

/* Names that part from a row of `p` at each bit, be the lowest or the highest of a byte the first: after `same` bytes `p` one that differs from it in that bit and in
 * no lower one, or in no higher one; or nothing. */
static void tooth(size_t same, size_t which) {
    byte('<');
    repeat('p', same);
    if (which > 0)
        byte(" qrtxoP0"[which]);
    say("/>");
    met++;
}

/* First the teeth, then names that lead along all of the row. */
static void fill_comb(size_t nodes, size_t bytes) {
    size_t each = bytes / nodes, spine = each > 14 ? each - 7 : 7;
    for (size_t i = 0; i < 8 * (spine - 1) && met + 1 <= nodes / 2; i++)
        tooth(1 + i / 8, i % 8);
    for (uint32_t i = 0; met + 1 <= nodes && length + spine + 16 <= bytes; i++) {
        byte('<');
        repeat('p', spine);
        byte('A' + (int)(i / 2704 % 26));
        byte('A' + (int)(i / 104 % 26));
        byte('A' + (int)(i / 4 % 26));
        byte('0' + (int)(i % 4));
        say("/>");
        met++;
    }
}

/* ---- 62 elements under the root, one in the other, and data at level 64; again and again, in lines where there is place for them */
static void fill_nested(size_t nodes, size_t bytes) {
    static const char *const names[] = {"train", "leg", "station", "zone", "note"};
    int lines = bytes / nodes > 160;
    size_t each = 63 * (bytes / nodes), tags = lines ? 8900 : 800, note = each > tags ? each - tags : 1;
    while (met + 63 <= nodes && length + note + 9600 <= bytes) {
        for (size_t i = 0; i < 62; i++) {
            if (lines)
                line(i);
            open_tag(names[i % 5]);
        }
        prose(note);
        for (size_t i = 62; i-- > 0;) {
            if (lines)
                line(i);
            close_tag(names[i % 5]);
        }
    }
}

size_t make_text(int shape, size_t nodes, size_t bytes) {
    length = met = 0;
    state = 1;
    open_tag("schedule");
    bytes -= 16;
    switch (shape) {
    case SCHEDULE:
        fill_schedule(nodes, bytes);
        break;
    case NOTES:
        fill_notes(nodes, bytes);
        break;
    case DISTINCT:
        fill_distinct(0, nodes, bytes);
        break;
    case PREFIXES:
        fill_distinct(SHARED, nodes, bytes);
        break;
    case COMB:
        fill_comb(nodes, bytes);
        break;
    default:
        fill_nested(nodes, bytes);
        break;
    }
    line(0);
    close_tag("schedule");
    return length;
}
