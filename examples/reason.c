/* Why is this node listed? Prints one sentence for each node of a small schedule that it is told, or else for a few: whether ELCA
 * lists the node for the words A and Z, and why. For node 0 it prints
 * "node 0 is listed: its first own A is at node 17, its first own Z at node 15".
 * Status 0: each sentence is printed, be it that of a refusal; 1: something could not be written; 2: wrong usage. */
#include <sonquilate.h>

#include <stdio.h>

enum { N = 18, P = 2, ALL = 5, FEW = 6 };

/* The tree: the parent of each node, nodes in document order; and its tags, 0 for text. */
static const uint32_t parents[N] = {0, 0, 1, 2, 3, 2, 5, 1, 7, 8, 7, 10, 0, 12, 13, 14, 0, 16};
static const uint32_t tags[N] = {1, 2, 3, 4, 0, 5, 0, 3, 4, 0, 6, 0, 2, 3, 5, 0, 7, 0};

/* The words: A at 4, 9 and 17; Z at 6 and 15. Each end says where the list of its word ends. */
static const char names[P] = {'A', 'Z'};
static const uint32_t occurrences[ALL] = {4, 9, 17, 6, 15};
static const uint32_t ends[P] = {3, 5};

/* How often each word occurs under each node: filled in below. A real index has these numbers stored. */
static uint32_t counts[P * N];

static void fill_counts(void) {
    uint32_t from = 0;
    for (int j = 0; j < P; j++) {
        for (uint32_t i = from; i < ends[j]; i++)
            counts[j * N + occurrences[i]] = 1;
        for (int v = N - 1; v > 0; v--)
            counts[j * N + parents[v]] += counts[j * N + v];
        from = ends[j];
    }
}

static void print_listed(uint32_t node, const uint32_t *own) {
    printf("node %u is listed: its first own %c is at node %u", (unsigned)node, names[0], (unsigned)own[0]);
    for (int j = 1; j < P; j++)
        printf(", its first own %c at node %u", names[j], (unsigned)own[j]);
    printf("\n");
}

/* The place of a refusal is a node, a word, or an entry of counts, which has a word and a node. */
static void print_refusal(uint32_t node, sq_reply r) {
    unsigned place = r.place;
    if (r.refusal == SQ_NODE)
        printf("there is no node %u: the schedule has %d nodes, numbered from 0\n", (unsigned)node, N);
    else if (r.refusal == SQ_SIZE)
        printf("the index is refused: it has a wrong length, no nodes or words, too many of them, or a negative word\n");
    else if (r.refusal == SQ_TREE)
        printf("the index is refused: node %u cannot have its parent, its tag or its level\n", place);
    else if (r.refusal == SQ_LIST)
        printf("the index is refused: the list of %c has a wrong end, or is not increasing below %d\n", names[place], N);
    else if (r.refusal == SQ_COUNT)
        printf("the index is refused: the count of %c under node %u is wrong\n", names[place / N], place % N);
    else
        printf("refusal %u, place %u\n", (unsigned)r.refusal, place);
}

static void print(uint32_t node, const sq_explanation *e) {
    if (e->reply.refusal != SQ_OK)
        print_refusal(node, e->reply);
    else if (e->reason == SQ_NOT_FULL)
        printf("node %u is not full: %c does not occur under it\n", (unsigned)node, names[e->word]);
    else if (e->reason == SQ_NOT_LISTED)
        printf("node %u is full, but every occurrence of %c under it is under a smaller full node\n", (unsigned)node,
               names[e->word]);
    else
        print_listed(node, e->occurrences);
}

static void explain(uint32_t node) {
    static uint32_t work[(P + 2) * N];
    sq_explanation e = sq_reason(parents, N, tags, N, P, 0, ends, P, occurrences, ALL, counts, P * N, node, work, (P + 2) * N);
    print(node, &e);
}

/* Says whether the word is a decimal number of 32 bits, and which. */
static int number_of(const char *word, uint32_t *number) {
    const uint32_t most = 4294967295u;
    uint32_t value = 0;
    for (const char *c = word; *c != '\0'; c++) {
        uint32_t digit = (uint32_t)(*c - '0');
        if (*c < '0' || *c > '9' || value > (most - digit) / 10)
            return 0;
        value = value * 10 + digit;
    }
    *number = value;
    return word[0] != '\0';
}

/* Where one of the words is no number nothing is explained. */
int main(int words, char **word) {
    static const uint32_t few[FEW] = {0, 1, 2, 7, 12, 18};
    uint32_t node = 0;
    for (int i = 1; i < words; i++)
        if (!number_of(word[i], &node)) {
            fprintf(stderr, "reason: \"%s\" is not a decimal number from 0 to 4294967295\n", word[i]);
            return 2;
        }
    fill_counts();
    for (int i = 1; i < words; i++) {
        number_of(word[i], &node);
        explain(node);
    }
    for (int i = 0; words < 2 && i < FEW; i++)
        explain(few[i]);

    int lost = ferror(stdout);
    if (fclose(stdout) != 0 || lost) {
        perror("standard output");
        return 1;
    }
    return 0;
}
