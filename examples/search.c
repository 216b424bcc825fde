/* Two searches from start to printed answer: the nodes of a small schedule that hold the word A and not the word X; and those that
 * hold A, found without counts. `make example` builds and runs it; it prints
 * "refusal 0, place 0, total 2: 4 17" and "refusal 0, place 0, total 3: 4 9 17". */
#include <sonquilate.h>

#include <stdio.h>

enum { N = 18, P = 1, Q = 1, K = P + Q, ALL = 4 };

/* The tree: the parent of each node, nodes in document order; and its tags, 0 for text. */
static const uint32_t parents[N] = {0, 0, 1, 2, 3, 2, 5, 1, 7, 8, 7, 10, 0, 12, 13, 14, 0, 16};
static const uint32_t tags[N] = {1, 2, 3, 4, 0, 5, 0, 3, 4, 0, 6, 0, 2, 3, 5, 0, 7, 0};

/* The words, positive ones first: A at 4, 9 and 17; X at 11. Each end says where the list of its word ends. */
static const uint32_t occurrences[ALL] = {4, 9, 17, 11};
static const uint32_t ends[K] = {3, 4};

/* How often each word occurs under each node: filled in below. A real index has these numbers stored. */
static uint32_t counts[K * N];

static void fill_counts(void) {
    uint32_t from = 0;
    for (int j = 0; j < K; j++) {
        for (uint32_t i = from; i < ends[j]; i++)
            counts[j * N + occurrences[i]] = 1;
        for (int v = N - 1; v > 0; v--)
            counts[j * N + parents[v]] += counts[j * N + v];
        from = ends[j];
    }
}

static void print(sq_reply r, const uint32_t *out) {
    printf("refusal %u, place %u, total %u:", (unsigned)r.refusal, (unsigned)r.place, (unsigned)r.total);
    for (uint32_t i = 0; r.refusal == SQ_OK && i < r.total; i++)
        printf(" %u", (unsigned)out[i]);
    printf("\n");
}

int main(void) {
    static uint32_t work[(K + 2) * N], out[N];
    fill_counts();
    sq_reply r = sq_valid(parents, N, tags, N, P, Q, ends, K, occurrences, ALL, counts, K * N, work, (K + 2) * N, out, N);
    print(r, out);

    /* No counts, and in place of work a stack. It takes no negative words: the list of A alone. */
    static sq_entry stack[64];
    sq_reply s = sq_merge_slca(parents, N, tags, N, P, 0, ends, P, occurrences, ends[P - 1], stack, 64, out, N);
    print(s, out);

    int lost = ferror(stdout);
    if (fclose(stdout) != 0 || lost) {
        perror("standard output");
        return 1;
    }
    return r.refusal == SQ_OK && s.refusal == SQ_OK ? 0 : 1;
}
