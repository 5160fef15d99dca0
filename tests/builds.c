/* Times pongilad_encode of two builds, A and B, and of a copy of each at another address, in one process: calls in turn, the least of many batches.
 * tests/builds links it, and says how to read what it prints. */
#define _GNU_SOURCE
#include <inttypes.h>
#include <stdio.h>
#include <stdlib.h>
#include <string.h>
#include <time.h>

typedef struct {
    uint64_t number, place, nodes, edges, words;
} encoded;

typedef encoded encode(const uint32_t *, size_t, uint32_t *, size_t, uint32_t *, size_t, uint32_t *, size_t);
encode encode_a, encode_a2, encode_b, encode_b2;

#define BUILDS 4
static encode *const volatile builds[BUILDS] = {encode_a, encode_a2, encode_b, encode_b2};

/* Words of a record, and the lengths that the limits ask for. Both builds are lent these: one with records of four words takes them too, and replies the same. */
#define RECORD 5
#define TABLE (RECORD * 65536)
#define EDGES 1048576
#define CLAUSES 4194304
static uint32_t table[TABLE], edges[EDGES], clauses[CLAUSES];

static double seconds, batch = 40e-6;
static int rows_over = 0;
static FILE *raw;

static double now(void)
{
    struct timespec t;
    clock_gettime(CLOCK_MONOTONIC, &t);
    return (double)t.tv_sec + (double)t.tv_nsec * 1e-9;
}

static encoded call(int build, const uint32_t *words, size_t n, const size_t lent[3])
{
    return builds[build](words, n, table, lent[0], edges, lent[1], clauses, lent[2]);
}

/* The mean time of a call over a batch. */
static double timed(int build, long reps, const uint32_t *words, size_t n, const size_t lent[3])
{
    double begin = now();
    for (long k = 0; k < reps; k++)
        call(build, words, n, lent);
    return (now() - begin) / (double)reps;
}

/* The reply of build A, which the others must give too. */
static encoded agreed(const char *name, const uint32_t *words, size_t n, const size_t lent[3])
{
    encoded first = call(0, words, n, lent);
    for (int b = 1; b < BUILDS; b++) {
        encoded again = call(b, words, n, lent);
        if (memcmp(&again, &first, sizeof first) != 0) {
            printf("%s: build %d replies %" PRIu64 " at %" PRIu64 " with %" PRIu64 " nodes, A %" PRIu64 " at %" PRIu64 " with %" PRIu64 "\n", name, b, again.number, again.place,
                   again.nodes, first.number, first.place, first.nodes);
            exit(1);
        }
    }
    return first;
}

/* The least time of a call of each build, in batches of about 40 microseconds, each round beginning with another build. */
static void measure(double least[BUILDS], const uint32_t *words, size_t n, const size_t lent[3])
{
    long reps = 1;
    while (reps < 100000 && timed(0, reps, words, n, lent) * (double)reps < batch)
        reps *= 2;
    double begin = now();
    for (long round = 0; round < 5 || now() - begin < seconds; round++)
        for (int k = 0; k < BUILDS; k++) {
            int b = (int)((round + k) % BUILDS);
            double t = timed(b, reps, words, n, lent);
            if (round == 0 || t < least[b])
                least[b] = t;
        }
}

/* Times one list of words on all builds and prints a line. The lent lists are as long as the diagram needs, or of the limits' lengths. */
static void row(const char *name, const uint32_t *words, size_t n, int full)
{
    size_t lent[3] = {TABLE, EDGES, CLAUSES};
    encoded first = agreed(name, words, n, lent);
    if (!full) {
        lent[0] = RECORD * first.nodes;
        lent[1] = first.edges;
        lent[2] = first.words;
        agreed(name, words, n, lent);
    }
    double least[BUILDS];
    measure(least, words, n, lent);
    double a = least[0], a2 = least[1], b = least[2], b2 = least[3];
    double apart = a > a2 ? a / a2 : a2 / a;
    int over = b / a > (apart > 1.02 ? apart : 1.02);
    rows_over += over;
    printf("%-22s %2" PRIu64 " %6" PRIu64 " %12.4f %12.4f %7.3f %7.3f %7.3f %s\n", name, first.number, first.nodes, a * 1e6, b * 1e6, b / a, a2 / a, b2 / b, over ? "OVER" : "");
    fflush(stdout);
    fprintf(raw, "%s\t%.10g\t%.10g\t%.10g\t%.10g\n", name, a, a2, b, b2);
}

static const uint32_t fixed[13][2] = {{4099, 5}, {3571, 7}, {2801, 6}, {4603, 7}, {1999, 5}, {2503, 7}, {3301, 6}, {1709, 7}, {4211, 5}, {2999, 6}, {3803, 7}, {1301, 4}, {907, 5}};

static uint32_t word(uint32_t a, uint32_t d)
{
    return UINT32_C(1) << 30 | d << 16 | a;
}

/* The fixed terms from an index on. */
static void last(const char *name, int from, uint32_t bound)
{
    uint32_t w[16] = {bound};
    size_t n = 1;
    for (int k = from; k < 13; k++)
        w[n++] = word(fixed[k][0], fixed[k][1]);
    row(name, w, n, 0);
}

/* 65,535 nodes and one more for each first term 1[0..1]. */
static void full_with(const char *name, int more, int full)
{
    uint32_t w[32] = {3 * 79984 + 2};
    size_t n = 1;
    for (int k = 0; k < more; k++)
        w[n++] = word(1, 1);
    for (int k = 0; k < 13; k++)
        w[n++] = word(3 * fixed[k][0], fixed[k][1]);
    row(name, w, n, full);
}

static void beyond(const char *name)
{
    uint32_t w[32], sum = 0;
    for (uint32_t k = 0; k < 24; k++) {
        w[k + 1] = word(40009 + 613 * k, 15);
        sum += (40009 + 613 * k) * 15;
    }
    w[0] = sum / 2;
    row(name, w, 25, 1);
}

/* So many terms, the last one another. */
static void alike(const char *name, uint32_t bound, size_t terms, uint32_t term, uint32_t other)
{
    uint32_t w[128] = {bound};
    for (size_t k = 1; k <= terms; k++)
        w[k] = k == terms ? other : term;
    row(name, w, terms + 1, 0);
}

/* Constraints, by the benchmark's sizes and beside them. */
static void accepted(void)
{
    const uint32_t one = word(1, 1), most = word(65535, 15), exercise_r[] = {12, word(2, 2), word(5, 3)};
    row("3 nodes", exercise_r, 3, 0);
    last("20 nodes", 9, 12025);
    last("250 nodes", 7, 34730);
    last("3,978 nodes", 3, 53412);
    last("29,874 nodes", 1, 66267);
    full_with("65,536 nodes", 1, 0);
    alike("1 term, 1 node", 0, 1, one, one);
    alike("1 term, no node", 1, 1, one, one);
    alike("64 terms, no node", 62913600, 64, most, most);
    alike("64 small, no node", 64, 64, one, one);
    alike("64 terms, 64 nodes", 0, 64, most, most);
}

/* Refusals, by their number; 2 to 5 at the end of the list. */
static void refused(void)
{
    const uint32_t one = word(1, 1), none[] = {0};
    full_with("6, 65,537 nodes", 2, 1);
    beyond("6, far more");
    row("2, 1 word", &one, 1, 0);
    alike("2, 2 words", 0, 1, one, 0);
    alike("2, 65 words", 0, 64, one, 0);
    row("3, 1 word", none, 1, 0);
    alike("3, 66 words", 0, 65, one, one);
    alike("4, 2 words", 0, 1, one, word(1, 16));
    alike("4, 65 words", 0, 64, one, word(1, 16));
    alike("5, 2 words", 0, 1, one, word(0, 1));
    alike("5, 65 words", 0, 64, one, word(0, 1));
}

/* The seconds that each row takes, and the file that the times are added to. */
int main(int argc, char **argv)
{
    if (argc != 3 || (raw = fopen(argv[2], "a")) == NULL)
        return 2;
    seconds = atof(argv[1]);
    printf("%-22s %2s %6s %12s %12s %7s %7s %7s\n", "least, microseconds", "no", "nodes", "A", "B", "B/A", "A2/A", "B2/B");
    accepted();
    refused();
    printf("%d rows over\n", rows_over);
    return fclose(raw) != 0;
}
