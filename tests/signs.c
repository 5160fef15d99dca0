/* Encodes 3u - 2v >= -4, with u from 0 to 4 and v from -2 to 5, and tests its clauses under values of the Booleans as a solver gives them: what u and v they stand for,
 * and whether these satisfy it. Then y > 3, with y from 0 to 3, which nothing satisfies. */
#include <inttypes.h>
#include <stdio.h>

#include "pongilad.h"

static uint32_t table[64], edges[64], clauses[256];

/* The order Booleans of u and of v, then T, F and the three nodes. */
static const uint8_t values[][16] = {
    {0, 0, 0, 0, 0, 0, 0, 0, 1, 1, 1, 1, 0, 1, 1, 1},
    {0, 0, 0, 0, 0, 0, 0, 0, 0, 1, 1, 1, 0, 1, 1, 1},
    {0, 0, 0, 1, 0, 0, 0, 0, 0, 1, 1, 1, 0, 1, 0, 1},
    {0, 0, 0, 1, 0, 0, 0, 0, 0, 0, 1, 1, 0, 1, 0, 1},
};

/* The value that d order Booleans stand for: a step from the start for each that is false. */
static int value(const uint8_t *order, int d, int start, int step)
{
    for (int j = 0; j < d; j++)
        start += order[j] == 0 ? step : 0;
    return start;
}

int main(void)
{
    const uint32_t words[] = {0x1FFFFFFC, 0xC0000002, 0x40040003, 0x9FFFFFFE, 0x60070002};
    const uint32_t never[] = {0x20000003, 0xC0000003, 0x40030001};
    pongilad_encoded r = pongilad_encode(words, 5, table, 64, edges, 64, clauses, 256);
    printf("nodes %" PRIu64 " edges %" PRIu64 " words %" PRIu64 "\n", r.nodes, r.edges, r.words);
    for (size_t k = 0; k < sizeof values / sizeof *values; k++) {
        pongilad_tested t = pongilad_test(values[k], sizeof *values, clauses, r.words);
        /* At least is turned round, into -3u + 2v <= 4: u, now negative, goes down from its upper end, and v up from its lower end. */
        printf("u %d, v %d: ", value(values[k], 4, 4, -1), value(values[k] + 4, 7, -2, 1));
        if (t.verdict == 0)
            printf("all true\n");
        else
            printf("clause %" PRIu64 " at %" PRIu64 "\n", t.number, t.place);
    }
    r = pongilad_encode(never, 3, table, 64, edges, 64, clauses, 256);
    printf("nodes %" PRIu64 " words %" PRIu64 ", the root's clause %08" PRIX32 " %08" PRIX32 "\n", r.nodes, r.words, clauses[r.words - 2], clauses[r.words - 1]);
    return 0;
}
