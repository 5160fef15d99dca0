/* Encodes 2[0..2] + 5[0..3] <= 12, which is exercise R, under limits on terms and nodes: the main ones, just enough, one term too few,
 * one node too few, and 0 of both; then 1[0..1] <= 1, which always holds and so needs no node. A line each: the limits, and the counts
 * or the refusal. */
#include <inttypes.h>
#include <stdio.h>

#include "pongilad.h"

#define LENGTH(list) (sizeof(list) / sizeof *(list))

static uint32_t table[8 * PONGILAD_RECORD], edges[32], clauses[128];

/* Encodes under the limits, and prints the line. */
static void encode(const char *name, const uint32_t *words, size_t length, uint64_t most_terms, uint64_t most_nodes)
{
    pongilad_encoded e = pongilad_encode_with(most_terms, most_nodes, words, length, table, LENGTH(table), edges, LENGTH(edges), clauses,
                                              LENGTH(clauses));
    printf("%s, most terms %" PRIu64 ", most nodes %" PRIu64 ": ", name, most_terms, most_nodes);
    if (e.number == 0)
        printf("nodes %" PRIu64 " edges %" PRIu64 " words %" PRIu64 "\n", e.nodes, e.edges, e.words);
    else
        printf("refused %" PRIu64 " at %" PRIu64 "\n", e.number, e.place);
}

int main(void)
{
    const uint32_t r[] = {0x0000000C, 0x40020002, 0x40030005}; /* exercise R */
    const uint32_t q[] = {0x00000001, 0x40010001};             /* exercise Q */
    encode("R", r, LENGTH(r), PONGILAD_TERMS, PONGILAD_NODES);
    encode("R", r, LENGTH(r), 2, 3);
    encode("R", r, LENGTH(r), 1, 3);
    encode("R", r, LENGTH(r), 2, 2);
    encode("R", r, LENGTH(r), 0, 0);
    encode("Q", q, LENGTH(q), 16, 0);
    return 0;
}
