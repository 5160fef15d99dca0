/* Encodes 2[0..2] + 5[0..3] <= 12 and prints its diagram: the counts, then each node with its label, how many edges enter it,
 * and its children. */
#include <inttypes.h>
#include <stdio.h>

#include "pongilad.h"

#define NODES 16

static uint32_t table[NODES * PONGILAD_RECORD];
static uint32_t edges[NODES * 16];
static uint32_t clauses[NODES * 64];

/* Prints a blank and a child: T, F or a node's number. */
static void print_child(uint32_t edge)
{
    if (edge == PONGILAD_TRUE)
        printf(" T");
    else if (edge == PONGILAD_FALSE)
        printf(" F");
    else
        printf(" %" PRIu32, edge);
}

int main(void)
{
    const uint32_t words[] = {0x0000000C, 0x40020002, 0x40030005};
    pongilad_encoded r = pongilad_encode(words, 3, table, sizeof table / sizeof *table, edges, sizeof edges / sizeof *edges, clauses,
                                         sizeof clauses / sizeof *clauses);
    if (r.number != 0) {
        printf("refused %" PRIu64 " at %" PRIu64 "\n", r.number, r.place);
        return 1;
    }
    printf("nodes %" PRIu64 " edges %" PRIu64 " words %" PRIu64 "\n", r.nodes, r.edges, r.words);
    for (uint64_t k = 0; k < r.nodes; k++) {
        const uint32_t *record = table + k * PONGILAD_RECORD;
        uint64_t past = k + 1 < r.nodes ? record[PONGILAD_RECORD + 3] : r.edges;
        printf("%" PRIu64 " %" PRIu32 " %" PRIu32 " %" PRIu32 " %" PRIu32, k, record[0], record[1], record[2], record[4]);
        for (uint64_t e = record[3]; e < past; e++)
            print_child(edges[e]);
        printf("\n");
    }
    return 0;
}
