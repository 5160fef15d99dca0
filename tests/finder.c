/* Asks the finder in four tables, each as words and as records: a line a question, with its level and remainder and both replies, `at` with a record's number or
 * `gap` with how many records lie before. */
#include <inttypes.h>
#include <stdio.h>

#include "pongilad.h"

#define LENT 1024 /* records */

static uint32_t table[LENT * PONGILAD_RECORD];
static uint32_t edges[64];
static uint32_t clauses[256];

/* Records in no order; that of the label 25 to 21 holds nothing. The last two fields of a record, edge place and count of edges, make no difference. */
static const pongilad_node unsorted[] = {{3, 0, 9, 0, 2}, {2, 30, 40, 9, 0}, {2, 25, 21, 0, 1}, {1, 50, 60, 2, 3}, {2, 5, 9, 7, 0}, {2, 10, 20, 1, 9}};

static void print_found(pongilad_found f)
{
    printf(" %s %" PRIu64, f.found ? "at" : "gap", f.number);
}

/* Asks for the level and remainder in both forms of a table of that many records. */
static void ask(const char *name, const uint32_t *words, size_t records, uint32_t level, uint32_t remainder)
{
    printf("%s %" PRIu32 " %" PRIu32 ":", name, level, remainder);
    print_found(pongilad_find(words, records * PONGILAD_RECORD, level, remainder));
    print_found(pongilad_find_node((const pongilad_node *)words, records, level, remainder));
    printf("\n");
}

int main(void)
{
    const uint32_t words[] = {0x0000000C, 0x40020002, 0x40030005}; /* exercise R */
    const uint32_t in_r[][2] = {{1, 11}, {1, 12}, {1, 13}, {1, 14}, {2, 4}, {2, 5}, {2, 9}, {2, 10}, {2, 14}, {2, 15}, {2, 20}, {3, 5}, {0, 0}, {0, 5}};
    const uint32_t in_unsorted[][2] = {{2, 20}, {2, 21}, {2, 22}, {2, 4}, {1, 40}, {3, 10}, {9, 0}, {0, 9}};
    pongilad_encoded r = pongilad_encode(words, 3, table, LENT * PONGILAD_RECORD, edges, 64, clauses, 256);
    for (size_t k = 0; k < sizeof in_r / sizeof *in_r; k++)
        ask("counted", table, r.nodes, in_r[k][0], in_r[k][1]);
    for (size_t k = 0; k < sizeof in_r / sizeof *in_r; k++)
        ask("lent", table, LENT, in_r[k][0], in_r[k][1]);
    for (size_t k = 0; k < sizeof in_unsorted / sizeof *in_unsorted; k++)
        ask("unsorted", (const uint32_t *)unsorted, sizeof unsorted / sizeof *unsorted, in_unsorted[k][0], in_unsorted[k][1]);
    ask("empty", table, 0, 2, 20);
    return 0;
}
