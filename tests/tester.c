/* Tests the clauses of 1[0..1] <= 0 under the values that stand for y = 0 and y = 1, as they are and with an empty clause behind them; then an empty clause
 * alone; then the clauses again with one value too few. */
#include <inttypes.h>
#include <stdio.h>

#include "pongilad.h"

static uint32_t table[16], edges[16], clauses[64];

static void print_tested(const char *name, pongilad_tested t)
{
    if (t.verdict == 0)
        printf("%s: all true\n", name);
    else
        printf("%s: %s %" PRIu64 " at %" PRIu64 "\n", name, t.verdict == 1 ? "clause" : "refused", t.number, t.place);
}

int main(void)
{
    const uint32_t words[] = {0x00000000, 0x40010001}; /* exercise P */
    const uint32_t empty[] = {0xC0000000};
    const uint8_t zero[] = {1, 1, 0, 1}; /* y < 1, T, F, node 0 */
    const uint8_t one[] = {0, 1, 0, 1};
    pongilad_encoded p = pongilad_encode(words, 2, table, 16, edges, 16, clauses, 64);
    if (p.number != 0)
        return 1;
    print_tested("y = 0", pongilad_test(zero, 4, clauses, p.words));
    print_tested("y = 1", pongilad_test(one, 4, clauses, p.words));
    clauses[p.words] = empty[0];
    print_tested("y = 0, an empty clause behind", pongilad_test(zero, 4, clauses, p.words + 1));
    print_tested("y = 1, an empty clause behind", pongilad_test(one, 4, clauses, p.words + 1));
    print_tested("an empty clause alone", pongilad_test(zero, 0, empty, 1));
    print_tested("node 0 without a value", pongilad_test(zero, 3, clauses, p.words));
    return 0;
}
