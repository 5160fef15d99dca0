/* Propagates on the clauses of 2[0..2] + 5[0..3] <= 12 with nothing fixed, with y2 at least 2, with y2 at least 3, and with y1 and y2 at least 2; then on those of
 * 1[0..1] <= 0 with nothing fixed, with a buffer one byte too short, and with a byte of 3. */
#include <inttypes.h>
#include <stdio.h>
#include <string.h>

#include "pongilad.h"

#define OPEN 2
#define RUBBISH 7

static uint32_t table[16], edges[16], clauses[64];

/* Propagates with a buffer full of rubbish, and prints the reply and the buffer. */
static void propagate(const char *name, const uint8_t *values, size_t count, uint64_t words, size_t room)
{
    uint8_t settled[16];
    memset(settled, RUBBISH, sizeof settled);
    pongilad_propagated p = pongilad_propagate(values, count, clauses, words, settled, room);
    if (p.verdict == 2)
        printf("%s: refused %" PRIu64 " at %" PRIu64 ":", name, p.number, p.place);
    else
        printf("%s: %s:", name, p.verdict == 0 ? "settled" : "conflict");
    for (size_t v = 0; v < room; v++)
        printf(" %d", settled[v]);
    printf("\n");
}

/* The words of the encoder's clause list; 0 where the constraint is refused. */
static uint64_t encode(const uint32_t *words, size_t length)
{
    return pongilad_encode(words, length, table, 16, edges, 16, clauses, 64).words;
}

int main(void)
{
    const uint32_t r[] = {0x0000000C, 0x40020002, 0x40030005}; /* exercise R */
    const uint32_t p[] = {0x00000000, 0x40010001};             /* exercise P */
    /* y1 < 1, y1 < 2, y2 < 1, y2 < 2, y2 < 3, T, F, nodes 0 to 2 */
    const uint8_t open[] = {OPEN, OPEN, OPEN, OPEN, OPEN, OPEN, OPEN, OPEN, OPEN, OPEN};
    const uint8_t four[] = {OPEN, OPEN, OPEN, 0, OPEN, OPEN, OPEN, OPEN, OPEN, OPEN};
    const uint8_t five[] = {OPEN, OPEN, OPEN, OPEN, 0, OPEN, OPEN, OPEN, OPEN, OPEN};
    const uint8_t three[] = {0, 0, OPEN, 0, OPEN, OPEN, OPEN, OPEN, OPEN, OPEN};
    const uint8_t beyond[] = {OPEN, OPEN, 3, OPEN}; /* y1 < 1, T, F, node 0 */
    uint64_t words = encode(r, 3);
    if (words != 56)
        return 1;
    propagate("R", open, 10, words, 10);
    propagate("R, 4 false", four, 10, words, 10);
    propagate("R, 5 false", five, 10, words, 10);
    propagate("R, 1, 2 and 4 false", three, 10, words, 10);
    words = encode(p, 2);
    if (words != 13)
        return 1;
    propagate("P", open, 4, words, 4);
    propagate("P, a short buffer", open, 4, words, 3);
    propagate("P, a byte of 3", beyond, 4, words, 4);
    return 0;
}
