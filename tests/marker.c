/* Marks four hand-ins: the drawing of 2[0..2] + 5[0..3] <= 12, which is exercise R, as the course draws it, with the last label one too high, and with a narrower root;
 * and the same drawing for a constraint whose second term has no coefficient. A line each: `right`, `record` with the number of the first bad one, or the refusal. */
#include <inttypes.h>
#include <stdio.h>

#include "pongilad.h"

#define T PONGILAD_TRUE
#define F PONGILAD_FALSE
#define LENGTH(list) (sizeof(list) / sizeof *(list))

/* The children of each record, for y = 0, 1, .. : a record's number, T or F. */
static const uint32_t edges[] = {2, 2, 1, T, T, F, F, T, T, T, F};

/* Marks a table of three records, each with its level, lower end, upper end, place of its first child, and a fifth word that is not looked at. */
static void mark(const char *name, const uint32_t words[3], const uint32_t table[3 * PONGILAD_RECORD])
{
    pongilad_marked m = pongilad_mark(words, 3, table, 3 * PONGILAD_RECORD, edges, LENGTH(edges));
    if (m.right)
        printf("%s: right\n", name);
    else if (m.number == 20)
        printf("%s: record %" PRIu64 "\n", name, m.place);
    else
        printf("%s: refused %" PRIu64 " at %" PRIu64 "\n", name, m.number, m.place);
}

int main(void)
{
    const uint32_t r[] = {0x0000000C, 0x40020002, 0x40030005};
    const uint32_t no_coefficient[] = {0x0000000C, 0x40020002, 0x40030000};
    const uint32_t drawn[] = {1, 12, 13, 0, 0, 2, 5, 9, 3, 1, 2, 10, 14, 7, 2};
    const uint32_t too_high[] = {1, 12, 13, 0, 0, 2, 5, 9, 3, 1, 2, 10, 15, 7, 2};
    const uint32_t narrower[] = {1, 12, 12, 0, 0, 2, 5, 9, 3, 1, 2, 10, 14, 7, 2};
    mark("as drawn", r, drawn);
    mark("the last label up to 15", r, too_high);
    mark("the root's label 12 to 12", r, narrower);
    mark("no coefficient", no_coefficient, drawn);
    return 0;
}
