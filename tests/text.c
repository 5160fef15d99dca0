/* Writes the clauses of 1[0..1] <= 0 as DIMACS text, prints it and reads it back, then shows what a room that is too small and a text that is not DIMACS give. */
#include <inttypes.h>
#include <stdio.h>
#include <string.h>

#include "pongilad.h"

static uint32_t table[16], edges[16], clauses[64], again[64];
static uint8_t text[256];

static void print_refusal(const char *name, pongilad_text t)
{
    printf("%s: refused %" PRIu64 " at %" PRIu64 ", length %" PRIu64 "\n", name, t.number, t.place, t.length);
}

int main(void)
{
    const uint32_t words[] = {0x00000000, 0x40010001}; /* exercise P */
    const char leading_zero[] = "p cnf 4 2\n2 03 0\n";
    pongilad_encoded p = pongilad_encode(words, 2, table, 16, edges, 16, clauses, 64);
    pongilad_text written = pongilad_write(clauses, p.words, text, sizeof text);
    if (p.number != 0 || written.number != 0)
        return 1;
    printf("%.*s", (int)written.length, (const char *)text);
    printf("%" PRIu64 " bytes of %" PRIu64 " words\n", written.length, p.words);

    pongilad_text read = pongilad_read(text, written.length, again, 64);
    int same = read.number == 0 && read.length == p.words && memcmp(again, clauses, sizeof clauses) == 0;
    printf("read back: %" PRIu64 " words, %s\n", read.length, same ? "the same list" : "another list");

    print_refusal("padded text", pongilad_read(text, sizeof text, again, 64));
    print_refusal("room for 12 words", pongilad_read(text, written.length, again, 12));
    print_refusal("leading zero", pongilad_read((const uint8_t *)leading_zero, strlen(leading_zero), again, 64));
    print_refusal("room for 38 bytes", pongilad_write(clauses, p.words, text, 38));
    printf("that room then begins with byte %u\n", text[0]);
    return 0;
}
