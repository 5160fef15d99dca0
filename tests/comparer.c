/* Compares the bytes of exercise R with its words: as they are, with the last byte changed, cut off at different lengths, and with two bytes more, behind the
 * unchanged and the changed ones; then with fewer words, or none; then the wrong way round; then no bytes. */
#include <inttypes.h>
#include <stdio.h>

#include "pongilad.h"

static const uint32_t words[] = {0x0000000C, 0x40020002, 0x40030005};

/* Prints the reply for so many bytes and words. A number below the count of words is a word's. */
static void compare(const char *name, const uint8_t *bytes, size_t bytes_length, size_t words_length)
{
    pongilad_compared c = pongilad_compare(bytes, bytes_length, words, words_length);
    printf("%s, %zu bytes, %zu words: ", name, bytes_length, words_length);
    if (c.same == 1)
        printf("yes, %" PRIu64 "\n", c.word);
    else if (c.word < words_length)
        printf("no at word %" PRIu64 "\n", c.word);
    else
        printf("no, bytes left over behind %" PRIu64 " words\n", c.word);
}

int main(void)
{
    const uint8_t file[] = {0x00, 0x00, 0x00, 0x0C, 0x40, 0x02, 0x00, 0x02, 0x40, 0x03, 0x00, 0x05, 0x00, 0x07};
    const uint8_t changed[] = {0x00, 0x00, 0x00, 0x0C, 0x40, 0x02, 0x00, 0x02, 0x40, 0x03, 0x00, 0x06, 0x00, 0x07};
    const uint8_t reversed[] = {0x0C, 0x00, 0x00, 0x00, 0x02, 0x00, 0x02, 0x40, 0x05, 0x00, 0x03, 0x40};
    compare("as it is", file, 12, 3);
    compare("the last byte changed", changed, 12, 3);
    compare("cut off", file, 11, 3);
    compare("cut off", file, 8, 3);
    compare("cut off", file, 5, 2);
    compare("cut off", file, 3, 1);
    compare("longer", file, 14, 3);
    compare("longer and changed", changed, 14, 3);
    compare("fewer words", file, 5, 1);
    compare("fewer words", file, 12, 1);
    compare("no words", file, 12, 0);
    compare("least significant byte first", reversed, 12, 3);
    compare("no bytes", file, 0, 3);
    compare("no bytes, no words", file, 0, 0);
    return 0;
}
