/* A list of register words that breaks a rule, the word that mends it, and the same list in two halves: load */
#include <stdio.h>
#include <string.h>
#include "vombelishi.h"

/* So many words have all registers of the paper's small plate, but the line ends before the border does. The next one
 * mends that, and the other 16 are another palette. */
enum { BROKEN = 30, WHOLE = BROKEN + 1, ALL = WHOLE + 16 };

typedef struct {
    uint32_t values[VOM_REGISTERS];
    uint8_t written[VOM_REGISTERS];
} record;

static void list(uint32_t words[ALL]) {
    static const uint32_t across[] = {10, 1, 3, 2, 6, 11}, down[] = {5, 0, 1, 2, 3, 4};
    uint32_t n = 0;
    words[n++] = 0xE000000B;
    words[n++] = 0x40000F00;
    for (uint32_t i = 0; i < 16; i++) words[n++] = i << 26 | i; /* reds */
    for (uint32_t i = 0; i < 6; i++) words[n++] = (0x80 + 4 * i) << 24 | across[i] << 14;
    for (uint32_t i = 0; i < 6; i++) words[n++] = (0xA0 + 4 * i) << 24 | down[i] << 14;
    words[n++] = 0x80000000 | 15 << 14;
    for (uint32_t i = 0; i < 16; i++) words[n++] = i << 26 | i << 4; /* greens */
}

/* The record gets the words, or stays as it came. */
static void hand(record *to, const uint32_t *words, size_t count) {
    uint32_t setting[VOM_SETTING];
    uint64_t answer = vom_load_and_check(to->values, VOM_REGISTERS, to->written, VOM_REGISTERS, words, count,
                                         setting, VOM_SETTING);
    printf("%u words: ", (unsigned)count);
    if (answer) printf("refused %u %u\n", VOM_NUMBER(answer), VOM_DETAIL(answer));
    else printf("accepted, %u x %u\n", setting[0], setting[7]);
}

static void compare(const char *what, const record *one, const record *other) {
    printf("%s: %s\n", what, memcmp(one, other, sizeof *one) ? "no" : "yes");
}

int main(void) {
    static record fresh, once, twice;
    uint32_t words[ALL];
    list(words);
    hand(&once, words, BROKEN);
    compare("the record is as it came", &once, &fresh);
    hand(&once, words, ALL);
    hand(&twice, words, WHOLE);
    hand(&twice, words + WHOLE, ALL - WHOLE);
    compare("two calls leave the record of one", &once, &twice);
    return 0;
}
