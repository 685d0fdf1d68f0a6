/* A plate read, copied out, cut at its own section starts and written again: the same bytes, and nothing beyond them. */
#include "vombelishi.h"
#include <stdio.h>
#include <string.h>

int main(int argc, char **argv) {
    static uint8_t file[4194305], again[4194305];
    static uint32_t words[1048576];
    uint64_t places[VOM_PLACES], length = 0;
    FILE *in = argc == 2 ? fopen(argv[1], "rb") : NULL;
    if (!in) return 2;
    size_t n = fread(file, 1, sizeof file, in);
    fclose(in);
    memset(again, 0xA5, sizeof again);
    if (vom_read(file, n, places, VOM_PLACES) || vom_copy(file, n, words, 1048576)) return 1;
    size_t r = places[5], v = places[6], c = places[7], s = places[8];
    if (vom_write(words, r - v, words + (r - v), v - c, words + (r - c), c - s, words + (r - s), s, again, sizeof again, &length)) return 1;
    int same = length == n && !memcmp(file, again, n) && again[n] == 0xA5;
    printf("%zu bytes, trailer %zu %zu %zu %zu, %s\n", n, r, v, c, s, same ? "written again the same" : "DIFFERS");
    return !same;
}
