/* Prints the run printer's text of a plate file: show FILE */
#include <stdio.h>
#include "vombelishi.h"

int main(int argc, char **argv) {
    static uint8_t file[65537], text[1025 * 8256];
    FILE *from = argc == 2 ? fopen(argv[1], "rb") : NULL;
    if (!from) return fprintf(stderr, "usage: show FILE\n"), 2;
    size_t n = fread(file, 1, sizeof file, from);
    uint64_t size, answer = vom_text(file, n, text, sizeof text, &size);
    if (answer) return fprintf(stderr, "refused %u %u\n", VOM_NUMBER(answer), VOM_DETAIL(answer)), 1;
    return fwrite(text, 1, size, stdout) != size;
}
