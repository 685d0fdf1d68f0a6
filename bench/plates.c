// A plate's words to and from bytes, lowest byte first, by a plain loop over words that holds on any machine.
// Where its arguments are marked restrict, gcc makes a call of memcpy out of the first: that column is in the table anyhow.
#include "bench.h"

void BY(copy)(const uint8_t *file, size_t words, uint32_t *out) {
    for (size_t k = 0; k < words; k++, file += 4)
        out[k] = file[0] | file[1] << 8 | file[2] << 16 | (uint32_t)file[3] << 24;
}

void BY(put)(const uint32_t *words, size_t count, uint8_t *out) {
    for (size_t k = 0; k < count; k++, out += 4) {
        out[0] = words[k];
        out[1] = words[k] >> 8;
        out[2] = words[k] >> 16;
        out[3] = words[k] >> 24;
    }
}
