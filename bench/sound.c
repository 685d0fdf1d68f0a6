// Sound by a plain loop over bytes: amplitude from chord and point, sign, times sixths.
#include "bench.h"

uint32_t BY(sound)(const uint8_t stereo[8], const uint32_t *restrict words, size_t count, uint32_t counter, int16_t *restrict out) {
    const uint8_t *restrict bytes = (const uint8_t *)words;
    for (size_t k = 0; k < 4 * count; k++, counter++) {
        int16_t value = ((bytes[k] / 2 % 16 + 16) << bytes[k] / 32) - 16;
        if (bytes[k] & 1) value = -value;
        out[2 * k] = value * (7 - stereo[counter % 8]);
        out[2 * k + 1] = value * (stereo[counter % 8] - 1);
    }
    return counter;
}
