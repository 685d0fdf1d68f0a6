// A raster mixed by plain loops: the camera's numbers looked through for one of more than 12 bits, then each place chosen.
// Both numbers are read before one is chosen, so that the compiler can take many places at once.
#include "bench.h"

void BY(lay)(const uint16_t *restrict cells, const uint16_t *restrict camera, size_t n, uint16_t *restrict out) {
    for (size_t k = 0; k < n; k++) {
        uint16_t cell = cells[k], seen = camera[k], code = cell >> 13;
        out[k] = (cell & 4096) && code >= 4 && code <= 6 ? seen : cell & 4095;
    }
}

size_t BY(mix)(const uint16_t *restrict cells, const uint16_t *restrict camera, size_t n, uint16_t *restrict out) {
    for (size_t k = 0; k < n; k++)
        if (camera[k] > 4095) return k;
    BY(lay)(cells, camera, n, out);
    return n;
}
