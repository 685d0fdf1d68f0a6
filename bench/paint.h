// What stretches.c and lines.c share.
#include "bench.h"

static void fill(uint16_t *restrict out, uint32_t from, uint32_t to, uint16_t cell) {
    for (uint32_t x = from; x < to; x++) out[x] = cell;
}

static void cover(const struct picture *restrict p, uint32_t y, uint16_t *restrict out) {
    if (!p->cursor || y < p->vcs || y >= p->vce || y < p->vbs || y >= p->vbe) return;
    const uint32_t *restrict shape = p->shape + 2 * (y - p->vcs);
    for (uint32_t i = 0; i < 32; i++) {
        uint32_t x = p->cx + i, pair = shape[i / 16] >> 2 * (i % 16) & 3;
        if (pair && p->bs <= x && x < p->be) out[x] = 6 * 8192 + p->pens[pair - 1];
    }
}
