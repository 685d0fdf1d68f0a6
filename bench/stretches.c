// A frame by stretches: no cell twice but for the cursor's, the display by whole words through a table of one cell a pixel,
// depth 1 by a choice of two.
#include "paint.h"

// The pixels of a raster's words, d bits each; d is a literal where this is called.
static inline void words(uint16_t *restrict out, const uint32_t *restrict video, uint32_t count, uint32_t d,
                         const uint16_t *restrict table) {
    for (uint32_t q = 0; q < count; q++) {
        uint32_t w = video[q];
        for (uint32_t j = 0; j < 32 / d; j++) {
            out[j] = table[w & ((1u << d) - 1)];
            w >>= d;
        }
        out += 32 / d;
    }
}

// A choice of two cells, sixteen at a time. Where gcc unrolls the inner loop it makes no vector code of it.
static void bit_words(uint16_t *restrict out, const uint32_t *restrict video, uint32_t count, uint16_t zero, uint16_t one) {
    static const uint16_t bits[16] = {1, 2, 4, 8, 16, 32, 64, 128, 256, 512, 1024, 2048, 4096, 8192, 16384, 32768};
    for (uint32_t q = 0; q < 2 * count; q++, out += 16) {
        uint16_t half = video[q / 2] >> 16 * (q % 2);
#ifndef __clang__
#pragma GCC unroll 1
#endif
        for (uint32_t j = 0; j < 16; j++) out[j] = half & bits[j] ? one : zero;
    }
}

static void shown(uint16_t *restrict out, const uint32_t *restrict video, uint32_t count, uint32_t d,
                  const uint16_t *restrict table) {
    if (d == 8) words(out, video, count, 8, table);
    else if (d == 4) words(out, video, count, 4, table);
    else if (d == 2) words(out, video, count, 2, table);
    else bit_words(out, video, count, table[0], table[1]);
}

void BY(stretches)(const struct picture *restrict p, uint16_t *restrict out) {
    uint16_t table[256], border = 4 * 8192 + p->border_colour;
    for (uint32_t i = 0; i < 1u << p->depth; i++) table[i] = 5 * 8192 + colour(p, i);
    uint32_t count = (p->de - p->ds) * p->depth / 32;
    const uint32_t *restrict video = p->video;
    for (uint32_t y = 0; y < p->v; y++, out += p->n) {
        uint16_t empty = y < p->vs ? 2 * 8192 : 0;
        fill(out, 0, p->hs, empty + 8192);
        if (p->vbs <= y && y < p->vbe) {
            fill(out, p->hs, p->bs, empty);
            if (p->vds <= y && y < p->vde) {
                fill(out, p->bs, p->ds, border);
                shown(out + p->ds, video, count, p->depth, table);
                video += count;
                fill(out, p->de, p->be, border);
            } else fill(out, p->bs, p->be, border);
            fill(out, p->be, p->n, empty);
        } else fill(out, p->hs, p->n, empty);
        cover(p, y, out);
    }
}
