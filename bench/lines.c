// As ours is painted: the cells outside the display copied from a line that is made anew only where they change, the display
// through a table of the cells of all pixels of a byte, copied at once; depth 8 by four cells added in 64 bits, four words a turn.
#include "paint.h"
#include <string.h>

// `per` cells for each byte; a literal where this is called.
static inline void words(uint16_t *restrict out, const uint32_t *restrict video, uint32_t count, uint32_t per,
                         const uint16_t *restrict table) {
    for (uint32_t q = 0; q < count; q++, out += 4 * per)
        for (uint32_t b = 0; b < 4; b++) memcpy(out + b * per, table + (video[q] >> 8 * b & 255) * per, 2 * per);
}

// Depth 8: the table has each byte's cell at its four places.
static inline uint64_t quad(uint32_t w, const uint64_t *restrict four) {
    return four[w & 255] + four[256 + (w >> 8 & 255)] + four[512 + (w >> 16 & 255)] + four[768 + (w >> 24)];
}

static void quads(uint16_t *restrict out, const uint32_t *restrict video, uint32_t count, const uint64_t *restrict four) {
    uint32_t q = 0;
    for (; q + 3 < count; q += 4, out += 16) {
        uint64_t x[4] = {quad(video[q], four), quad(video[q + 1], four), quad(video[q + 2], four), quad(video[q + 3], four)};
        memcpy(out, x, sizeof x);
    }
    for (; q < count; q++, out += 4) {
        uint64_t x = quad(video[q], four);
        memcpy(out, &x, sizeof x);
    }
}

static void shown(uint16_t *restrict out, const uint32_t *restrict video, uint32_t count, uint32_t d,
                  const uint16_t *restrict table, const uint64_t *restrict four) {
    if (d == 8) quads(out, video, count, four);
    else if (d == 4) words(out, video, count, 2, table);
    else if (d == 2) words(out, video, count, 4, table);
    else words(out, video, count, 8, table);
}

static void edges(const struct picture *restrict p, uint32_t y, uint16_t border, uint16_t *restrict line) {
    uint16_t empty = y < p->vs ? 2 * 8192 : 0;
    fill(line, 0, p->hs, empty + 8192);
    if (p->vbs <= y && y < p->vbe) {
        fill(line, p->hs, p->bs, empty);
        fill(line, p->bs, p->be, border);
        fill(line, p->be, p->n, empty);
    } else fill(line, p->hs, p->n, empty);
}

void BY(lines)(const struct picture *restrict p, uint16_t *restrict out) {
    uint64_t four[4 * 256];
    uint16_t table[256 * 8], line[2048], border = 4 * 8192 + p->border_colour;
    uint32_t d = p->depth, per = 8 / d;
    for (uint32_t b = 0; b < 256; b++)
        for (uint32_t j = 0; j < per; j++) table[b * per + j] = 5 * 8192 + colour(p, b >> j * d & ((1u << d) - 1));
    for (uint32_t b = 0; d == 8 && b < 256; b++)
        for (uint32_t j = 0; j < 4; j++) four[256 * j + b] = (uint64_t)table[b] << 16 * j;
    uint32_t count = (p->de - p->ds) * d / 32;
    const uint32_t *restrict video = p->video;
    for (uint32_t y = 0; y < p->v; y++, out += p->n) {
        if (y == 0 || y == p->vs || y == p->vbs || y == p->vbe) edges(p, y, border, line);
        if (p->vds <= y && y < p->vde) {
            memcpy(out, line, 2 * p->ds);
            shown(out + p->ds, video, count, d, table, four);
            video += count;
            memcpy(out + p->de, line + p->de, 2 * (p->n - p->de));
        } else memcpy(out, line, 2 * p->n);
        cover(p, y, out);
    }
}
