// A frame, a mark count, and the marks and end greys of each displayed raster, cell by cell from the rule.
#include "bench.h"

static int within(uint32_t from, uint32_t at, uint32_t to) { return from <= at && at < to; }

static uint32_t pixel(const struct picture *p, uint32_t x, uint32_t y) {
    uint32_t bit = ((y - p->vds) * (p->de - p->ds) + (x - p->ds)) * p->depth;
    return p->video[bit / 32] >> bit % 32 & ((1u << p->depth) - 1);
}

static uint16_t cell(const struct picture *p, uint32_t x, uint32_t y) {
    if (x < p->hs || y < p->vs) return ((x < p->hs) + 2 * (y < p->vs)) * 8192;
    int shown = p->display && within(p->ds, x, p->de) && within(p->vds, y, p->vde);
    int border = p->border && within(p->bs, x, p->be) && within(p->vbs, y, p->vbe);
    if (!shown && !border) return 0;
    if (p->cursor && within(p->vcs, y, p->vce) && within(p->cx, x, p->cx + 32)) {
        uint32_t i = x - p->cx;
        uint32_t pair = p->shape[2 * (y - p->vcs) + i / 16] >> 2 * (i % 16) & 3;
        if (pair) return 6 * 8192 + p->pens[pair - 1];
    }
    return shown ? 5 * 8192 + colour(p, pixel(p, x, y)) : 4 * 8192 + p->border_colour;
}

void BY(cells)(const struct picture *p, uint16_t *out) {
    for (uint32_t y = 0; y < p->v; y++)
        for (uint32_t x = 0; x < p->n; x++) out[y * p->n + x] = cell(p, x, y);
}

uint64_t BY(count)(const struct picture *p, uint32_t threshold) {
    uint64_t marks = 0;
    for (uint32_t y = 0; y < p->v; y++)
        for (uint32_t x = 0; x < p->n; x++) {
            uint16_t c = cell(p, x, y);
            marks += c / 8192 == 5 && grey(c) >= threshold;
        }
    return marks;
}

// A raster's marks, its least and its greatest grey.
static void entry(const struct picture *p, uint32_t y, uint32_t threshold, uint16_t *out) {
    uint32_t marks = 0, least = 255, greatest = 0;
    for (uint32_t x = 0; x < p->n; x++) {
        uint16_t c = cell(p, x, y);
        if (c / 8192 != 5) continue;
        uint32_t g = grey(c);
        marks += g >= threshold;
        if (g < least) least = g;
        if (g > greatest) greatest = g;
    }
    out[0] = marks, out[1] = least, out[2] = greatest;
}

void BY(entries)(const struct picture *p, uint32_t threshold, uint16_t *out) {
    for (uint32_t y = p->vds; y < p->vde; y++, out += 3) entry(p, y, threshold, out);
}

// The picture's own list is lent to be changed.
void BY(replace)(const struct picture *p, uint32_t *video, uint32_t threshold, size_t index, uint32_t word, uint16_t *out) {
    size_t r = index / ((p->de - p->ds) * p->depth / 32);
    video[index] = word;
    entry(p, p->vds + r, threshold, out + 3 * r);
}
