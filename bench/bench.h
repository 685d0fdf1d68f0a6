// What is measured: ours by the library's own header, and the baselines.
#include "../include/vombelishi.h"

#ifndef VOM_VIDEO // the queues' calls, where the header has none
typedef struct vom_queue {
    uint32_t words[8];
    uint16_t kind, taken;
    uint32_t place, held, coming;
    uint64_t count;
} vom_queue;
typedef struct vom_reply {
    uint64_t count;
    uint32_t number;
    uint16_t byte, asks;
} vom_reply;
vom_queue vom_queue_fresh(uint16_t kind);
vom_reply vom_queue_ask(vom_queue *queue, uint32_t words);
vom_reply vom_queue_load(vom_queue *queue, uint32_t word);
vom_reply vom_queue_read(vom_queue *queue, uint32_t control);
#endif

// A picture as the baselines get it: judged, with its numbers in the order in which vom_load_and_check writes them, and its 13-bit colours.
// Ours starts from the record each time and judges it, which the baselines are spared.
struct picture {
    uint32_t n, hs, bs, ds, de, be, cx;
    uint32_t v, vs, vbs, vds, vde, vbe, vcs, vce;
    uint32_t depth, display, border, cursor, video_words, cursor_words;
    uint16_t palette[16], border_colour, pens[3];
    const uint32_t *video, *shape;
};

// The colour of a pixel, from the palette: at depth 8 four of its bits stand in the colour.
static inline uint16_t colour(const struct picture *p, uint32_t pixel) {
    if (p->depth < 8) return p->palette[pixel];
    return (p->palette[pixel & 15] & 0x1737) | (pixel >> 7 & 1) << 11 | (pixel >> 5 & 3) << 6 | (pixel >> 4 & 1) << 3;
}

static inline uint32_t grey(uint16_t colour) { return 17 * (77 * (colour & 15) + 150 * (colour >> 4 & 15) + 29 * (colour >> 8 & 15)) / 256; }

// Each baseline is compiled once for each compiler, under that compiler's name.
#define JOIN(a, b) a##_##b
#define NAMED(a, b) JOIN(a, b)
#define BY(name) NAMED(name, COMPILER)

#define BASELINE(by) \
    void cells_##by(const struct picture *, uint16_t *out); \
    void stretches_##by(const struct picture *, uint16_t *out); \
    uint64_t count_##by(const struct picture *, uint32_t threshold); \
    void entries_##by(const struct picture *, uint32_t threshold, uint16_t *out); \
    void replace_##by(const struct picture *, uint32_t *video, uint32_t threshold, size_t index, uint32_t word, uint16_t *out); \
    uint32_t sound_##by(const uint8_t stereo[8], const uint32_t *words, size_t, uint32_t counter, int16_t *out); \
    void lay_##by(const uint16_t *cells, const uint16_t *camera, size_t n, uint16_t *out); \
    size_t mix_##by(const uint16_t *cells, const uint16_t *camera, size_t n, uint16_t *out); \
    void copy_##by(const uint8_t *file, size_t words, uint32_t *out); \
    void put_##by(const uint32_t *words, size_t, uint8_t *out); \
    vom_queue fresh_##by(uint16_t kind); \
    vom_reply ask_##by(vom_queue *, uint32_t words); \
    vom_reply load_##by(vom_queue *, uint32_t word); \
    vom_reply read_##by(vom_queue *, uint32_t control);
BASELINE(gcc)
BASELINE(clang)
void lines_clang(const struct picture *, uint16_t *out);
void stretches_rust(const struct picture *, uint16_t *out);

// Ours again, by the safe Rust wrapper over the same calls; the record is accepted beforehand, in a type of its own.
struct accepted;
const struct accepted *wrapped_accepted(const uint32_t values[64], const uint8_t written[64]);
void wrapped_frame(const struct accepted *, const uint32_t *video, size_t, const uint32_t *cursor, size_t, uint16_t *cells, size_t);
