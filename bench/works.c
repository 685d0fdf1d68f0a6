// The inputs, and each piece of work on them. -DGCC and -DCLANG: which compilers' baselines are linked.
#include "works.h"
#include <stdio.h>
#include <stdlib.h>
#include <string.h>

uint32_t values[64], noise[PLATE_WORDS], words_out[PLATE_WORDS];
uint8_t written[64], file[PLATE], file_out[PLATE], bytes_out[4 * QUEUED];
uint16_t cells[LARGEST], entries[ENTRIES], mixed[LONGEST];
int16_t sound_out[SOUNDS * 8];
uint32_t after;
uint64_t marks, length, loaded;
struct picture pic;
static uint8_t stereo[8], text[LONGEST_TEXT];
// The same picture over a list of its own, which is lent to be changed; and where a word is replaced in it, and by which.
static struct picture kept;
static uint32_t list[LARGEST / 4], new_word;
static size_t place;
// One raster's cells, of every code, and a camera's colours.
static uint16_t raster[LONGEST], camera[LONGEST];

#define GIVEN values, 64, written, 64
#define LISTS pic.video, pic.video_words, pic.shape, pic.cursor_words

void die(const char *what) {
    fprintf(stderr, "bench: %s\n", what);
    exit(1);
}

// ---- inputs

void make_noise(void) {
    uint32_t x = 1986;
    for (size_t i = 0; i < PLATE_WORDS; i++) {
        x ^= x << 13, x ^= x >> 17, x ^= x << 5;
        noise[i] = x;
    }
    for (size_t i = 0; i < LONGEST; i++) raster[i] = noise[i], camera[i] = noise[i] >> 20;
}

static uint32_t registers[128];
static size_t register_count;

static void put(uint32_t address, uint32_t data) { registers[register_count++] = address << 24 | data; }

static void clear(void) {
    memset(values, 0, sizeof values);
    memset(written, 0, sizeof written);
}

// The word is the first of a raster that the cursor crosses, the dearest kind.
static void keep(void) {
    uint32_t crossed = pic.vcs > pic.vds ? pic.vcs - pic.vds : 0;
    memcpy(list, pic.video, sizeof *list * pic.video_words);
    kept = pic;
    kept.video = list;
    place = crossed * (pic.de - pic.ds) * pic.depth / 32;
    new_word = ~list[place];
}

// A geometry by its positions: N HS BS DS DE BE CX, then V VS VBS VDS VDE VBE VCS VCE.
static void set(uint32_t depth, const uint32_t x[7], const uint32_t y[8]) {
    static const uint32_t offsets[4] = {19, 11, 7, 5};
    uint32_t choice = depth == 8 ? 3 : depth / 2, k = offsets[choice];
    register_count = 0;
    put(0xE0, 3 | choice << 2);
    for (uint32_t i = 0; i < 16; i++) put(4 * i, (i * 0x1357 + 0x2A9) & 0x1FFF);
    put(0x40, 0xF42);
    for (uint32_t i = 0; i < 3; i++) put(0x44 + 4 * i, 0x1111 * (i + 1) & 0x1FFF);
    put(0x80, (x[0] - 2) / 2 << 14);
    put(0x84, (x[1] - 2) / 2 << 14);
    put(0x88, (x[2] - 1) / 2 << 14);
    put(0x8C, (x[3] - k) / 2 << 14);
    put(0x90, (x[4] - k) / 2 << 14);
    put(0x94, (x[5] - 1) / 2 << 14);
    put(0x98, (x[6] - 6) << 13);
    for (uint32_t i = 0; i < 8; i++) put(0xA0 + 4 * i, (y[i] - 1) << 14);
    clear();
    if (vom_load_and_check(GIVEN, registers, register_count, &pic.n, VOM_SETTING)) die("the setting was refused");
    for (uint32_t i = 0; i < 16; i++) pic.palette[i] = values[i];
    pic.border_colour = values[16];
    for (uint32_t i = 0; i < 3; i++) pic.pens[i] = values[17 + i];
    pic.video = noise;
    pic.shape = noise + 1000;
    keep();
}

// The longest line there is, with the shortest sync that a cursor is given at 24 MHz.
static const uint32_t longest[7] = {2048, 20, 21, 25, 2041, 2047, 1000};

void usual(uint32_t depth) {
    set(depth, (uint32_t[]){1024, 72, 127, 201, 841, 941, 500}, (uint32_t[]){312, 3, 20, 30, 286, 300, 100, 132});
}

void largest(uint32_t depth) {
    set(depth, longest, (uint32_t[]){1024, 1, 1, 2, 1023, 1024, 500, 532});
}

void low(uint32_t depth) {
    set(depth, (uint32_t[]){1024, 72, 127, 201, 841, 941, 500}, (uint32_t[]){32, 3, 4, 5, 29, 30, 10, 20});
}

void smallest(uint32_t depth) {
    set(depth, (uint32_t[]){1024, 72, 127, 201, 841, 941, 500}, (uint32_t[]){1, 1, 1, 1, 1, 1, 1, 1});
}

void set_sound(void) {
    register_count = 0;
    for (uint32_t i = 0; i < 8; i++) put(0x60 + 4 * i, stereo[(i + 7) % 8] = i < 7 ? i + 1 : 4);
    put(0xC0, 99);
    clear();
    if (vom_load_and_check_sound(GIVEN, registers, register_count)) die("sound's registers were refused");
}

void set_plate(void) {
    ours_write();
    if (length != PLATE) die("the plate has another length");
    memcpy(file, file_out, PLATE);
}

// 65,536 bytes: the largest frame, and a cursor that parts every raster into many runs.
void set_text(void) {
    static uint32_t stripes[2046];
    for (size_t i = 0; i < 2046; i++) stripes[i] = 0x11111111;
    set(1, longest, (uint32_t[]){1024, 1, 1, 2, 228, 1024, 1, 1024});
    size_t rest = 65536 / 4 - 4 - register_count - pic.video_words - pic.cursor_words;
    if (vom_write(registers, register_count, noise, pic.video_words, stripes, pic.cursor_words, noise, rest, file_out, PLATE,
                  &length) || length != 65536) die("the printer's plate was refused");
    memcpy(file, file_out, length);
}

// ---- ours

void ours_frame(void) { if (vom_frame(GIVEN, LISTS, cells, LARGEST)) die("the frame was refused"); }
void ours_raster(void) { if (vom_raster(GIVEN, LISTS, pic.v / 2, cells, LARGEST)) die("the raster was refused"); }
void ours_marks(void) { if (vom_marks(GIVEN, LISTS, 128, &marks)) die("the marks were refused"); }
void ours_summaries(void) { if (vom_summaries(GIVEN, LISTS, 128, entries, ENTRIES)) die("the summaries were refused"); }
void ours_replace(void) {
    if (vom_replace(GIVEN, list, kept.video_words, kept.shape, kept.cursor_words, 128, place, new_word, entries, ENTRIES))
        die("the word was refused");
}
void ours_mix(void) { if (vom_mix(GIVEN, raster, LONGEST, camera, LONGEST, mixed, LONGEST)) die("the mixing was refused"); }
void ours_sound(void) {
    after = 5;
    if (vom_sound(GIVEN, noise, SOUNDS, &after, sound_out, SOUNDS * 8)) die("sound was refused");
}
void ours_copy(void) { if (vom_copy(file, PLATE, words_out, PLATE_WORDS)) die("the copy was refused"); }
void ours_text(void) { if (vom_text(file, 65536, text, sizeof text, &length)) die("the text was refused"); }
void ours_write(void) {
    if (vom_write(noise, 1000, noise + 1000, 900000, noise + 901000, 100000, noise + 1001000, PLATE_WORDS - 1001000, file_out,
                  PLATE, &length)) die("the plate was refused");
}

// ---- a queue: ours and the baselines by the same steps

// QUEUED words go through a video queue as on a bench: the end of a sync asks for eight, four are loaded while the queue asks, and
// each byte is read. Control bits 5-4 are 3: with the last byte of every fourth word four more are asked for.
typedef vom_reply step(vom_queue *, uint32_t);
static inline void through(vom_queue fresh(uint16_t), step ask, step load, step read) {
    vom_queue queue = fresh(0);
    vom_reply reply = ask(&queue, 8);
    for (size_t k = 0, next = 0; k < 4 * QUEUED; k++) {
        for (; reply.asks && next < QUEUED; next += 4)
            for (size_t i = next; i < next + 4; i++) reply = load(&queue, noise[i]);
        reply = read(&queue, 3 << 4);
        bytes_out[k] = reply.byte;
    }
    loaded = reply.count;
}

void check_queue(void) {
    if (loaded != QUEUED) die("the queue counted other words");
    for (size_t k = 0; k < 4 * QUEUED; k++)
        if (bytes_out[k] != (noise[k / 4] >> 8 * (k % 4) & 255)) die("other bytes came out of the queue");
}

void ours_queue(void) { through(vom_queue_fresh, vom_queue_ask, vom_queue_load, vom_queue_read); }

// ---- the baselines, alike for each compiler

#define BASELINES(by) \
    void per_cell_##by(void) { cells_##by(&pic, cells); } \
    void tuned_##by(void) { stretches_##by(&pic, cells); } \
    void count_cells_##by(void) { marks = count_##by(&pic, 128); } \
    void entry_cells_##by(void) { entries_##by(&pic, 128, entries); } \
    void replace_cells_##by(void) { replace_##by(&kept, list, 128, place, new_word, entries); } \
    void loop_mix_##by(void) { if (mix_##by(raster, camera, pic.n, mixed) != pic.n) die("the loop's mixing was refused"); } \
    void unjudged_mix_##by(void) { lay_##by(raster, camera, pic.n, mixed); } \
    void loop_sound_##by(void) { after = sound_##by(stereo, noise, SOUNDS, 5, sound_out); } \
    void loop_copy_##by(void) { copy_##by(file, PLATE_WORDS, words_out); } \
    void loop_put_##by(void) { put_##by(noise, PLATE_WORDS, file_out); } \
    void ring_queue_##by(void) { through(fresh_##by, ask_##by, load_##by, read_##by); }

#ifdef GCC
BASELINES(gcc)
#endif
#ifdef CLANG
BASELINES(clang)
void by_lines_clang(void) { lines_clang(&pic, cells); }
#endif
