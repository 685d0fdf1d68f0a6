/* The plate renderer's calls for C. Link with libvombelishi.a, which links into x86-64 programs alone; nothing else is
 * needed.
 *
 * Slices. Each slice is a pointer and, right behind it, its length in elements. The pointer of an empty slice may be
 * NULL. Nothing is written beyond a slice's end, and of a slice that is longer than needed only the first elements
 * are used. A pointer without a length (`count`, `colour`, `supremacy`, `counter`, `size`, `words` of vom_sync_ask) is
 * that of one number, and may not be NULL. What a call writes may not overlap anything else that is handed to that call.
 *
 * Lent to be changed, so that what stands there counts, are the record of vom_load_and_check, vom_load_and_check_sound
 * and vom_load_word, `counter`, a queue, and `video` and `entries` of vom_replace. Every other pointer that is not
 * const is lent for an answer.
 *
 * Answers. Every call that answers uint64_t answers 0 for success, else number * 2^32 + detail of a row
 * of the table below: VOM_NUMBER and VOM_DETAIL take them apart. A refused call writes nothing. A call on a queue
 * answers a vom_reply instead, in which the number stands by itself, without a detail.
 *
 * A record is two slices of VOM_REGISTERS elements: `values`, each register's data at its address / 4 (of which the
 * low 24 bits count), and `written`, a byte that is not 0 where that register was written. A fresh one is all zero.
 * A record slice that is shorter than 64 is refused with 13, before every other refusal of the call; of a longer one
 * the first 64 elements count.
 *
 * A slice that is lent for an answer and is too short is refused with 13, after every other refusal of the call.
 *
 * A queue is one vom_queue, lent to each call on it by a pointer that may not be NULL. Any numbers may stand in it. It
 * is fit where `place` is below its depth, `held` and `coming` are at most its depth, `taken` is at most 3, and 0 where
 * `held` is 0, and `count` is not below `held`. Every call first replaces one that is not fit by a fresh one of its
 * kind, also where it then refuses; beyond that a refused call writes nothing. Every call leaves a fit one.
 *
 * Each call's result is proved, for every input, against the definitions in crates/vombelishi/specs and, of queues, in
 * crates/queues/specs. */
#ifndef VOMBELISHI_H
#define VOMBELISHI_H

#include <stddef.h>
#include <stdint.h>

#ifdef __cplusplus
extern "C" {
#endif

#define VOM_REGISTERS 64
#define VOM_SETTING 21
#define VOM_PLACES 9
#define VOM_ENTRY 3

/* The kinds of queues. Every number from VOM_SOUND up is sound. */
#define VOM_VIDEO 0
#define VOM_CURSOR 1
#define VOM_SOUND 2

#define VOM_NUMBER(answer) ((uint32_t)((answer) >> 32))
#define VOM_DETAIL(answer) ((uint32_t)(answer))

/* The table of refusals. The detail is 0 where none is named, and in the calls that say so. */
#define VOM_REFUSED_TOO_MANY_WORDS 1 /* more than 1,024 register words */
#define VOM_REFUSED_RESERVED 2 /* a reserved address; detail: the index of the first such word */
#define VOM_REFUSED_UNWRITTEN 3 /* a needed register is unwritten; detail: the lowest address */
#define VOM_REFUSED_TEST_MODE 4 /* control bit 14 or 15 is set (test mode) */
#define VOM_REFUSED_INTERLACE 5 /* interlace is set */
#define VOM_REFUSED_HORIZONTAL 6 /* not HS <= BS <= DS < DE <= BE <= N */
#define VOM_REFUSED_VERTICAL 7 /* the vertical rule is broken */
#define VOM_REFUSED_WIDTH 8 /* (DE - DS) * depth is no multiple of 32 */
#define VOM_REFUSED_CURSOR 9 /* the cursor is on, and its sub-position is not 0 or VCE > V */
#define VOM_REFUSED_SOUND 10 /* a stereo value is 0, or the sound frequency is below 3; detail: the lowest address */
#define VOM_REFUSED_WORD_COUNT 11 /* the count of video or cursor words is wrong */
#define VOM_REFUSED_RASTER 12 /* the raster number is V or more */
#define VOM_REFUSED_SHORT 13 /* a lent buffer is too short */
#define VOM_REFUSED_PLATE_FILE 14 /* the file's length or trailer is wrong */
#define VOM_REFUSED_TOO_LARGE 15 /* a plate to be written is over 4,194,304 bytes, or the printer's input over 65,536 */
#define VOM_REFUSED_FULL 16 /* load into a full queue, or with its count at its largest */
#define VOM_REFUSED_EMPTY 17 /* read from an empty queue */
#define VOM_REFUSED_WORD_INDEX 18 /* a word index outside the list */
#define VOM_REFUSED_SYNC_WIDTH 19 /* the cursor is on, and 6 * HS is below 5 * the pixel rate in MHz */
#define VOM_REFUSED_CAMERA 20 /* a camera number above 4,095; detail: the index of the first such number */

/* One of the chip's queues. Its depth is 8 words for video, else 4. */
typedef struct vom_queue {
    uint32_t words[8]; /* the words held, around in a ring; where the depth is 4, in the first four */
    uint16_t kind;     /* VOM_VIDEO, VOM_CURSOR or VOM_SOUND */
    uint16_t taken;    /* bytes already read of the word that is being read */
    uint32_t place;    /* where in `words` that word stands */
    uint32_t held;     /* words held, that one among them until its last byte is read */
    uint32_t coming;   /* words asked for and still to come */
    uint64_t count;    /* words loaded since the last emptying */
} vom_queue;

/* What a call on a queue answers, of the queue as the call leaves it. */
typedef struct vom_reply {
    uint64_t count;  /* words loaded since the last emptying */
    uint32_t number; /* 0 for success, else the refusal's number */
    uint16_t byte;   /* the byte read; 0 where none was */
    uint16_t asks;   /* 1 where the queue asks: four words or more are still to come; else 0 */
} vom_reply;

/* Applies register words to a record, in order, and judges what they leave, for pictures: all of it or nothing. An
 * empty list judges the record as it stands. Refusals: 13 (record), 1 (more than 1,024 words), 2 (a reserved address;
 * detail: the index of the first), then of the record with the words applied 3 (detail: the lowest address) to 6, 19,
 * 7 to 9, then 13 (`setting` shorter than 21). Writes, for each word, its data to `values` and 1 to `written`, both at
 * its address / 4; every other element stays as it was. Writes 21 numbers to `setting`: N, HS, BS, DS, DE, BE, CX; V,
 * VS, VBS, VDS, VDE, VBE, VCS, VCE; the depth; display, border, cursor on (1 or 0); the video words and the cursor
 * words that a frame needs. */
uint64_t vom_load_and_check(uint32_t *values, size_t values_len, uint8_t *written, size_t written_len,
                            const uint32_t *words, size_t words_len, uint32_t *setting, size_t setting_len);

/* The same for sound alone. Refusals: 13 (record), 1, 2 (detail: the index of the first), then of the record with the
 * words applied 3, 10 (detail: the lowest address). Writes the words as vom_load_and_check does. */
uint64_t vom_load_and_check_sound(uint32_t *values, size_t values_len, uint8_t *written, size_t written_len,
                                  const uint32_t *words, size_t words_len);

/* Applies one word, whatever record it leaves. Refusals: 13 (record), 2 (detail 0). Writes it as vom_load_and_check
 * does. */
uint64_t vom_load_word(uint32_t *values, size_t values_len, uint8_t *written, size_t written_len, uint32_t word);

/* Judges a record for sound. Refusals: 13 (record), 3, 10 (detail: the lowest address). Writes nothing. */
uint64_t vom_check_sound(const uint32_t *values, size_t values_len, const uint8_t *written, size_t written_len);

/* Paints a frame. Refusals: 13 (record), 3 to 6, 19, 7 to 9, 11, 13 (`cells` shorter than N * V). Writes N * V cells,
 * raster after raster, each its code * 8192 + its supremacy * 4096 + its 12-bit colour. */
uint64_t vom_frame(const uint32_t *values, size_t values_len, const uint8_t *written, size_t written_len,
                   const uint32_t *video, size_t video_len, const uint32_t *cursor, size_t cursor_len,
                   uint16_t *cells, size_t cells_len);

/* Paints raster y of that frame. Refusals: 13 (record), 3 to 6, 19, 7 to 9, 11, 12, 13 (`cells` shorter than N).
 * Writes N cells. */
uint64_t vom_raster(const uint32_t *values, size_t values_len, const uint8_t *written, size_t written_len,
                    const uint32_t *video, size_t video_len, const uint32_t *cursor, size_t cursor_len, uint16_t y,
                    uint16_t *cells, size_t cells_len);

/* Where the words of raster y stand in `video`. Refusals: 13 (record), 3 to 6, 19, 7 to 9, 11 (video words alone), 12,
 * 13 (`place` shorter than 2). Writes the index of the first word and how many there are to `place`: 0 and 0 where the
 * raster is not displayed. */
uint64_t vom_raster_words(const uint32_t *values, size_t values_len, const uint8_t *written, size_t written_len,
                          const uint32_t *video, size_t video_len, uint16_t y, uint64_t *place, size_t place_len);

/* Counts the display cells (code 5) of the frame whose grey reaches the threshold. Refusals: 13 (record),
 * 3 to 6, 19, 7 to 9, 11. Writes one number to `count`. */
uint64_t vom_marks(const uint32_t *values, size_t values_len, const uint8_t *written, size_t written_len,
                   const uint32_t *video, size_t video_len, const uint32_t *cursor, size_t cursor_len,
                   uint8_t threshold, uint64_t *count);

/* An entry for each displayed raster, from VDS to before VDE; none where the display is off. It is three numbers: how
 * many of the raster's display cells (code 5) have a grey that reaches the threshold, and the least and the greatest
 * grey of its display cells; 0, 255 and 0 where it has none. Refusals: 13 (record), 3 to 6, 19, 7 to 9, 11, 13
 * (`entries` shorter than three numbers for each displayed raster). Writes those numbers to `entries`, entry after
 * entry. */
uint64_t vom_summaries(const uint32_t *values, size_t values_len, const uint8_t *written, size_t written_len,
                       const uint32_t *video, size_t video_len, const uint32_t *cursor, size_t cursor_len,
                       uint8_t threshold, uint16_t *entries, size_t entries_len);

/* Replaces one word of `video` and keeps `entries` right, at the cost of one raster. Refusals: 13 (record), 3 to 6, 19,
 * 7 to 9, 11, 18 (`index` is not below video_len), 13 (`entries` as for vom_summaries). Writes the word to `video` at
 * `index`, and to `entries` the entry of the raster that the word belongs to, as vom_summaries makes it of the changed
 * list; every other word and number stays as it was, right or not. */
uint64_t vom_replace(const uint32_t *values, size_t values_len, const uint8_t *written, size_t written_len,
                     uint32_t *video, size_t video_len, const uint32_t *cursor, size_t cursor_len, uint8_t threshold,
                     size_t index, uint32_t word, uint16_t *entries, size_t entries_len);

/* Lays one raster's cells over a camera's colours: where a cell's code is 4, 5 or 6 and its supremacy is set, the
 * camera's number at that place, else the cell's own 12-bit colour. Any number is taken for a cell; beyond N nothing is
 * read. Refusals: 13 (record), 3 to 6, 19, 7 to 9, 13 (`cells`, `camera` or `mixed` shorter than N), 20 (of the first N
 * camera numbers). Writes N colours to `mixed`. */
uint64_t vom_mix(const uint32_t *values, size_t values_len, const uint8_t *written, size_t written_len,
                 const uint16_t *cells, size_t cells_len, const uint16_t *camera, size_t camera_len, uint16_t *mixed,
                 size_t mixed_len);

/* The 12-bit colour that a logical pixel shows, and its supremacy: by the palette entry pixel % 16, and at depth 8 the
 * colour by the pixel's high bits too; at any other depth the entry itself. Refusal: 13 (record). Writes one colour to
 * `colour`, and 1 where it has supremacy, else 0, to `supremacy`. */
uint64_t vom_colour(const uint32_t *values, size_t values_len, const uint8_t *written, size_t written_len,
                    uint8_t depth, uint8_t pixel, uint16_t *colour, uint8_t *supremacy);

/* The grey of a colour, 0 to 255, by its 12 lowest bits: 17 (77 red + 150 green + 29 blue) / 256, rounded down. */
uint8_t vom_grey(uint16_t colour);

/* The sync pin's level, 0 low or 1 high, where a cell has this code and control this data. */
uint8_t vom_pin(uint8_t code, uint32_t control);

/* Plays words: four bytes each, low first, and for each byte a left and a right value in signed sixths. `counter` is
 * the byte counter before the first byte. Refusals: 13 (record), 3, 10 (detail: the lowest address), 13 (`out` shorter
 * than 8 * words_len). Writes 8 * words_len values to `out`, and to `counter` the byte counter after the last byte. */
uint64_t vom_sound(const uint32_t *values, size_t values_len, const uint8_t *written, size_t written_len,
                   const uint32_t *words, size_t words_len, uint32_t *counter, int16_t *out, size_t out_len);

/* One byte's left and right value in signed sixths for a stereo value, of which the three lowest bits count.
 * Refusals: 10 (those bits are 0; detail 0), 13 (`pair` shorter than 2). Writes two values to `pair`. */
uint64_t vom_sound_pair(uint8_t byte, uint8_t stereo, int16_t *pair, size_t pair_len);

/* Judges a plate file. Refusals: 14, 13 (`places` shorter than 9). Writes nine numbers to `places`: the byte at which
 * registers, video, cursor, sound and trailer start, then the trailer's R, V, C, S. */
uint64_t vom_read(const uint8_t *file, size_t file_len, uint64_t *places, size_t places_len);

/* Copies a plate's words out, but not the trailer's. Refusals: 14, 13 (`words` shorter than R). Writes R words. */
uint64_t vom_copy(const uint8_t *file, size_t file_len, uint32_t *words, size_t words_len);

/* Writes a plate file of four lists. Refusals: 15 (over 4,194,304 bytes), 13 (`out` shorter than the plate). Writes
 * the plate to `out` and its length in bytes to `size`. */
uint64_t vom_write(const uint32_t *registers, size_t registers_len, const uint32_t *video, size_t video_len,
                   const uint32_t *cursor, size_t cursor_len, const uint32_t *sound, size_t sound_len,
                   uint8_t *out, size_t out_len, uint64_t *size);

/* The run printer's text of a plate file. A refused plate has a text too: the line `refused NUMBER DETAIL`. Refusal:
 * 13 (`text` shorter than the text). Writes the text to `text` (no zero byte follows it) and its length in bytes to
 * `size`. */
uint64_t vom_text(const uint8_t *file, size_t file_len, uint8_t *text, size_t text_len, uint64_t *size);

/* A fresh queue of a kind: all else is 0, but sound has four words to come. It counts as just emptied. */
vom_queue vom_queue_fresh(uint16_t kind);

/* Loads one word behind those held. Refusal: 16 (the queue is full, or its count is 2^64 - 1). Writes the word, one
 * more to `held` and to `count`, and one less to `coming`, if any were to come. */
vom_reply vom_queue_load(vom_queue *queue, uint32_t word);

/* Reads one byte: the words leave in the order they came, low byte first. `control` is the control register's data, of
 * which bits 5-4 count. Refusal: 17 (the queue is empty). Writes `taken`, and with a word's last byte the next word's
 * `place`, one less to `held`, and to `coming` what is asked for then, as vom_queue_ask does: 4 of video where the
 * word's place % 4 is the number in bits 5-4, 4 of sound where it was the last word held, else 0. */
vom_reply vom_queue_read(vom_queue *queue, uint32_t control);

/* The vertical sync of a raster: it starts with raster 0, and only there does it empty a queue. Writes a fresh queue of
 * its kind where the raster is 0 and the queue is not sound. */
vom_reply vom_queue_vertical_sync(vom_queue *queue, uint32_t raster);

/* Asks for so many words, any number. Writes so many more to `coming`, at most the depth in all. */
vom_reply vom_queue_ask(vom_queue *queue, uint32_t words);

/* How many words the sync of a raster, from its start to its end, asks of a queue of a kind: 8 of video where the
 * raster is VDS and VDE > VDS; 4 of a cursor, where both its vertical registers are written, on the rasters VCS,
 * VCS + 2 and so on below VCE; else 0. The registers count as they stand: no check is asked of them. Refusal: 13
 * (record). Writes one number to `words`. */
uint64_t vom_sync_ask(const uint32_t *values, size_t values_len, const uint8_t *written, size_t written_len,
                      uint16_t kind, uint32_t raster, uint32_t *words);

#ifdef __cplusplus
}
#endif

#endif
