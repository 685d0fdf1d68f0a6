/* NULL with length 0 for every slice of every call: read as nothing, refused where something is needed, never touched. */
#include "vombelishi.h"
#include <stdio.h>
#include <string.h>

#define NONE NULL, 0
#define SHORT ((uint64_t)13 << 32)
#define FILE_WRONG ((uint64_t)14 << 32)
#define INDEX_OUTSIDE ((uint64_t)18 << 32)
#define GIVEN values, VOM_REGISTERS, written, VOM_REGISTERS

static int asked, wrong;

static void is(const char *what, int right) {
    asked++;
    if (!right) wrong++, printf("%s: not as it should be\n", what);
}

static uint32_t values[VOM_REGISTERS], video[] = {0x76543210};
static uint8_t written[VOM_REGISTERS];

/* The paper's small plate, and sound at the centre; its cursor is off. */
static void load_small(void) {
    static const uint32_t across[] = {15, 1, 3, 2, 6, 11}, down[] = {5, 0, 1, 2, 3, 4};
    uint32_t words[39], setting[VOM_SETTING], n = 0;
    words[n++] = 0xE000000B;
    words[n++] = 0x40000F00;
    words[n++] = 0xC0000003;
    for (uint32_t i = 0; i < 16; i++) words[n++] = i << 26 | i;
    for (uint32_t i = 0; i < 6; i++) words[n++] = (0x80 + 4 * i) << 24 | across[i] << 14;
    for (uint32_t i = 0; i < 6; i++) words[n++] = (0xA0 + 4 * i) << 24 | down[i] << 14;
    for (uint32_t i = 0; i < 8; i++) words[n++] = (0x60 + 4 * i) << 24 | 4;
    is("the registers", vom_load_and_check(GIVEN, words, n, setting, VOM_SETTING) == 0);
}

static void no_record(void) {
    uint32_t setting[VOM_SETTING], counter = 7, words = 7;
    uint16_t cells[192], colour = 7, entry[VOM_ENTRY];
    uint8_t supremacy = 7;
    uint64_t place[2], count = 7;
    int16_t out[8];
    is("vom_load_and_check, no values", vom_load_and_check(NONE, written, VOM_REGISTERS, video, 0, setting, VOM_SETTING) == SHORT);
    is("vom_load_and_check, no written", vom_load_and_check(values, VOM_REGISTERS, NONE, video, 0, setting, VOM_SETTING) == SHORT);
    is("vom_load_and_check_sound, no values", vom_load_and_check_sound(NONE, written, VOM_REGISTERS, video, 0) == SHORT);
    is("vom_load_and_check_sound, no written", vom_load_and_check_sound(values, VOM_REGISTERS, NONE, video, 0) == SHORT);
    is("vom_load_word, no record", vom_load_word(NONE, NONE, 0xE000000B) == SHORT);
    is("vom_check_sound, no record", vom_check_sound(NONE, NONE) == SHORT);
    is("vom_frame, no record", vom_frame(NONE, NONE, video, 1, NONE, cells, 192) == SHORT);
    is("vom_raster, no record", vom_raster(NONE, NONE, video, 1, NONE, 0, cells, 192) == SHORT);
    is("vom_raster_words, no record", vom_raster_words(NONE, NONE, video, 1, 0, place, 2) == SHORT);
    is("vom_marks, no record", vom_marks(NONE, NONE, video, 1, NONE, 0, &count) == SHORT && count == 7);
    is("vom_summaries, no record", vom_summaries(NONE, NONE, video, 1, NONE, 0, entry, VOM_ENTRY) == SHORT);
    is("vom_replace, no record", vom_replace(NONE, NONE, video, 1, NONE, 0, 0, 7, entry, VOM_ENTRY) == SHORT && video[0] == 0x76543210);
    is("vom_colour, no record", vom_colour(NONE, NONE, 8, 1, &colour, &supremacy) == SHORT && colour == 7 && supremacy == 7);
    is("vom_mix, no record", vom_mix(NONE, NONE, cells, 192, cells, 192, NONE) == SHORT);
    is("vom_sound, no record", vom_sound(NONE, NONE, NONE, &counter, out, 8) == SHORT && counter == 7);
    is("vom_sync_ask, no record", vom_sync_ask(NONE, NONE, VOM_VIDEO, 3, &words) == SHORT && words == 7);
}

static void no_lists(void) {
    uint32_t before[VOM_REGISTERS], setting[VOM_SETTING], counter = 4294967295u;
    uint16_t cells[192], entry[VOM_ENTRY] = {7, 7, 7};
    uint64_t place[2], count = 7;
    memcpy(before, values, sizeof before);
    is("vom_load_and_check, no words", vom_load_and_check(GIVEN, NONE, setting, VOM_SETTING) == 0 && setting[0] == 32 && setting[7] == 6);
    is("vom_load_and_check_sound, no words", vom_load_and_check_sound(GIVEN, NONE) == 0);
    is("the record after no words", !memcmp(before, values, sizeof before));
    is("vom_frame, no cursor", vom_frame(GIVEN, video, 1, NONE, cells, 192) == 0 && cells[3 * 32 + 18] == 40967);
    is("vom_raster, no cursor", vom_raster(GIVEN, video, 1, NONE, 3, cells, 192) == 0 && cells[11] == 40960);
    is("vom_marks, no cursor", vom_marks(GIVEN, video, 1, NONE, 0, &count) == 0 && count == 8);
    is("vom_summaries, no cursor", vom_summaries(GIVEN, video, 1, NONE, 35, entry, VOM_ENTRY) == 0 && entry[0] == 1);
    is("vom_replace, no cursor", vom_replace(GIVEN, video, 1, NONE, 0, 0, 0x76543210, entry, VOM_ENTRY) == 0 && entry[0] == 8);
    is("vom_sound, no words", vom_sound(GIVEN, NONE, &counter, NONE) == 0 && counter == 4294967295u);
    is("the display off", vom_load_word(GIVEN, 0xB0000000 | 2 << 14) == 0);
    is("vom_frame, no video", vom_frame(GIVEN, NONE, NONE, cells, 192) == 0 && cells[3 * 32 + 11] == 36608);
    is("vom_raster, no video", vom_raster(GIVEN, NONE, NONE, 3, cells, 192) == 0 && cells[11] == 36608);
    is("vom_raster_words, no video", vom_raster_words(GIVEN, NONE, 3, place, 2) == 0 && !place[0] && !place[1]);
    is("vom_marks, no video", vom_marks(GIVEN, NONE, NONE, 0, &count) == 0 && count == 0);
    is("vom_summaries, no video", vom_summaries(GIVEN, NONE, NONE, 0, NONE) == 0);
    is("vom_replace, no video", vom_replace(GIVEN, NONE, NONE, 0, 0, 7, NONE) == INDEX_OUTSIDE);
}

static void no_answers(void) {
    uint32_t word = 0x20202020, counter = 7, before = values[8];
    uint16_t list[32] = {0}, mixed[32] = {7};
    is("vom_mix, no cells", vom_mix(GIVEN, NONE, list, 32, mixed, 32) == SHORT && mixed[0] == 7);
    is("vom_mix, no camera", vom_mix(GIVEN, list, 32, NONE, mixed, 32) == SHORT && mixed[0] == 7);
    is("vom_mix, no mixed", vom_mix(GIVEN, list, 32, list, 32, NONE) == SHORT);
    is("vom_load_and_check, no setting", vom_load_and_check(GIVEN, &word, 1, NONE) == SHORT && values[8] == before);
    is("vom_frame, no cells", vom_frame(GIVEN, NONE, NONE, NONE) == SHORT);
    is("vom_raster, no cells", vom_raster(GIVEN, NONE, NONE, 3, NONE) == SHORT);
    is("vom_raster_words, no place", vom_raster_words(GIVEN, NONE, 3, NONE) == SHORT);
    is("vom_sound, no out", vom_sound(GIVEN, &word, 1, &counter, NONE) == SHORT && counter == 7);
    is("vom_sound_pair, no pair", vom_sound_pair(0x20, 3, NONE) == SHORT);
    is("the display on again", vom_load_word(GIVEN, 0xB0000000 | 3 << 14) == 0);
    is("vom_summaries, no entries", vom_summaries(GIVEN, video, 1, NONE, 0, NONE) == SHORT);
    is("vom_replace, no entries", vom_replace(GIVEN, video, 1, NONE, 0, 0, 7, NONE) == SHORT && video[0] == 0x76543210);
}

static void no_files(void) {
    static const uint8_t empty[16];
    uint8_t file[17], text[] = "14 bytes stand";
    uint32_t word = 7;
    uint64_t places[VOM_PLACES], size = 7;
    memset(file, 0xA5, sizeof file);
    is("vom_read, no file", vom_read(NONE, places, VOM_PLACES) == FILE_WRONG);
    is("vom_copy, no file", vom_copy(NONE, &word, 1) == FILE_WRONG && word == 7);
    is("vom_read, no places", vom_read(empty, 16, NONE) == SHORT);
    is("vom_copy, no words", vom_copy(empty, 16, NONE) == 0);
    is("vom_write, no out", vom_write(NONE, NONE, NONE, NONE, NONE, &size) == SHORT && size == 7);
    is("vom_write, no lists", vom_write(NONE, NONE, NONE, NONE, file, 17, &size) == 0 && size == 16);
    is("vom_write, what it wrote", !memcmp(file, empty, 16) && file[16] == 0xA5);
    is("vom_text, no text", vom_text(file, 16, NONE, &size) == SHORT && size == 16);
    is("vom_text, no file", vom_text(NONE, text, sizeof text, &size) == 0 && size == 13 && !memcmp(text, "refused 14 0\nd", 15));
}

int main(void) {
    load_small();
    no_record();
    no_lists();
    no_answers();
    no_files();
    printf("%d answers to NULL, %d wrong\n", asked, wrong);
    return wrong != 0;
}
