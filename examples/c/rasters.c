/* Marks of three rasters of one word each, kept while a word is replaced: rasters */
#include <stdio.h>
#include "vombelishi.h"

enum { THRESHOLD = 30, RASTERS = 3, VDS = 3 };
#define GIVEN values, VOM_REGISTERS, written, VOM_REGISTERS

static uint32_t values[VOM_REGISTERS];
static uint8_t written[VOM_REGISTERS];

/* Depth 4, a palette of sixteen reds, a display of 8 x 3 from raster 3 on. */
static uint64_t load(void) {
    static const uint32_t across[] = {15, 1, 3, 2, 6, 11}, down[] = {7, 0, 1, 2, 5, 6};
    uint32_t words[30], setting[VOM_SETTING], n = 0;
    words[n++] = 0xE000000B;
    words[n++] = 0x40000F00;
    for (uint32_t i = 0; i < 16; i++) words[n++] = i << 26 | i;
    for (uint32_t i = 0; i < 6; i++) words[n++] = (0x80 + 4 * i) << 24 | across[i] << 14;
    for (uint32_t i = 0; i < 6; i++) words[n++] = (0xA0 + 4 * i) << 24 | down[i] << 14;
    return vom_load_and_check(GIVEN, words, n, setting, VOM_SETTING);
}

static void show(const uint16_t *entries) {
    for (int r = 0; r < RASTERS; r++, entries += VOM_ENTRY)
        printf("raster %d marks %u least %u greatest %u\n", VDS + r, entries[0], entries[1], entries[2]);
}

static int refused(uint64_t answer) {
    if (answer) printf("refused %u %u\n", VOM_NUMBER(answer), VOM_DETAIL(answer));
    return answer != 0;
}

int main(void) {
    uint32_t video[RASTERS] = {0x76543210, 0x11111111, 0xFEDCBA98};
    uint16_t entries[VOM_ENTRY * RASTERS];
    if (refused(load())) return 1;
    if (refused(vom_summaries(GIVEN, video, RASTERS, NULL, 0, THRESHOLD, entries, VOM_ENTRY * RASTERS))) return 1;
    show(entries);
    if (refused(vom_replace(GIVEN, video, RASTERS, NULL, 0, THRESHOLD, 1, 0xFFFF1111, entries, VOM_ENTRY * RASTERS))) return 1;
    printf("word 1 is now %08X\n", video[1]);
    show(entries);
    /* There is no word 3. */
    return !refused(vom_replace(GIVEN, video, RASTERS, NULL, 0, THRESHOLD, 3, 0, entries, VOM_ENTRY * RASTERS));
}
