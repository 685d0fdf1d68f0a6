/* One raster of the paper's small plate laid over a camera that shows 5A0H to 5BFH: mix */
#include <stdio.h>
#include "vombelishi.h"

enum { N = 32, RASTER = 3 };
#define GIVEN values, VOM_REGISTERS, written, VOM_REGISTERS

static uint32_t values[VOM_REGISTERS];
static uint8_t written[VOM_REGISTERS];

/* Supremacy (1000H) for the border and for palette entry 2. */
static uint64_t load(void) {
    static const uint32_t across[] = {15, 1, 3, 2, 6, 11}, down[] = {5, 0, 1, 2, 3, 4};
    uint32_t words[30], setting[VOM_SETTING], n = 0;
    words[n++] = 0xE000000B;
    words[n++] = 0x40001F00;
    for (uint32_t i = 0; i < 16; i++) words[n++] = i << 26 | (i == 2 ? 0x1000 | i : i);
    for (uint32_t i = 0; i < 6; i++) words[n++] = (0x80 + 4 * i) << 24 | across[i] << 14;
    for (uint32_t i = 0; i < 6; i++) words[n++] = (0xA0 + 4 * i) << 24 | down[i] << 14;
    return vom_load_and_check(GIVEN, words, n, setting, VOM_SETTING);
}

static int refused(uint64_t answer) {
    if (answer) printf("refused %u %u\n", VOM_NUMBER(answer), VOM_DETAIL(answer));
    return answer != 0;
}

int main(void) {
    uint32_t video = 0x76543210;
    uint16_t cells[N], camera[N], mixed[N], colour;
    uint8_t supremacy;
    for (int x = 0; x < N; x++) camera[x] = 0x5A0 + x;
    if (refused(load())) return 1;
    if (refused(vom_colour(GIVEN, 4, 2, &colour, &supremacy))) return 1;
    printf("pixel 2 shows %03X, supremacy %u\n", colour, supremacy);
    if (refused(vom_raster(GIVEN, &video, 1, NULL, 0, RASTER, cells, N))) return 1;
    if (refused(vom_mix(GIVEN, cells, N, camera, N, mixed, N))) return 1;
    for (int x = 0; x < N; x++) printf("%03X%c", mixed[x], x % 16 == 15 ? '\n' : ' ');
    /* A camera number has 12 bits. */
    camera[9] = 0x1000;
    return !refused(vom_mix(GIVEN, cells, N, camera, N, mixed, N));
}
