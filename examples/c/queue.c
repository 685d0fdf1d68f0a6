/* Feeds a video queue and reads it as a bench does, over five rasters of which two show five words each: queue */
#include <stdio.h>
#include "vombelishi.h"

enum { CONTROL = 0x20 }; /* four more words are asked for where reading passes the end of word 2 or 6 */

/* Loads four words at a time, while the queue asks and has room for them. */
static vom_reply feed(vom_queue *queue, vom_reply reply) {
    static uint32_t next = 0x40;
    while (reply.asks && queue->held <= 4)
        for (int i = 0; i < 4; i++) reply = vom_queue_load(queue, next++);
    return reply;
}

/* Reads a raster's bytes and prints each word's first. */
static vom_reply show(vom_queue *queue, vom_reply reply) {
    for (int i = 0; i < 5 * 4 && !reply.number; i++) {
        reply = feed(queue, reply);
        reply = vom_queue_read(queue, CONTROL);
        if (i % 4 == 0) printf(" %02x", reply.byte);
    }
    return reply;
}

int main(void) {
    static uint32_t values[VOM_REGISTERS], words;
    static uint8_t written[VOM_REGISTERS];
    const uint32_t registers[] = {0xE0000000 | CONTROL, 0xAC000000 | 1 << 14, 0xB0000000 | 3 << 14}; /* VDS 2, VDE 4 */
    for (int i = 0; i < 3; i++)
        if (vom_load_word(values, VOM_REGISTERS, written, VOM_REGISTERS, registers[i])) return 1;
    vom_queue queue = vom_queue_fresh(VOM_VIDEO);
    for (uint32_t y = 0; y < 5; y++) {
        vom_queue_vertical_sync(&queue, y);
        if (vom_sync_ask(values, VOM_REGISTERS, written, VOM_REGISTERS, VOM_VIDEO, y, &words)) return 1;
        printf("raster %u asks for %u:", y, words);
        vom_reply reply = vom_queue_ask(&queue, words);
        if (y == 2 || y == 3) reply = show(&queue, reply);
        printf(" loaded %u, held %u, refused %u\n", (unsigned)reply.count, queue.held, reply.number);
    }
    return 0;
}
