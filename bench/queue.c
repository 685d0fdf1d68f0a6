// The chip's queues as a ring: record, reply and the test of a record in each call are as ours, and the fields are changed in place.
#include "bench.h"

// 0 video, 1 cursor, any other number sound, which asks for four words when fresh.
vom_queue BY(fresh)(uint16_t kind) { return (vom_queue){.kind = kind, .coming = kind > 1 ? 4 : 0}; }

// How many words a queue holds, 4 or 8. A record that is not fit is replaced by a fresh one of its kind.
static uint32_t fitted(vom_queue *q) {
    uint32_t depth = q->kind ? 4 : 8;
    if (q->place >= depth || q->held > depth || q->coming > depth || q->taken > 3 || (q->taken && !q->held) || q->held > q->count)
        *q = BY(fresh)(q->kind);
    return depth;
}

static vom_reply answer(const vom_queue *q, uint32_t number, uint16_t byte) {
    return (vom_reply){q->count, number, byte, q->coming >= 4};
}

// So many words more are still to come, up to the depth.
static void add(vom_queue *q, uint32_t depth, uint32_t words) { q->coming = words < depth - q->coming ? q->coming + words : depth; }

vom_reply BY(ask)(vom_queue *q, uint32_t words) {
    add(q, fitted(q), words);
    return answer(q, 0, 0);
}

vom_reply BY(load)(vom_queue *q, uint32_t word) {
    uint32_t depth = fitted(q);
    if (q->held == depth || q->count == UINT64_MAX) return answer(q, 16, 0);
    q->words[(q->place + q->held) & (depth - 1)] = word;
    q->held++;
    q->count++;
    if (q->coming) q->coming--;
    return answer(q, 0, 0);
}

// The word at the place is wholly read: its room is free again, and where the rule says so four words more are asked for.
static void done(vom_queue *q, uint32_t depth, uint32_t control) {
    if (q->kind ? q->kind > 1 && q->held == 1 : q->place % 4 == control / 16 % 4) add(q, depth, 4);
    q->taken = 0;
    q->place = (q->place + 1) & (depth - 1);
    q->held--;
}

vom_reply BY(read)(vom_queue *q, uint32_t control) {
    uint32_t depth = fitted(q);
    if (!q->held) return answer(q, 17, 0);
    uint16_t byte = q->words[q->place] >> 8 * q->taken & 255;
    if (q->taken < 3) q->taken++;
    else done(q, depth, control);
    return answer(q, 0, byte);
}
