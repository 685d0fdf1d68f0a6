// The inputs that main.c times and count.c counts, and each piece of work on them.
#include "bench.h"

enum { LARGEST = 2048 * 1024, PLATE = 4194304, PLATE_WORDS = PLATE / 4 - 4, SOUNDS = 16384, QUEUED = 16384, LONGEST_TEXT = 16 << 20 };
enum { ENTRIES = VOM_ENTRY * 1024, LONGEST = 2048 };

// All write to the same places.
extern uint32_t values[64], noise[PLATE_WORDS], words_out[PLATE_WORDS];
extern uint8_t written[64], file[PLATE], file_out[PLATE], bytes_out[4 * QUEUED];
extern uint16_t cells[LARGEST], entries[ENTRIES], mixed[LONGEST];
extern int16_t sound_out[SOUNDS * 8];
extern uint32_t after;
extern uint64_t marks, length, loaded;
extern struct picture pic;

void die(const char *what);

// The inputs: noise once; then a picture of a size, sound's registers, a plate of the largest size, or one for the printer.
void make_noise(void);
typedef void setting(uint32_t depth);
setting usual, largest, low, smallest;
void set_sound(void);
void set_plate(void);
void set_text(void);

// A queue takes noise: dies where it did not count QUEUED words, or other bytes came out than theirs, low byte first.
void check_queue(void);

// What is done on them: ours, then the baselines by each compiler that the program was built with.
typedef void work(void);
work ours_frame, ours_raster, ours_marks, ours_summaries, ours_replace, ours_mix, ours_sound, ours_copy, ours_write, ours_text, ours_queue;
work per_cell_gcc, tuned_gcc, count_cells_gcc, entry_cells_gcc, replace_cells_gcc, loop_mix_gcc, unjudged_mix_gcc, loop_sound_gcc,
    loop_copy_gcc, loop_put_gcc, ring_queue_gcc;
work per_cell_clang, tuned_clang, by_lines_clang, count_cells_clang, entry_cells_clang, replace_cells_clang, loop_mix_clang,
    unjudged_mix_clang, loop_sound_clang, loop_copy_clang, loop_put_clang, ring_queue_clang;
