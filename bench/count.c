// Does one piece of work so many times, to have its instructions counted: count WORK SIZE DEPTH TIMES (bench/count says which there are).
#include "works.h"
#include <stdlib.h>
#include <string.h>

static const struct {
    const char *name;
    work *run;
} works[] = {
    {"frame", ours_frame}, {"raster", ours_raster}, {"marks", ours_marks}, {"summaries", ours_summaries}, {"replace", ours_replace},
    {"mix", ours_mix}, {"sound", ours_sound}, {"copy", ours_copy}, {"write", ours_write}, {"text", ours_text}, {"queue", ours_queue},
    {"frame-lines", by_lines_clang}, {"frame-stretches", tuned_clang}, {"frame-cells", per_cell_clang},
    {"marks-cells", count_cells_clang}, {"summaries-cells", entry_cells_clang}, {"replace-cells", replace_cells_clang},
    {"mix-loop", loop_mix_clang}, {"mix-unjudged", unjudged_mix_clang}, {"sound-loop", loop_sound_clang},
    {"copy-loop", loop_copy_clang}, {"write-loop", loop_put_clang}, {"queue-ring", ring_queue_clang},
};

static void make(const char *input, uint32_t depth) {
    if (!strcmp(input, "1024x312")) usual(depth);
    else if (!strcmp(input, "2048x1024")) largest(depth);
    else if (!strcmp(input, "1024x32")) low(depth);
    else if (!strcmp(input, "65536-bytes-of-sound")) set_sound();
    else if (!strcmp(input, "4194304-bytes")) set_plate();
    else if (!strcmp(input, "65536-bytes")) set_text();
    else if (strcmp(input, "65536-bytes-queued")) die("no such input");
}

int main(int count, char **words) {
    if (count != 5) die("usage: count WORK INPUT DEPTH TIMES");
    make_noise();
    make(words[2], atoi(words[3]));
    for (size_t i = 0; i < sizeof works / sizeof *works; i++)
        if (!strcmp(works[i].name, words[1])) {
            for (int times = atoi(words[4]); times > 0; times--) works[i].run();
            if (!strcmp(words[2], "65536-bytes-queued")) check_queue();
            return 0;
        }
    die("no such work");
}
