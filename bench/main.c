// Times ours and the baselines on the same inputs and prints one table: how many times as fast ours is.
// main PRINTER PLATE: PRINTER is our program, PLATE a file that is written for it.
// main lines: only how many times as fast our frame is as by lines with clang, for each size and depth: in the middle of many
// paired times, and by best times.
#include "works.h"
#include <fcntl.h>
#include <spawn.h>
#include <stdio.h>
#include <stdlib.h>
#include <string.h>
#include <sys/wait.h>
#include <time.h>
#include <unistd.h>

extern char **environ;

enum { MOST_RUNS = 7, MOST_ROUNDS = 1000 };

// What ours wrote, kept to be compared.
static uint32_t words_kept[PLATE_WORDS];
static uint8_t file_kept[PLATE];
static uint16_t cells_kept[LARGEST], entries_kept[ENTRIES], mixed_kept[LONGEST];
static int16_t sound_kept[SOUNDS * 8];
static const struct accepted *accepted; // the same registers in the Rust wrapper's type

static void by_wrapper(void) { wrapped_frame(accepted, pic.video, pic.video_words, pic.shape, pic.cursor_words, cells, LARGEST); }
static void rust(void) { stretches_rust(&pic, cells); }
static void set_cells(void) { memset(cells, 1, 2 * pic.n * pic.v); }
static void mem_copy(void) { memcpy(words_out, file, 4 * PLATE_WORDS); }
static void mem_put(void) { memcpy(file_out, noise, 4 * PLATE_WORDS); }
#ifndef CLANG
#define tuned_clang NULL
#define by_lines_clang NULL
#define loop_mix_clang NULL
#define unjudged_mix_clang NULL
#define loop_sound_clang NULL
#define loop_copy_clang NULL
#define loop_put_clang NULL
#define ring_queue_clang NULL
#endif

static double seconds(void) {
    struct timespec t;
    clock_gettime(CLOCK_MONOTONIC, &t);
    return t.tv_sec + t.tv_nsec * 1e-9;
}

// The best time of each, in seconds: all take turns, so that what else the machine does falls on all alike.
static void race(work *const *runs, double *best, int count, int rounds) {
    int times[MOST_RUNS];
    for (int i = 0; i < count; i++) {
        if (!runs[i]) continue;
        runs[i]();
        double t = seconds();
        runs[i]();
        t = seconds() - t;
        times[i] = t < 50e-6 ? 50e-6 / t + 1 : 1;
        best[i] = t;
    }
    for (int r = 0; r < rounds; r++)
        for (int i = 0; i < count; i++) {
            if (!runs[i]) continue;
            double t = seconds();
            for (int k = 0; k < times[i]; k++) runs[i]();
            t = (seconds() - t) / times[i];
            if (t < best[i]) best[i] = t;
        }
}

static void row(const char *name, work *const *runs, int count, int rounds) {
    double best[MOST_RUNS];
    race(runs, best, count, rounds);
    printf("%-26s %9.*f", name, best[0] < 1e-6 ? 3 : 1, best[0] * 1e6);
    for (int i = 1; i < count; i++)
        if (runs[i]) printf(" %9.2f", best[i] / best[0]);
        else printf(" %9s", "-");
    printf("\n");
}

// ---- the baselines are right

static void same_frame(work *other, const char *name) {
    if (!other) return;
    memset(cells, 0xAA, sizeof cells);
    other();
    if (memcmp(cells, cells_kept, sizeof cells)) die(name);
}

static void same_marks(void) {
    ours_marks();
    uint64_t ours = marks;
    count_cells_gcc();
    if (marks != ours) die("the mark counts differ");
}

static void same_frames(void) {
    accepted = wrapped_accepted(values, written);
    memset(cells, 0xAA, sizeof cells);
    ours_frame();
    memcpy(cells_kept, cells, sizeof cells);
    same_frame(by_wrapper, "the frame by the Rust wrapper differs");
    same_frame(per_cell_gcc, "the cell by cell frame differs");
    same_frame(tuned_gcc, "the frame of stretches by gcc differs");
    same_frame(tuned_clang, "the frame of stretches by clang differs");
    same_frame(by_lines_clang, "the frame of lines by clang differs");
    same_frame(rust, "the Rust frame differs");
    same_marks();
}

static void same_entries(work *ours, work *other) {
    memset(entries, 0xAA, sizeof entries);
    ours();
    memcpy(entries_kept, entries, sizeof entries);
    memset(entries, 0xAA, sizeof entries);
    other();
    if (memcmp(entries, entries_kept, sizeof entries)) die("the entries differ");
}

static void same_summaries(void) { same_entries(ours_summaries, entry_cells_gcc); }
static void same_replaced(void) { same_entries(ours_replace, replace_cells_gcc); }

static void same_mix(work *other) {
    if (!other) return;
    memset(mixed, 0xAA, sizeof mixed);
    ours_mix();
    memcpy(mixed_kept, mixed, sizeof mixed);
    memset(mixed, 0xAA, sizeof mixed);
    other();
    if (memcmp(mixed, mixed_kept, sizeof mixed)) die("the mixed rasters differ");
}

static void same_sound(work *other) {
    if (!other) return;
    ours_sound();
    uint32_t ours = after;
    memcpy(sound_kept, sound_out, sizeof sound_out);
    memset(sound_out, 0xAA, sizeof sound_out);
    other();
    if (ours != after || memcmp(sound_out, sound_kept, sizeof sound_out)) die("the sounds differ");
}

static void same_copy(work *other) {
    if (!other) return;
    memset(words_out, 0, sizeof words_out);
    other();
    if (memcmp(words_out, words_kept, sizeof words_out)) die("the copies differ");
}

static void same_put(work *other) {
    if (!other) return;
    memset(file_out, 0, sizeof file_out);
    other();
    if (memcmp(file_out, file_kept, 4 * PLATE_WORDS)) die("the written plates differ");
}

static void same_queue(work *other) {
    if (!other) return;
    memset(bytes_out, 0xAA, sizeof bytes_out);
    other();
    check_queue();
}

// ---- the printer's text: by the call, and by the program as a process

static void print_plate(const char *printer, const char *plate) {
    set_text();
    int out = open(plate, O_WRONLY | O_CREAT | O_TRUNC, 0644);
    if (out < 0 || write(out, file_out, length) != (ssize_t)length || close(out)) die("the printer's plate was not written");
    posix_spawn_file_actions_t actions;
    posix_spawn_file_actions_init(&actions);
    posix_spawn_file_actions_addopen(&actions, 0, plate, O_RDONLY, 0);
    posix_spawn_file_actions_addopen(&actions, 1, "/dev/null", O_WRONLY, 0);
    double best = 1e9;
    for (int r = 0; r < 60; r++) {
        char *words[] = {(char *)printer, NULL};
        pid_t child;
        int status;
        double t = seconds();
        if (posix_spawn(&child, printer, &actions, NULL, words, environ) || waitpid(child, &status, 0) < 0 || status)
            die("the printer did not run");
        t = seconds() - t;
        if (t < best) best = t;
    }
    double call[1];
    race((work *const[]){ours_text}, call, 1, 40);
    printf("\nthe printer's text of a plate of 65,536 bytes, 2048 x 1024, a cursor in every raster: %llu bytes\n",
           (unsigned long long)length);
    printf("%-26s %9.1f ms\n%-26s %9.1f ms, its start included\n", "the call", call[0] * 1e3, "the program", best * 1e3);
}

// ---- the tables

static const uint32_t depths[4] = {1, 2, 4, 8};
static const struct size {
    const char *name;
    setting *set;
    int rounds;
} sizes[4] = {{"1024 x 312", usual, 400}, {"2048 x 1024", largest, 60}, {"1024 x 32", low, 400}, {"1024 x 1", smallest, 400}};

// A row for each depth of a size; first what compares the others with ours.
static void rows(const struct size *size, void same(void), work *const *runs, int count) {
    for (int i = 0; i < 4; i++) {
        char name[64];
        sprintf(name, "%s, depth %u", size->name, depths[i]);
        size->set(depths[i]);
        same();
        row(name, runs, count, size->rounds);
    }
}

static void time_frames(void) {
    work *const runs[MOST_RUNS] = {ours_frame, by_wrapper, per_cell_gcc, tuned_gcc, tuned_clang, rust, set_cells};
    printf("%-26s %9s %9s %9s %9s %9s %9s %9s\n", "frame", "ours us", "ours by", "per cell", "tuned", "tuned", "Rust", "memset");
    printf("%-26s %9s %9s %9s %9s %9s\n", "", "", "wrapper", "gcc", "gcc", "clang");
    rows(&sizes[0], same_frames, runs, MOST_RUNS);
    rows(&sizes[1], same_frames, runs, MOST_RUNS);
    rows(&sizes[3], same_frames, runs, MOST_RUNS);
}

static int by_size(const void *a, const void *b) {
    double x = *(const double *)a, y = *(const double *)b;
    return (x > y) - (x < y);
}

static double time_of(work *run) {
    double t = seconds();
    run();
    run();
    return seconds() - t;
}

static void print_lines(void) {
    static const int rounds[2] = {MOST_ROUNDS, 100};
    static double pairs[MOST_ROUNDS];
    for (int size = 0; size < 2; size++)
        for (int i = 0; i < 4; i++) {
            double ours = 1, theirs = 1;
            sizes[size].set(depths[i]);
            same_frames();
            for (int r = 0; r < rounds[size]; r++) {
                double a = time_of(ours_frame), b = time_of(by_lines_clang);
                if (a < ours) ours = a;
                if (b < theirs) theirs = b;
                pairs[r] = b / a;
            }
            qsort(pairs, rounds[size], sizeof *pairs, by_size);
            printf("%.4f %.4f ", pairs[rounds[size] / 2], theirs / ours);
        }
    printf("\n");
}

static void time_marks(void) {
    printf("\n%-26s %9s %9s %9s\n", "marks", "ours us", "our frame", "per cell");
    rows(&sizes[0], same_marks, (work *const[]){ours_marks, ours_frame, count_cells_gcc}, 3);
}

static void time_summaries(void) {
    work *const runs[4] = {ours_summaries, ours_frame, ours_marks, entry_cells_gcc};
    printf("\n%-26s %9s %9s %9s %9s\n", "marks per raster", "ours us", "our frame", "our marks", "per cell");
    for (int size = 0; size < 2; size++) rows(&sizes[size], same_summaries, runs, 4);
}

// A replacement is one raster's work: sizes of one width take the same time, whatever their height.
static void time_replaced(void) {
    work *const runs[3] = {ours_replace, ours_summaries, replace_cells_gcc};
    printf("\n%-26s %9s %9s %9s\n", "one word replaced", "ours us", "all anew", "per cell");
    for (int size = 0; size < 3; size++) rows(&sizes[size], same_replaced, runs, 3);
}

// One raster; the last two columns are of a loop that judges no number of the camera.
static void time_mix(void) {
    work *const runs[5] = {ours_mix, loop_mix_gcc, loop_mix_clang, unjudged_mix_gcc, unjudged_mix_clang};
    printf("\n%-26s %9s %9s %9s %9s %9s\n", "one raster mixed", "ours us", "loop gcc", "clang", "unjudged", "clang");
    for (int size = 0; size < 2; size++) {
        char name[64];
        sizes[size].set(8);
        for (int i = 1; i < 5; i++) same_mix(runs[i]);
        sprintf(name, "%u cells", pic.n);
        row(name, runs, 5, 400);
    }
}

static void time_sound(void) {
    set_sound();
    same_sound(loop_sound_gcc);
    same_sound(loop_sound_clang);
    printf("\n%-26s %9s %9s %9s\n", "sound", "ours us", "loop gcc", "clang");
    row("65,536 bytes", (work *const[]){ours_sound, loop_sound_gcc, loop_sound_clang}, 3, 400);
}

static void time_plates(void) {
    set_plate();
    memcpy(file_kept, file_out, PLATE);
    ours_copy();
    memcpy(words_kept, words_out, sizeof words_out);
    if (memcmp(words_out, noise, sizeof noise)) die("the plate did not survive the round trip");
    same_copy(loop_copy_gcc);
    same_copy(loop_copy_clang);
    same_copy(mem_copy);
    same_put(loop_put_gcc);
    same_put(loop_put_clang);
    same_put(mem_put);
    printf("\n%-26s %9s %9s %9s %9s\n", "plates of 4,194,304 bytes", "ours us", "loop gcc", "clang", "memcpy");
    row("copy out", (work *const[]){ours_copy, loop_copy_gcc, loop_copy_clang, mem_copy}, 4, 200);
    row("write", (work *const[]){ours_write, loop_put_gcc, loop_put_clang, mem_put}, 4, 200);
}

static void time_queue(void) {
    same_queue(ours_queue);
    same_queue(ring_queue_gcc);
    same_queue(ring_queue_clang);
    printf("\n%-26s %9s %9s %9s\n", "video queue", "ours us", "ring gcc", "clang");
    row("65,536 bytes", (work *const[]){ours_queue, ring_queue_gcc, ring_queue_clang}, 3, 400);
}

int main(int count, char **words) {
    make_noise();
#ifdef CLANG
    if (count == 2 && !strcmp(words[1], "lines")) {
        print_lines();
        return 0;
    }
#endif
    if (count != 3) die("usage: main PRINTER PLATE, or main lines");
    printf("best times in microseconds, and how many times as fast ours is as each other\n\n");
    time_frames();
    time_marks();
    time_summaries();
    time_replaced();
    time_mix();
    time_sound();
    time_plates();
    time_queue();
    print_plate(words[1], words[2]);
}
