/* What calls cost, in nanoseconds: the steps of a find, a whole find over cells in memory, a put. Usage: cost NETWORK
 * A find is made twice: by a finder that begins again in its place, with a call for each look; and by a finder of its own,
 * with two. Each figure is the mean of a million or so. Times are of one machine and one run: compare them with one another. */
#define _POSIX_C_SOURCE 199309L

#include "track.h"

#include <stdio.h>
#include <stdlib.h>
#include <string.h>
#include <time.h>

enum { MOST_TEXT = 4194304, LEVELS = 32, FINDS = 200000, MOVES = 20000 };

static uint8_t text[MOST_TEXT];
static uint64_t *presence, *entries[LEVELS];
static track_sizes sizes;

static void must(uint32_t code) {
    if (code == TRACK_OK) return;
    fprintf(stderr, "cost: a call answered %u\n", code);
    exit(1);
}

static uint64_t *place_of(const track_cell *cell) {
    return cell->kind == TRACK_PRESENCE ? &presence[cell->node] : &entries[cell->level][cell->cluster];
}

static double now(void) {
    struct timespec at;
    clock_gettime(CLOCK_MONOTONIC, &at);
    return (double)at.tv_sec * 1e9 + (double)at.tv_nsec;
}

int main(int count, char **words) {
    FILE *file = count > 1 ? fopen(words[1], "rb") : 0;
    if (!file) return fprintf(stderr, "usage: cost NETWORK\n"), 2;
    size_t length = fread(text, 1, MOST_TEXT, file);
    fclose(file);
    track_handle plan = TRACK_EMPTY, mover = TRACK_EMPTY, finder = TRACK_EMPTY;
    track_refusal refusal;
    track_put put;
    track_cell cell;
    track_answer answer;
    double begun = now();
    must(track_plan_read(text, length, &plan, &refusal));
    printf("plan %.0f microseconds\n", (now() - begun) / 1e3);
    must(track_plan_sizes(&plan, &sizes));
    presence = calloc(sizes.nodes, sizeof *presence);
    for (uint32_t level = 0; level < sizes.levels; level++) entries[level] = calloc(sizes.nodes, sizeof **entries);
    for (uint32_t index = 0; index <= sizes.levels; index++) {
        must(track_plan_opening(&plan, 0, 0, index, &put));
        *place_of(&put.cell) = put.word;
    }
    must(track_mover_new(&plan, 0, 0, &mover));
    unsigned long puts = 0, looks = 0;
    begun = now();
    for (uint32_t move = 0, at = 0; move < MOVES; move++) {
        uint32_t to = (at + 1 + move % (sizes.nodes - 1)) % sizes.nodes;
        must(track_mover_move(&mover, to));
        for (at = to; track_mover_next(&mover, &put) == TRACK_OK; puts++) {
            *place_of(&put.cell) = put.word;
            must(track_mover_made(&mover));
        }
    }
    printf("put %.1f\n", (now() - begun) / (double)puts);
    must(track_finder_new(&plan, 0, 0, 1, &finder));
    begun = now();
    for (uint32_t find = 0; find < FINDS; find++) {
        must(track_finder_again(&finder, find % sizes.nodes, 0, 1));
        must(track_finder_next(&finder, &cell));
        uint32_t code;
        for (looks++; (code = track_finder_look(&finder, *place_of(&cell), &cell, &answer)) == TRACK_OK;) looks++;
        if (code != TRACK_ENDED) must(code);
    }
    double one = now() - begun;
    must(track_close(&finder));
    printf("find %.0f, of %.1f looks with a call for each; a look, with its share of the begin, %.1f\n", one / FINDS,
           (double)looks / FINDS, one / (double)looks);
    looks = 0;
    begun = now();
    for (uint32_t find = 0; find < FINDS; find++) {
        must(track_finder_new(&plan, find % sizes.nodes, 0, 1, &finder));
        for (; track_finder_next(&finder, &cell) == TRACK_OK; looks++) must(track_finder_saw(&finder, *place_of(&cell)));
        must(track_finder_answer(&finder, &answer));
        must(track_close(&finder));
    }
    double all = now() - begun;
    begun = now();
    for (uint32_t find = 0; find < FINDS; find++) {
        must(track_finder_new(&plan, find % sizes.nodes, 0, 1, &finder));
        must(track_close(&finder));
    }
    double ends = now() - begun;
    printf("find %.0f, of %.1f looks with two calls for each; a look %.1f; its begin and end %.0f\n", all / FINDS, (double)looks / FINDS,
           (all - ends) / (double)looks, ends / FINDS);
    must(track_close(&mover));
    must(track_close(&plan));
    return 0;
}
