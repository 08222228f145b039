/* Each allocation of a run fails in turn: the call that wanted it says so and changes nothing, the same call then succeeds,
 * and nothing is left at the end. Link it with -Wl,--wrap=malloc,--wrap=realloc,--wrap=free. Usage: memory */
#include "track.h"

#include <stdio.h>
#include <stdlib.h>
#include <string.h>

void *__real_malloc(size_t size);
void *__real_realloc(void *at, size_t size);
void __real_free(void *at);

static long made, fails_at, held;
static bool counting;

static bool fails(void) { return counting && ++made == fails_at; }

void *__wrap_malloc(size_t size) {
    if (fails()) return 0;
    void *at = __real_malloc(size);
    held += counting && at;
    return at;
}

void *__wrap_realloc(void *at, size_t size) { return fails() ? 0 : __real_realloc(at, size); }

void __wrap_free(void *at) {
    held -= counting && at;
    __real_free(at);
}

static void check(bool is_right, const char *what) {
    if (is_right) return;
    fprintf(stderr, "memory: allocation %ld: %s\n", fails_at, what);
    exit(1);
}

static const char text[] = "track 1\nnodes 6\nk 2\nedge 0 1 2\nedge 1 2 3\nedge 2 3 1\nedge 3 4 2\nedge 4 5 5\nsub 0\nsub 5\ncallers 1\n";
static const track_edge edges[] = {{0, 1, 2}, {1, 2, 3}, {2, 0, 1}};

/* A call that makes something in `to`: where memory fails it changed nothing, and it succeeds when asked again. */
#define MAKE(to, call)                                                                             \
    do {                                                                                           \
        track_handle before = to;                                                                  \
        uint32_t code = call;                                                                      \
        if (code == TRACK_NO_MEMORY) {                                                             \
            check(!memcmp(&before, &to, sizeof before), "a handle has changed");                   \
            code = call;                                                                           \
        }                                                                                          \
        check(code == TRACK_OK, #call);                                                            \
    } while (0)

static void play(void) {
    track_handle plan = TRACK_EMPTY, other = TRACK_EMPTY, built = TRACK_EMPTY, finder = TRACK_EMPTY, mover = TRACK_EMPTY,
                 again = TRACK_EMPTY;
    track_handle crew = TRACK_EMPTY, members[] = {TRACK_EMPTY, TRACK_EMPTY, TRACK_EMPTY}, none = TRACK_EMPTY;
    const uint32_t starts[] = {0, 5};
    uint32_t number, code;
    uint64_t ticket;
    track_census census;
    track_room room;
    track_refusal refusal;
    track_put put;
    track_cell cell;
    track_answer answer;
    uint64_t state[64];
    uint32_t count;
    MAKE(plan, track_plan_read((const uint8_t *)text, sizeof text - 1, &plan, &refusal));
    MAKE(other, track_plan_share(&plan, &other));
    MAKE(built, track_plan_build(3, 2, edges, 3, &built, &refusal));
    MAKE(finder, track_finder_new(&plan, 3, 0, 2, &finder));
    MAKE(mover, track_mover_new(&other, 0, 0, &mover));
    check(track_mover_length(&mover, &count) == TRACK_OK && count <= 64, "length");
    if (track_mover_save(&mover, state, count) == TRACK_NO_MEMORY) check(track_mover_save(&mover, state, count) == TRACK_OK, "save");
    MAKE(again, track_mover_load(&plan, state, count, &again));
    MAKE(crew, track_crew_new(&plan, starts, 2, 1, &crew));
    for (uint32_t left = 3; left--;) {
        MAKE(members[left], track_crew_next(&crew, &members[left], &number));
        check(number == left, "a member was lost");
    }
    check(track_crew_next(&crew, &none, &number) == TRACK_PAST_END && track_close(&crew) == TRACK_OK, "the end of a crew");
    MAKE(members[0], track_actor_reserve(&members[0], 1000));
    check(track_plan_room(&plan, 0, &room) == TRACK_OK, "room");
    MAKE(members[2], track_actor_reserve(&members[2], room.looks + 1));
    check(track_subscriber_move(&members[0], 3) == TRACK_OK, "move");
    while (track_subscriber_step(&members[0], &ticket) == TRACK_OK) {}
    check(track_caller_find(&members[2], 0, 0, &answer) == TRACK_OK && answer.node == 3, "find");
    check(track_caller_census(&members[2], 3, &census) == TRACK_OK && census.who == 1, "census");
    for (uint32_t i = 0; i < 3; i++) check(track_close(&members[i]) == TRACK_OK, "close");
    check(track_close(&plan) == TRACK_OK, "close");
    for (uint32_t to = 5; to; to--) {
        check(track_mover_move(&mover, to) == TRACK_OK, "move");
        while (track_mover_next(&mover, &put) == TRACK_OK) check(track_mover_made(&mover) == TRACK_OK, "made");
    }
    while (track_finder_next(&finder, &cell) == TRACK_OK) check(track_finder_saw(&finder, 0) == TRACK_OK, "saw");
    check(track_finder_answer(&finder, &answer) == TRACK_OK && answer.kind == TRACK_AGAIN, "answer");
    long before = made;
    check(track_finder_again(&finder, 1, 0, 2) == TRACK_OK, "again");
    while ((code = track_finder_look(&finder, 0, &cell, &answer)) == TRACK_OK) {}
    check(code == TRACK_ENDED && answer.kind == TRACK_AGAIN && made == before, "looks that want memory");
    check(track_close(&other) == TRACK_OK && track_close(&built) == TRACK_OK, "close");
    check(track_close(&finder) == TRACK_OK && track_close(&mover) == TRACK_OK && track_close(&again) == TRACK_OK, "close");
}

int main(void) {
    long last = 0;
    do {
        last = made;
        made = 0;
        fails_at++;
        held = 0;
        counting = true;
        play();
        counting = false;
        check(held == 0, "something is left");
    } while (made >= fails_at);
    printf("%ld allocations, each failed in turn\n", last);
    return 0;
}
