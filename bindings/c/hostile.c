/* Random calls over random handles, kinds, numbers, texts and words. Usage: hostile CALLS SEED
 * No call may crash, answer a code that isn't in track.h, answer a code that it doesn't list, or change a handle that it
 * refuses; and nothing may be left at the end (run it under valgrind or a leak checker).
 * With FUZZED defined it is a target of libFuzzer (clang -DFUZZED -fsanitize=fuzzer,address): then the fuzzer's bytes are
 * what is drawn, and it is told which call answered which code, as the archive itself isn't instrumented. */
#include "track.h"

#include <stdio.h>
#include <stdlib.h>
#include <string.h>

enum { HANDLES = 12, TEXTS = 4, MOST_TEXT = 512 };

static track_handle handles[HANDLES];

#ifdef FUZZED
static const uint8_t *drawn, *drawn_end;

static uint64_t draw(uint64_t below) {
    uint64_t found = 0;
    for (uint64_t most = 1; most < below && drawn < drawn_end; most <<= 8) found = found << 8 | *drawn++;
    return found % below;
}
#else
static uint64_t state;

static uint64_t draw(uint64_t below) {
    state = state * 6364136223846793005u + 1442695040888963407u;
    return (state >> 33) % below;
}
#endif

/* Mostly small numbers, and sometimes those at the ends of what fits. */
static uint32_t number(void) {
    static const uint32_t ends[] = {255, 256, 1023, 1024, 65535, 65536, 2147483647, 2147483648u, 4294967294u, 4294967295u};
    return draw(8) ? (uint32_t)draw(8) : ends[draw(sizeof ends / sizeof *ends)];
}

/* The word of the last cell that came with a put, a word of few bits, or any. */
static uint64_t last_word;

static uint64_t word(void) {
    switch (draw(4)) {
    case 0: return last_word;
    case 1: return 0;
    case 2: return (uint64_t)1 << draw(64) | (uint64_t)1 << draw(64);
    default: return draw(1u << 31) << 33 ^ draw(1u << 31) << 12 ^ draw(1u << 31);
    }
}

static const char *const sound[TEXTS] = {
    "track 1\nnodes 4\nk 2\nedge 0 1 1\nedge 1 2 2\nedge 2 3 4\nsub 3\nsub 1\ncallers 1\nmove 0 1\nfind 2 0 1\n",
    "track 2\nnodes 1\nk 1\nsub 0\ncallers 0\noff 0\non 0\n",
    "# a comment\ntrack 1\nnodes 8\nk 3\nedge 0 1 9\nedge 1 2 9\nedge 2 3 9\nedge 3 4 9\nedge 4 5 9\nedge 5 6 9\nedge 6 7 9\nsub 7\ncallers 2\n",
    "",
};

/* A text as it is, or with a few bytes changed, or cut off. */
static size_t text(uint8_t *into) {
#ifdef FUZZED
    if (!draw(2)) {
        size_t taken = (size_t)draw(MOST_TEXT), left = (size_t)(drawn_end - drawn);
        if (taken > left) taken = left;
        memcpy(into, drawn, taken);
        drawn += taken;
        return taken;
    }
#endif
    const char *from = sound[draw(TEXTS)];
    size_t length = strlen(from);
    memcpy(into, from, length);
    if (draw(2)) return length;
    for (uint64_t changes = draw(4); length && changes; changes--) into[draw(length)] = (uint8_t)draw(256);
    return draw(3) ? length : (size_t)draw(length + 1);
}

/* What a call may answer, as bits. */
#define CAN(code) (1u << (code))
static const uint32_t of_handle = CAN(TRACK_OK) | CAN(TRACK_EMPTY_HANDLE) | CAN(TRACK_OTHER_KIND);

static void fail(const char *call, uint32_t code) {
    fprintf(stderr, "hostile: %s answered %u\n", call, code);
    abort();
}

static uint32_t kinds[32];

#ifdef FUZZED
/* A counter for each call and code: the call is told from the others by a hash of its name. */
enum { CALLS = 128 };
__attribute__((section("__libfuzzer_extra_counters"))) static uint8_t answered[CALLS][32];

static void count(const char *call, uint32_t code) {
    uint32_t hash = 0;
    while (*call) hash = hash * 31 + (uint8_t)*call++;
    uint8_t *counter = &answered[hash % CALLS][code];
    if (*counter < UINT8_MAX) ++*counter;
}
#else
static void count(const char *call, uint32_t code) { (void)call, (void)code; }
#endif

static void is_listed(const char *call, uint32_t code, uint32_t listed) {
    if (code >= 32 || !(listed & CAN(code))) fail(call, code);
    kinds[code]++;
    count(call, code);
}

static track_handle *any(void) { return &handles[draw(HANDLES)]; }

/* The state that was saved last. */
enum { MOST_SAVED = 128 };
static uint64_t saved[MOST_SAVED];
static size_t saved_count;

static void save(track_handle *at) {
    uint32_t length = 0, code = track_mover_length(at, &length);
    is_listed("track_mover_length", code, of_handle);
    size_t room = draw(4) ? length : draw(MOST_SAVED + 1);
    if (room > MOST_SAVED) return;
    code = track_mover_save(at, saved, room);
    is_listed("track_mover_save", code, of_handle | CAN(TRACK_NO_ROOM));
    if (code == TRACK_OK) saved_count = room;
}

/* Loads it, at times cut, made longer, or with another word. */
static uint32_t load(track_handle *plan, track_handle *to) {
    uint64_t given[MOST_SAVED];
    size_t words = draw(4) ? saved_count : draw(MOST_SAVED + 1);
    memcpy(given, saved, sizeof given);
    if (draw(2)) given[draw(MOST_SAVED)] = draw(2) ? number() : word();
    uint32_t code = track_mover_load(plan, given, words, to);
    is_listed("track_mover_load", code,
              of_handle | CAN(TRACK_FULL_HANDLE) | CAN(TRACK_SHORT_STATE) | CAN(TRACK_GARBLED_STATE) | CAN(TRACK_NO_NODE) |
                  CAN(TRACK_MIXED_STATE));
    return code;
}

static void make(void) {
    uint8_t given[MOST_TEXT];
    track_refusal refusal = {0, 0, 0};
    track_edge edges[6];
    track_handle *plan = any(), *to = any();
    track_handle before = *to;
    uint32_t code;
    if (plan == to) return;
    switch (draw(6)) {
    case 0:
        code = track_plan_read(given, text(given), to, &refusal);
        is_listed("track_plan_read", code, CAN(TRACK_OK) | CAN(TRACK_FULL_HANDLE) | CAN(TRACK_BAD_NETWORK));
        break;
    case 1:
        for (int i = 0; i < 6; i++) edges[i] = (track_edge){number(), number(), draw(4) ? draw(9) : word()};
        code = track_plan_build(number(), number(), edges, (size_t)draw(7), to, &refusal);
        is_listed("track_plan_build", code, CAN(TRACK_OK) | CAN(TRACK_FULL_HANDLE) | CAN(TRACK_BAD_NETWORK));
        break;
    case 2:
        code = track_plan_share(plan, to);
        is_listed("track_plan_share", code, of_handle | CAN(TRACK_FULL_HANDLE));
        break;
    case 3:
        code = track_finder_new(plan, number(), number(), number(), to);
        is_listed("track_finder_new", code, of_handle | CAN(TRACK_FULL_HANDLE) | CAN(TRACK_NO_NODE) | CAN(TRACK_NO_SUBSCRIBER));
        break;
    case 4: code = load(plan, to); break;
    default:
        code = track_mover_new(plan, number(), number(), to);
        is_listed("track_mover_new", code, of_handle | CAN(TRACK_FULL_HANDLE) | CAN(TRACK_NO_NODE));
    }
    if (code != TRACK_OK && memcmp(&before, to, sizeof before)) fail("a call that wrote a handle which it refused", code);
}

static void ask(track_handle *at) {
    track_sizes sizes;
    track_put put = {{0, 0, 0, 0, 0}, 0};
    track_cell cell;
    track_answer answer;
    track_place place;
    uint32_t node;
    track_room room;
    switch (draw(8)) {
    case 6: is_listed("track_plan_room", track_plan_room(at, number(), &room), of_handle | CAN(TRACK_NO_NODE)); break;
    case 0: is_listed("track_plan_sizes", track_plan_sizes(at, &sizes), of_handle); break;
    case 1: is_listed("track_plan_start", track_plan_start(at, number(), &node), of_handle | CAN(TRACK_NO_SUBSCRIBER)); break;
    case 2:
        is_listed("track_plan_opening", track_plan_opening(at, number(), number(), number(), &put),
                  of_handle | CAN(TRACK_NO_NODE) | CAN(TRACK_PAST_END));
        last_word = put.word;
        break;
    case 3: is_listed("track_finder_next", track_finder_next(at, &cell), of_handle | CAN(TRACK_ENDED)); break;
    case 4: is_listed("track_finder_answer", track_finder_answer(at, &answer), of_handle | CAN(TRACK_LOOKING)); break;
    case 5: save(at); break;
    default: is_listed("track_mover_place", track_mover_place(at, &place), of_handle);
    }
}

static void step(track_handle *at) {
    track_put put = {{0, 0, 0, 0, 0}, 0};
    track_cell cell;
    track_answer answer;
    switch (draw(7)) {
    case 5:
        is_listed("track_finder_look", track_finder_look(at, word(), &cell, &answer), of_handle | CAN(TRACK_BAD_WORD) | CAN(TRACK_ENDED));
        break;
    case 6:
        is_listed("track_finder_again", track_finder_again(at, number(), number(), number()),
                  of_handle | CAN(TRACK_NO_NODE) | CAN(TRACK_NO_SUBSCRIBER));
        break;
    case 0: is_listed("track_finder_saw", track_finder_saw(at, word()), of_handle | CAN(TRACK_ENDED) | CAN(TRACK_BAD_WORD)); break;
    case 1:
        is_listed("track_mover_move", track_mover_move(at, number()),
                  of_handle | CAN(TRACK_NO_NODE) | CAN(TRACK_SAME_PLACE) | CAN(TRACK_UNDER_WAY) | CAN(TRACK_IS_OFF) | CAN(TRACK_NUMBERS_SPENT));
        break;
    case 2:
        is_listed("track_mover_switch", track_mover_switch(at, draw(2)), of_handle | CAN(TRACK_UNDER_WAY) | CAN(TRACK_ALREADY));
        break;
    case 3:
        is_listed("track_mover_next", track_mover_next(at, &put), of_handle | CAN(TRACK_AT_REST));
        last_word = put.word;
        break;
    default: is_listed("track_mover_made", track_mover_made(at), of_handle | CAN(TRACK_AT_REST));
    }
}

/* A crew's calls over any two handles: a crew that is made may take its subscribers and callers from anywhere. */
static void join_crew(void) {
    uint32_t starts[] = {number(), number(), number()}, its = 0;
    track_answer answer;
    uint64_t ticket;
    track_handle *one = any(), *other = any();
    if (one == other) return;
    track_census census;
    switch (draw(8)) {
    case 6:
        is_listed("track_caller_census", track_caller_census(one, number(), &census), of_handle | CAN(TRACK_NO_NODE) | CAN(TRACK_UNRESERVED));
        break;
    case 0:
        is_listed("track_crew_new", track_crew_new(one, starts, (size_t)draw(4), draw(9) ? draw(4) : number(), other),
                  of_handle | CAN(TRACK_FULL_HANDLE) | CAN(TRACK_NO_SUBSCRIBER) | CAN(TRACK_COUNT_TOO_LARGE) | CAN(TRACK_NO_NODE));
        break;
    case 1:
        is_listed("track_crew_next", track_crew_next(one, other, &its), of_handle | CAN(TRACK_FULL_HANDLE) | CAN(TRACK_PAST_END));
        break;
    case 2:
        is_listed("track_actor_reserve", track_actor_reserve(one, draw(9) ? draw(500) : UINT64_MAX - draw(9)),
                  of_handle | CAN(TRACK_COUNT_TOO_LARGE));
        break;
    case 3:
        is_listed("track_caller_find", track_caller_find(one, number(), number(), &answer),
                  of_handle | CAN(TRACK_NO_NODE) | CAN(TRACK_NO_SUBSCRIBER) | CAN(TRACK_UNRESERVED));
        break;
    case 4:
        is_listed("track_subscriber_move", track_subscriber_move(one, number()),
                  of_handle | CAN(TRACK_NO_NODE) | CAN(TRACK_SAME_PLACE) | CAN(TRACK_UNDER_WAY) | CAN(TRACK_IS_OFF));
        break;
    case 5:
        is_listed("track_subscriber_switch", track_subscriber_switch(one, draw(2)), of_handle | CAN(TRACK_UNDER_WAY) | CAN(TRACK_ALREADY));
        break;
    default:
        is_listed("track_subscriber_step", track_subscriber_step(one, &ticket), of_handle | CAN(TRACK_AT_REST) | CAN(TRACK_UNRESERVED));
    }
}

static void say(void) {
    track_fields fields = {number(), number(), number()};
    uint64_t packed = word(), again = 0;
    bool mark = draw(2);
    if (draw(2)) {
        uint32_t code = mark ? track_mark_read(packed, &fields) : track_entry_read(packed, &fields);
        is_listed("a word that is read", code, CAN(TRACK_OK) | CAN(TRACK_BAD_WORD));
        if (code != TRACK_OK) return;
        code = mark ? track_mark_pack(&fields, &again) : track_entry_pack(&fields, &again);
        if (code != TRACK_OK || again != packed) fail("a word that is read and packed again", code);
    } else {
        is_listed("fields that are packed", mark ? track_mark_pack(&fields, &again) : track_entry_pack(&fields, &again),
                  CAN(TRACK_OK) | CAN(TRACK_BAD_FIELDS));
    }
}

static void make_one_call(void) {
    uint64_t which = draw(40);
    if (which < 4) make();
    else if (which < 15) ask(any());
    else if (which < 27) step(any());
    else if (which < 30) say();
    else if (which < 38) join_crew();
    else is_listed("track_close", track_close(any()), CAN(TRACK_OK) | CAN(TRACK_EMPTY_HANDLE));
}

static void close_all(void) {
    for (int i = 0; i < HANDLES; i++) {
        track_close(&handles[i]);
        if (handles[i].full) fail("track_close", 0);
    }
}

#ifdef FUZZED
int LLVMFuzzerTestOneInput(const uint8_t *bytes, size_t length) {
    drawn = bytes, drawn_end = bytes + length, last_word = 0;
    while (drawn < drawn_end) make_one_call();
    close_all();
    return 0;
}
#else
int main(int count, char **words) {
    unsigned long calls = count > 1 ? strtoul(words[1], 0, 10) : 1000000;
    state = count > 2 ? strtoul(words[2], 0, 10) : 1;
    for (unsigned long call = 0; call < calls; call++) make_one_call();
    close_all();
    int seen = 0;
    for (int code = 0; code < 32; code++) seen += kinds[code] > 0;
    printf("%lu calls, %d codes\n", calls, seen);
    return 0;
}
#endif
