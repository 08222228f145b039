/* The members of a crew, each on a thread of its own, over the one directory that they share. A subscriber goes round the
 * nodes in their order, so the number of its moves tells where it is; what a caller sees of it never goes back, and no two
 * puts have one ticket. Usage: crew [ROUNDS] */
#include "track.h"

#include <pthread.h>
#include <stdio.h>
#include <stdlib.h>
#include <string.h>

enum { NODES = 6, SUBS = 3, CALLERS = 3, MOVES = 100, FINDS = 300, ROOM = 4096 };

static const char text[] =
    "track 1\nnodes 6\nk 2\nedge 0 1 2\nedge 1 2 3\nedge 2 3 1\nedge 3 4 2\nedge 4 5 5\nedge 5 0 4\nsub 0\ncallers 1\n";

static void must(uint32_t code, const char *call) {
    if (code == TRACK_OK) return;
    fprintf(stderr, "%s: %u\n", call, code);
    exit(1);
}

static void must_be(uint32_t code, uint32_t wanted, const char *call) {
    if (code == wanted) return;
    fprintf(stderr, "%s: %u, and not %u\n", call, code, wanted);
    exit(1);
}

/* What a thread is given: its member, its number, and what it counted. */
struct job {
    track_handle member;
    uint32_t number;
    long right, again, wrong, held;
};

static void finish(struct job *job) {
    uint64_t ticket, last = 0;
    for (;;) {
        uint32_t code = track_subscriber_step(&job->member, &ticket);
        if (code == TRACK_AT_REST) return;
        if (code == TRACK_HELD) {
            job->held++;
            continue;
        }
        if (code == TRACK_UNRESERVED) {
            must(track_actor_reserve(&job->member, ROOM), "reserve");
            continue;
        }
        must(code, "step");
        if (ticket < last) job->wrong++;
        last = ticket + 1;
    }
}

static void *move_round(void *given) {
    struct job *job = given;
    uint64_t ticket;
    must_be(track_subscriber_move(&job->member, job->number), TRACK_SAME_PLACE, "a move to where it is");
    must_be(track_subscriber_step(&job->member, &ticket), TRACK_AT_REST, "a step at rest");
    for (uint32_t i = 1; i <= MOVES; i++) {
        must(track_subscriber_move(&job->member, (job->number + i) % NODES), "move");
        finish(job);
    }
    must(track_subscriber_switch(&job->member, true), "switch");
    must_be(track_subscriber_switch(&job->member, true), TRACK_UNDER_WAY, "a switch under way");
    finish(job);
    return 0;
}

static void *find_all(void *given) {
    struct job *job = given;
    uint32_t last[SUBS] = {0};
    track_answer answer;
    track_census census;
    must_be(track_caller_find(&job->member, 0, 0, &answer), TRACK_UNRESERVED, "a find without room");
    must_be(track_caller_find(&job->member, NODES, 0, &answer), TRACK_NO_NODE, "a find from nowhere");
    must_be(track_caller_find(&job->member, 0, SUBS, &answer), TRACK_NO_SUBSCRIBER, "a find of nobody");
    must_be(track_caller_census(&job->member, 0, &census), TRACK_UNRESERVED, "a census without room");
    must_be(track_caller_census(&job->member, NODES, &census), TRACK_NO_NODE, "a census of nowhere");
    for (uint32_t i = 0; i < FINDS;) {
        uint32_t sub = (i + job->number) % SUBS, code = track_caller_find(&job->member, i % NODES, sub, &answer);
        if (code == TRACK_HELD) {
            job->held++;
            continue;
        }
        if (code == TRACK_UNRESERVED) {
            must(track_actor_reserve(&job->member, ROOM), "reserve");
            continue;
        }
        must(code, "find");
        i++;
        if (answer.kind == TRACK_AGAIN) {
            job->again++;
        } else if (answer.number >= last[sub] && answer.node == (sub + answer.number) % NODES) {
            job->right++;
            last[sub] = answer.number;
        } else {
            job->wrong++;
        }
    }
    return 0;
}

/* A crew of this plan runs, and then each subscriber is found switched off where its last move led. */
static void play(track_handle *plan, long *right, long *again, long *held) {
    static const uint32_t starts[SUBS] = {0, 1, 2};
    track_handle crew = TRACK_EMPTY, none = TRACK_EMPTY;
    struct job jobs[SUBS + CALLERS];
    pthread_t threads[SUBS + CALLERS];
    track_answer answer;
    track_census census;
    uint32_t number;
    must(track_crew_new(plan, starts, SUBS, CALLERS, &crew), "new");
    memset(jobs, 0, sizeof jobs);
    for (uint32_t left = SUBS + CALLERS; left--;) {
        must(track_crew_next(&crew, &jobs[left].member, &jobs[left].number), "next");
        if (jobs[left].number != left) must_be(jobs[left].number, left, "the number of a member");
    }
    must_be(track_crew_next(&crew, &none, &number), TRACK_PAST_END, "a member too many");
    must(track_close(&crew), "close");
    for (int i = 0; i < SUBS + CALLERS; i++)
        if (pthread_create(&threads[i], 0, i < SUBS ? move_round : find_all, &jobs[i])) exit(1);
    for (int i = 0; i < SUBS + CALLERS; i++) pthread_join(threads[i], 0);
    must(track_actor_reserve(&jobs[SUBS].member, ROOM), "reserve");
    /* A census lists who is at a node and on, and all are off. */
    uint64_t ticket = 0;
    for (uint32_t node = 0; node < NODES; node++) {
        must(track_caller_census(&jobs[SUBS].member, node, &census), "census");
        if (census.who || census.count || (node && census.ticket != ticket + 1)) jobs[SUBS].wrong++;
        ticket = census.ticket;
    }
    for (uint32_t sub = 0; sub < SUBS; sub++) {
        must(track_caller_find(&jobs[SUBS].member, sub, sub, &answer), "the last find");
        if (answer.kind != TRACK_OFF || answer.number != MOVES || answer.node != (sub + MOVES) % NODES) jobs[SUBS].wrong++;
    }
    for (int i = 0; i < SUBS + CALLERS; i++) {
        if (jobs[i].wrong) {
            fprintf(stderr, "crew: member %d: %ld answers or tickets are wrong\n", i, jobs[i].wrong);
            exit(1);
        }
        *right += jobs[i].right, *again += jobs[i].again, *held += jobs[i].held;
        must(track_close(&jobs[i].member), "close");
    }
}

int main(int count, char **words) {
    int rounds = count > 1 ? atoi(words[1]) : 1000;
    track_handle plan = TRACK_EMPTY, crew = TRACK_EMPTY;
    track_refusal why;
    track_answer answer;
    track_census census;
    uint32_t far[] = {NODES}, many[65] = {0};
    long right = 0, again = 0, held = 0;
    must(track_plan_read((const uint8_t *)text, strlen(text), &plan, &why), "read");
    must_be(track_crew_new(&plan, many, 0, 1, &crew), TRACK_NO_SUBSCRIBER, "a crew of nobody");
    must_be(track_crew_new(&plan, many, 65, 1, &crew), TRACK_COUNT_TOO_LARGE, "a crew of 65 subscribers");
    must_be(track_crew_new(&plan, many, 1, 65, &crew), TRACK_COUNT_TOO_LARGE, "a crew of 65 callers");
    must_be(track_crew_new(&plan, far, 1, 1, &crew), TRACK_NO_NODE, "a crew that starts nowhere");
    must_be(track_caller_find(&plan, 0, 0, &answer), TRACK_OTHER_KIND, "a find of a plan");
    must_be(track_caller_census(&plan, 0, &census), TRACK_OTHER_KIND, "a census of a plan");
    must_be(track_caller_census(&crew, 0, &census), TRACK_EMPTY_HANDLE, "a census of nothing");
    for (int i = 0; i < rounds; i++) play(&plan, &right, &again, &held);
    must(track_close(&plan), "close");
    printf("%d crews: %ld answers right, %ld to be made again; %ld calls were held\n", rounds, right, again, held);
    return right + again != (long)rounds * CALLERS * FINDS;
}
