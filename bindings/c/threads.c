/* Subscribers move and callers find them, each on a thread of its own, over cells in memory with a lock for
 * each node. Each thread has a handle of its own to the plan. A subscriber goes round the nodes in their order,
 * so the number of its moves tells where it is; what a caller sees of it never goes back. Usage: threads */
#include "track.h"

#include <pthread.h>
#include <stdio.h>
#include <stdlib.h>
#include <string.h>

enum { NODES = 6, SUBS = 4, CALLERS = 4, MOVES = 300, FINDS = 3000, LEVELS = 32 };

static const char text[] =
    "track 1\nnodes 6\nk 2\nedge 0 1 2\nedge 1 2 3\nedge 2 3 1\nedge 3 4 2\nedge 4 5 5\nedge 5 0 4\nsub 0\ncallers 1\n";

/* The cells of each node, behind its lock. */
static struct {
    pthread_mutex_t lock;
    uint64_t presence[SUBS];
    uint64_t entries[LEVELS][NODES][SUBS];
} nodes[NODES];

static void must(uint32_t code, const char *call) {
    if (code == TRACK_OK) return;
    fprintf(stderr, "%s: %u\n", call, code);
    exit(1);
}

static uint64_t *place_of(const track_cell *cell) {
    return cell->kind == TRACK_PRESENCE ? &nodes[cell->node].presence[cell->sub]
                                        : &nodes[cell->node].entries[cell->level][cell->cluster][cell->sub];
}

static uint64_t look(const track_cell *cell) {
    pthread_mutex_lock(&nodes[cell->node].lock);
    uint64_t word = *place_of(cell);
    pthread_mutex_unlock(&nodes[cell->node].lock);
    return word;
}

static void write_cell(const track_put *put) {
    pthread_mutex_lock(&nodes[put->cell.node].lock);
    *place_of(&put->cell) = put->word;
    pthread_mutex_unlock(&nodes[put->cell.node].lock);
}

/* What a thread is given: its handle to the plan, its number, and what it counted. */
struct job {
    track_handle plan;
    uint32_t number;
    long right, again, wrong;
};

static void *move_round(void *given) {
    struct job *job = given;
    track_handle mover = TRACK_EMPTY;
    track_put put;
    must(track_mover_new(&job->plan, job->number, job->number % NODES, &mover), "new");
    for (uint32_t i = 1; i <= MOVES; i++) {
        must(track_mover_move(&mover, (job->number + i) % NODES), "move");
        uint32_t code;
        while (!(code = track_mover_next(&mover, &put))) {
            write_cell(&put);
            must(track_mover_made(&mover), "made");
        }
        if (code != TRACK_AT_REST) must(code, "next");
    }
    must(track_close(&mover), "close");
    return 0;
}

static void *find_all(void *given) {
    struct job *job = given;
    uint32_t last[SUBS] = {0};
    track_cell cell;
    track_answer answer;
    for (uint32_t i = 0; i < FINDS; i++) {
        track_handle finder = TRACK_EMPTY;
        uint32_t sub = (i + job->number) % SUBS, code;
        must(track_finder_new(&job->plan, i % NODES, sub, SUBS, &finder), "finder");
        while (!(code = track_finder_next(&finder, &cell))) must(track_finder_saw(&finder, look(&cell)), "saw");
        if (code != TRACK_ENDED) must(code, "next");
        must(track_finder_answer(&finder, &answer), "answer");
        must(track_close(&finder), "close");
        if (answer.kind == TRACK_AGAIN) {
            job->again++;
        } else if (answer.kind == TRACK_AT && answer.number >= last[sub] && answer.node == (sub + answer.number) % NODES) {
            job->right++;
            last[sub] = answer.number;
        } else {
            job->wrong++;
        }
    }
    return 0;
}

int main(void) {
    track_handle plan = TRACK_EMPTY;
    track_refusal why;
    track_sizes sizes;
    must(track_plan_read((const uint8_t *)text, strlen(text), &plan, &why), "read");
    must(track_plan_sizes(&plan, &sizes), "sizes");
    if (sizes.nodes != NODES || sizes.levels > LEVELS) return 1;
    for (int i = 0; i < NODES; i++) pthread_mutex_init(&nodes[i].lock, 0);
    for (uint32_t sub = 0; sub < SUBS; sub++) {
        track_put put;
        for (uint32_t i = 0; !track_plan_opening(&plan, sub, sub % NODES, i, &put); i++) write_cell(&put);
    }
    struct job jobs[SUBS + CALLERS];
    pthread_t threads[SUBS + CALLERS];
    memset(jobs, 0, sizeof jobs);
    for (uint32_t i = 0; i < SUBS + CALLERS; i++) {
        must(track_plan_share(&plan, &jobs[i].plan), "share");
        jobs[i].number = i < SUBS ? i : i - SUBS;
        if (pthread_create(&threads[i], 0, i < SUBS ? move_round : find_all, &jobs[i])) return 1;
    }
    must(track_close(&plan), "close");
    long right = 0, again = 0, wrong = 0;
    for (int i = 0; i < SUBS + CALLERS; i++) {
        pthread_join(threads[i], 0);
        must(track_close(&jobs[i].plan), "close");
        right += jobs[i].right, again += jobs[i].again, wrong += jobs[i].wrong;
    }
    printf("%ld answers right, %ld to be made again, %ld wrong\n", right, again, wrong);
    return wrong != 0 || right + again != (long)CALLERS * FINDS;
}
