/* track.h: the directory's proved decisions, for C.
 *
 * The library decides: which cell a find looks at next and what its answer is, what a move writes
 * next and in which order, what the cells of a new subscriber hold. The caller keeps the cells: one
 * 64-bit word a cell, in memory, in Redis, in etcd, wherever a cell is read and written in one step.
 * A cell that nobody has written holds 0. Or the library keeps them, for the threads of one program:
 * see "Crews".
 *
 * Link libtrack.a (bindings/build makes it) or libtrack.so. The library calls malloc, realloc and
 * free, and nothing else.
 *
 * HANDLES. A handle is the caller's, begins as zeros (TRACK_EMPTY), and is written by the library
 * alone: never copy one, change one, or pass one twice in the same call. A handle that isn't empty
 * owns memory until track_close. A finder or a mover goes on after its plan's handle is closed. No
 * call asks for more than that: whatever handle (empty, closed, of another kind), number, word or
 * text comes is answered by a code.
 *
 * THREADS. Any handle may go to another thread, by the thread's start or join, a lock, or a
 * sequentially consistent atomic. A handle serves one call at a time; calls on different handles
 * run at once. For a plan on several threads, track_plan_share makes one more handle to it.
 *
 * CODES. Each call answers TRACK_OK, or why it did nothing. Unless it answers TRACK_OK, every
 * handle and every place that it was lent are as before, but for the `track_refusal` beside
 * TRACK_BAD_NETWORK, for what track_finder_look tells by TRACK_ENDED, and for the looks that a
 * caller made before TRACK_HELD. Where several causes hold, the first in the call's list is
 * answered; TRACK_NO_MEMORY may come in the place of any answer of a call that lists it, but not of
 * TRACK_FULL_HANDLE.
 */
#ifndef TRACK_H
#define TRACK_H

#include <stdbool.h>
#include <stddef.h>
#include <stdint.h>

#ifdef __cplusplus
extern "C" {
#endif

enum track_code {
    TRACK_OK = 0,
    TRACK_NO_MEMORY = 1,     /* there was no memory; nothing has changed */
    TRACK_EMPTY_HANDLE = 2,  /* a handle that was to be read is empty, or closed */
    TRACK_OTHER_KIND = 3,    /* it holds something of another kind */
    TRACK_FULL_HANDLE = 4,   /* the handle for the answer isn't empty */
    TRACK_BAD_NETWORK = 5,   /* the text, or the edges, are refused: see track_refusal */
    TRACK_NO_NODE = 6,       /* the plan has no such node */
    TRACK_NO_SUBSCRIBER = 7, /* there is no such subscriber */
    TRACK_SAME_PLACE = 8,    /* the subscriber stands there */
    TRACK_UNDER_WAY = 9,     /* a step that was begun has puts left */
    TRACK_IS_OFF = 10,       /* the subscriber is off, and doesn't move */
    TRACK_NUMBERS_SPENT = 11,/* it has moved 2^32 - 1 times */
    TRACK_ALREADY = 12,      /* it is off, or on, already */
    TRACK_AT_REST = 13,      /* no put is left */
    TRACK_ENDED = 14,        /* no look is left: the find has its answer */
    TRACK_LOOKING = 15,      /* a look is left: the find has no answer yet */
    TRACK_PAST_END = 16,     /* there are no more */
    TRACK_BAD_WORD = 17,     /* the cell can't hold this word: nothing packs to it, or it names a node that the
                                plan hasn't */
    TRACK_BAD_FIELDS = 18,   /* no word has these fields */
    TRACK_NO_ROOM = 19,      /* the state has another number of words than there is room for */
    TRACK_SHORT_STATE = 20,  /* there are fewer words than a state for this plan has */
    TRACK_GARBLED_STATE = 21,/* no mover over a plan of this size has just these words */
    TRACK_MIXED_STATE = 22,  /* levels, numbers or weights don't go with one another, or with the plan */
    TRACK_COUNT_TOO_LARGE = 23, /* there may not be so many */
    TRACK_UNRESERVED = 24,   /* there is no room for so many visits: reserve some, and call again */
    TRACK_HELD = 25          /* another member of the crew was inside a node just then: call again */
};

/* A plan, a finder, a mover, a crew, a caller or a subscriber; TRACK_EMPTY before its first use. */
typedef struct {
    bool full;
    void *at;
} track_handle;

#define TRACK_EMPTY {false, 0}

/* Why a network is refused. */
enum track_cause {
    TRACK_FORM = 1,       /* the line isn't one that may stand there */
    TRACK_TOO_LARGE = 2,  /* a number is past its limit */
    TRACK_TOO_MANY = 3,   /* there are more of a kind than there may be */
    TRACK_UNKNOWN = 4,    /* it names a node, a subscriber or an actor that there isn't */
    TRACK_SWITCHED = 5,   /* a subscriber that is off moves or switches off, or one that is on switches on */
    TRACK_NOWHERE = 6,    /* a subscriber moves to where it is */
    TRACK_UNFINISHED = 7, /* the text ends before the input does */
    TRACK_APART = 8,      /* no walk leads from node 0 to `node`, the least such */
    TRACK_TOO_LONG = 9    /* the text has more than 4,194,304 bytes; line is 0 */
};

typedef struct {
    uint32_t cause; /* enum track_cause */
    uint32_t line;  /* of the text, from 1 on; of edges the place of the edge, from 1 on, 0 where it is none */
    uint32_t node;  /* with TRACK_APART; else 0 */
} track_refusal;

/* How large a plan is: nodes are 0 to nodes - 1; subs is how many subscribers its text says. */
typedef struct {
    uint32_t nodes, levels, k, subs;
} track_sizes;

/* An edge of a network: it joins the nodes a and b in both directions. */
typedef struct {
    uint32_t a, b;
    uint64_t weight; /* from 1 to 1,048,576 */
} track_edge;

/* A cell, and the node at which it lies. As bytes it is a key: it has no padding. */
enum track_cell_kind {
    TRACK_PRESENCE = 0, /* the presence of sub at node; level and cluster are 0 */
    TRACK_ENTRY = 1     /* the entry of sub at a cluster of a level, which node leads */
};

typedef struct {
    uint32_t kind, node, level, cluster, sub;
} track_cell;

/* What is to be written: from now on the cell holds the word. */
typedef struct {
    track_cell cell;
    uint64_t word;
} track_put;

/* The answer of a find. */
enum track_answer_kind {
    TRACK_AT = 0,   /* the subscriber is at node, and on */
    TRACK_OFF = 1,  /* it is at node, and off */
    TRACK_AGAIN = 2 /* a move fell within the find: make it again. A find of a subscriber that was never
                       opened answers so too, with TRACK_NO_ENTRY, however often it is made: know which
                       are open, or set a limit */
};

enum track_why {
    TRACK_EMPTY_MARK = 1, /* the mark at node was empty */
    TRACK_NO_ENTRY = 2,   /* no entry had an address */
    TRACK_CHASED = 3      /* the chase had no hop left */
};

typedef struct {
    uint32_t kind;    /* enum track_answer_kind */
    uint32_t why;     /* enum track_why with TRACK_AGAIN; else 0 */
    uint32_t node;    /* 0 with TRACK_NO_ENTRY and TRACK_CHASED */
    uint32_t number;  /* of the move that brought it to node, 0 for its start; 0 with TRACK_AGAIN */
    uint32_t climbed; /* 1 where the find found an entry with an address, at `level`; else 0 */
    uint32_t level;   /* 0 where climbed is 0 */
    uint64_t weight;  /* what the find travelled, in the unit of the edges */
} track_answer;

/* What a census found: bit s of `who` is set where subscriber s is at the node, and so many bits are. Its ticket is
 * how many visits of all came before it. */
typedef struct {
    uint64_t ticket, who;
    uint32_t count;
} track_census;

/* How many visits a find may make, and how many a move: no find from the node has more looks, and no move more puts. */
typedef struct {
    uint64_t looks, puts;
} track_room;

/* Where a mover stands, by the puts made: the number counts its moves, off is 1 or 0. */
typedef struct {
    uint32_t sub, node, number, off;
} track_place;

/* What a word says. A part that a kind doesn't use is 0. */
enum track_mark_kind {
    TRACK_NOTHING = 0, /* not here, or not any more */
    TRACK_HERE = 1,    /* here since this move */
    TRACK_GONE = 2,    /* left with this move, to node */
    TRACK_COMING = 3,  /* coming with this move, from node */
    TRACK_HERE_OFF = 4 /* here since this move, and off */
};

enum track_entry_kind {
    TRACK_NO_ADDRESS = 0,
    TRACK_ADDRESS = 1 /* it went to node with this move */
};

typedef struct {
    uint32_t kind, number, node;
} track_fields;

/* ---- Plans ---- */

/* The plan of the network that a text says (docs/FORMATS.md), into `plan`. Subscribers and calls of the
 * text make no difference to the plan; track_plan_start tells where the text's subscribers start.
 * TRACK_FULL_HANDLE; TRACK_BAD_NETWORK, and `refusal` says why; TRACK_NO_MEMORY. */
uint32_t track_plan_read(const uint8_t *text, size_t length, track_handle *plan, track_refusal *refusal);

/* The plan of a network of so many nodes with these edges, into `plan`, within the limits of texts: 1 to 1,024
 * nodes, k from 1 to 8 (from 2 where there are more than 256 nodes), at most 32,768 edges. Of edges that join
 * the same nodes the lightest counts, and an edge from a node to itself counts for nothing.
 * TRACK_FULL_HANDLE; TRACK_BAD_NETWORK, and `refusal` says why, the first of: TRACK_TOO_LARGE with line 0 (nodes or k),
 * TRACK_TOO_MANY (edges), the first edge with TRACK_UNKNOWN (its nodes) or TRACK_TOO_LARGE (its weight),
 * TRACK_APART; TRACK_NO_MEMORY. */
uint32_t track_plan_build(uint32_t nodes, uint32_t k, const track_edge *edges, size_t count, track_handle *plan,
                          track_refusal *refusal);

/* One more handle to the same plan, into `other`.
 * TRACK_FULL_HANDLE; TRACK_EMPTY_HANDLE, TRACK_OTHER_KIND of `plan`; TRACK_NO_MEMORY. */
uint32_t track_plan_share(track_handle *plan, track_handle *other);

/* How large a plan is. TRACK_EMPTY_HANDLE, TRACK_OTHER_KIND. */
uint32_t track_plan_sizes(track_handle *plan, track_sizes *sizes);

/* Where a subscriber of the plan's text starts.
 * TRACK_EMPTY_HANDLE, TRACK_OTHER_KIND; TRACK_NO_SUBSCRIBER: the text says no such. */
uint32_t track_plan_start(track_handle *plan, uint32_t sub, uint32_t *node);

/* A cell that isn't 0 at the opening of a subscriber that starts at a node: with index 0 its presence
 * there, with index 1 + i its entry at level i. Write them in any order before its first find or move.
 * TRACK_EMPTY_HANDLE, TRACK_OTHER_KIND; TRACK_NO_NODE; TRACK_PAST_END: index is past the last level. */
uint32_t track_plan_opening(track_handle *plan, uint32_t sub, uint32_t node, uint32_t index, track_put *put);

/* How many visits a find from a node may make, and how many a move.
 * TRACK_EMPTY_HANDLE, TRACK_OTHER_KIND; TRACK_NO_NODE. */
uint32_t track_plan_room(track_handle *plan, uint32_t node, track_room *room);

/* ---- Finders: next, look there, saw; until next answers TRACK_ENDED, and answer the answer ---- */

/* A find of subscriber `sub`, one of `subs`, from a node, into `finder`. Who doesn't count subscribers
 * gives UINT32_MAX for `subs`.
 * TRACK_FULL_HANDLE; TRACK_EMPTY_HANDLE, TRACK_OTHER_KIND of `plan`; TRACK_NO_NODE; TRACK_NO_SUBSCRIBER:
 * sub isn't below subs; TRACK_NO_MEMORY. */
uint32_t track_finder_new(track_handle *plan, uint32_t from, uint32_t sub, uint32_t subs, track_handle *finder);

/* The cell that a find looks at next. TRACK_EMPTY_HANDLE, TRACK_OTHER_KIND; TRACK_ENDED. */
uint32_t track_finder_next(track_handle *finder, track_cell *cell);

/* The look at the cell that came next read this word.
 * TRACK_EMPTY_HANDLE, TRACK_OTHER_KIND; TRACK_ENDED; TRACK_BAD_WORD. */
uint32_t track_finder_saw(track_handle *finder, uint64_t word);

/* The answer of a find. TRACK_EMPTY_HANDLE, TRACK_OTHER_KIND; TRACK_LOOKING. */
uint32_t track_finder_answer(track_handle *finder, track_answer *answer);

/* As `saw`, and then `next` or `answer`, in one call: the look at the cell that came next read this word. With TRACK_OK
 * `cell` is the one to look at then; with TRACK_ENDED the find has its answer, which is in `answer`, and so it is of a
 * find that had it before. The place of the other is as it was. So a find takes a call for each look:
 *     while ((code = track_finder_look(&finder, word_of(&cell), &cell, &answer)) == TRACK_OK) {}
 * TRACK_EMPTY_HANDLE, TRACK_OTHER_KIND; TRACK_BAD_WORD; TRACK_ENDED. */
uint32_t track_finder_look(track_handle *finder, uint64_t word, track_cell *cell, track_answer *answer);

/* Begins another find in the place of this one, over the same plan, wherever this one is: no memory is wanted.
 * TRACK_EMPTY_HANDLE, TRACK_OTHER_KIND; TRACK_NO_NODE; TRACK_NO_SUBSCRIBER. */
uint32_t track_finder_again(track_handle *finder, uint32_t from, uint32_t sub, uint32_t subs);

/* ---- Movers: move or switch, and then next, write, made; until next answers TRACK_AT_REST ---- */

/* A mover of subscriber `sub` at rest at its start node, into `mover`. A subscriber has one mover.
 * TRACK_FULL_HANDLE; TRACK_EMPTY_HANDLE, TRACK_OTHER_KIND of `plan`; TRACK_NO_NODE; TRACK_NO_MEMORY. */
uint32_t track_mover_new(track_handle *plan, uint32_t sub, uint32_t node, track_handle *mover);

/* Begins a move to a node. TRACK_EMPTY_HANDLE, TRACK_OTHER_KIND; TRACK_NO_NODE; TRACK_SAME_PLACE;
 * TRACK_UNDER_WAY; TRACK_IS_OFF; TRACK_NUMBERS_SPENT. */
uint32_t track_mover_move(track_handle *mover, uint32_t to);

/* Begins a switch off, or on where `off` is false. TRACK_EMPTY_HANDLE, TRACK_OTHER_KIND;
 * TRACK_UNDER_WAY; TRACK_ALREADY. */
uint32_t track_mover_switch(track_handle *mover, bool off);

/* The put that comes next. TRACK_EMPTY_HANDLE, TRACK_OTHER_KIND; TRACK_AT_REST. */
uint32_t track_mover_next(track_handle *mover, track_put *put);

/* The put that came next is made. TRACK_EMPTY_HANDLE, TRACK_OTHER_KIND; TRACK_AT_REST. */
uint32_t track_mover_made(track_handle *mover);

/* Where a mover stands. TRACK_EMPTY_HANDLE, TRACK_OTHER_KIND. */
uint32_t track_mover_place(track_handle *mover, track_place *place);

/* A mover outlives its process by its state: `count` words, from which a mover is loaded that is as this one
 * was, at rest or in the middle of a step. A state has 11 words, two for each level, and one for each node of
 * the subscriber's trail, so at most 11 + 2 * levels + nodes; it goes with the plan that it was saved over. */

/* How many words the state of a mover has now; each put may change it. TRACK_EMPTY_HANDLE, TRACK_OTHER_KIND. */
uint32_t track_mover_length(track_handle *mover, uint32_t *count);

/* Writes the state of a mover into `words`, of which there are `count`: just as many as track_mover_length
 * tells. TRACK_EMPTY_HANDLE, TRACK_OTHER_KIND; TRACK_NO_ROOM; TRACK_NO_MEMORY. */
uint32_t track_mover_save(track_handle *mover, uint64_t *words, size_t count);

/* The mover of a state, over the plan that it was saved over, into `mover`. Words that are no state for this
 * plan are refused, and nothing of them is taken; a state of another plan may be one for this plan too.
 * TRACK_FULL_HANDLE; TRACK_EMPTY_HANDLE, TRACK_OTHER_KIND of `plan`; TRACK_SHORT_STATE; TRACK_GARBLED_STATE;
 * TRACK_NO_NODE: it names a node that the plan hasn't; TRACK_MIXED_STATE; TRACK_NO_MEMORY. */
uint32_t track_mover_load(track_handle *plan, const uint64_t *words, size_t count, track_handle *mover);

/* ---- Crews: a directory whose cells the library keeps in memory, for the threads of one program ----
 *
 * A crew is the subscribers and the callers of one such directory. track_crew_new makes it, track_crew_next
 * hands out its members one by one, and each then goes to a thread of its own. A look, and a put, is a
 * visit: a member reserves room for its visits before it makes them, 8 bytes each; track_plan_room tells
 * how many a find or a move may make. No call waits: where
 * another member is inside a node at that moment, the answer is TRACK_HELD. */

/* A crew over a plan: `count` subscribers, 1 to 64, of which subscriber i starts at starts[i], and 0 to 64
 * callers. TRACK_FULL_HANDLE; TRACK_EMPTY_HANDLE, TRACK_OTHER_KIND of `plan`; TRACK_NO_SUBSCRIBER where
 * `count` is 0; TRACK_COUNT_TOO_LARGE; TRACK_NO_NODE; TRACK_NO_MEMORY. */
uint32_t track_crew_new(track_handle *plan, const uint32_t *starts, size_t count, uint32_t callers,
                        track_handle *crew);

/* The next member of a crew, and its number: the callers, from the last one on, and then the subscribers,
 * from the last one on, whose numbers are 0 to `count` - 1. A member goes on after the crew is closed.
 * TRACK_FULL_HANDLE of `member`; TRACK_EMPTY_HANDLE, TRACK_OTHER_KIND of `crew`; TRACK_PAST_END where all
 * are handed out; TRACK_NO_MEMORY, and the member is handed out by a later call. */
uint32_t track_crew_next(track_handle *crew, track_handle *member, uint32_t *number);

/* Sees to room for so many visits of a caller or a subscriber, from here on; room that is there counts.
 * TRACK_EMPTY_HANDLE, TRACK_OTHER_KIND; TRACK_COUNT_TOO_LARGE where these and all visits that it knows of
 * are more than 2^56; TRACK_NO_MEMORY. */
uint32_t track_actor_reserve(track_handle *actor, uint64_t visits);

/* Finds a subscriber from a node. TRACK_EMPTY_HANDLE, TRACK_OTHER_KIND; TRACK_NO_NODE; TRACK_NO_SUBSCRIBER;
 * TRACK_UNRESERVED where there is less room than the most looks of such a find; TRACK_HELD. With the last
 * the looks made so far have used their room. */
uint32_t track_caller_find(track_handle *caller, uint32_t from, uint32_t sub, track_answer *answer);

/* Which subscribers are at a node. It is one visit. TRACK_EMPTY_HANDLE, TRACK_OTHER_KIND; TRACK_NO_NODE;
 * TRACK_UNRESERVED; TRACK_HELD. */
uint32_t track_caller_census(track_handle *caller, uint32_t node, track_census *census);

/* Begins a move to a node. TRACK_EMPTY_HANDLE, TRACK_OTHER_KIND; TRACK_NO_NODE; TRACK_SAME_PLACE;
 * TRACK_UNDER_WAY; TRACK_IS_OFF; TRACK_NUMBERS_SPENT. */
uint32_t track_subscriber_move(track_handle *subscriber, uint32_t to);

/* Begins a switch off, or on where `off` is false. TRACK_EMPTY_HANDLE, TRACK_OTHER_KIND;
 * TRACK_UNDER_WAY; TRACK_ALREADY. */
uint32_t track_subscriber_switch(track_handle *subscriber, bool off);

/* Makes the next put of what was begun, and tells its ticket: how many visits of all came before it.
 * TRACK_EMPTY_HANDLE, TRACK_OTHER_KIND; TRACK_AT_REST where none is left; TRACK_UNRESERVED; TRACK_HELD. */
uint32_t track_subscriber_step(track_handle *subscriber, uint64_t *ticket);

/* ---- Words ---- */

/* What the word of a presence says. TRACK_BAD_WORD: no mark packs to it. */
uint32_t track_mark_read(uint64_t word, track_fields *fields);

/* The word of a presence that says this. TRACK_BAD_FIELDS. */
uint32_t track_mark_pack(const track_fields *fields, uint64_t *word);

/* What the word of an entry says. TRACK_BAD_WORD: no entry packs to it. */
uint32_t track_entry_read(uint64_t word, track_fields *fields);

/* The word of an entry that says this. TRACK_BAD_FIELDS. */
uint32_t track_entry_pack(const track_fields *fields, uint64_t *word);

/* Frees what a handle holds; it is empty then. TRACK_EMPTY_HANDLE. */
uint32_t track_close(track_handle *handle);

#ifdef __cplusplus
}
#endif

#endif
