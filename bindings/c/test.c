/* Plays the rows of tables against the library: what is called, and what comes of it. Usage: test
 * Each row is one line of words, a bar, and what is wanted: the code, and what the call told. The cells
 * are a table of this program's own, one key a cell, as any caller's are. */
#include "track.h"

#include <stdio.h>
#include <stdlib.h>
#include <string.h>

enum { MOST_CELLS = 4096, MOST_WORDS = 8, MOST_STATE = 256 };

/* The caller's cells. */
static struct {
    track_cell cell;
    uint64_t word;
} cells[MOST_CELLS];
static int count;

static uint64_t *word_at(const track_cell *cell) {
    for (int i = 0; i < count; i++)
        if (!memcmp(&cells[i].cell, cell, sizeof *cell)) return &cells[i].word;
    if (count == MOST_CELLS) exit(2);
    cells[count].cell = *cell;
    cells[count].word = 0;
    return &cells[count++].word;
}

/* Handles by a letter, and texts by a name. */
static track_handle handles[26];

static track_handle *handle(const char *name) { return &handles[name[0] - 'a']; }

static const struct {
    const char *name, *text;
} texts[] = {
    {"line", "track 1\nnodes 4\nk 2\nedge 0 1 1\nedge 1 2 2\nedge 2 3 4\nsub 3\nsub 1\ncallers 1\n"},
    {"one", "track 1\nnodes 1\nk 1\nsub 0\ncallers 1\n"},
    {"apart", "track 1\nnodes 3\nk 2\nedge 0 1 1\nsub 0\ncallers 1\n"},
    {"form", "track 1\nnodes 3\nk two\n"},
    {"large", "track 1\nnodes 100000\n"},
    {"many", "track 1\nnodes 2\nnodes 2\n"},
    {"short", "track 1\n"},
    {"empty", ""},
    {"nowhere", "track 1\nnodes 2\nk 2\nedge 0 1 1\nsub 0\ncallers 1\nmove 0 0\n"},
    {"switched", "track 2\nnodes 2\nk 2\nedge 0 1 1\nsub 0\ncallers 1\non 0\n"},
    {"unknown", "track 1\nnodes 2\nk 2\nedge 0 2 1\n"},
};

static const char *text(const char *name) {
    for (size_t i = 0; i < sizeof texts / sizeof *texts; i++)
        if (!strcmp(texts[i].name, name)) return texts[i].text;
    exit(2);
}

/* Edges by a name, and how many nodes they are for. */
static const struct {
    const char *name;
    size_t count;
    track_edge edges[4];
} lists[] = {
    {"none", 0, {{0, 0, 0}}},
    {"line", 3, {{0, 1, 1}, {1, 2, 2}, {2, 3, 4}}},
    {"far", 3, {{0, 1, 1}, {1, 4, 2}, {2, 3, 0}}},
    {"light", 3, {{0, 1, 1}, {1, 2, 0}, {2, 9, 4}}},
    {"heavy", 3, {{0, 1, 1048576}, {1, 2, 2}, {2, 3, 1048577}}},
    {"parted", 2, {{0, 1, 1}, {2, 3, 1}}},
};

static size_t list(const char *name) {
    for (size_t i = 0; i < sizeof lists / sizeof *lists; i++)
        if (!strcmp(lists[i].name, name)) return i;
    exit(2);
}

/* What the calls tell, as words. */
static char told[512];

static void tell(uint32_t code) { snprintf(told, sizeof told, "%u", code); }

static void tell_cell(uint32_t code, const track_cell *c) {
    tell(code);
    if (code) return;
    if (c->kind == TRACK_PRESENCE) snprintf(told, sizeof told, "0 presence %u of %u", c->node, c->sub);
    else snprintf(told, sizeof told, "0 entry %u of %u at %u of level %u", c->sub, c->cluster, c->node, c->level);
}

static void tell_put(uint32_t code, const track_put *put) {
    tell_cell(code, &put->cell);
    if (!code) snprintf(told + strlen(told), sizeof told - strlen(told), " word %llx", (unsigned long long)put->word);
}

static void tell_answer(uint32_t code, const track_answer *a) {
    static const char *whys[] = {"", "empty", "no entry", "chased"};
    tell(code);
    if (code) return;
    if (a->kind == TRACK_AGAIN)
        snprintf(told, sizeof told, "0 again %s %u weight %llu", whys[a->why], a->node, (unsigned long long)a->weight);
    else
        snprintf(told, sizeof told, "0 %s %u number %u level %d weight %llu", a->kind == TRACK_AT ? "at" : "off", a->node, a->number,
                 a->climbed ? (int)a->level : -1, (unsigned long long)a->weight);
}

static uint32_t number(const char *word) { return (uint32_t)strtoull(word, 0, 0); }

/* Calls on plans. */
static bool play_plan(char **w) {
    if (!strcmp(w[0], "read")) {
        track_refusal why = {0, 0, 0};
        uint32_t code = track_plan_read((const uint8_t *)text(w[2]), strlen(text(w[2])), handle(w[1]), &why);
        tell(code);
        if (code == TRACK_BAD_NETWORK) snprintf(told, sizeof told, "%u cause %u line %u node %u", code, why.cause, why.line, why.node);
    } else if (!strcmp(w[0], "build")) {
        track_refusal why = {0, 0, 0};
        size_t l = list(w[4]);
        uint32_t code = track_plan_build(number(w[2]), number(w[3]), lists[l].edges, lists[l].count, handle(w[1]), &why);
        tell(code);
        if (code == TRACK_BAD_NETWORK) snprintf(told, sizeof told, "%u cause %u line %u node %u", code, why.cause, why.line, why.node);
    } else if (!strcmp(w[0], "share")) {
        tell(track_plan_share(handle(w[1]), handle(w[2])));
    } else if (!strcmp(w[0], "sizes")) {
        track_sizes s = {0, 0, 0, 0};
        uint32_t code = track_plan_sizes(handle(w[1]), &s);
        tell(code);
        if (!code) snprintf(told, sizeof told, "0 nodes %u levels %u k %u subs %u", s.nodes, s.levels, s.k, s.subs);
    } else if (!strcmp(w[0], "start")) {
        uint32_t node = 77, code = track_plan_start(handle(w[1]), number(w[2]), &node);
        snprintf(told, sizeof told, "%u %u", code, node);
    } else if (!strcmp(w[0], "opening")) {
        track_put put;
        uint32_t code = track_plan_opening(handle(w[1]), number(w[2]), number(w[3]), number(w[4]), &put);
        tell_put(code, &put);
    } else if (!strcmp(w[0], "room")) {
        track_room room = {77, 77};
        uint32_t code = track_plan_room(handle(w[1]), number(w[2]), &room);
        snprintf(told, sizeof told, "%u looks %llu puts %llu", code, (unsigned long long)room.looks, (unsigned long long)room.puts);
    } else if (!strcmp(w[0], "open")) {
        track_put put;
        uint32_t i = 0, code;
        for (; !(code = track_plan_opening(handle(w[1]), number(w[2]), number(w[3]), i, &put)); i++) *word_at(&put.cell) = put.word;
        snprintf(told, sizeof told, "%u after %u", code, i);
    } else if (!strcmp(w[0], "close")) {
        tell(track_close(handle(w[1])));
    } else {
        return false;
    }
    return true;
}

/* Tells what a look came to, and that the place of the other is as it was. */
static void tell_look(uint32_t code, const track_cell *cell, const track_answer *answer) {
    char rest[sizeof told];
    if ((code != TRACK_OK && cell->kind != 77) || (code != TRACK_ENDED && answer->kind != 77)) exit(2);
    tell_cell(code, cell);
    if (code != TRACK_ENDED) return;
    tell_answer(TRACK_OK, answer);
    memcpy(rest, told, sizeof told);
    snprintf(told, sizeof told, "%u%.400s", code, rest + 1);
}

/* Looks at the cells that a find looks at, until it has its answer. */
static void find(track_handle *finder) {
    track_cell cell;
    track_answer answer;
    uint32_t code;
    while (!(code = track_finder_next(finder, &cell))) {
        code = track_finder_saw(finder, *word_at(&cell));
        if (code) return tell(code);
    }
    if (code != TRACK_ENDED) return tell(code);
    code = track_finder_answer(finder, &answer);
    tell_answer(code, &answer);
}

/* Calls on finders. */
static bool play_finder(char **w) {
    if (!strcmp(w[0], "finder")) {
        tell(track_finder_new(handle(w[1]), number(w[2]), number(w[3]), number(w[4]), handle(w[5])));
    } else if (!strcmp(w[0], "look")) {
        track_cell cell;
        uint32_t code = track_finder_next(handle(w[1]), &cell);
        tell_cell(code, &cell);
    } else if (!strcmp(w[0], "saw")) {
        tell(track_finder_saw(handle(w[1]), strtoull(w[2], 0, 0)));
    } else if (!strcmp(w[0], "turn")) {
        track_cell cell = {77, 0, 0, 0, 0};
        track_answer answer = {77, 0, 0, 0, 0, 0, 0};
        uint32_t code = track_finder_look(handle(w[1]), strtoull(w[2], 0, 0), &cell, &answer);
        tell_look(code, &cell, &answer);
    } else if (!strcmp(w[0], "again")) {
        tell(track_finder_again(handle(w[1]), number(w[2]), number(w[3]), number(w[4])));
    } else if (!strcmp(w[0], "run")) {
        track_cell cell = {77, 0, 0, 0, 0};
        track_answer answer;
        uint32_t code = track_finder_next(handle(w[1]), &cell);
        while (code == TRACK_OK) code = track_finder_look(handle(w[1]), *word_at(&cell), &cell, &answer);
        tell_answer(code == TRACK_ENDED ? 0 : code, &answer);
    } else if (!strcmp(w[0], "answer")) {
        track_answer answer;
        uint32_t code = track_finder_answer(handle(w[1]), &answer);
        tell_answer(code, &answer);
    } else if (!strcmp(w[0], "find")) {
        track_handle finder = TRACK_EMPTY;
        uint32_t code = track_finder_new(handle(w[1]), number(w[2]), number(w[3]), UINT32_MAX, &finder);
        if (code) return tell(code), true;
        find(&finder);
        track_close(&finder);
    } else {
        return false;
    }
    return true;
}

/* Makes the puts of a mover in the cells, as many as are left or are asked for. */
static void write_on(track_handle *mover, uint32_t most) {
    track_put put;
    uint32_t made = 0, code = 0;
    while (made < most && !(code = track_mover_next(mover, &put))) {
        *word_at(&put.cell) = put.word;
        code = track_mover_made(mover);
        if (code) break;
        made++;
    }
    snprintf(told, sizeof told, "%u after %u", code, made);
}

/* The words of a state. */
static uint64_t state[MOST_STATE];

/* Whether two movers have the same state. */
static bool same(track_handle *one, track_handle *other) {
    uint64_t words[2][MOST_STATE];
    uint32_t counts[2] = {0, 0};
    if (track_mover_length(one, &counts[0]) || track_mover_length(other, &counts[1])) return false;
    if (counts[0] != counts[1] || counts[0] > MOST_STATE) return false;
    if (track_mover_save(one, words[0], counts[0]) || track_mover_save(other, words[1], counts[1])) return false;
    return !memcmp(words[0], words[1], counts[0] * sizeof *words[0]);
}

/* Calls on movers. */
static bool play_mover(char **w) {
    if (!strcmp(w[0], "mover")) {
        tell(track_mover_new(handle(w[1]), number(w[2]), number(w[3]), handle(w[4])));
    } else if (!strcmp(w[0], "move")) {
        tell(track_mover_move(handle(w[1]), number(w[2])));
    } else if (!strcmp(w[0], "switch")) {
        tell(track_mover_switch(handle(w[1]), !strcmp(w[2], "off")));
    } else if (!strcmp(w[0], "put")) {
        track_put put;
        uint32_t code = track_mover_next(handle(w[1]), &put);
        tell_put(code, &put);
    } else if (!strcmp(w[0], "made")) {
        tell(track_mover_made(handle(w[1])));
    } else if (!strcmp(w[0], "write")) {
        write_on(handle(w[1]), number(w[2]));
    } else if (!strcmp(w[0], "length")) {
        uint32_t length = 77, code = track_mover_length(handle(w[1]), &length);
        snprintf(told, sizeof told, "%u %u", code, length);
    } else if (!strcmp(w[0], "save")) {
        tell(track_mover_save(handle(w[1]), state, number(w[2])));
    } else if (!strcmp(w[0], "set")) {
        state[number(w[1])] = strtoull(w[2], 0, 0);
        tell(0);
    } else if (!strcmp(w[0], "load")) {
        tell(track_mover_load(handle(w[1]), state, number(w[2]), handle(w[3])));
    } else if (!strcmp(w[0], "same")) {
        snprintf(told, sizeof told, "%s", same(handle(w[1]), handle(w[2])) ? "yes" : "no");
    } else if (!strcmp(w[0], "place")) {
        track_place p = {0, 0, 0, 0};
        uint32_t code = track_mover_place(handle(w[1]), &p);
        tell(code);
        if (!code) snprintf(told, sizeof told, "0 sub %u at %u number %u %s", p.sub, p.node, p.number, p.off ? "off" : "on");
    } else {
        return false;
    }
    return true;
}

/* Calls on words. */
static bool play_word(char **w) {
    track_fields f = {0, 0, 0};
    bool mark = !strcmp(w[1], "mark");
    if (!strcmp(w[0], "unpack")) {
        uint64_t word = strtoull(w[2], 0, 0);
        uint32_t code = mark ? track_mark_read(word, &f) : track_entry_read(word, &f);
        snprintf(told, sizeof told, "%u kind %u number %u node %u", code, f.kind, f.number, f.node);
    } else if (!strcmp(w[0], "pack")) {
        uint64_t word = 0;
        f = (track_fields){number(w[2]), number(w[3]), number(w[4])};
        uint32_t code = mark ? track_mark_pack(&f, &word) : track_entry_pack(&f, &word);
        snprintf(told, sizeof told, "%u %llx", code, (unsigned long long)word);
    } else {
        return false;
    }
    return true;
}

/* Plays one row: whether it came as wanted. */
static bool play(const char *table, const char *row) {
    char line[256], *words[MOST_WORDS] = {0};
    const char *bar = strchr(row, '|');
    int n = 0;
    if (!bar || bar - row >= (long)sizeof line) exit(2);
    memcpy(line, row, bar - row);
    line[bar - row] = 0;
    for (char *word = strtok(line, " "); word && n < MOST_WORDS; word = strtok(0, " ")) words[n++] = word;
    if (!n || !(play_plan(words) || play_finder(words) || play_mover(words) || play_word(words))) {
        printf("%s: no such row: %s\n", table, row);
        return false;
    }
    if (!strcmp(told, bar + 2)) return true;
    printf("%s: %s, but it came to: %s\n", table, row, told);
    return false;
}

#include "tables.h"

int main(void) {
    int rows = 0, wrong = 0;
    for (size_t t = 0; t < sizeof tables / sizeof *tables; t++) {
        count = 0;
        for (const char **row = tables[t].rows; *row; row++, rows++) wrong += !play(tables[t].name, *row);
        for (int i = 0; i < 26; i++) track_close(&handles[i]);
    }
    printf("%d rows, %d wrong\n", rows, wrong);
    return wrong != 0;
}
