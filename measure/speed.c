/* The speed of the library beside a plain walk in C: the table of events and the ordered walk, written straight down, with the
 * state as a struct by value and the marks as bits. The plain walk checks nothing and takes good files only.
 *
 * Build and run, in the repository's root, after `rt lib` in crates/console and `mkdir -p target`:
 *   gcc -O3 -Iinclude -o target/speed measure/speed.c crates/console/out/libconsole.a
 *   target/speed cross/evenings/n*.trace
 *
 * Both walk the first trace of each file in turn, with a budget of 3,000,000 points, and have to visit as many points. The
 * best of 15 rounds counts.
 */
#include "sklandupa.h"

#include <stdbool.h>
#include <stdio.h>
#include <string.h>
#include <time.h>

enum { BUDGET = 3000000, ROUNDS = 15 };

struct state {
    uint64_t conflicts;
    uint8_t local[8];
    uint8_t server, fresh, dirty;
};

enum found { NOTHING, END, SPENT, DEEP };

struct walk {
    const uint8_t *end;
    uint8_t *room;
    uint32_t tablets, points, limit;
};

static uint64_t set_of(const uint8_t *record) {
    uint64_t set;
    memcpy(&set, record + 4, 8);
    return set;
}

static bool may_observe(const struct walk *w, const struct state *s, const uint8_t *r) {
    uint8_t all = (1u << w->tablets) - 1;
    switch (r[0]) {
    case 1:
    case 2:
        return s->local[r[1] - 1] == r[3];
    case 3:
        return s->server == r[3] && s->conflicts == set_of(r) && s->fresh == all && s->dirty == 0;
    default:
        return false;
    }
}

static struct state then_observe(struct state s, const uint8_t *r) {
    if (r[0] == 2) {
        s.local[r[1] - 1] = r[2];
        s.dirty |= 1u << (r[1] - 1);
    }
    return s;
}

static struct state then_up(struct state s, uint32_t t) {
    uint8_t bit = 1u << t;
    uint8_t value = s.local[t];
    bool fresh = s.fresh & bit;
    s.dirty &= ~bit;
    if (fresh && value != s.server) {
        s.server = value;
        s.fresh = bit;
    } else if (!fresh && value != s.server && value != 0) {
        s.conflicts |= (uint64_t)1 << value;
    }
    return s;
}

static struct state then_down(struct state s, uint32_t t) {
    s.local[t] = s.server;
    s.fresh |= 1u << t;
    return s;
}

static enum found visit(struct walk *w, struct state s, const uint8_t *at, uint32_t depth);

static enum found child(struct walk *w, struct state s, const uint8_t *at, uint32_t depth, uint8_t kind, uint8_t tablet) {
    if (w->points == BUDGET) return SPENT;
    if (depth == w->limit) return DEEP;
    enum found f = visit(w, s, at, depth + 1);
    if (f == END) {
        w->room[2 * depth] = kind;
        w->room[2 * depth + 1] = tablet;
    }
    return f;
}

static enum found visit(struct walk *w, struct state s, const uint8_t *at, uint32_t depth) {
    w->points++;
    if (at == w->end) return END;
    if (may_observe(w, &s, at)) {
        enum found f = child(w, then_observe(s, at), at + 12, depth, at[0], at[1]);
        if (f != NOTHING) return f;
    }
    for (uint32_t t = 0; t < w->tablets; t++) {
        if (s.dirty >> t & 1) {
            enum found f = child(w, then_up(s, t), at, depth, 5, t + 1);
            if (f != NOTHING) return f;
        }
    }
    for (uint32_t t = 0; t < w->tablets; t++) {
        if (!((s.fresh | s.dirty) >> t & 1)) {
            enum found f = child(w, then_down(s, t), at, depth, 6, t + 1);
            if (f != NOTHING) return f;
        }
    }
    return NOTHING;
}

static uint8_t file[65536], room[SKLANDUPA_ROOM], area[SKLANDUPA_AREA];

static uint32_t plain(void) {
    const uint8_t *body = file + 4 + 4 * file[3];
    uint32_t records = file[6] + 256 * file[7], writes = 0;
    for (uint32_t i = 0; i < records; i++) writes += body[12 * i] == 2;
    struct walk w = {body + 12 * records, room, file[1], 0, records + file[1] * writes};
    struct state first = {.fresh = (1u << file[1]) - 1};
    visit(&w, first, body, 0);
    return w.points;
}

static uint32_t library(size_t length) {
    sklandupa_explain(file, length, 1, BUDGET, room, sizeof room, area, sizeof area);
    return area[0] | (uint32_t)area[1] << 8 | (uint32_t)area[2] << 16 | (uint32_t)area[3] << 24;
}

static double seconds(void) {
    struct timespec now;
    clock_gettime(CLOCK_PROCESS_CPUTIME_ID, &now);
    return now.tv_sec + now.tv_nsec / 1e9;
}

/* Measures one file, and says whether both visited as many points. */
static bool measure(const char *name) {
    FILE *opened = fopen(name, "rb");
    if (!opened) {
        perror(name);
        return false;
    }
    size_t length = fread(file, 1, sizeof file, opened);
    fclose(opened);
    double best_plain = 1e9, best_ours = 1e9;
    uint32_t points_plain = 0, points_ours = 0;
    for (int round = 0; round < ROUNDS; round++) {
        double start = seconds();
        points_plain = plain();
        double middle = seconds();
        points_ours = library(length);
        double end = seconds();
        if (middle - start < best_plain) best_plain = middle - start;
        if (end - middle < best_ours) best_ours = end - middle;
    }
    printf("%-32s %8u points   ours/plain %.2f   ours %.0f million points a second\n", name, points_ours, best_ours / best_plain,
           points_ours / best_ours / 1e6);
    return points_ours == points_plain;
}

int main(int count, char **names) {
    bool same = true;
    for (int i = 1; i < count; i++) same &= measure(names[i]);
    if (!same) printf("the two did not visit as many points\n");
    return !same;
}
