// Baseline (a): the library's algorithm. The distances of all pairs of states stand in one square; the pairs at r + 1 are
// found from those at r through the predecessors of their two states, and sets of states are words. From the square come
// the cheapest fault step at each state, the totals, and the witness. The question of trust is the same search with
// another test of what tells two states apart. A proof is made from the square, and checked without it.
#include "states.h"
#include <string.h>

enum { NEVER = 65535 };

typedef uint16_t square[MOST][MOST];

struct choice {
    int cost, kind, first, second;
};

// ---- classes

// The set, and the states from which it can be reached: widened state by state until nothing is added.
static states reaching(const struct table *t, states set)
{
    for (;;) {
        states before = set;
        for (int q = 0; q < t->n; q++) {
            if (has(set, q))
                continue;
            for (int a = 0; a < t->k; a++)
                if (has(set, t->next[q * t->k + a])) {
                    set |= only(q);
                    break;
                }
        }
        if (set == before)
            return set;
    }
}

static states reachable(const struct table *t)
{
    states seen = only(t->start), expanded = 0;
    while (seen != expanded) {
        int q = lowest(seen & ~expanded);
        expanded |= only(q);
        for (int a = 0; a < t->k; a++)
            seen |= only(t->next[q * t->k + a]);
    }
    return seen;
}

static states marked(const struct table *t, int mark)
{
    states set = 0;
    for (int q = 0; q < t->n; q++)
        if (t->marks[q] == mark)
            set |= only(q);
    return set;
}

// The class of state q, by the states from which true and false can be reached.
static int class_of(const struct table *t, states truth, states falsity, int q)
{
    if (t->marks[q])
        return t->marks[q] - 1;
    if (has(truth, q))
        return has(falsity, q) ? 4 : 2;
    return has(falsity, q) ? 3 : 5;
}

static int monitorability(const struct table *t)
{
    static const uint8_t weak[] = {0, 1, 0, 1, 2, 3};
    states truth = reaching(t, marked(t, 1)), falsity = reaching(t, marked(t, 2));
    if (reachable(t) & ~truth & ~falsity)
        return 3;
    return weak[class_of(t, truth, falsity, t->start)];
}

static void write_classes(const struct table *t, uint8_t *outputs)
{
    states truth = reaching(t, marked(t, 1)), falsity = reaching(t, marked(t, 2));
    for (int q = 0; q < t->n; q++)
        outputs[q] = class_of(t, truth, falsity, q);
}

// What every state reads.
static void write_readings(const struct table *t, int reading, uint8_t *outputs)
{
    if (reading == 3)
        memcpy(outputs, t->marks, t->n);
    else
        write_classes(t, outputs);
}

// ---- the square

// What tells two states apart, the sent one first: that they read otherwise, or, if the test is a verdict, that the
// received one reads it and the sent one does not.
enum { DIFFER = -1 };

static inline bool passes(int test, int sent, int received)
{
    return test == DIFFER ? sent != received : received == test && sent != test;
}

// What the square is made with. Of each array only what n states and k symbols need is used.
struct pairs {
    states predecessors[SYMBOLS][MOST];  // the states from which a symbol leads to a state
    states alike[MOST];                  // the states that are not told apart from a state so far, without itself
    states open;                         // the states that others are still alike to
    states fresh[2][MOST];               // those that the last round told apart from it, and this one
};

static void find_predecessors(const struct table *t, struct pairs *pairs)
{
    size_t n = t->n, k = t->k;
    const uint8_t *row = t->next;
    for (size_t a = 0; a < k; a++)
        memset(pairs->predecessors[a], 0, n * sizeof pairs->predecessors[a][0]);
    for (size_t p = 0; p < n; p++, row += k)
        for (size_t a = 0; a < k; a++)
            pairs->predecessors[a][row[a]] |= only(p);
}

// Enters 0 in row p for the states of word w that are told apart from p at once. Returns them.
static inline uint64_t begin_word(const struct table *t, const uint8_t *outputs, int test, uint16_t *row, int p, int w)
{
    int sent = outputs[p], count = w < WORDS - 1 ? 64 : t->n - 64 * w;
    uint64_t apart = 0;
    for (int q = 0; q < count; q++)
        if (passes(test, sent, outputs[64 * w + q])) {
            row[64 * w + q] = 0;
            apart |= 1ull << q;
        }
    return apart;
}

// The pairs at distance 0. Returns the rows that have one.
static states begin(const struct table *t, const uint8_t *outputs, int test, square s, struct pairs *pairs)
{
    states rows = 0, all = ~(states)0 >> (MOST - t->n);
    pairs->open = 0;
    memset(s, 255, t->n * sizeof s[0]);
    memset(pairs->fresh[1], 0, t->n * sizeof pairs->fresh[1][0]);
    for (int p = 0; p < t->n; p++) {
        states apart = 0;
        EACH_WORD(w)
            apart |= (states)begin_word(t, outputs, test, s[p], p, w) << 64 * w;
        pairs->alike[p] = all & ~apart & ~only(p);
        if (pairs->alike[p])
            pairs->open |= only(p);
        pairs->fresh[0][p] = apart;
        if (apart)
            rows |= only(p);
    }
    return rows;
}

// The states from which a symbol leads into a set that is not empty; these are the symbol's predecessors. So of two words
// one can be 0, a single one cannot.
static inline states leading_into(const states *predecessors, states set)
{
    states into = 0;
    EACH_WORD(w) {
        uint64_t left = word(set, w);
        if (WORDS > 1 && left == 0)
            continue;
        do
            into |= predecessors[lowest_in(left, w)];
        while (left &= left - 1);
    }
    return into;
}

// Enters r for each state of the set in this row of the square.
static inline void enter(uint16_t *row, states set, int r)
{
    EACH_WORD(w)
        for (uint64_t left = word(set, w); left; left &= left - 1)
            row[lowest_in(left, w)] = r;
}

// The round after r: from the fresh pairs, which are at r, to those at r + 1. The rows are those that have a fresh pair.
// Returns the rows of the next round.
static states spread(const struct table *t, square s, struct pairs *pairs, states rows, int r)
{
    size_t k = t->k;
    states found = 0, *fresh = pairs->fresh[r & 1], *next = pairs->fresh[~r & 1];
    for (; rows; rows &= rows - 1) {
        int x = lowest(rows);
        states front = fresh[x];
        fresh[x] = 0;
        for (size_t a = 0; a < k; a++) {
            states open = pairs->predecessors[a][x] & pairs->open;
            if (open == 0)
                continue;
            states into = leading_into(pairs->predecessors[a], front);
            EACH_WORD(w)
                for (uint64_t left = word(open, w); left; left &= left - 1) {
                    int p = lowest_in(left, w);
                    states alike = pairs->alike[p], new = alike & into;
                    if (new == 0)
                        continue;
                    pairs->alike[p] = alike & ~new;
                    if (alike == new)
                        pairs->open &= ~only(p);
                    next[p] |= new;
                    found |= only(p);
                    enter(s[p], new, r + 1);
                }
        }
    }
    return found;
}

// Round by round until no pair is fresh: each pair is fresh once.
static void distances(const struct table *t, const uint8_t *outputs, int test, square s)
{
    struct pairs pairs;
    find_predecessors(t, &pairs);
    states rows = begin(t, outputs, test, s, &pairs);
    for (int r = 0; rows; r++)
        rows = spread(t, s, &pairs, rows, r);
}

// ---- fault steps and totals

static inline void offer(struct choice *best, int cost, int kind, int first, int second)
{
    if (cost < best->cost)
        *best = (struct choice){cost, kind, first, second};
}

// The cheapest fault step of the set at p, the first in the written order.
static struct choice cheapest(const struct table *t, square s, int set, int p)
{
    struct choice best = {NEVER, 0, 0, 0};
    const uint8_t *next = t->next, *row = next + p * t->k;
    int k = t->k;
    if (set & LOSS)
        for (int a = 0; a < k; a++)
            offer(&best, 1 + s[row[a]][p], LOSS, a, 0);
    if (set & CORRUPTION)
        for (int a = 0; a < k; a++)
            for (int b = 0; b < k; b++)
                offer(&best, 1 + s[row[a]][row[b]], CORRUPTION, a, b);
    if (set & REPEAT)
        for (int a = 0; a < k; a++)
            offer(&best, 1 + s[row[a]][next[row[a] * k + a]], REPEAT, a, 0);
    if (set & SWAP)
        for (int a = 0; a < k; a++)
            for (int b = 0; b < k; b++)
                offer(&best, 2 + s[next[row[a] * k + b]][next[row[b] * k + a]], SWAP, a, b);
    return best;
}

// The totals begin as the costs; passes lower them until a pass lowers none.
static void relax(const struct table *t, int *totals)
{
    for (bool changed = true; changed;) {
        changed = false;
        for (int p = 0; p < t->n; p++) {
            int least = NEVER;
            for (int a = 0; a < t->k; a++) {
                int total = totals[t->next[p * t->k + a]];
                if (total < least)
                    least = total;
            }
            if (least + 1 < totals[p]) {
                totals[p] = least + 1;
                changed = true;
            }
        }
    }
}

// ---- the witness

static struct witness witness_of(const struct table *t, const uint8_t *outputs, square s, const int *costs, const int *totals, int set, uint8_t *area)
{
    const uint8_t *next = t->next;
    int k = t->k, p = t->start, at = 0, a;
    for (int left = totals[p]; costs[p] != left; p = next[p * k + a]) {
        left--;
        for (a = 0; totals[next[p * k + a]] != left; a++)
            ;
        area[at++] = a;
    }
    struct choice c = cheapest(t, s, set, p);
    struct witness w = {.distance = totals[t->start], .before = at, .kind = c.kind, .replacement = c.kind == CORRUPTION ? c.second : 0};
    int x, y;
    at += strike(t, p, c.kind, c.first, c.second, &x, &y, area + at);
    for (int left = s[x][y]; left > 0;) {
        left--;
        for (a = 0; s[next[x * k + a]][next[y * k + a]] != left; a++)
            ;
        area[at++] = a;
        x = next[x * k + a];
        y = next[y * k + a];
    }
    w.sent = outputs[x];
    w.received = outputs[y];
    count_witness(t, &w, area);
    return w;
}

// The finding for one fault set, from the outputs and the square that all sets share.
static enum finding examine_set(const struct table *t, const uint8_t *outputs, square s, int set, uint8_t *area, int room, struct witness *w)
{
    int costs[MOST], totals[MOST];
    for (int p = 0; p < t->n; p++)
        costs[p] = totals[p] = cheapest(t, s, set, p).cost;
    relax(t, totals);
    if (totals[t->start] == NEVER)
        return IMMUNE;
    if (room < totals[t->start])
        return NO_ROOM;
    *w = witness_of(t, outputs, s, costs, totals, set, area);
    return VULNERABLE;
}

// The first witness by this test.
static enum finding first_witness(const struct table *t, int set, int reading, int test, uint8_t *area, int room, struct witness *w)
{
    uint8_t outputs[MOST];
    square s;
    write_readings(t, reading, outputs);
    distances(t, outputs, test, s);
    return examine_set(t, outputs, s, set, area, room, w);
}

static enum finding examine(const struct table *t, int set, int reading, uint8_t *area, int room, struct witness *w)
{
    return first_witness(t, set, reading, DIFFER, area, room, w);
}

static enum finding believe(const struct table *t, int set, int reading, int verdict, uint8_t *area, int room, struct witness *w)
{
    return first_witness(t, set, reading, verdict, area, room, w);
}

static struct card card_of(const struct table *t)
{
    struct card card = {.monitorability = monitorability(t)};
    uint8_t area[WITNESS];
    struct witness w;
    square s;
    distances(t, t->marks, DIFFER, s);
    for (int i = 0; i < 4; i++)
        if (examine_set(t, t->marks, s, 1 << i, area, sizeof area, &w) == VULNERABLE)
            card.distance[i] = w.distance;
    return card;
}

// ---- proofs

// Whether some fault step of the set brings sent and received from p into different blocks.
static bool parts(const struct table *t, int set, const uint8_t *blocks, int p)
{
    const uint8_t *next = t->next, *row = next + p * t->k;
    int k = t->k;
    if (set & LOSS)
        for (int a = 0; a < k; a++)
            if (blocks[row[a]] != blocks[p])
                return true;
    if (set & CORRUPTION)
        for (int a = 0; a < k; a++)
            for (int b = 0; b < k; b++)
                if (blocks[row[a]] != blocks[row[b]])
                    return true;
    if (set & REPEAT)
        for (int a = 0; a < k; a++)
            if (blocks[row[a]] != blocks[next[row[a] * k + a]])
                return true;
    if (set & SWAP)
        for (int a = 0; a < k; a++)
            for (int b = 0; b < k; b++)
                if (blocks[next[row[a] * k + b]] != blocks[next[row[b] * k + a]])
                    return true;
    return false;
}

// Every state is compared with the lowest one of its block; then every fault step is asked at every state that is reached.
static int check(const struct table *t, int set, int reading, const uint8_t *blocks, int *place)
{
    uint8_t outputs[MOST], first[MOST];
    write_readings(t, reading, outputs);
    lowest_of_each(blocks, t->n, first);
    for (int q = 0; q < t->n; q++)
        if (outputs[first[blocks[q]]] != outputs[q]) {
            *place = q;
            return 16;
        }
    for (int q = 0; q < t->n; q++)
        if (!step_alike(t, blocks, first[blocks[q]], q)) {
            *place = q;
            return 17;
        }
    states reached = reachable(t);
    for (int p = 0; p < t->n; p++)
        if (has(reached, p) && parts(t, set, blocks, p)) {
            *place = p;
            return 18;
        }
    return 0;
}

// The block of a state is the lowest state that the square does not tell apart from it.
static void make(const struct table *t, int reading, uint8_t *blocks)
{
    uint8_t outputs[MOST];
    square s;
    write_readings(t, reading, outputs);
    distances(t, outputs, DIFFER, s);
    for (int q = 0; q < t->n; q++) {
        int p = 0;
        while (p < q && s[p][q] != NEVER)
            p++;
        blocks[q] = p;
    }
}

const struct baseline BASELINE = {examine, believe, card_of, check, make};
