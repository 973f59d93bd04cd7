// Baseline (b): no square. Moore's partition of the states, round by round; two states are told apart after r symbols where round r is the first
// that has them in different blocks. A round is made from the one before by Hopcroft's rule: of the parts of a block that the last round split, all
// but the largest split the blocks of this one. Sets of states are words. Only states that the start reaches are looked at, nearest first, and
// no further than the best total found so far allows. The question of trust is not answered here: where it tells two states apart depends on which
// of them was sent, and a partition knows no order. A proof is the last partition, of all states.
#include "states.h"
#include <string.h>

enum { MANY = 1 << 20 };

// The block of each state.
typedef uint8_t partition[MOST];

// Only states without a mark are searched: all that a marked state leads to has its mark, so that no fault at it does harm.
struct search {
    const struct table *t;
    const uint8_t *outputs;         // what each state reads
    uint8_t classes[MOST];          // the same by classes
    states marked[3];               // the states with each mark
    int depth;                      // how many layers there are
    states layer[MOST];             // the unmarked states at each distance from the start
    states reached;                 // all of them
    states succ[MOST];              // the states that some symbol leads to from one of them
    states pred_by[SYMBOLS][MOST];  // those of them from which a symbol leads to a state
    partition round[MOST];          // the blocks after each round
    int last;                       // the last round that split a block
};

// The blocks of a round.
struct blocks {
    int count;
    states open;            // the states that are not alone in their block
    states set[MOST];       // the states of a block
    uint8_t size[MOST];     // how many they are
    uint8_t root[MOST];     // the block that a block was part of before this round
    uint8_t largest[MOST];  // the largest part of a block
    partition of;           // the block of a state
};

struct choice {
    int cost, kind, first, second;
};

// Takes the lowest state out of the set.
static inline int pop(states *set)
{
    int q = lowest(*set);
    *set &= *set - 1;
    return q;
}

// ---- layers and classes

// Adds the layers from this one on: unmarked states that stand in no layer yet.
static void explore_from(struct search *m, states front)
{
    const struct table *t = m->t;
    while (front) {
        states found = 0;
        m->layer[m->depth++] = front;
        m->reached |= front;
        while (front) {
            int q = pop(&front);
            const uint8_t *row = t->next + q * t->k;
            states succ = 0;
            for (int a = 0; a < t->k; a++) {
                m->pred_by[a][row[a]] |= only(q);
                succ |= only(row[a]);
            }
            m->succ[q] = succ;
            found |= succ;
        }
        front = found & m->marked[0] & ~m->reached;
    }
}

static void explore(struct search *m)
{
    const struct table *t = m->t;
    memset(m->marked, 0, sizeof m->marked);
    for (int q = 0; q < t->n; q++)
        m->marked[t->marks[q]] |= only(q);
    for (int a = 0; a < t->k; a++)
        memset(m->pred_by[a], 0, t->n * sizeof m->pred_by[a][0]);
    m->reached = 0;
    m->depth = 0;
    explore_from(m, only(t->start) & m->marked[0]);
}

// The same with the unmarked states that the start does not reach: a proof is about all states.
static void explore_all(struct search *m)
{
    explore(m);
    explore_from(m, m->marked[0] & ~m->reached);
}

// The states with the mark, and the reached ones from which some trace leads to it: layers from the last to the first, until nothing is added.
static states reaching(const struct search *m, int mark)
{
    states set = m->marked[mark], before;
    do {
        before = set;
        for (int d = m->depth - 1; d >= 0; d--)
            for (states rest = m->layer[d] & ~set; rest;) {
                int q = pop(&rest);
                set |= (states)((m->succ[q] & set) != 0) << q;
            }
    } while (set != before && m->reached & ~set);
    return set;
}

static int class_of(int mark, bool truth, bool falsity)
{
    if (mark)
        return mark - 1;
    if (truth)
        return falsity ? 4 : 2;
    return falsity ? 3 : 5;
}

static void read_classes(struct search *m)
{
    states truth = reaching(m, 1), falsity = reaching(m, 2);
    for (int q = 0; q < m->t->n; q++)
        m->classes[q] = class_of(m->t->marks[q], has(truth, q), has(falsity, q));
}

static int monitorability(const struct search *m)
{
    static const uint8_t weak[] = {0, 1, 0, 1, 2, 3};
    states truth = reaching(m, 1), falsity = reaching(m, 2);
    int q = m->t->start;
    if (m->reached & ~truth & ~falsity)
        return 3;
    return weak[class_of(m->t->marks[q], has(truth, q), has(falsity, q))];
}

// ---- the rounds

// Makes a block of `part`, which is some of block b and not all.
static void split(struct blocks *p, int b, states part)
{
    int c = p->count++;
    states rest = p->set[b] ^ part;
    p->set[b] = rest;
    p->set[c] = part;
    p->root[c] = p->root[b];
    if ((part & (part - 1)) == 0)
        p->open &= ~part;
    if ((rest & (rest - 1)) == 0)
        p->open &= ~rest;
    p->size[c] = 0;
    while (part) {
        p->of[pop(&part)] = c;
        p->size[c]++;
    }
    p->size[b] -= p->size[c];
}

// Splits every block into the states that are in `within` and those that are not.
static void split_by(struct blocks *p, states within)
{
    within &= p->open;
    while (within) {
        int b = p->of[lowest(within)];
        states part = within & p->set[b];
        within ^= part;
        if (part != p->set[b])
            split(p, b, part);
    }
}

// Of each block that was split since there were `old` blocks, all parts but the largest. Returns how many.
static int smaller_parts(struct blocks *p, int old, states *parts)
{
    for (int c = old; c < p->count; c++) {
        uint8_t *largest = &p->largest[p->root[c]];
        int smaller = c;
        if (p->size[c] > p->size[*largest]) {
            smaller = *largest;
            *largest = c;
        }
        parts[c - old] = p->set[smaller];
    }
    for (int c = old; c < p->count; c++) {
        p->largest[p->root[c]] = p->root[c];
        p->largest[c] = p->root[c] = c;
    }
    return p->count - old;
}

// Round 0: all states were one block, which is split by what they read. Marked states are not split any further.
static void begin(const struct search *m, struct blocks *p)
{
    states all = m->reached | m->marked[1] | m->marked[2], reading[6] = {0};
    p->count = 1;
    p->size[0] = p->root[0] = p->largest[0] = 0;
    p->set[0] = p->open = all;
    while (all) {
        int q = pop(&all);
        reading[m->outputs[q]] |= only(q);
        p->of[q] = 0;
        p->size[0]++;
    }
    for (int v = 0; v < 6; v++)
        split_by(p, reading[v]);
    p->open &= m->reached;
}

static void refine(struct search *m)
{
    struct blocks p;
    states parts[MOST];
    begin(m, &p);
    memcpy(m->round[0], p.of, sizeof p.of);
    m->last = 0;
    for (int old = 1; p.open && p.count > old;) {
        int count = smaller_parts(&p, old, parts);
        old = p.count;
        for (int i = 0; i < count; i++)
            for (int a = 0; a < m->t->k && p.open; a++) {
                states into = 0;
                EACH_WORD(w)
                    for (uint64_t rest = word(parts[i], w); rest; rest &= rest - 1)
                        into |= m->pred_by[a][lowest_in(rest, w)];
                split_by(&p, into);
            }
        if (p.count > old)
            memcpy(m->round[++m->last], p.of, sizeof p.of);
    }
}

// ---- fault steps

// The round within which a pair must be told apart so that a fault step of `count` symbols costs less, or null where none can.
static inline const partition *limit(const struct search *m, int cost, int count)
{
    int r = cost - 1 - count;
    return r < 0 ? 0 : &m->round[r < m->last ? r : m->last];
}

// Takes the fault step, which leads to x and y, where they are told apart within the round. Returns the limit for the next one.
static inline const partition *offer(const struct search *m, struct choice *best, const partition *round, int x, int y, struct choice step)
{
    if ((*round)[x] == (*round)[y])
        return round;
    while (round > m->round && round[-1][x] != round[-1][y])
        round--;
    int count = step.cost;
    *best = step;
    best->cost += round - m->round;
    return limit(m, best->cost, count);
}

// The cheapest fault step of the set at p, the first in the written order, where it costs no more than `most`; else one that costs more.
// Corruption looks at symbol 0 alone: of two successors in different blocks, one is in another block than the successor by symbol 0.
// Swap looks at rising symbols alone: the same pairs come later in falling order.
static struct choice cheapest(const struct search *m, int set, int p, int most)
{
    struct choice best = {most + 1, 0, 0, 0};
    int k = m->t->k;
    const uint8_t *next = m->t->next, *row = next + p * k;
    const partition *round = set & LOSS ? limit(m, best.cost, 1) : 0;
    for (int a = 0; round && a < k; a++)
        round = offer(m, &best, round, row[a], p, (struct choice){1, LOSS, a, 0});
    round = set & CORRUPTION ? limit(m, best.cost, 1) : 0;
    for (int b = 1; round && b < k; b++)
        round = offer(m, &best, round, row[0], row[b], (struct choice){1, CORRUPTION, 0, b});
    round = set & REPEAT ? limit(m, best.cost, 1) : 0;
    for (int a = 0; round && a < k; a++)
        round = offer(m, &best, round, row[a], next[row[a] * k + a], (struct choice){1, REPEAT, a, 0});
    round = set & SWAP ? limit(m, best.cost, 2) : 0;
    for (int a = 0; round && a < k; a++)
        for (int b = a + 1; round && b < k; b++)
            round = offer(m, &best, round, next[row[a] * k + b], next[row[b] * k + a], (struct choice){2, SWAP, a, b});
    return best;
}

// The fewest symbols sent in a harmful series, or MANY: plain symbols to a state, and the cheapest fault step there. The states where
// that step can be go into `where`; without it, the number alone is wanted, and no state that gives the same number is looked for.
static int least_total(const struct search *m, int set, states *where)
{
    int total = MANY, strict = where == 0;
    for (int d = 0; d < m->depth && d + 1 + strict <= total; d++)
        for (states rest = m->layer[d]; rest;) {
            int p = pop(&rest), most = total - d - strict, cost = cheapest(m, set, p, most).cost;
            if (cost > most)
                continue;
            if (where)
                *where = (d + cost < total ? 0 : *where) | only(p);
            total = d + cost;
        }
    return total;
}

// ---- the witness

// Writes the first of the shortest traces from the start to a state of `where`. Returns its length, and the state in p.
static int write_before(const struct search *m, states where, uint8_t *area, int *p)
{
    states toward[MOST + 1];  // by depth, the states from which the layers lead on to `where`
    toward[m->depth] = 0;
    for (int d = m->depth - 1; d >= 0; d--) {
        toward[d] = m->layer[d] & where;
        for (states rest = toward[d + 1] ? m->layer[d] & ~where : 0; rest;) {
            int q = pop(&rest);
            toward[d] |= (states)((m->succ[q] & toward[d + 1]) != 0) << q;
        }
    }
    int d = 0;
    for (*p = m->t->start; !has(where, *p); d++) {
        const uint8_t *row = m->t->next + *p * m->t->k;
        int a = 0;
        while (!has(toward[d + 1], row[a]))
            a++;
        area[d] = a;
        *p = row[a];
    }
    return d;
}

// Writes the first of the shortest traces that tell x and y apart, `left` symbols long, and follows it.
static void write_apart(const struct search *m, int *x, int *y, int left, uint8_t *area)
{
    while (left-- > 0) {
        const uint8_t *xs = m->t->next + *x * m->t->k, *ys = m->t->next + *y * m->t->k;
        int a = 0;
        while (m->round[left][xs[a]] == m->round[left][ys[a]])
            a++;
        *area++ = a;
        *x = xs[a];
        *y = ys[a];
    }
}

static struct witness witness_of(const struct search *m, int set, int total, states where, uint8_t *area)
{
    int p, at = write_before(m, where, area, &p);
    struct choice c = cheapest(m, set, p, total - at);
    struct witness w = {.distance = total, .before = at, .kind = c.kind, .replacement = c.kind == CORRUPTION ? c.second : 0};
    int x, y;
    at += strike(m->t, p, c.kind, c.first, c.second, &x, &y, area + at);
    write_apart(m, &x, &y, total - at, area + at);
    w.sent = m->outputs[x];
    w.received = m->outputs[y];
    count_witness(m->t, &w, area);
    return w;
}

static enum finding examine(const struct table *t, int set, int reading, uint8_t *area, int room, struct witness *w)
{
    struct search m;
    states where = 0;
    m.t = t;
    m.outputs = reading == 3 ? t->marks : m.classes;
    explore(&m);
    if (reading == 6)
        read_classes(&m);
    refine(&m);
    int total = least_total(&m, set, &where);
    if (total == MANY)
        return IMMUNE;
    if (room < total)
        return NO_ROOM;
    *w = witness_of(&m, set, total, where, area);
    return VULNERABLE;
}

static struct card card_of(const struct table *t)
{
    struct search m;
    m.t = t;
    m.outputs = t->marks;
    explore(&m);
    refine(&m);
    struct card card = {.monitorability = monitorability(&m)};
    for (int i = 0; i < 4; i++) {
        int total = least_total(&m, 1 << i, 0);
        card.distance[i] = total == MANY ? 0 : total;
    }
    return card;
}

// ---- proofs

// Whether some fault step of the set brings sent and received from p into different blocks, where every symbol takes a
// block into one block. Where loss does not, no fault does: every symbol then keeps the block of p. Corruption and swap
// are asked of fewer symbols, as in cheapest().
static bool parts(const struct table *t, int set, const uint8_t *blocks, int p)
{
    const uint8_t *next = t->next, *row = next + p * t->k;
    int k = t->k;
    if (set & LOSS) {
        for (int a = 0; a < k; a++)
            if (blocks[row[a]] != blocks[p])
                return true;
        return false;
    }
    if (set & CORRUPTION)
        for (int b = 1; b < k; b++)
            if (blocks[row[0]] != blocks[row[b]])
                return true;
    if (set & REPEAT)
        for (int a = 0; a < k; a++)
            if (blocks[row[a]] != blocks[next[row[a] * k + a]])
                return true;
    if (set & SWAP)
        for (int a = 0; a < k; a++)
            for (int b = a + 1; b < k; b++)
                if (blocks[next[row[a] * k + b]] != blocks[next[row[b] * k + a]])
                    return true;
    return false;
}

// The states that the start reaches, marked ones too.
static void find_reached(const struct table *t, bool *reached)
{
    uint8_t left[MOST] = {t->start};
    memset(reached, 0, t->n);
    reached[t->start] = true;
    for (int count = 1; count > 0;) {
        const uint8_t *row = t->next + left[--count] * t->k;
        for (int a = 0; a < t->k; a++)
            if (!reached[row[a]]) {
                reached[row[a]] = true;
                left[count++] = row[a];
            }
    }
}

// The fault steps are asked of one state of each block, the lowest that is reached: the others give the same answer.
static int check(const struct table *t, int set, int reading, const uint8_t *blocks, int *place)
{
    struct search m;
    uint8_t first[MOST];
    m.t = t;
    m.outputs = t->marks;
    if (reading == 6) {
        m.outputs = m.classes;
        explore_all(&m);
        read_classes(&m);
    }
    lowest_of_each(blocks, t->n, first);
    for (int q = 0; q < t->n; q++)
        if (m.outputs[first[blocks[q]]] != m.outputs[q]) {
            *place = q;
            return 16;
        }
    for (int q = 0; q < t->n; q++)
        if (first[blocks[q]] < q && !step_alike(t, blocks, first[blocks[q]], q)) {
            *place = q;
            return 17;
        }
    if (set == 0)
        return 0;
    bool reached[MOST], asked[MOST] = {false};
    find_reached(t, reached);
    for (int p = 0; p < t->n; p++) {
        if (!reached[p] || asked[blocks[p]])
            continue;
        asked[blocks[p]] = true;
        if (parts(t, set, blocks, p)) {
            *place = p;
            return 18;
        }
    }
    return 0;
}

// The blocks of the last round, each with the number of its lowest state.
static void make(const struct table *t, int reading, uint8_t *blocks)
{
    struct search m;
    uint8_t first[MOST];
    m.t = t;
    m.outputs = reading == 3 ? t->marks : m.classes;
    explore_all(&m);
    if (reading == 6)
        read_classes(&m);
    refine(&m);
    const uint8_t *of = m.round[m.last];
    lowest_of_each(of, t->n, first);
    for (int q = 0; q < t->n; q++)
        blocks[q] = first[of[q]];
}

const struct baseline BASELINE = {.examine = examine, .card_of = card_of, .check = check, .make = make};
