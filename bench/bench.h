// What the two baselines share: a table, the answers, and the functions that each of them has in its own way.
#include <stdbool.h>
#include <stddef.h>
#include <stdint.h>

enum { STATES = 128, SYMBOLS = 16, LOSS = 1, CORRUPTION = 2, REPEAT = 4, SWAP = 8 };

// No sent trace of a witness is longer.
enum { WITNESS = STATES * STATES + STATES + 2 };

// An accepted table. The successors of state q are next[q * k] to next[q * k + k - 1].
struct table {
    int n, k, start;
    const uint8_t *marks, *next;
};

// The figures of a witness; its sent trace goes into the area. A count below 0 is never.
struct witness {
    int distance, before, kind, replacement, sent, received, sent_count, received_count;
};

// Reads messages from a state on, up to the first verdict. Returns the state, and how many were read.
static inline int follow(const struct table *t, int state, const uint8_t *messages, size_t count, size_t *read)
{
    const uint8_t *marks = t->marks, *next = t->next;
    size_t k = t->k, q = state, i = 0;
    for (; i < count && marks[q] == 0; i++)
        q = next[q * k + messages[i]];
    *read = i;
    return q;
}

// After how many messages the verdict falls in the sent trace of a witness, and in what is received in its place.
static inline void count_witness(const struct table *t, struct witness *w, const uint8_t *sent)
{
    const uint8_t *struck = sent + w->before;
    int covered = w->kind == SWAP ? 2 : 1, delivered = w->kind == LOSS ? 0 : w->kind == CORRUPTION ? 1 : 2;
    uint8_t put[2] = {w->kind == CORRUPTION ? w->replacement : struck[covered - 1], struck[0]};
    size_t one, two, three;
    int state = follow(t, t->start, sent, w->distance, &one);
    w->sent_count = t->marks[state] ? (int)one : -1;
    state = follow(t, t->start, sent, w->before, &one);
    state = follow(t, state, put, delivered, &two);
    state = follow(t, state, struck + covered, w->distance - w->before - covered, &three);
    w->received_count = t->marks[state] ? (int)(one + two + three) : -1;
}

// The monitorability (0 pos, 1 neg, 2 both, 3 none), and the distances under loss, corruption, repeat and swap by marks, 0 where missing.
struct card {
    int monitorability, distance[4];
};

// Of a question of trust IMMUNE says that the verdict can be believed.
enum finding { IMMUNE, VULNERABLE, NO_ROOM };

// A baseline's functions: the fault question, the question of trust, which only (a) knows, the card, the check of a
// proof, and the making of one. The blocks that are checked are as many as the states and below their number; the check
// returns the number of the first no of 16 to 18 with its place, or 0.
struct baseline {
    enum finding (*examine)(const struct table *t, int set, int reading, uint8_t *area, int room, struct witness *w);
    enum finding (*believe)(const struct table *t, int set, int reading, int verdict, uint8_t *area, int room, struct witness *w);
    struct card (*card_of)(const struct table *t);
    int (*check)(const struct table *t, int set, int reading, const uint8_t *blocks, int *place);
    void (*make)(const struct table *t, int reading, uint8_t *blocks);
};

// The same baseline for tables of up to 64 states, where a set of states is one word, and of up to 128.
extern const struct baseline one_word, two_words;

// The lowest state of each block of n states.
static inline void lowest_of_each(const uint8_t *blocks, int n, uint8_t *lowest)
{
    for (int q = n; q-- > 0;)
        lowest[blocks[q]] = q;
}

// Whether every symbol leads from p and q into one block.
static inline bool step_alike(const struct table *t, const uint8_t *blocks, int p, int q)
{
    const uint8_t *one = t->next + p * t->k, *other = t->next + q * t->k;
    for (int a = 0; a < t->k; a++)
        if (blocks[one[a]] != blocks[other[a]])
            return false;
    return true;
}

// The fault step of this kind at state p: the states after the sent and after the received messages, and the sent messages. Returns how many are sent.
static inline int strike(const struct table *t, int p, int kind, int first, int second, int *x, int *y, uint8_t *sent)
{
    const uint8_t *next = t->next;
    int k = t->k;
    *x = next[p * k + first];
    *y = p;
    sent[0] = first;
    if (kind == CORRUPTION)
        *y = next[p * k + second];
    else if (kind == REPEAT)
        *y = next[*x * k + first];
    else if (kind == SWAP) {
        *y = next[next[p * k + second] * k + first];
        *x = next[*x * k + second];
        sent[1] = second;
        return 2;
    }
    return 1;
}
