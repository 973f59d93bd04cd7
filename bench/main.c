// The programs `listing` and `probe` around a baseline, and of `ask` the forms `fault`, `trust` where the baseline knows
// it, and `trace` for reading 3: the same input, the same text. The first argument says which.
#include "bench.h"
#include <stdio.h>
#include <stdlib.h>
#include <string.h>

enum { INPUT = 65536, MESSAGES = 262144 };

static int u16(const uint8_t *b) { return b[0] | b[1] << 8; }

// The first i below len with b[i] >= bound, or len.
static int first_not_below(const uint8_t *b, int len, int bound)
{
    for (int i = 0; i < len; i++)
        if (b[i] >= bound)
            return i;
    return len;
}

// Settles the marks: a state without one takes that of its next states where they all have the same, until none does.
static void settle(struct table *t)
{
    static uint8_t settled[STATES];
    bool more = true;
    memcpy(settled, t->marks, t->n);
    while (more) {
        more = false;
        for (int q = 0; q < t->n; q++) {
            const uint8_t *next = t->next + q * t->k;
            int mark = settled[next[0]], a = 1;
            if (settled[q] || !mark)
                continue;
            while (a < t->k && settled[next[a]] == mark)
                a++;
            if (a == t->k) {
                settled[q] = mark;
                more = true;
            }
        }
    }
    t->marks = settled;
}

// Questions 1 to 8. Returns the number of the first no with its place, or 0 and the table with its marks settled.
static int judge(const uint8_t *body, int len, int *place, struct table *t)
{
    *place = len;
    if (len < 3)
        return 1;
    int n = body[0], k = body[1];
    *place = 0;
    if (n < 1 || n > STATES)
        return 2;
    *place = 1;
    if (k < 1 || k > SYMBOLS)
        return 3;
    *place = len;
    if (len != 3 + n + n * k)
        return 4;
    *place = 2;
    if (body[2] >= n)
        return 5;
    *t = (struct table){n, k, body[2], body + 3, body + 3 + n};
    int i = first_not_below(t->marks, n, 3);
    *place = 3 + i;
    if (i < n)
        return 6;
    i = first_not_below(t->next, n * k, n);
    *place = 3 + n + i;
    if (i < n * k)
        return 7;
    for (int q = 0; q < n; q++) {
        if (t->marks[q] == 0)
            continue;
        for (i = q * k; i < q * k + k; i++) {
            *place = 3 + n + i;
            if (t->marks[t->next[i]] != t->marks[q])
                return 8;
        }
    }
    settle(t);
    return 0;
}

// ---- output

static char out[65536];
static int used;

static void flush(void)
{
    fwrite(out, 1, used, stdout);
    used = 0;
}

static void text(const char *words)
{
    while (*words)
        out[used++] = *words++;
}

// The words, and a number.
static void number(const char *words, unsigned n)
{
    char digits[10];
    int i = 0;
    text(words);
    do
        digits[i++] = '0' + n % 10;
    while (n /= 10);
    while (i > 0)
        out[used++] = digits[--i];
}

// Where there are several lines, each is far shorter than half of the output's room; the one line of `ask` fits it.
static void end_line(void)
{
    text("\n");
    if (used > (int)sizeof out / 2)
        flush();
}

static void refusal(int no, int place)
{
    number("refused ", no);
    number(" ", place);
}

static void count(const char *words, long after)
{
    text(words);
    if (after < 0)
        text("never");
    else
        number("", after);
}

// ---- the answers

static const struct baseline *baseline_for(const struct table *t)
{
    return t->n <= 64 ? &one_word : &two_words;
}

static void print_card(const uint8_t *body, int len)
{
    static const char *words[] = {" pos", " neg", " both", " none"};
    struct table t;
    int place, no = judge(body, len, &place, &t);
    if (no) {
        refusal(no, place);
        return;
    }
    struct card card = baseline_for(&t)->card_of(&t);
    number("", t.n);
    text(words[card.monitorability]);
    for (int i = 0; i < 4; i++)
        if (card.distance[i])
            number(" ", card.distance[i]);
        else
            text(" -");
}

// Questions 1 to 10: a body, a fault set and a reading.
static int judge_question(const uint8_t *body, int len, int set, int reading, int *place, struct table *t)
{
    int no = judge(body, len, place, t);
    if (no)
        return no;
    *place = 0;
    if (set > 15)
        return 9;
    return reading != 3 && reading != 6 ? 10 : 0;
}

static void figures(const char *words, const struct witness *w)
{
    number(words, w->distance);
    number(" before ", w->before);
    number(" kind ", w->kind);
    number(" replacement ", w->replacement);
    number(" readings ", w->sent);
    number(" ", w->received);
}

static void counts(const struct witness *w)
{
    count(" counts ", w->sent_count);
    count(" ", w->received_count);
}

static void bytes(const uint8_t *b, int len)
{
    for (int i = 0; i < len; i++)
        number(" ", b[i]);
}

static void print_finding(int set, int reading, int room, const uint8_t *body, int len)
{
    uint8_t area[256];
    struct table t;
    struct witness w;
    enum finding finding = IMMUNE;
    int place, no = judge_question(body, len, set, reading, &place, &t);
    memset(area, 255, sizeof area);
    if (no == 0)
        finding = baseline_for(&t)->examine(&t, set, reading, area, room, &w);
    if (finding == NO_ROOM)
        no = 13;
    if (no)
        refusal(no, place);
    else if (finding == IMMUNE)
        text("immune");
    else {
        figures("vulnerable distance ", &w);
        counts(&w);
    }
    bytes(area, room);
}

static void print_judgement(int no, int place)
{
    if (no)
        refusal(no, place);
    else
        text("accepted");
}

static void print_check(int set, int reading, const uint8_t *blocks, int count, const uint8_t *body, int len)
{
    struct table t;
    int place, no = judge_question(body, len, set, reading, &place, &t);
    if (no == 0 && count != t.n)
        no = 14, place = count;
    if (no == 0 && (place = first_not_below(blocks, count, t.n)) < count)
        no = 15;
    if (no == 0)
        no = baseline_for(&t)->check(&t, set, reading, blocks, &place);
    print_judgement(no, place);
}

static void print_blocks(int reading, int room, const uint8_t *body, int len)
{
    uint8_t area[256];
    struct table t;
    int place, no = judge_question(body, len, 0, reading, &place, &t);
    memset(area, 255, sizeof area);
    if (no == 0 && room < t.n)
        no = 13;
    if (no)
        refusal(no, place);
    else {
        baseline_for(&t)->make(&t, reading, area);
        number("written ", t.n);
    }
    bytes(area, room);
}

// Frames: a length of two bytes, the call, three numbers, the call's bytes. The calls asked here are 0, 4, 8 and 9.
static void probe(const uint8_t *input, int len)
{
    for (int at = 0; at + 2 <= len;) {
        const uint8_t *frame = input + at + 2, *rest = frame + 4;
        int size = u16(input + at), place;
        struct table t;
        if (size > len - at - 2)
            size = len - at - 2;
        at += 2 + size;
        size -= 4;
        if (size < 0)
            continue;
        if (frame[0] == 0) {
            int no = judge(rest, size, &place, &t);
            print_judgement(no, place);
        } else if (frame[0] == 4)
            print_finding(frame[1], frame[2], frame[3], rest, size);
        else if (frame[0] == 8 && frame[3] <= size)
            print_check(frame[1], frame[2], rest, frame[3], rest + frame[3], size - frame[3]);
        else if (frame[0] == 9)
            print_blocks(frame[1], frame[2], rest, size);
        end_line();
    }
}

static long offset_of(const uint8_t *entry) { return u16(entry) | (long)u16(entry + 2) << 16; }

// Questions 20 to 25. Returns the number of the first no, or 0.
static int judge_collection(const uint8_t *file, long len)
{
    if (len < 2)
        return 20;
    int c = u16(file);
    if (c > 512)
        return 21;
    long end = 2 + 8 * c;
    if (len < end)
        return 22;
    const uint8_t *entries = file + 2;
    for (int i = 1; i < c; i++)
        if (u16(entries + 8 * i + 6) <= u16(entries + 8 * i - 2))
            return 23;
    for (int i = 0; i < c; i++) {
        if (offset_of(entries + 8 * i) != end)
            return 24;
        end += u16(entries + 8 * i + 4);
    }
    return end == len ? 0 : 25;
}

static void listing(const uint8_t *file, int len)
{
    int no = len > INPUT ? 26 : judge_collection(file, len);
    if (no) {
        number("collection refused ", no);
        end_line();
        return;
    }
    text("rule states class loss corruption repeat swap\n");
    for (int i = 0; i < u16(file); i++) {
        const uint8_t *entry = file + 2 + 8 * i;
        number("", u16(entry + 6));
        text(" ");
        print_card(file + offset_of(entry), u16(entry + 4));
        end_line();
    }
}

// A trace by marks, its messages from a file.
static void trace(const uint8_t *body, int len, int reading, const char *path)
{
    static uint8_t messages[MESSAGES + 1];
    FILE *file = fopen(path, "rb");
    if (!file)
        return;
    size_t size = fread(messages, 1, sizeof messages, file), read;
    fclose(file);
    struct table t;
    int place, no = judge(body, len, &place, &t);
    if (no == 0 && reading != 3)
        no = 10, place = 0;
    if (no == 0 && (place = first_not_below(messages, size, t.k)) < (int)size)
        no = 12;
    if (no)
        refusal(no, place);
    else {
        int state = follow(&t, t.start, messages, size, &read);
        number("reading ", t.marks[state]);
        count(" count ", t.marks[state] ? (long)read : -1);
    }
    end_line();
}

// The answer of `ask` to a question for a witness: one word where there is none, others before its figures.
static void print_witness(enum finding finding, const char *none, const char *found, const struct witness *w, const uint8_t *area)
{
    if (finding == NO_ROOM)
        refusal(13, 0);
    else if (finding == IMMUNE)
        text(none);
    else {
        figures(found, w);
        text(" sent");
        bytes(area, w->distance);
        counts(w);
    }
}

static void fault(const uint8_t *body, int len, int set, int reading, int room)
{
    uint8_t area[WITNESS];
    struct table t;
    struct witness w;
    int place, no = judge_question(body, len, set, reading, &place, &t);
    if (no)
        refusal(no, place);
    else
        print_witness(baseline_for(&t)->examine(&t, set, reading, area, room < WITNESS ? room : WITNESS, &w), "immune", "vulnerable distance ", &w, area);
    end_line();
}

static void trust(const uint8_t *body, int len, int set, int reading, int verdict, int room)
{
    uint8_t area[WITNESS];
    struct table t;
    struct witness w;
    int place, no = judge_question(body, len, set, reading, &place, &t);
    if (no == 0 && verdict >= reading)
        no = 19;
    if (no)
        refusal(no, place);
    else
        print_witness(baseline_for(&t)->believe(&t, set, reading, verdict, area, room < WITNESS ? room : WITNESS, &w), "yes", "no distance ", &w, area);
    end_line();
}

int main(int argc, char **argv)
{
    static uint8_t input[INPUT + 1];
    int len = (int)fread(input, 1, sizeof input, stdin);
    if (argc == 2 && strcmp(argv[1], "listing") == 0)
        listing(input, len);
    else if (argc == 2 && strcmp(argv[1], "probe") == 0)
        probe(input, len < INPUT ? len : INPUT);
    else if (argc == 4 && strcmp(argv[1], "trace") == 0)
        trace(input, len, atoi(argv[2]), argv[3]);
    else if (argc == 5 && strcmp(argv[1], "fault") == 0)
        fault(input, len, atoi(argv[2]), atoi(argv[3]), atoi(argv[4]));
    else if (argc == 6 && strcmp(argv[1], "trust") == 0 && one_word.believe)
        trust(input, len, atoi(argv[2]), atoi(argv[3]), atoi(argv[4]), atoi(argv[5]));
    else
        return 2;
    flush();
    return 0;
}
