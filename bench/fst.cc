// What one would pick instead of a program of one's own: OpenFst. A table is an acceptor, one fault of a kind a transducer, and the distance the
// weight of the shortest path of acceptor, transducer and acceptor composed. Nothing but the listing is answered here.
//
// Symbol a is label a + 1 (0 is the empty label). Behind its symbols a trace has one more label, for what it reads; the transducer goes on from one
// reading to another one only, so that a path is a harmed sent trace. A sent symbol weighs 1.
#include <fst/fstlib.h>

extern "C" {
#include "bench.h"
}

using namespace fst;

static int reading_label(const table *t, int mark)
{
    return t->k + 1 + mark;
}

// The traces of the table with what they read, from the start on.
static StdVectorFst acceptor(const table *t)
{
    StdVectorFst f;
    for (int q = 0; q <= t->n; q++)
        f.AddState();
    f.SetStart(t->start);
    f.SetFinal(t->n, 0);
    for (int q = 0; q < t->n; q++) {
        for (int a = 0; a < t->k; a++)
            f.AddArc(q, StdArc(a + 1, a + 1, 0, t->next[q * t->k + a]));
        int v = reading_label(t, t->marks[q]);
        f.AddArc(q, StdArc(v, v, 0, t->n));
    }
    ArcSort(&f, ILabelCompare<StdArc>());
    return f;
}

// Exactly one fault of this kind, and another reading.
static StdVectorFst one_fault(const table *t, int kind)
{
    StdVectorFst f;
    int before = f.AddState(), after = f.AddState(), end = f.AddState();
    f.SetStart(before);
    f.SetFinal(end, 0);
    for (int a = 1; a <= t->k; a++) {
        f.AddArc(before, StdArc(a, a, 1, before));
        f.AddArc(after, StdArc(a, a, 1, after));
        if (kind == LOSS)
            f.AddArc(before, StdArc(a, 0, 1, after));
        for (int b = 1; kind == CORRUPTION && b <= t->k; b++)
            f.AddArc(before, StdArc(a, b, 1, after));
        if (kind == REPEAT) {
            int again = f.AddState();
            f.AddArc(before, StdArc(a, a, 1, again));
            f.AddArc(again, StdArc(0, a, 0, after));
        }
        for (int b = 1; kind == SWAP && b <= t->k; b++) {
            int other = f.AddState();
            f.AddArc(before, StdArc(a, b, 1, other));
            f.AddArc(other, StdArc(b, a, 1, after));
        }
    }
    for (int v = 0; v < 3; v++)
        for (int w = 0; w < 3; w++)
            if (v != w)
                f.AddArc(after, StdArc(reading_label(t, v), reading_label(t, w), 0, end));
    ArcSort(&f, ILabelCompare<StdArc>());
    return f;
}

// The distance, 0 where there is none. The composition is made only as far as the search for the shortest path comes, nearest states first.
static int distance(const table *t, const StdVectorFst &traces, int kind)
{
    StdComposeFst sent(traces, one_fault(t, kind)), both(sent, traces);
    StdVectorFst path;
    std::vector<StdArc::Weight> weights;
    NaturalShortestFirstQueue<StdArc::StateId, StdArc::Weight> queue(weights);
    AnyArcFilter<StdArc> all;
    ShortestPathOptions<StdArc, decltype(queue), decltype(all)> options(&queue, all, 1, false, false, kDelta, true);
    ShortestPath(both, &path, &weights, options);
    if (path.Start() == kNoStateId)
        return 0;
    float sum = 0;
    for (int q = path.Start(); path.NumArcs(q) > 0;) {
        StdArc arc = ArcIterator<StdVectorFst>(path, q).Value();
        sum += arc.weight.Value();
        q = arc.nextstate;
    }
    return static_cast<int>(sum);
}

// Which states reach a state with the mark.
static std::vector<bool> reaching(const table *t, int mark)
{
    std::vector<bool> set(t->n);
    for (bool more = true; more;) {
        more = false;
        for (int q = t->n; q-- > 0;) {
            bool in = t->marks[q] == mark;
            for (int a = 0; !in && a < t->k; a++)
                in = set[t->next[q * t->k + a]];
            more |= in && !set[q];
            set[q] = set[q] || in;
        }
    }
    return set;
}

static int monitorability(const table *t)
{
    std::vector<bool> truth = reaching(t, 1), falsity = reaching(t, 2), seen(t->n);
    std::vector<int> left{t->start};
    while (!left.empty()) {
        int q = left.back();
        left.pop_back();
        if (seen[q])
            continue;
        seen[q] = true;
        if (!truth[q] && !falsity[q])
            return 3;
        left.insert(left.end(), t->next + q * t->k, t->next + (q + 1) * t->k);
    }
    return truth[t->start] ? falsity[t->start] ? 2 : 0 : 1;
}

static card card_of(const table *t)
{
    card card = {monitorability(t), {}};
    StdVectorFst traces = acceptor(t);
    for (int i = 0; i < 4; i++)
        card.distance[i] = distance(t, traces, 1 << i);
    return card;
}

extern "C" {
extern const baseline one_word = {nullptr, nullptr, card_of, nullptr, nullptr};
extern const baseline two_words = {nullptr, nullptr, card_of, nullptr, nullptr};
}
