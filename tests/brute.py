#!/usr/bin/env python3
"""Compares the fault question, the card, which verdicts can be trusted, and proofs of immunity, as the program `probe`
answers them, with a search that tries every series of steps.

The search is written from the specification alone and knows neither distances of pairs nor reachable states, and a
state settles by its series of messages. For a fault question it goes up to sent length 2 * n - 1; a witness longer than
that would show as a difference, since the program would not say immune. For a verdict n * n is enough: a shortest
witness has at most n - 1 messages before the fault, two that the fault covers, and n * n - n - 1 behind it, since no
pair of states comes twice there and none is a state beside itself. Where that would be too many series, the search
ends earlier. A table is immune exactly if the states that no series of n messages tells apart make a proof that is
accepted, and exactly if some proof is; of the tables of up to 3 states every proof is tried. Since states that are not
reached count for nothing but in proofs, some questions are asked again of the same table with its states spread among
up to 128.
"""
import functools
import itertools
import random

from model import (FAULT, KINDS, READINGS, SAMPLES, TRUST, ask_blocks, ask_proof, ask_trust, card, compare, differ,
                   drawn, fault_steps, finding, first_of, judge, misread, of_body, reading, received_by, run, sent_by,
                   settled, small_tables)
from tables import SETTLING, settling_table

# ---- settled marks


def all_lead(b, q, length, verdict):
    """Whether every series of this many messages leads from the state to one that is drawn with the verdict."""
    return all(drawn(b)[run(b, q, w)] == verdict for w in itertools.product(range(b[1]), repeat=length))


@of_body
def marks_by_series(b):
    """The settled mark of each state, by trying every series of each length up to n. Greater lengths settle no more:
    since a verdict stays, a length settles all that the one before it does, and where it is no more, it never is."""
    verdicts = lambda q: (v for length in range(b[0] + 1) for v in (1, 2) if all_lead(b, q, length, v))
    return tuple(next(verdicts(q), 0) for q in range(b[0]))


# ---- series of steps


def number(trace, k):
    """The place of a trace among all traces, shorter ones first."""
    return functools.reduce(lambda i, a: i * k + a + 1, trace, 0)


@functools.cache
def series(k, length):
    """Every series with one fault step and this sent length, in the written order: its steps, its kind, and its sent
    and its received trace."""
    every = []
    for fault in fault_steps(k):
        left = length - len(sent_by(fault))
        for plain in itertools.product([(1, a) for a in range(k)], repeat=max(left, 0)):
            every.extend((plain[:i] + (fault,) + plain[i:], fault[1]) for i in range(left + 1))
    every.sort()
    traces = lambda steps, side: number(itertools.chain(*map(side, steps)), k)
    return [(steps, kind, traces(steps, sent_by), traces(steps, received_by)) for steps, kind in every]


# ---- the search


def states_after(b, longest):
    """The state that each trace of at most this many messages leads to."""
    n, k, start = b[:3]
    after = [start]
    for i in range(sum(k**j for j in range(1, longest + 1))):
        after.append(b[3 + n + after[i // k] * k + i % k])
    return after


def first_series(b, d, longest, test):
    """The first witness of each kind, a series whose sent and received readings pass the test, with its sent length."""
    of_state, first = [reading(b, d, q, marks_by_series) for q in range(b[0])], {}
    reads = [of_state[q] for q in states_after(b, longest + 1)]
    for length in range(1, longest + 1):
        for steps, kind, sent, received in series(b[1], length):
            if kind not in first and test(reads[sent], reads[received]):
                first[kind] = length, steps
                if len(first) == len(KINDS):
                    return first
    return first


def horizon(b):
    """The longest series tried for a verdict: of n * n messages, or of fewer where those would be too many."""
    n, k = b[:2]
    return max(length for length in range(1, n * n + 1) if k**length <= 512)


# ---- proofs


def of_states(b, d):
    return [reading(b, d, q, marks_by_series) for q in range(b[0])]


def blocks_by_series(b, d):
    """For each state the lowest that reads the same behind every series of up to n messages."""
    reads, behind = of_states(b, d), []
    for q in range(b[0]):
        behind.append([reads[p] for p in states_after([*b[:2], q, *b[3:]], b[0])])
    return [behind.index(row) for row in behind]


def proof_by_series(b, faults, d, blocks):
    """The refusal of a proof of an accepted table, or None. A state is reached if a series of n messages or fewer ends
    in it."""
    n, k = b[:2]
    if len(blocks) != n:
        return 14, len(blocks)
    reads, led = of_states(b, d), [[run(b, q, [a]) for a in range(k)] for q in range(n)]
    together = [(q, p) for q, p in itertools.product(range(n), repeat=2) if p < q and blocks[p] == blocks[q]]
    parted = lambda q, step: blocks[run(b, q, sent_by(step))] != blocks[run(b, q, received_by(step))]
    every = itertools.product(sorted(set(states_after(b, n))), fault_steps(k))
    no = next(((15, q) for q in range(n) if not blocks[q] < n), None)
    no = no or next(((16, q) for q, p in together if reads[p] != reads[q]), None)
    no = no or next(((17, q) for q, p in together for i, j in zip(led[p], led[q]) if blocks[i] != blocks[j]), None)
    return no or next(((18, q) for q, step in every if step[1] & faults and parted(q, step)), None)


# ---- the questions


def areas(w):
    """Longer than the sent trace, as long, one byte shorter, and empty."""
    room = w[0] if w else 1
    return {room + 3, room, room - 1, 0}


@of_body
def fault_witnesses(b):
    """By each reading the first witness of each kind, for a fault question."""
    return {d: first_series(list(b), d, 2 * b[0] - 1, differ) for d in READINGS}


def fault_questions(b):
    """Each reading and set, and the card."""
    for d, first in fault_witnesses(b).items():
        for faults in range(16):
            w = first_of(first, faults)
            yield from (([4, faults, d, room] + b, finding(b, d, w, room, FAULT, marks_by_series)) for room in areas(w))
        if d == 3:
            yield [5, 0, 0, 0] + b, card(b, first, marks_by_series)


def check_immunity(b):
    """A fault has a witness exactly if it has one against some verdict."""
    for d in READINGS:
        against = [set(first_series(b, d, horizon(b), misread(verdict))) for verdict in range(d)]
        assert set(first_series(b, d, horizon(b), differ)) == set().union(*against), b


def trust_questions(b):
    """Each reading, verdict and set, but for those of which a witness could only be beyond the horizon."""
    if horizon(b) == b[0] ** 2:
        check_immunity(b)
    for d, verdict in ((d, verdict) for d in READINGS for verdict in range(d)):
        first = first_series(b, d, horizon(b), misread(verdict))
        for faults in range(16):
            w = first_of(first, faults)
            if w or horizon(b) == b[0] ** 2:
                yield from (ask_trust(b, faults, d, verdict, room, w, marks_by_series) for room in areas(w))


def proof_questions(b):
    """Each reading and set: the states that are never told apart, as they are answered and as a proof; and every proof
    if there are at most 3 states. Some proof is accepted, and that one is, exactly if the table is immune."""
    n = b[0]
    for d, first in fault_witnesses(b).items():
        blocks = blocks_by_series(b, d)
        yield from (ask_blocks(b, d, room, lambda *_: blocks) for room in (n - 1, n, n + 3))
        proofs = [blocks] + [list(proof) for proof in itertools.product(range(n), repeat=n) if n <= 3]
        for faults in range(16):
            asked = [ask_proof(b, faults, d, proof, proof_by_series) for proof in proofs]
            accepted = [answer == "accepted" for _, answer in asked]
            immune = first_of(first, faults) is None
            assert accepted[0] == any(accepted) == immune, (b, faults, d)
            yield from asked


def spread(r, b):
    """The table with its states at any places among 65 to 128. The others are not reached: they are not yet and lead
    anywhere, or they are true or false and stay."""
    n, k, start = b[:3]
    size = r.randint(65, 128)
    places = r.sample(range(size), n)
    marks = [r.choice((0, 0, 1, 2)) for _ in range(size)]
    rows = [[q if marks[q] else r.randrange(size) for _ in range(k)] for q in range(size)]
    for q, place in enumerate(places):
        marks[place], rows[place] = b[3 + q], [places[run(b, q, [a])] for a in range(k)]
    return [size, k, places[start], *marks, *itertools.chain(*rows)]


def spread_questions(r, b, asked):
    """Some of the questions on a table, of the table spread: it is answered alike, but for the states on its card."""
    larger = spread(r, b)
    assert judge(larger) is None
    for frame, answer in r.sample(asked, 20):
        call = frame[:-len(b)]
        yield call + larger, f"{larger[0]} {answer.partition(' ')[2]}" if call[0] == 5 else answer


# ---- the tables

# Tables found by hill climbing: distances up to 6, up to 5 messages before the fault, and in the last six a distance by classes that is
# less than the one by marks. Those with 7 states or 3 messages are vulnerable to each fault, so that the search ends early.
FAR = """
    040201000000020202000003010303
    040202000100000003010100010203
    040203020000000000010201000301
    050204000000020001010202010303030000
    050203000100000004020101020002010403
    050202000000010002000403000403030201
    050204000000020004020004030403030401
    050202000000000100010204020300020404
    060202000000020000040400000101030305050203
    060204020000000000000005030205040202000105
    060205000100000000040101010305000102010301
    060201020000000000000004010300050101030402
    060200000000000100010001020301020504040004
    04030300020000010200010101020002030302
    0503020000000200030400010300010302030303020404
    0503030100000000000000020101040203000203040101
    070202010000000000000000060601010500030304040505
    070203000200000000000206010103040302030006010504
    070202000200000000000302010102000305010403060604
    070205010100000000000001000003040203060006050503
    060205000001020000040501010202030302010100
    060201020001000000000003010202040504040205
    070206000000020001000001010500060303040405050204
    070200000000020001000501060400010303040405050602
    070202000100020000000000010100040303020604010405
    070202000000000002010303040001010506040405050606
"""


def chain_table(r):
    """States in a row of which only the last are marked. From each some message leads on, and the others stay, lead back or anywhere."""
    n, k = r.choice(((3, 2), (3, 3), (4, 2), (4, 3), (5, 2), (6, 2)))
    marked = r.choice((1, 1, 2))
    marks = [0] * (n - marked) + [r.choice((1, 2)) for _ in range(marked)]
    rows = [[q] * k for q in range(n)]
    for q in range(n - marked):
        rows[q] = [r.choice((q, max(q - 1, 0), 0, r.randrange(n))) for _ in range(k)]
        rows[q][r.randrange(k)] = q + 1
    return [n, k, 0, *marks, *itertools.chain(*rows)]


def main():
    r = random.Random(4)
    far = [list(bytes.fromhex(line)) for line in FAR.split()]
    tables = small_tables() + SAMPLES + far + [chain_table(r) for _ in range(100)]
    settling = [b for b in SETTLING if 2 < b[0] < 7] + [settling_table(r, r.randint(3, 5), 2) for _ in range(9)]
    tables += [list(b) for b in settling]
    assert all(judge(b) is None and marks_by_series(b) == settled(b) for b in tables)
    r, asked = random.Random(6), []
    for b in tables:
        of_table = [*fault_questions(b), *trust_questions(b)]
        asked += of_table + [*spread_questions(r, b, of_table), *proof_questions(b)]
    total = compare(asked)
    distance, farther = (max(int(answer.split()[2]) for _, answer in asked if answer.startswith(found + " "))
                         for _, found in (FAULT, TRUST))
    print(f"brute.py: {total} answers for {len(tables)} tables, distances up to {distance}, "
          f"of verdicts up to {farther}, all equal")


if __name__ == "__main__":
    main()
