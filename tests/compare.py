#!/usr/bin/env python3
"""Compares the answers of the program `probe` with a model: judging, classes, steps, traces, what the fault question
refuses, the writer, which verdicts can be trusted, proofs of immunity, and which states are never told apart; of tables
whose states settle also the fault question and the card."""
import itertools
import random
import struct

from model import (FAULT, KINDS, READINGS, REPEAT, SAMPLES, SWAP, all_readings, ask_blocks, ask_proof, ask_trust, card,
                   compare, count, differ, disagreeing, drawn, fault_refusal, fault_steps, finding, first_of,
                   first_witnesses, judge, listed, misread, monitorability, never_told_apart, proof_refusal, reach,
                   reading, received_by, refusal, run, sent_by, settled, small_tables, state_class, successors)
from rings import rings
from tables import (NAMED, SETTLING, UNREACHED_DIFFER, far_table, named_anew, near_proofs, settling_table, table,
                    with_copies)

# The longest area that the program lends to a witness against a verdict.
LENT = 1024

# ---- the model's answers


def classes(b, room):
    no = judge(b)
    if no is None and room < b[0]:
        no = 13, 0
    area = [255] * room
    if no:
        return refusal(no) + listed(area)
    area[: b[0]] = [state_class(b, q) for q in range(b[0])]
    return f"monitorability {monitorability(b)} reached {len(reach(b, b[2]))}" + listed(area)


def step(b, d, q, a):
    no = judge(b)
    no = no or (None if d in (3, 6) else (10, 0))
    no = no or (None if q < b[0] else (11, 0))
    no = no or (None if a < b[1] else (12, 0))
    if no:
        return refusal(no)
    p = successors(b, q)[a]
    return f"state {p} reading {reading(b, d, p)}"


def trace(b, d, w):
    no = judge(b)
    no = no or (None if d in (3, 6) else (10, 0))
    no = no or next(((12, i) for i, a in enumerate(w) if a >= b[1]), None)
    if no:
        return refusal(no)
    return f"reading {reading(b, d, run(b, b[2], w))} count {count(b, w)}"


def write_refusal(rules, lengths, bodies, room):
    """The refusal (number, place) of a collection to be written, or None."""
    if len(rules) != len(lengths):
        return 27, 0
    if len(rules) > 512:
        return 21, 0
    falls = [i for i in range(1, len(rules)) if rules[i] <= rules[i - 1]]
    if falls:
        return 23, falls[0]
    ends = list(itertools.accumulate(lengths, initial=0))
    if ends[-1] != len(bodies):
        return 28, 0
    judged = [(judge(bodies[start:end]), i) for i, (start, end) in enumerate(zip(ends, ends[1:]))]
    wrong = [(no[0], i) for no, i in judged if no]
    if wrong:
        return wrong[0]
    return (13, 0) if room < 2 + 8 * len(rules) + len(bodies) else None


def write(rules, lengths, bodies, room):
    """The answer, and then the whole area, in which every byte is 255 before."""
    no = write_refusal(rules, lengths, bodies, room)
    if no:
        return refusal(no) + listed([255] * room)
    starts = itertools.accumulate(lengths, initial=2 + 8 * len(rules))
    entries = [struct.pack("<IHH", *entry) for entry in zip(starts, lengths, rules)]
    file = list(struct.pack("<H", len(rules)) + b"".join(entries)) + bodies
    return f"written {len(file)}" + listed(file + [255] * (room - len(file)))


# ---- the questions


def ask_judge(b):
    no = judge(b)
    return [0, 0, 0, 0] + b, refusal(no) if no else "accepted"


def ask_classes(b, room):
    return [1, room, 0, 0] + b, classes(b, room)


def ask_step(b, d, q, a):
    return [2, d, q, a] + b, step(b, d, q, a)


def ask_trace(b, d, w):
    return [3, d, len(w), 0] + w + b, trace(b, d, w)


def ask_refused(b, faults, d, room):
    """A fault question whose witness, if it has one, does not fit."""
    return [4, faults, d, room] + b, refusal(fault_refusal(b, faults, d) or (13, 0)) + listed([255] * room)


def ask_card_refused(b):
    return [5, 0, 0, 0] + b, refusal(judge(b))


def ask_write(rules, lengths, bodies, room):
    numbers = [byte for number in [*rules, *lengths] for byte in divmod(number, 256)[::-1]]
    return [6, len(rules), len(lengths), room, *numbers, *bodies], write(rules, lengths, bodies, room)


def random_table(r, states=128, messages=16, fewest=1):
    n, k = r.randint(fewest, states), r.randint(1, messages)
    chance = r.choice((0.05, 0.3))
    marks = [r.choice((1, 2)) if r.random() < chance else 0 for _ in range(n)]
    alike = [[q for q in range(n) if marks[q] == marks[p]] if marks[p] else range(n) for p in range(n)]
    near = r.choice((1, 2, 128))
    rows = [[r.choice(alike[q]) if marks[q] else min(n - 1, max(0, q + r.randint(-near, near))) for _ in range(k)] for q in range(n)]
    return [n, k, r.randrange(n), *marks, *itertools.chain(*rows)]


def small_questions():
    for b in small_tables():
        n, k = b[:2]
        yield ask_judge(b)
        for room in (0, n - 1, n, n + 2):
            yield ask_classes(b, room)
        for d, room in itertools.product((3, 5, 6), (0, n - 1, n, n + 2)):
            yield ask_blocks(b, d, room)
        for d, q, a in itertools.product((3, 6), range(n + 1), range(k + 1)):
            yield ask_step(b, d, q, a)
        for d, length in itertools.product((3, 5, 6), range(4)):
            for w in itertools.product(range(k + 1), repeat=length):
                yield ask_trace(b, d, list(w))


def damaged_questions():
    for b in SAMPLES:
        for i, x in itertools.product(range(len(b)), (0, 1, 2, 3, 16, 17, 64, 65, 128, 129, 255)):
            damaged = b[:i] + [x] + b[i + 1 :]
            yield ask_judge(damaged)
            yield ask_classes(damaged, 8)
            yield ask_step(damaged, 6, 0, 0)
            yield ask_trace(damaged, 3, [0, 0, 1])
            yield ask_proof(damaged, 15, 6, list(range(b[0])))
            yield ask_proof(damaged, 16, 5, [255])
            yield ask_blocks(damaged, 3, 8)
            yield ask_blocks(damaged, 5, 0)
            if judge(damaged):
                yield ask_refused(damaged, 15, 6, 8)
                yield ask_refused(damaged, 16, 5, 0)
                yield ask_trust(damaged, 15, 6, 5, 8)
                yield ask_trust(damaged, 16, 5, 255, 0)
                yield ask_card_refused(damaged)
        for length in range(len(b) + 2):
            cut = (b + [0, 0])[:length]
            yield ask_judge(cut)
            yield from (ask_proof(cut, 99, 5, proof) for proof in ([], [0], list(range(b[0])), [255] * 9))
            yield from (ask_blocks(cut, 5, room) for room in (0, 3))
            if judge(cut):
                yield ask_refused(cut, 99, 5, 3)
                yield ask_trust(cut, 99, 5, 255, 3)
                yield ask_card_refused(cut)


def refused_questions():
    for b in SAMPLES:
        for faults, d, room in itertools.product((16, 17, 99, 128, 255), (3, 5, 6), (0, 3)):
            yield ask_refused(b, faults, d, room)
            yield ask_trust(b, faults, d, d, room)
        for faults, d, room in itertools.product(range(16), (0, 1, 2, 4, 5, 7, 255), (0, 3)):
            yield ask_refused(b, faults, d, room)
            yield ask_trust(b, faults, d, d, room)
        for faults, d, room in itertools.product(range(16), READINGS, (0, 3)):
            yield from (ask_trust(b, faults, d, verdict, room) for verdict in (d, 255))
        proofs = [], [0], [255], [0] * b[0], list(range(b[0])), [255] * b[0], [0] * 255
        for faults, d, proof in itertools.product((0, 15, 16, 17, 99, 255), (0, 3, 5, 6, 7, 255), proofs):
            yield ask_proof(b, faults, d, proof)
        yield from (ask_blocks(b, d, room) for d in (0, 1, 2, 4, 5, 7, 255) for room in (0, b[0] - 1, b[0], 255))
    e = SAMPLES[4]
    for d, room in itertools.product((3, 6), (0, 1, 2)):
        yield ask_refused(e, 8, d, room)


def random_questions():
    r = random.Random(20)
    for _ in range(300):
        b = random_table(r)
        n, k = b[:2]
        yield ask_judge(b)
        yield ask_classes(b, n + 1)
        for d in (3, 6):
            yield ask_step(b, d, r.randrange(n), r.randrange(k))
            yield ask_trace(b, d, [r.randrange(k) for _ in range(r.randrange(200))])


def fallen_questions():
    """Traces whose verdict falls at the start, early, at the last message, one message later, and never; both readings."""
    r, kinds = random.Random(21), set()
    tables = SAMPLES + [random_table(r) for _ in range(300)] + [b for b in small_tables() if settled(b)[b[2]]]
    for b in tables:
        k = b[1]
        w = [r.randrange(k) for _ in range(200)]
        fell = count(b, w)
        lengths = {0, 1, 200} if fell == "never" else {0, max(int(fell) - 1, 0), int(fell), int(fell) + 1, 200}
        for d, length in itertools.product((3, 6), sorted(lengths)):
            kinds.add("never" if fell == "never" or length < int(fell) else "start" if fell == "0" else "last" if length == int(fell) else "early")
            yield ask_trace(b, d, w[:length])
    assert kinds == {"never", "start", "last", "early"}, kinds


def written_questions():
    """Lists and bodies that are right, and with one thing or several wrong; the area from empty to longer than the file."""
    r, answers = random.Random(22), set()
    small = small_tables()
    for _ in range(3000):
        bodies = [r.choice(small + SAMPLES) for _ in range(r.choice((0, 1, 2, 2, 3, 4, 5)))]
        rules = sorted(r.sample(range(r.choice((8, 300, 65536))), len(bodies)))
        lengths = [len(b) for b in bodies]
        for wrong in r.sample(("rules", "lengths", "rise", "sum", "body", "cut"), r.choice((0, 0, 1, 1, 2, 3))):
            i = r.randrange(len(rules)) if rules else 0
            if wrong == "rules":
                rules = rules + [65535]
            elif wrong == "lengths":
                lengths = lengths[:-1]
            elif wrong == "rise" and i:
                rules[i] = r.choice((rules[i - 1], 0))
            elif wrong == "sum" and i < len(lengths):
                lengths[i] = max(0, lengths[i] + r.choice((-1, 1)))
            elif wrong == "body" and i < len(bodies) and bodies[i]:
                place = r.randrange(len(bodies[i]))
                bodies[i] = [*bodies[i][:place], r.choice((0, 1, 3, 129)), *bodies[i][place + 1:]]
            elif wrong == "cut" and i < min(len(bodies), len(lengths)):
                bodies[i] = bodies[i][:r.randrange(len(bodies[i]) + 1)]
                lengths[i] = len(bodies[i])
        joined = [x for b in bodies for x in b]
        size = 2 + 8 * len(rules) + len(joined)
        for room in sorted({0, max(0, size - 1), size, size + 1, size + 9}):
            question = ask_write(rules, lengths, joined, min(room, 255))
            answers.add(question[1].split()[0] if question[1][0] == "w" else question[1].split()[1])
            yield question
    assert answers >= {"written", "27", "23", "28", "13", *"12345678"}, answers


def undecided_table(r, states, messages, fewest=1):
    """A random table that has no verdict at its start and can come to one."""
    tables = (random_table(r, states, messages, fewest) for _ in itertools.count())
    return next(b for b in tables if not settled(b)[b[2]] and any(settled(b)[q] for q in reach(b, b[2])))


def ask_trusted(b, faults, d, verdict, first):
    """A verdict, by the first witness of each kind; areas that just hold that of the set, just do not, and none: but no
    longer one than the program lends."""
    w = first_of(first, faults)
    rooms = {min(room, LENT) for room in ({w[0], w[0] - 1, 0} if w else (0, 3))}
    yield from (ask_trust(b, faults, d, verdict, room, w) for room in rooms)


def trust_questions():
    """Every set, reading and verdict of small tables, one set for each verdict of larger ones, and rings."""
    r = random.Random(23)
    small, larger = [undecided_table(r, 9, 4) for _ in range(16)], [undecided_table(r, 40, 8) for _ in range(6)]
    for b in SAMPLES + small + larger:
        for d, verdict in ((d, verdict) for d in READINGS for verdict in range(d)):
            first = first_witnesses(b, d, misread(verdict))
            for faults in range(16) if b[0] < 10 else [r.randrange(16)]:
                yield from ask_trusted(b, faults, d, verdict, first)
    for one, two in ((10, 12), (28, 30), (44, 46), (58, 66)):
        b = list(table(*rings(one, two)))
        yield from ask_trusted(b, REPEAT, 3, 1, first_witnesses(b, 3, misread(1)))


def ask_found(b, faults, d, first):
    """A fault question, by the first witness of each kind; areas that just hold that of the set and just do not."""
    w = first_of(first, faults)
    rooms = {w[0], w[0] - 1} if w else (0, 3)
    yield from (([4, faults, d, room] + b, finding(b, d, w, room, FAULT)) for room in rooms)


def border_tables(r):
    """Tables of about as many states as a word has bits, and of about the most."""
    for n in (63, 64, 65, 127, 128):
        yield from (undecided_table(r, n, 3, n), settling_table(r, n, 2), far_table(r, n, 3))
    yield undecided_table(r, 128, 16, 128)
    yield far_table(r, 128, 16)


def border_questions():
    """Every call but the writer's on such tables."""
    r, distances = random.Random(25), {4: {0}, 7: {0}}
    for b in map(list, border_tables(r)):
        n, k = b[:2]
        yield ask_judge(b)
        yield from (ask_judge([n + by, *b[1:]]) for by in (-1, 1))
        yield from (ask_classes(b, room) for room in (n - 1, n, n + 1))
        for d in READINGS:
            yield from (ask_step(b, d, q, r.randrange(k)) for q in sorted({0, 62, n - 1, n, *r.sample(range(n), 9)}))
            yield from (ask_trace(b, d, [r.randrange(k) for _ in range(length)]) for length in (0, n // 2, n, 200))
        verdict, first = r.randrange(3), first_witnesses(b, 3, differ)
        against = first_witnesses(b, 6, misread(verdict))
        yield [5, 0, 0, 0] + b, card(b, first)
        for faults in (*KINDS, r.randint(1, 15)):
            for frame, answer in (*ask_found(b, faults, 3, first), *ask_trusted(b, faults, 6, verdict, against)):
                distances[frame[0]].add(int(answer.split()[2]) if " distance " in answer else 0)
                yield frame, answer
    assert max(distances[4]) > 128 and max(distances[7]) > 64, distances


def settled_questions():
    """Every call but the writer's on tables of which states settle; of large ones some steps and one fault question."""
    r = random.Random(24)
    made = [settling_table(r, r.randint(2, 7), r.randint(1, 3)) for _ in range(20)] + [settling_table(r, 40, 8)]
    tables = [list(b) for b in SETTLING + made]
    assert sum(settled(b) != drawn(b) for b in tables) > len(tables) // 2
    for b in tables:
        n, k = b[:2]
        yield ask_judge(b)
        yield ask_classes(b, n + 1)
        steps = list(itertools.product(range(n), range(k)))
        for d, (q, a) in itertools.product(READINGS, steps if n < 10 else r.sample(steps, 20)):
            yield ask_step(b, d, q, a)
        for d, length in itertools.product(READINGS, (0, 1, n // 2 - 1, n // 2, n // 2 + 1, n - 1, n)):
            yield ask_trace(b, d, [r.randrange(k) for _ in range(max(length, 0))])
        for d in READINGS if n < 10 else [r.choice(READINGS)]:
            first = first_witnesses(b, d, differ)
            sets = range(16) if n < 10 else [r.choice((*KINDS, 15))]
            for faults in sets:
                yield from ask_found(b, faults, d, first)
            if d == 3:
                yield [5, 0, 0, 0] + b, card(b, first)
            for verdict in range(d) if n < 10 else ():
                first = first_witnesses(b, d, misread(verdict))
                for faults in (*KINDS, 15):
                    yield from ask_trusted(b, faults, d, verdict, first)


def unreached_says(b, faults, d, proof, no):
    """What the states that are not reached have to say of a proof with this refusal or none: that they alone make it
    refused with 17, or that they are not asked with 18; or nothing."""
    reached = sorted(reach(b, b[2]))
    if no and no[0] == 17:
        into = [[proof[p] for p in successors(b, q)] for q in reached]
        return None if disagreeing([proof[q] for q in reached], into) else "17"
    others = itertools.product(set(range(b[0])) - set(reached), fault_steps(b[1])) if no is None else ()
    split = (q for q, step in others if step[1] & faults and
             proof[run(b, q, sent_by(step))] != proof[run(b, q, received_by(step))])
    return None if next(split, None) is None else "18"


def tally(kinds, questions):
    """The questions on proofs, after it is noted which answers they have."""
    for b, faults, d, proof in questions:
        no = proof_refusal(b, faults, d, proof)
        kinds.add(str(no[0]) if no else "accepted")
        kinds.add(f"{unreached_says(b, faults, d, proof, no)} of states not reached")
        yield ask_proof(b, faults, d, proof, lambda *_: no)


def small_proofs(r):
    """Proofs near the right one, of small tables: some by every set, the others by one."""
    tables = [*NAMED, *[b for b in SETTLING if b[0] < 9], UNREACHED_DIFFER]
    tables += [settling_table(r, r.randint(3, 7), r.randint(1, 3)) for _ in range(12)]
    tables += [undecided_table(r, 7, 3) for _ in range(30)]
    tables += [with_copies(r, r.choice(NAMED), r.randint(5, 9), r.random() < 0.5)[0] for _ in range(30)]
    for b in small_tables() + [list(b) for b in tables]:
        for d in READINGS:
            for i, proof in enumerate(near_proofs(r, never_told_apart(b, d))):
                yield from ((b, faults, d, proof) for faults in (range(16) if i < 6 else [r.randrange(16)]))


def stands(b, faults):
    """Whether a table is immune to a set by both readings, though it can come to readings that differ."""
    told = len({all_readings(b, 3)[q] for q in reach(b, b[2])}) > 1
    return told and all(proof_refusal(b, faults, d, never_told_apart(b, d)) is None for d in READINGS)


def copied_table(r, size, faults):
    """A table of this size that is immune to the set, and of which many states are never told apart."""
    drawn_tables = (undecided_table(r, 6, 3) for _ in itertools.count())
    base = next(b for b in drawn_tables if stands(b, faults))
    copies = with_copies(r, bytes(base), size, r.random() < 0.7)
    return list(named_anew(r, *copies)[0])


def large_proofs(r):
    """The same of tables of about as many states as a word has bits, and of about the most: of immune ones every proof
    and of others some, by one set."""
    for n in (63, 64, 65, 127, 128):
        for faults in (REPEAT, SWAP, REPEAT + SWAP):
            b, d = copied_table(r, n, faults), r.choice(READINGS)
            yield from ((b, faults, d, proof) for proof in near_proofs(r, never_told_apart(b, d)))
    for b, d in itertools.product(map(list, border_tables(r)), READINGS):
        proofs = list(near_proofs(r, never_told_apart(b, d)))
        yield from ((b, r.randrange(16), d, proof) for proof in proofs[:6] + r.sample(proofs[6:], 20))


def proof_questions():
    """Such proofs. Of small tables and of large ones each refusal comes, and states that are not reached have a say."""
    for seed, questions in ((26, small_proofs), (27, large_proofs)):
        kinds = set()
        yield from tally(kinds, questions(random.Random(seed)))
        said = {f"{says} of states not reached" for says in (None, 17, 18)}
        assert kinds == {"accepted", *map(str, range(14, 19)), *said}, kinds


def alike_questions():
    """Which states are never told apart: large tables of all kinds, with areas around n, and small ones that settle."""
    r = random.Random(28)
    tables = [*border_tables(r), *[copied_table(r, n, REPEAT) for n in (63, 64, 65, 127, 128)], *SETTLING]
    tables += [table(*rings(one, two)) for one, two in ((10, 12), (58, 66))] + [random_table(r) for _ in range(60)]
    for b, d in itertools.product(map(list, tables), READINGS):
        yield from (ask_blocks(b, d, room) for room in (b[0] - 1, b[0], r.randint(b[0] + 1, 255)))


total = compare(itertools.chain(small_questions(), damaged_questions(), refused_questions(), random_questions(),
                                fallen_questions(), written_questions(), trust_questions(), border_questions(),
                                settled_questions(), proof_questions(), alike_questions()))
print(f"compare.py: {total} answers compared with the model, all equal")
