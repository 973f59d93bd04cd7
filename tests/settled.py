#!/usr/bin/env python3
"""Compares the programs `probe` and `listing` with what is said of settled marks: answers written out here, the classes
that they change, and that a body with its settled marks written in is answered alike.

Run it at the root, after the programs are built.
"""
import itertools
import random
import subprocess
import sys

from brute import all_lead, marks_by_series
from model import (KINDS, READINGS, all_tables, answers, batches, compare, drawn, judge, listed, monitorability,
                   never_told_apart, reach, settled, state_class, with_marks)
from tables import (A, B, C, D, E, G, H, HARMED_EARLIER, SETTLING, UNREACHED_SETTLES, collection, near_proofs,
                    random_table, settling_table)

LISTING = "target/bin/listing"
# Numbers of states around the bits of a word, and around the most.
ROWS = 63, 64, 65, 127, 128
HEADER = "rule states class loss corruption repeat swap\n"


def check(came, wanted, about):
    if came != wanted:
        sys.exit(f"settled: {about}: wanted {wanted}, came {came}")


# ---- answers written out
# The calls of `probe`, by number: 0 judge, 1 classes, 2 step, 3 trace, 4 fault, 5 card, 6 write, 7 trust, 8 proof,
# 9 blocks.


def refused_facts():
    """A true state that steps to one which settles true is refused by every call, and likewise false: question 8 asks
    the drawn marks."""
    for verdict in (1, 2):
        b = [2, 1, 0, 0, verdict, 1, 0]
        for call, room in (([0, 0, 0, 0], 0), ([1, 3, 0, 0], 3), ([2, 3, 0, 0], 0), ([3, 3, 1, 0, 0], 0),
                           ([4, 15, 6, 3], 3), ([5, 0, 0, 0], 0), ([7, 15, 3, 0, 3, 0], 3), ([8, 15, 3, 2, 0, 0], 0),
                           ([9, 3, 3, 0], 3)):
            yield call + b, "refused 8 6" + listed([255] * room)
        yield [6, 1, 1, 0, 9, 0, len(b), 0] + b, "refused 8 0"


def facts_of_h():
    """State 0 is good, immune to everything, and the start has its verdict at once."""
    yield [1, 2, 0, 0, *H], "monitorability pos reached 2 0 0"
    yield [5, 0, 0, 0, *H], "2 pos - - - -"
    yield from (([9, d, 2, 0, *H], "written 2 0 0") for d in READINGS)
    for d, true in ((3, 1), (6, 0)):
        yield [2, d, 0, 0, *H], f"state 1 reading {true}"
        yield from (([3, d, length, 0, *[0] * length, *H], f"reading {true} count 0") for length in range(3))
        for faults in range(16):
            yield [4, faults, d, 0, *H], "immune"
            yield [8, faults, d, 2, 0, 0, *H], "accepted"
            yield from (([7, faults, d, verdict, 0, 0, *H], "yes") for verdict in range(d))


def other_facts():
    """A state that settles and is not reached, a table with other distances, states that do not settle, rows of up to
    128."""
    yield [1, 2, 0, 0, *UNREACHED_SETTLES], "monitorability pos reached 1 0 0"
    yield [5, 0, 0, 0, *HARMED_EARLIER], "3 pos 1 1 - -"
    yield from (([2, d, 0, 1, *HARMED_EARLIER], f"state 1 reading {true}") for d, true in ((3, 1), (6, 0)))
    loss = "vulnerable distance 1 before 0 kind 1 replacement 0 readings 1 0 counts 1 never 1"
    corruption = "vulnerable distance 1 before 0 kind 2 replacement 1 readings 0 1 counts never 1 0"
    for kind, answer in zip(KINDS, (loss, corruption, "immune 255", "immune 255"), strict=True):
        yield [4, kind, 3, 1, *HARMED_EARLIER], answer
    yield [1, 2, 0, 0, *A], "monitorability pos reached 2 2 0"
    both = [6, 2, 5, 0, 0, 0, 1, 2, 0, 1, 2, 3, 3, 4, 4, 3, 3, 4, 4, 0, 0]
    yield [1, 6, 0, 0, *both], "monitorability both reached 6 4 0 1 0 1 4"
    for (verdict, word), n in itertools.product(((1, "pos"), (2, "neg")), ROWS):
        row = [n, 1, 0, *[0] * (n - 1), verdict, *range(1, n), n - 1]
        yield [1, n, 0, 0, *row], f"monitorability {word} reached {n}" + listed([verdict - 1] * n)
        yield [3, 3, 0, 0, *row], f"reading {verdict} count 0"
        yield [5, 0, 0, 0, *row], f"{n} {word} - - - -"
        yield [8, 15, 6, n, *[n - 1] * n, *row], "accepted"
        yield [9, 3, n, 0, *row], f"written {n}" + listed([0] * n)


def listing(bodies):
    """What the program prints of a collection of these bodies, whose rule numbers are 1, 2 and so on."""
    done = subprocess.run([LISTING], input=collection(list(enumerate(bodies, 1))), stdout=subprocess.PIPE, check=True)
    return done.stdout.decode()


# ---- what changes


def classes_of(answer):
    """Monitorability, states reached and classes."""
    words = answer.split()
    return words[1], int(words[3]), [int(word) for word in words[4:]]


def changed_classes(tables):
    """The pairs of classes, by drawn marks and as answered, of the states where they differ. Those are states that
    settle; monitorability and states reached are as by drawn marks."""
    changed = set()
    for batch in batches(([1, b[0], 0, 0, *b], b) for b in tables):
        for (_, b), answer in zip(batch, answers([frame for frame, _ in batch])):
            before = [state_class(b, q, drawn) for q in range(b[0])]
            after = [mark - 1 if mark else of_state for mark, of_state in zip(settled(b), before)]
            came = classes_of(answer)
            check(came, (monitorability(b, drawn), len(reach(b, b[2])), after), bytes(b).hex())
            changed |= {(old, new) for old, new in zip(before, came[2]) if old != new}
    return changed


def least_length(b, q):
    """The least number of messages, up to n + 1, of which every series leads from the state to one verdict, or None."""
    tried = itertools.product(range(b[0] + 2), (1, 2))
    return next((length for length, verdict in tried if all_lead(b, q, length, verdict)), None)


def check_lengths(tables):
    """A state settles by fewer than n messages or never, and for each n some state needs n - 1. Settled marks settle no
    further, and a body that has them is accepted."""
    longest = {}
    for b in tables:
        lengths = [least_length(b, q) for q in range(b[0])]
        longest[b[0]] = max([longest.get(b[0], 0)] + [length for length in lengths if length is not None])
        marks = marks_by_series(b)
        written = with_marks(b, marks)
        check((settled(b), marks_by_series(written), judge(written)), (marks, marks, None), bytes(b).hex())
    check(longest, {n: n - 1 for n in longest}, "the most messages that a state settles by")


# ---- settled marks written in


def calls(b):
    """What stands before the body in a frame, for every call that goes by marks; of large tables some."""
    n, k = b[:2]
    r, small = random.Random(bytes(b)), n < 10
    yield [1, n, 0, 0]
    yield [5, 0, 0, 0]
    steps = list(itertools.product(READINGS, range(n), range(k)))
    yield from ([2, *step] for step in (steps if small else r.sample(steps, 9)))
    for d, length in itertools.product(READINGS, sorted({0, 1, 2, n // 2, n - 1, n + 1})):
        yield [3, d, length, 0, *[r.randrange(k) for _ in range(length)]]
    for d in READINGS:
        yield [9, d, n, 0]
        proofs = list(near_proofs(r, never_told_apart(b, d)))
        yield from ([8, r.randrange(16), d, len(proof), *proof] for proof in proofs[:6] + r.sample(proofs[6:], 6))
    for d, faults in itertools.product(READINGS, range(1, 16) if small else [r.randrange(1, 16)]):
        yield [4, faults, d, 20]
        yield from ([7, faults, d, verdict, 20, 0] for verdict in (range(d) if small else [r.randrange(d)]))


def check_written(tables):
    """Each body is answered as the same one with its settled marks, and so is a listing of all. How many answers."""
    total, written = 0, [with_marks(b, settled(b)) for b in tables]
    both = ((call + b, call + other) for b, other in zip(tables, written) for call in calls(b))
    for batch in batches(both):
        for pair, *came in zip(batch, *map(answers, zip(*batch))):
            check(came[0], came[1], f"the question {bytes(pair[0]).hex(' ')}, with settled marks and without")
        total += len(batch)
    check(listing(map(bytes, tables)), listing(map(bytes, written)), "listing, with settled marks and without")
    return total


def main():
    facts = compare(itertools.chain(refused_facts(), facts_of_h(), other_facts()))
    lines = ("1 2 pos 1 1 - -", "2 2 neg 1 1 - -", "3 3 both 1 1 - 2", "4 1 none - - - -", "5 3 pos 2 2 1 3",
             "6 5 both 2 2 1 3", "7 2 pos - - - -", "8 3 pos 1 1 - -")
    check(listing([A, B, C, D, E, G, H, HARMED_EARLIER]), HEADER + "".join(f"{line}\n" for line in lines), "listing")
    r = random.Random(5)
    small = [b for n, k in itertools.product((1, 2, 3), (1, 2)) for b in all_tables(n, k)]
    check_lengths(small)
    larger = [make(r, r.randint(4, 12), r.randint(1, 4)) for make in (random_table, settling_table) for _ in range(200)]
    large = [settling_table(r, n, r.randint(1, 4)) for n in ROWS for _ in range(2)]
    larger = [list(b) for b in larger + SETTLING + large]
    check(changed_classes(small + larger), {(2, 0), (3, 1)}, "the classes that change")
    changed = [b for b in small + larger if settled(b) != drawn(b)]
    chosen = r.sample([b for b in changed if b[0] < 10], 60) + r.sample([b for b in changed if 10 < b[0] < 63], 9)
    alike = check_written(chosen + [b for b in changed if bytes(b) in large])
    print(f"settled: {facts} answers as written out, the classes of {len(small + larger)} tables change from 2 to 0 "
          f"and from 3 to 1 alone, and {alike} answers are the same with settled marks written in")


if __name__ == "__main__":
    main()
