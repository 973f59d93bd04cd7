#!/usr/bin/env python3
"""Tries the limit on the number of states, and that it counts for nothing else.

Question 2 at 0, around 64, which was the limit once, and around 128, in every call and program that judges a body. And
tables of at most 64 states that are made larger without a change of what they say: with states that are not reached,
with states named anew, and with states split in two. None of that may change an answer; programs are compared with
themselves, and no model is asked. Run it at the root, after the programs are built.
"""
import itertools
import os
import random
import subprocess
import sys
import tempfile

from model import KINDS, READINGS, answers, batches, listed
from tables import (A, collection, far_table, late_repeat, named_anew, near_proofs, random_table, settling_table, table,
                    with_copies)

PROGRAMS = os.path.join("target", "bin")
PASSING, REFUSED = (1, 2, 63, 64, 65, 127, 128), (0, 129, 130, 191, 192, 255)
ROOM = 255


def check(came, wanted, about):
    if came != wanted:
        sys.exit(f"limits: {about}: wanted {wanted}, came {came}")


def said(program, *words, data=b""):
    """What a program writes to standard output and to standard error."""
    command = [os.path.join(PROGRAMS, program), *map(str, words)]
    done = subprocess.run(command, input=data, capture_output=True, check=True)
    return done.stdout, done.stderr.decode()


# ---- question 2


def blank(n, k):
    """A body of n states that all lead to the last; none of them is marked."""
    return bytes([n, k, max(n - 1, 0), *[0] * n, *[max(n - 1, 0)] * (n * k)])


def probe_answers(n, body):
    """Calls of `probe` on such a body, each with its answer where it passes and how long its area is."""
    classes = f"monitorability none reached 1{listed([5] * n)}" + listed([255] * (ROOM - n))
    yield [0, 0, 0, 0, *body], "accepted", 0
    yield [1, ROOM, 0, 0, *body], classes, ROOM
    yield [2, 6, 0, 0, *body], f"state {n - 1} reading 5", 0
    yield [3, 3, 1, 0, 0, *body], "reading 0 count never", 0
    yield [4, 15, 6, ROOM, *body], "immune" + listed([255] * ROOM), ROOM
    yield [5, 0, 0, 0, *body], f"{n} none - - - -", 0
    yield [7, 15, 6, 5, 3, 0, *body], "yes 255 255 255", 3
    yield [8, 15, 6, n, *[max(n - 1, 0)] * n, *body], "accepted", 0
    yield [9, 6, ROOM, 0, *body], f"written {n}" + listed([0] * n + [255] * (ROOM - n)), ROOM


def check_sizes():
    """These numbers of states, with the fewest and the most messages, by every call and by the programs."""
    tried = 0
    for n, k in itertools.product(PASSING + REFUSED, (1, 16)):
        body, passes = blank(n, k), n in PASSING
        for frame, answer, room in probe_answers(n, body):
            wanted = answer if passes else "refused 2 0" + listed([255] * room)
            check(answers([frame])[0], wanted, f"call {frame[0]} on {n} states")
        rules = collection([(3, A), (7, body), (9, A)])
        line = f"7 {n} none - - - -" if passes else "7 refused 2 0"
        check(said("listing", data=rules)[0].decode().splitlines()[2], line, f"listing of {n} states")
        judged = b"accepted\n" if passes else b"refused 2 0\n"
        for words in (["judge"], ["proof", 15, 6, *[max(n - 1, 0)] * n]):
            check(said("ask", *words, data=body)[0], judged, f"ask {words[0]} on {n} states")
        alike = " ".join(["blocks", *["0"] * n]) if passes else "refused 2 0"
        check(said("ask", "blocks", 3, data=body)[0].decode(), f"{alike}\n", f"ask blocks on {n} states")
        lengths = [len(A), len(body), len(A)]
        came = said("ask", "write", 69634, 3, 7, 9, "/", *lengths, data=A + body + A)[0].decode()
        written = " ".join(map(str, ["written", len(rules), "bytes", *rules]))
        check(came, written + "\n" if passes else "refused 2 1\n", f"ask write of {n} states")
        with tempfile.TemporaryDirectory() as folder:
            names = [os.path.join(folder, name) for name in ("a", "b")]
            for name, data in zip(names, (A, body)):
                with open(name, "wb") as file:
                    file.write(data)
            out, err = said("pack", 3, names[0], 7, names[1], 9, names[0])
            why = said("ask", "why", 2)[0].decode().partition(": ")[2]
            wanted = (rules, "") if passes else (b"", f"pack: refused 2 1: {names[1]}: {why}")
            check((out, err), wanted, f"pack of {n} states")
        tried += 1
    return tried


def check_orders():
    """1 comes before 2, and 2 before 3 and 4."""
    for n in REFUSED:
        for body, wanted in ((bytes([n, 1]), "1 2"), (bytes([n, 0, 0]), "2 0"), (bytes([n, 17, 255]), "2 0")):
            check(said("ask", "judge", data=body)[0].decode(), f"refused {wanted}\n", body.hex())
    for n in PASSING:
        short = blank(n, 2)[:-1]
        for body, wanted in ((bytes([n, 0, 0]), "3 1"), (bytes([n, 1, 0]), "4 3"), (short, f"4 {len(short)}")):
            check(said("ask", "judge", data=body)[0].decode(), f"refused {wanted}\n", body.hex())


def check_blocks():
    """Of a table with each of these numbers of states: a proof of that length, one shorter and one longer; and the
    greatest block number and the first that is none, at the first place and at the last."""
    for n in PASSING:
        body = blank(n, 2)
        for length in (n - 1, n, n + 1):
            wanted = "accepted" if length == n else f"refused 14 {length}"
            check(answers([[8, 15, 6, length, *[0] * length, *body]])[0], wanted, f"{length} blocks for {n} states")
        for block, place in itertools.product((n - 1, n, 255), (0, n - 1)):
            blocks = [n - 1] * place + [block] + [n - 1] * (n - 1 - place)
            wanted = "accepted" if block < n else f"refused 15 {place}"
            check(answers([[8, 15, 6, n, *blocks, *body]])[0], wanted, f"block {block} of {n} states at {place}")
            came = said("ask", "proof", 15, 6, *blocks, data=body)[0].decode()
            check(came, f"{wanted}\n", f"ask proof, block {block} of {n} states at {place}")


# ---- larger tables that say the same


def calls(r, body):
    """What stands before the body in a frame whose answer names no state. The area holds the longest distance of a fault question."""
    n, k = body[:2]
    for d in READINGS:
        traces = ([r.randrange(k) for _ in range(length)] for length in (0, 5, 60, 200))
        yield from ([3, d, len(w), 0, *w] for w in traces)
        for faults in (*KINDS, 15, r.randrange(1, 15)):
            yield [4, faults, d, 2 * n - 1]
            yield [7, faults, d, r.randrange(d), 2 * n - 1, 0]


def some_proofs(r, body, d):
    """The states that are never told apart, as they are answered, and proofs near that one."""
    alike = [int(word) for word in answers([[9, d, body[0], 0, *body]])[0].split()[2:]]
    near = list(near_proofs(r, alike))
    return near[:6] + r.sample(near[6:], min(10, len(near) - 6))


def check_proofs(r, bodies):
    """A proof of a table is answered as the one in which each copy has the block of its state; and states are alike
    exactly if they are copies of states alike. How many answers are compared."""
    total = 0
    for body, d in itertools.product(bodies, READINGS):
        split, faults = r.random() < 0.5, r.choice((0, *KINDS, 12, 15))
        larger, of = with_copies(r, body, r.randint(max(65, body[0]), 128), split)
        proofs = [proof for proof in some_proofs(r, body, d) if len(proof) == body[0] and max(proof) < body[0]]
        frames = [[8, faults, d, len(proof), *proof, *body] for proof in proofs]
        frames += [[8, faults, d, len(of), *[proof[p] for p in of], *larger] for proof in proofs]
        came = answers(frames)
        for proof, one, other in zip(proofs, came, came[len(proofs):], strict=False):
            placed = not split or not one.startswith("refused 18")
            about = f"proof {proof} of {body.hex()} and of copies in {larger.hex()}, set {faults}, reading {d}"
            check(other if placed else other.split()[:2], one if placed else one.split()[:2], about)
        larger, of = named_anew(r, larger, of)
        alike, copies = ([int(word) for word in answers([[9, d, n, 0, *b]])[0].split()[2:]]
                         for b, n in ((body, body[0]), (larger, len(of))))
        of_blocks = [alike[p] for p in of]
        check(copies, [of_blocks.index(block) for block in of_blocks], f"blocks of {body.hex()} and of {larger.hex()}")
        total += len(proofs) + 1
    return total


def classes_of(answer, n):
    """Monitorability, states reached and the classes of the states."""
    words = answer.split()
    return words[1], int(words[3]), [int(word) for word in words[4:4 + n]]


def questions(r, bodies):
    """Every call on each body and on the larger ones made of it."""
    for body in bodies:
        sizes = sorted({s for s in (65, 128, r.randint(64, 127)) if s > body[0]})
        for size, split in itertools.product(sizes, (False, True)):
            larger, of = with_copies(r, body, size, split)
            if r.random() < 0.7:
                larger, of = named_anew(r, larger, of)
            yield [0, 0, 0, 0], body, larger, of, split
            yield [1, 128, 0, 0], body, larger, of, split
            yield [5, 0, 0, 0], body, larger, of, split
            yield from ((call, body, larger, of, split) for call in calls(r, body))


def check_pair(call, body, of, split, one, other):
    """Whether a table and a larger one that says the same are answered alike."""
    about = f"call {call[:4]} on {body.hex()} and with {len(of)} states"
    if call[0] == 1:
        was, reached, classes = classes_of(one, body[0])
        came = classes_of(other, len(of))
        check((came[0], came[2]), (was, [classes[p] for p in of]), about)
        check(came[1] == reached or split, True, f"{about}: states reached")
    elif call[0] == 5:
        check(other, f"{len(of)} {one.partition(' ')[2]}", about)
    else:
        check(other, one, about)


def check_larger(r, bodies):
    """How many answers are compared, and the longest distance among them."""
    total, longest = 0, 0
    asked = ((call + list(larger), call + list(body), (call, body, of, split))
             for call, body, larger, of, split in questions(r, bodies))
    for batch in batches(asked):
        came, was = (answers([part[i] for part in batch]) for i in (0, 1))
        for (_, _, (call, body, of, split)), one, other in zip(batch, was, came, strict=True):
            check_pair(call, body, of, split, one, other)
            longest = max(longest, int(one.split()[2]) if " distance " in one else 0)
        total += len(batch)
    return total, longest


def check_listing(r, bodies):
    """The listing of all bodies, and of all made larger: the number of states apart, the same lines."""
    larger = [with_copies(r, body, r.randint(max(65, body[0]), 128), r.random() < 0.5)[0] for body in bodies]
    listings = [said("listing", data=collection(list(enumerate(held))))[0] for held in (bodies, larger)]
    lines = [listing.decode().splitlines() for listing in listings]
    check(len(lines[1]), len(bodies) + 1, "lines of the listing")
    for body, made, one, other in zip(bodies, larger, *(held[1:] for held in lines), strict=True):
        words = one.split()
        check(other.split(), [words[0], str(made[0]), *words[2:]], f"the listing of {body.hex()} made larger")


def main():
    r = random.Random(6)
    tried = check_sizes()
    check_orders()
    check_blocks()
    bodies = [random_table(r, r.randint(1, 64), r.randint(1, 4)) for _ in range(40)]
    bodies += [far_table(r, n, 3) for n in (4, 16, 33, 62, 63, 64) * 2]
    bodies += [table(*late_repeat(n, 3)) for n in (33, 63, 64)]
    bodies += [settling_table(r, r.randint(2, 64), r.randint(1, 4)) for _ in range(15)]
    total, longest = check_larger(r, bodies)
    check_listing(r, bodies)
    proofs = check_proofs(random.Random(9), bodies)
    print(f"limits: question 2 at {tried} sizes by every call and program, and {total} answers on {len(bodies)} "
          f"tables, distances up to {longest}, and {proofs} on their proofs, are the same with up to 128 states")


if __name__ == "__main__":
    main()
