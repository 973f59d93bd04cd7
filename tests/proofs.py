#!/usr/bin/env python3
"""Compares the programs `probe` and `ask` with what is said of proofs of immunity: answers written out here; what they
say of states that are never told apart, handed back to them as a proof, with what they say of faults; and laws of all
proofs. But for the answers written out, the programs are compared with themselves, and no model is asked.

Run it at the root, after the programs are built.
"""
import itertools
import os
import random
import subprocess
import sys

from inputs import stored
from model import KINDS, READINGS, SAMPLES, answers, batches, disagreeing, listed, small_tables
from reference import first_disagreeing
from tables import (A, B, C, D, E, G, H, HARMED_EARLIER, NAMED, UNREACHABLE_HARM, UNREACHED_DIFFER, UNREACHED_SETTLES,
                    collection, far_table, late_repeat, named_anew, near_proofs, random_table, settling_table, table,
                    with_copies)

PROGRAMS = os.path.join("target", "bin")
SETS, ROOM = range(16), 255

# A and E with their states in falling order, and two states that lead to each other by the only message.
A_FALLING = bytes([2, 2, 1, 1, 0, 0, 0, 1, 0])
E_FALLING = bytes([3, 2, 2, 1, 0, 0, 0, 0, 2, 0, 2, 1])
TO_AND_FRO = bytes([2, 1, 0, 0, 0, 1, 0])

compared = 0


def check(came, wanted, about):
    global compared
    compared += 1
    if came != wanted:
        sys.exit(f"proofs: {about}: wanted {wanted}, came {came}")


def replies(frames):
    """What `probe` answers to each frame."""
    return [came for batch in batches((frame,) for frame in frames) for came in answers([frame for frame, in batch])]


def said(words, data):
    """What `ask` writes to standard output."""
    command = [os.path.join(PROGRAMS, "ask"), *map(str, words)]
    return subprocess.run(command, input=data, stdout=subprocess.PIPE, check=True).stdout.decode()


def proof_frame(body, faults, d, blocks):
    return [8, faults, d, len(blocks), *blocks, *body]


# ---- answers written out


def proof_facts():
    """The table, the sets, the readings, the proof and its answer."""
    for blocks, answer in (("0 1", "accepted"), ("1 0", "accepted"), ("0 0", "refused 16 1"), ("0", "refused 14 1"),
                           ("2 0", "refused 15 0"), ("0 1 1", "refused 14 3")):
        yield A, [12], READINGS, blocks, answer
    yield A, [1], READINGS, "0 1", "refused 18 0"
    yield E, [8], READINGS, "0 0 1", "refused 17 1"
    # States that are not reached: 17 asks them, and 18 does not.
    yield UNREACHED_DIFFER, SETS, [3], "0 1 1 3", "refused 17 2"
    yield UNREACHED_DIFFER, SETS, READINGS, "0 0 2 3", "accepted"
    yield UNREACHED_DIFFER, SETS, READINGS, "3 0 1 2", "accepted"
    yield UNREACHABLE_HARM, SETS, READINGS, "0 1 2", "accepted"
    yield UNREACHED_SETTLES, SETS, READINGS, "1 1", "accepted"
    # Any numbers below n, each at any block.
    yield from ((E, [0], READINGS, " ".join(blocks), "accepted") for blocks in itertools.permutations("012"))
    yield from ((B, [12], READINGS, blocks, "accepted") for blocks in ("0 1", "1 0"))
    yield from ((D, SETS, READINGS, blocks, answer) for blocks, answer in (("0", "accepted"), ("1", "refused 15 0")))
    yield from ((H, SETS, READINGS, blocks, "accepted") for blocks in ("0 0", "1 1"))
    # A proof that tells more apart than it needs to is refused where a fault step leads to two of its blocks.
    for sets, answer in (([s for s in SETS if not s & 1], "accepted"), ([s for s in SETS if s & 1], "refused 18 0")):
        yield from ((H, sets, READINGS, blocks, answer) for blocks in ("0 1", "1 0"))
    # The reading decides 16: by classes states differ that by marks only lead to different blocks.
    for d, number in ((3, 17), (6, 16)):
        yield G, SETS, [d], "0 1 2 1 4", f"refused {number} 3"
        yield UNREACHED_DIFFER, SETS, [d], "2 1 1 0", f"refused {number} 2"
    # Settled marks are read.
    yield HARMED_EARLIER, [0, 12], READINGS, "0 1 1", "accepted"
    yield HARMED_EARLIER, SETS, READINGS, "0 0 2", "refused 16 1"
    # Without faults only 14 to 17 are asked.
    for faults, answer in ((0, "accepted"), (15, "refused 18 0")):
        for body, blocks in ((A, "0 1"), (C, "2 0 1"), (E, "1 2 0")):
            yield body, [faults], READINGS, blocks, answer
    for blocks, answer in (("0 0 1", "17 1"), ("0 1 1", "16 2"), ("0 0 0", "16 2"), ("0 1 3", "15 2"), ("0 1", "14 2")):
        yield E, SETS, READINGS, blocks, f"refused {answer}"
    # With one message, corruption and swap change nothing.
    for sets, answer in (([0, 2, 8, 10], "accepted"), ([s for s in SETS if s & 5], "refused 18 0")):
        yield TO_AND_FRO, sets, READINGS, "1 0", answer
    yield TO_AND_FRO, SETS, READINGS, "1 1", "accepted"
    # The place of 15 is the state, that of 14 the length, and that of 18 the lowest state, wherever the start is.
    for blocks, place in (("2 0", 0), ("0 2", 1), ("255 0", 0), ("0 255", 1), ("3 2", 0), ("255 255", 0)):
        yield A, SETS, READINGS, blocks, f"refused 15 {place}"
    for length in (0, 1, 3, 4, 255):
        yield A, SETS, READINGS, " ".join(["255"] * length), f"refused 14 {length}"
    yield A_FALLING, [1, 2, 3, 15], READINGS, "0 1", "refused 18 1"
    yield E_FALLING, [8], READINGS, "0 1 2", "refused 18 1"
    # One question before the other.
    yield from ((A, [16, 255], [0, 3, 5, 6], blocks, "refused 9 0") for blocks in ("", "0 0", "2 0", "0 1"))
    yield from ((A, SETS, [0, 5, 255], blocks, "refused 10 0") for blocks in ("", "0 0", "2 0", "0 1"))
    yield E[:-1], [16], [5], "", "refused 4 11"
    yield E, [15], READINGS, "3 3 3 3", "refused 14 4"
    yield E, [15], READINGS, "0 0 3", "refused 15 2"
    yield G, [15], [3], "0 1 0 1 4", "refused 16 2"
    yield E, [15], READINGS, "2 2 1", "refused 17 1"


BLOCK_FACTS = [(A, 3, "0 1"), (C, 3, "0 1 2"), (D, 3, "0"), (E, 3, "0 1 2"), (E, 6, "0 1 2"), (G, 3, "0 1 2 3 4"),
               (H, 3, "0 0"), (H, 6, "0 0"), (HARMED_EARLIER, 3, "0 1 1"), (UNREACHED_DIFFER, 3, "0 0 2 3"),
               (UNREACHED_DIFFER, 6, "0 0 2 3"), (UNREACHED_SETTLES, 3, "0 0"), (TO_AND_FRO, 3, "0 0"),
               (A_FALLING, 6, "0 1"), (UNREACHABLE_HARM, 6, "0 1 2")]


def check_facts():
    """By `probe`; and by `ask` for one set and reading of each, of a table alone, by a file, and of a rule."""
    for i, (body, sets, readings, text, answer) in enumerate(proof_facts()):
        blocks = [int(word) for word in text.split()]
        asked = list(itertools.product(sets, readings))
        for (faults, d), came in zip(asked, replies(proof_frame(body, *one, blocks) for one in asked), strict=True):
            check(came, answer, f"proof {text} of {body.hex()}, set {faults}, reading {d}")
        rules, (faults, d) = collection([(3, D), (7, body), (9, D)]), random.Random(i).choice(asked)
        form = ["proof", faults, d]
        for words, data in (([*form, *blocks], body), ([*form, stored(f"fact {i}", blocks)], body),
                            (["rule", 7, *form, *blocks], rules)):
            check(said(words, data), f"{answer}\n", " ".join(map(str, words)))
        check(said(["rule", 8, *form, *blocks], rules), "absent\n", f"rule 8 of 3, 7 and 9, proof {text}")


def check_block_facts():
    for body, d, text in BLOCK_FACTS:
        n, about = body[0], f"blocks of {body.hex()}, reading {d}"
        short, exact, longer = replies([9, d, room, 0, *body] for room in (n - 1, n, n + 2))
        check(short, "refused 13 0" + listed([255] * (n - 1)), about)
        check((exact, longer), (f"written {n} {text}", f"written {n} {text} 255 255"), about)
        check(said(["blocks", d], body), f"blocks {text}\n", about)
        rules = collection([(3, D), (7, body)])
        check(said(["rule", 7, "blocks", d], rules), f"blocks {text}\n", about)
        check(said(["rule", 8, "blocks", d], rules), "absent\n", about)
        for wrong, answer in ((body[:-1], f"refused 4 {len(body) - 1}"), (body, "refused 10 0")):
            check(said(["blocks", 5], wrong), f"{answer}\n", about)
            check(replies([[9, 5, 0, 0, *wrong], [9, 5, 1, 0, *wrong]]), [answer, f"{answer} 255"], about)


# ---- blocks handed back


def blocks_of(asked):
    """What `probe` answers of each body and reading: the blocks."""
    frames = [[9, d, ROOM, 0, *body] for body, d in asked]
    for (body, d), came in zip(asked, replies(frames), strict=True):
        words = came.split()
        about = f"blocks of {bytes(body).hex()}, reading {d}"
        check((words[:2], words[2 + body[0]:]), (["written", str(body[0])], ["255"] * (ROOM - body[0])), about)
        yield [int(word) for word in words[2:2 + body[0]]]


def check_handed_back(tables, sets):
    """The blocks of each table are accepted exactly if it is immune, by `probe`. Each is named by its lowest state, and
    they are the same by both readings: what is alike by marks can reach the same marks, so it has the same class."""
    asked = list(itertools.product(tables, READINGS))
    found = list(blocks_of(asked))
    check(found[::2], found[1::2], "the blocks of all tables by the two readings")
    frames, about = [], []
    for (body, d), blocks in zip(asked, found, strict=True):
        check([blocks[block] for block in blocks], blocks, f"lowest states of {bytes(body).hex()}, reading {d}")
        check(all(block <= q for q, block in enumerate(blocks)), True, f"lowest states of {bytes(body).hex()}")
        for faults in sets:
            frames += [proof_frame(body, faults, d, blocks), [4, faults, d, 0, *body]]
            about.append(f"{bytes(body).hex()}, set {faults}, reading {d}: accepted and immune")
    came = replies(frames)
    for proved, harmed, what in zip(came[::2], came[1::2], about, strict=True):
        check(proved.split()[:2] in (["accepted"], ["refused", "18"]), True, f"{what}: {proved}")
        check(proved == "accepted", harmed == "immune", what)


def check_handed_back_by_ask(bodies):
    """The same by `ask`."""
    for body, d in itertools.product(bodies, READINGS):
        blocks = said(["blocks", d], body).split()
        check((blocks[0], len(blocks)), ("blocks", 1 + body[0]), f"ask blocks {d} on {body.hex()}")
        for faults in (0, *KINDS, 12, 15):
            proved, harmed = said(["proof", faults, d, *blocks[1:]], body), said(["fault", faults, d, 999], body)
            check(proved == "accepted\n", harmed == "immune\n", f"ask, {body.hex()}, set {faults}, reading {d}")


# ---- laws


def check_lowest():
    """Whether a state is compared with the lowest of its block or with every lower one, the same is found first: of all
    blocks and values of up to 4 states. How many they are."""
    tried = 0
    for n in range(5):
        for blocks, values in itertools.product(itertools.product(range(n), repeat=n), repeat=2):
            one, every = first_disagreeing(blocks, values), disagreeing(blocks, values)
            if one != (every[0] if every else None):
                sys.exit(f"proofs: blocks {blocks}, values {values}: {one} by the lowest state, {every} by every lower")
            tried += 1
    return tried


def joined(of_kinds, faults):
    """The answer for a set, from those for no fault and for each kind alone: the least of the places at fault."""
    if of_kinds[0] != "accepted":
        return of_kinds[0]
    places = [int(of_kinds[kind].split()[2]) for kind in KINDS if kind & faults and of_kinds[kind] != "accepted"]
    return f"refused 18 {min(places)}" if places else "accepted"


def law_frames(r, body, d, proof):
    """The proof under every set; with its blocks named anew, under one set, which is told as well; and with some states
    as the start, without faults."""
    n, faults = body[0], r.choice(SETS)
    names = r.sample(range(n), n)
    anew = [names[block] if block < n else block for block in proof]
    starts = [[*body[:2], start, *body[3:]] for start in r.sample(range(n), min(n, 4))]
    frames = [proof_frame(body, other, d, proof) for other in SETS] + [proof_frame(body, faults, d, anew)]
    return frames + [proof_frame(other, 0, d, proof) for other in starts], faults


def check_law(came, faults, proof, alike, harmed, about):
    """The answers to these frames, beside the states that are alike and the answers to fault questions."""
    came, (anew, *moved) = came[:16], came[16:]
    check(came, [joined(came, other) for other in SETS], f"{about}: sets")
    check(anew, came[faults], f"{about}: blocks named anew")
    check(set(moved), {came[0]}, f"{about}: other starts")
    check([came[other] == "accepted" and harmed[other] != "immune" for other in SETS], [False] * 16, f"{about}: immune")
    if came[0] == "accepted":
        check(len(set(zip(proof, alike))), len(set(proof)), f"{about}: a block whose states are told apart")


def check_laws(r, asked):
    """Of proofs near the right one: their names count for nothing; sets are asked one fault at a time, and last; up to
    17 the start counts for nothing; what is accepted is immune; and what passes 17 has no states in a block that are
    told apart."""
    for (body, d), alike in zip(asked, list(blocks_of(asked)), strict=True):
        near = list(near_proofs(r, alike))
        proofs = near[:6] + r.sample(near[6:], min(12, len(near) - 6))
        each = [law_frames(r, body, d, proof) for proof in proofs]
        came = iter(replies([frame for frames, _ in each for frame in frames]))
        harmed = replies([4, faults, d, 0, *body] for faults in SETS)
        for proof, (frames, faults) in zip(proofs, each, strict=True):
            about = f"{body.hex()}, reading {d}, proof {proof}"
            check_law([next(came) for _ in frames], faults, proof, alike, harmed, about)


def main():
    r = random.Random(7)
    check_facts()
    check_block_facts()
    small = small_tables()
    check_handed_back(small, SETS)
    makers = random_table, settling_table
    few = [make(r, r.randint(3, 8), r.randint(1, 4)) for make in makers for _ in range(40)] + NAMED
    few += [with_copies(r, bytes(r.choice(SAMPLES)), r.randint(5, 9), split)[0] for split in (False, True) * 20]
    check_handed_back(few, SETS)
    many = [make(r, n, 3) for make in (*makers, far_table) for n in (63, 64, 65, 127, 128)]
    many += [named_anew(r, *with_copies(r, r.choice([A, B, C, E]), n, True))[0] for n in (63, 64, 65, 127, 128)]
    check_handed_back(many + [table(*late_repeat(128, 16))], (0, *KINDS, 12, 15))
    check_handed_back_by_ask(NAMED + [UNREACHED_DIFFER, many[-1], many[0]])
    lowest = check_lowest()
    check_laws(r, [(bytes(body), r.choice(READINGS)) for body in r.sample(small, 60) + few + many])
    tables = len(small) + len(few) + len(many) + 1
    print(f"proofs: {compared} comparisons on {tables} tables, {len(small)} of them all that are small, are as said, "
          f"and in {lowest} proofs the lowest state of a block finds the same as every lower one")


if __name__ == "__main__":
    main()
