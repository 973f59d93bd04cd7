"""The tables that are measured, by a fixed seed, and the inputs of the programs."""
import itertools
import pathlib
import random
import sys

sys.path.append(str(pathlib.Path(__file__).resolve().parent.parent / "tests"))
import rings

LIMIT = 65536
TRACE = 250000
QUESTIONS = list(itertools.product((3, 6), (1, 2, 4, 8, 15)))
# What `ask` is asked of the ring tables, under repeat; the reading is put in. With an area of 0 it is refused once the distance is known.
RING_QUESTIONS = {"trust": "trust 4 {} 1 16514", "trust, area 0": "trust 4 {} 1 0", "fault question": "fault 4 {} 16514"}


def body(k, start, marks, rows):
    return bytes([len(marks), k, start, *marks, *itertools.chain(*rows)])


def random_table(r, n, k):
    """Any next states, but a mark, which few or many states have, is kept."""
    chance = r.choice((0.05, 0.3))
    marks = [r.choice((1, 2)) if r.random() < chance else 0 for _ in range(n)]
    marks[0] = 0
    alike = [[q for q in range(n) if marks[q] == v] for v in range(3)]
    rows = [[r.choice(alike[v] if v else range(n)) for _ in range(k)] for v in marks]
    return body(k, r.choice(alike[0]), marks, rows)


def chain_table(r, n, k):
    """A counter: the states stand in a row, and a message that stays the same for some states leads on to the next. The other messages lead to the first
    state, to the state before, or nowhere. The last states are marked, so that a fault shows only after as many messages as there are states before them."""
    marked = r.randint(1, max(1, n // 4))
    marks = [0] * (n - marked) + [r.choice((1, 2))] * marked
    others = [r.choice(("first", "before", "stay")) for _ in range(k)]
    rows, on = [], r.randrange(k)
    for q in range(n):
        if r.random() < 0.1:
            on = r.randrange(k)
        row = [{"first": 0, "before": max(q - 1, 0), "stay": q}[other] for other in others]
        row[on] = q + 1
        rows.append(row if marks[q] == 0 else [min(q + 1, n - 1)] * k)
    return body(k, 0, marks, rows)


def small_table(r):
    """As in the van: 3 to 8 states, 2 to 4 messages."""
    return r.choice((random_table, chain_table))(r, r.randint(3, 8), r.randint(2, 4))


def unmarked_table(r, n, k):
    """Without a mark, so that no fault does harm and one block proves it. Message 0 leads through all states, the others anywhere."""
    rows = [[(q + 1) % n, *(r.randrange(n) for _ in range(k - 1))] for q in range(n)]
    return body(k, r.randrange(n), [0] * n, rows)


def heard_table(r, k):
    """A state for each set of messages that were heard, numbered anyhow; true once some, drawn here, have all been heard. Repeat and swap do no harm."""
    number = r.sample(range(2**k), 2**k)
    heard = sorted(range(2**k), key=number.__getitem__)
    wanted = sum(1 << a for a in r.sample(range(k), r.randint(4, k)))
    marks = [int(h & wanted == wanted) for h in heard]
    return body(k, number[0], marks, [[number[h | 1 << a] for a in range(k)] for h in heard])


def sets():
    """The sets of tables, each with its name. Those of 128 states, which came later, have a generator of their own, so that the others stay what they were."""
    r, large = random.Random(1), random.Random(4)
    return {
        "60 random, n = 64, k = 16": [random_table(r, 64, 16) for _ in range(60)],
        "60 chains, n = 64, k = 2 to 16": [chain_table(r, 64, r.choice((2, 3, 4, 8, 16))) for _ in range(60)],
        "400 small, n = 3 to 8, k = 2 to 4": [small_table(r) for _ in range(400)],
        "20 random, n = 128, k = 16": [random_table(large, 128, 16) for _ in range(20)],
        "20 chains, n = 128, k = 2 to 16": [chain_table(large, 128, large.choice((2, 3, 4, 8, 16))) for _ in range(20)],
    }


def goal_sets():
    """The sets of tables by which the goals of speed are set, each with its name."""
    r = random.Random(8)
    return {
        "58 random, n = 64, k = 16": [random_table(r, 64, 16) for _ in range(58)],
        "58 chains, n = 64, k = 16": [chain_table(r, 64, 16) for _ in range(58)],
        "400 small, n = 2 to 11, k = 2 to 5": [r.choice((random_table, chain_table))(r, r.randint(2, 11), r.randint(2, 5)) for _ in range(400)],
    }


def growth():
    """Ten tables of each kind and size: (kind, n, k, tables). Those of 128 states have a generator of their own, as in sets()."""
    r, large = random.Random(2), random.Random(5)
    for (kind, make), n, k in itertools.product((("random", random_table), ("chain", chain_table)), (8, 16, 32, 64, 128), (2, 4, 8, 16)):
        yield kind, n, k, [make(large if n == 128 else r, n, k) for _ in range(10)]


def proof_sets():
    """The sets of tables for which proofs are made and checked, and the fault set of the check: (name, tables, faults). To those of sets() come
    tables whose proofs are all accepted: for all faults, where what the start reaches is one block, and for repeat and swap, where blocks are many."""
    r = random.Random(6)
    for n in (64, 128):
        yield f"20 unmarked, n = {n}, k = 16", [unmarked_table(r, n, 16) for _ in range(20)], 15
    for k in (6, 7):
        yield f"20 heard, n = {2**k}, k = {k}", [heard_table(r, k) for _ in range(20)], 12
    for name, bodies in sets().items():
        yield name, bodies, 15


def proof_growth():
    """Ten tables without marks of each size: (n, k, tables)."""
    r = random.Random(7)
    for k, n in itertools.product((4, 16), (16, 32, 64, 128)):
        yield n, k, [unmarked_table(r, n, k) for _ in range(10)]


def traces():
    """Tables with traces of a million messages by which their verdict falls at the last one or never, cut to files that `ask` takes:
    (name, table, traces)."""
    r = random.Random(3)
    for name, n, k in (("64 states, 16 messages", 64, 16), ("5 states, 3 messages", 5, 3)):
        rows = [[*(r.randrange(n - 1) for _ in range(k - 1)), n - 1] for _ in range(n - 1)] + [[n - 1] * k]
        messages = [bytes(r.choices(range(k - 1), k=TRACE - 1)) for _ in range(4)]
        table = body(k, 0, [0] * (n - 1) + [1], rows)
        yield f"{name}, never", table, [m + b"\0" for m in messages]
        yield f"{name}, true at the last", table, [m + bytes([k - 1]) for m in messages]


def ring_tables():
    """The tables of tests/rings.py of 25, of 61 and of 125 states: (name, table)."""
    for one, two in ((10, 12), (28, 30), (60, 62)):
        start, marks, rows = rings.rings(one, two)
        yield f"rings of {one} and {two}, n = {len(marks)}, k = 4", body(4, start, marks, rows)


def collection(bodies):
    at, entries = 2 + 8 * len(bodies), b""
    for rule, b in enumerate(bodies):
        entries += at.to_bytes(4, "little") + len(b).to_bytes(2, "little") + rule.to_bytes(2, "little")
        at += len(b)
    return len(bodies).to_bytes(2, "little") + entries + b"".join(bodies)


def batches(parts, overhead=0):
    """The parts in order, in lists whose bytes, with so many more for each part, fit an input."""
    batch, size = [], 2
    for part in parts:
        size += overhead + len(part)
        if size > LIMIT:
            yield batch
            batch, size = [], 2 + overhead + len(part)
        batch.append(part)
    yield batch


def collections(bodies):
    """The tables as inputs of `listing`."""
    return [collection(batch) for batch in batches(bodies, overhead=8)]


def frame(call, numbers, b):
    return (4 + len(b)).to_bytes(2, "little") + bytes([call, *numbers]) + b


def questions(bodies):
    """Ten fault questions to each table as inputs of `probe`: both readings, each fault alone and all together. Every witness here fits an
    area of 2 * n and, of 128 states, one of 249: a byte says how large it is, and refused_questions() adds six."""
    frames = [frame(4, (faults, reading, min(2 * b[0], 249)), b) for b in bodies for reading, faults in QUESTIONS]
    return [b"".join(batch) for batch in batches(frames)]


def makings(bodies):
    """The making of a proof for each table, by both readings, as inputs of `probe`, with an area of n."""
    return [b"".join(batch) for batch in batches([frame(9, (reading, b[0], 0), b) for b in bodies for reading in (3, 6)])]


def checks(bodies, proofs, faults, readings=(3, 6)):
    """The check of a proof for this fault set, for each table and reading, as inputs of `probe`. The proofs stand in that order."""
    asked = zip(itertools.product(bodies, readings), proofs)
    frames = [frame(8, (faults, reading, len(proof)), proof + b) for (b, reading), proof in asked]
    return [b"".join(batch) for batch in batches(frames)]


# ---- the same with nothing to work out, to measure start and printing


def refused_tables(data, _):
    """A collection with as many entries, whose bodies are empty."""
    return collection([b""] * int.from_bytes(data[:2], "little"))


def refused_questions(data, answers):
    """As many questions with empty bodies, whose refusals `probe` prints by as many writes as these answers. A refusal takes four, a witness 16, `immune` one,
    a byte of the area two: so a witness is made up for by six bytes more, and `immune` by one and by two less in turn."""
    frames, at, immune = [], 0, 0
    for answer in answers.splitlines():
        room = data[at + 5]
        if answer.startswith(b"immune"):
            immune += 1
            room -= 1 + immune % 2
        else:
            room += 6
        frames.append(frame(4, (15, 3, room), b""))
        at += 2 + int.from_bytes(data[at : at + 2], "little")
    return b"".join(frames)


def refused_makings(_, answers):
    """As many questions with empty bodies, whose refusals `probe` prints by as many writes: a refusal takes two more than `written`, which an area
    shorter by a byte makes up for."""
    return b"".join(frame(9, (3, int(answer.split()[1]) - 1, 0), b"") for answer in answers.splitlines())


def refused_checks(_, answers):
    """As many questions with the same answer: for a refusal one with an empty body, for `accepted` call 0, which judges, and a table of one state."""
    accepted, refused = frame(0, (0, 0, 0), body(1, 0, [0], [[0]])), frame(8, (15, 3, 0), b"")
    return b"".join(accepted if answer == b"accepted" else refused for answer in answers.splitlines())
