"""The inputs of hostile.py, in groups. A case is a program, its arguments and its standard input."""

import itertools
import os
import tempfile

import reference
from reference import INPUT_LIMIT
from rings import rings
from tables import (A, B, C, D, E, NAMED, SETTLING, UNREACHED_DIFFER, collection, damaged, far_table, in_a_row,
                    late_repeat, named_anew, near_proofs, packed, random_table, settling, settling_table, table,
                    with_copies)

ROOM = 2000         # an area that holds every answer here
WIDE = [2**8, 2**8 + 1, 2**16, 2**32, 2**32 + 1, 2**32 + 3, 2**63, 2**64 - 1, 2**64, 2**64 + 1, 2**64 + 3, 2**64 + 6,
        10**40]
RINGS = [table(*rings(one, two)) for one, two in ((10, 12), (28, 30), (26, 34), (58, 66))]


def ask(data, *words):
    return "ask", [str(word) for word in words], data


def listing(data):
    return "listing", [], data


def pack(*words):
    return "pack", [str(word) for word in words], b""


# ---- valid tables ----------------------------------------------------------------------------------------

def named_tables(rng):
    """The specification's tables: every set and reading, with areas that are just too short, fit, or have one byte more."""
    for body in NAMED:
        yield ask(body, "judge")
        yield from (ask(body, "classes", area) for area in range(body[0] + 2))
        for faults in range(16):
            for reading in (3, 6):
                yield from (ask(body, "fault", faults, reading, area) for area in range(5))


def vulnerable_table(rng, n, k):
    """A table whose reached states read differently, so that loss harms it, if one comes up in 20 draws."""
    for _ in range(20):
        body = random_table(rng, n, k)
        made = reference.read_table(body)
        if len({made.marks[s] for s in reference.reached_from(made, made.start)}) > 1:
            break
    return body


def small_listings(rng):
    """Tables of up to 6 states and 4 messages, 512 to a listing."""
    makers = [random_table, vulnerable_table]
    bodies = (rng.choice(makers)(rng, rng.randint(1, 6), rng.randint(1, 4)) for _ in range(14000))
    yield from map(listing, packed(bodies))


def all_sizes(rng):
    """Tables of every number of states, up to 66 with every number of messages and above with one; most are vulnerable,
    as a large immune one takes long."""
    for n in range(1, 129):
        for k in range(1, 17) if n < 67 else [rng.randint(1, 16)]:
            yield rng.choice([random_table] + [vulnerable_table] * 5)(rng, n, k)


def listings_of_all_sizes(rng):
    """Such tables, twice."""
    for limit in (INPUT_LIMIT, 20000):
        yield from map(listing, packed(all_sizes(rng), limit))


def far_listings(rng):
    """Tables with distances up to 253."""
    sizes = list(range(4, 67)) * 3 + list(range(67, 126, 4)) + [126, 127, 128] * 3
    bodies = [far_table(rng, n, rng.randint(3, 5)) for n in sizes]
    yield from map(listing, packed(bodies))


def witnesses_of_small_tables(rng):
    """The whole first witness: all sets, both readings."""
    for _ in range(170):
        body = vulnerable_table(rng, rng.randint(2, 7), rng.randint(1, 4))
        for faults in range(16):
            for reading in (3, 6):
                yield ask(body, "fault", faults, reading, ROOM)


def witnesses_of_all_sizes(rng):
    """The first witness for some sets, at a quarter of such sizes."""
    for body in all_sizes(rng):
        if rng.random() < 0.25:
            for _ in range(3):
                yield ask(body, "fault", rng.randint(1, 15), rng.choice([3, 6]), ROOM)


def areas_for_witnesses(rng):
    """Areas around the distance and around the number of states, and far witnesses."""
    bodies = [vulnerable_table(rng, rng.randint(1, 12), rng.randint(1, 4)) for _ in range(80)]
    bodies += [far_table(rng, n, 3) for n in (*range(4, 67, 3), 96, 126)]
    bodies += [table(*make(n, k)) for make in (in_a_row, late_repeat)
               for n, k in ((63, 3), (64, 16), (65, 3), (127, 3), (128, 16))]
    for body in bodies:
        for faults in (rng.choice([1, 2, 4, 8]), rng.choice([4, 8, 12]), rng.randint(0, 15)):
            reading = rng.choice([3, 6])
            witness = reference.fault(body, faults, reading, ROOM)
            distance = witness.distance if witness else 0
            for area in {0, distance - 1, distance, distance + 1, body[0] - 1, body[0], rng.choice(WIDE)} - {-1}:
                yield ask(body, "fault", faults, reading, area)


def trust_areas(body, faults, reading, verdict):
    """An area that just does not hold the witness, and one that does; none where there is no witness."""
    witness = reference.trust(body, faults, reading, verdict, ROOM)
    return [0] if witness is None else [witness.distance - 1, witness.distance]


def trusted_verdicts(rng):
    """Every verdict of the specification's tables and of random small ones, under every set and both readings."""
    for body in NAMED + [vulnerable_table(rng, rng.randint(2, 7), rng.randint(1, 4)) for _ in range(12)]:
        for faults in range(16):
            for reading, verdict in ((reading, verdict) for reading in (3, 6) for verdict in range(reading)):
                for area in trust_areas(body, faults, reading, verdict):
                    yield ask(body, "trust", faults, reading, verdict, area)


def trust_questions(rng):
    """The order of 9, 10, 19 and 13, and verdicts that are one of the reading's only if they are cut, of A and E."""
    for body in (A, E, A[:-1]):
        for faults in (1, 2, 15, 16):
            for reading in (3, 5, 6):
                for verdict in (0, 1, 2, 3, 5, 6, *WIDE):
                    yield from (ask(body, "trust", faults, reading, verdict, area) for area in (0, 9))


def trust_of_all_sizes(rng):
    """Some sets and verdicts, at a fifth of such sizes."""
    for body in all_sizes(rng):
        if rng.random() < 0.2:
            for faults, reading in ((rng.randint(1, 15), 3), (rng.choice([1, 2, 4, 8]), 3), (rng.randint(1, 15), 6)):
                yield ask(body, "trust", faults, reading, rng.randrange(reading), ROOM)


def far_misreadings(rng):
    """Witnesses of up to 1915 messages: areas around their length and around the most that is lent, and wide ones."""
    for body in RINGS + [table(*rings(one, two)) for one in (2, 4, 6) for two in (2, 4, 10, 16)]:
        others = rng.randint(0, 15), 6, rng.randrange(6)
        for faults, reading, verdict in ((4, 3, 1), (4, 6, 0), (4, 3, 2), (4, 3, 0), (15, 3, 1), others):
            for near in trust_areas(body, faults, reading, verdict):
                for area in {0, near, near + 1, rng.choice([255, 256, 4162, 16513, 16514, 16515, 20000, *WIDE])}:
                    yield ask(body, "trust", faults, reading, verdict, area)


def some_settling(rng, count, states=8):
    """Random tables of which most states settle."""
    return [settling_table(rng, rng.randint(2, states), rng.randint(1, 4)) for _ in range(count)]


def settled_listings(rng):
    """Tables of which states settle, of many sizes."""
    sizes = [(n, rng.randint(1, 16)) for n in (*range(1, 67), *range(70, 127, 8), 127, 128)]
    bodies = SETTLING + some_settling(rng, 900) + [settling_table(rng, n, k) for n, k in sizes]
    yield from map(listing, packed(bodies))


def settled_answers(rng):
    """Every call on tables of which states settle, with fewer sets for large ones; traces up to one longer than n."""
    for body in SETTLING + some_settling(rng, 20) + some_settling(rng, 10, 128):
        n, k = body[:2]
        yield ask(body, "judge")
        yield ask(body, "classes", n)
        for reading in (3, 6):
            yield ask(body, "step", reading, rng.randrange(n), rng.randrange(k))
            for length in sorted({0, 1, n // 2, n - 1, n + 1}):
                yield ask(body, "trace", reading, *[rng.randrange(k) for _ in range(length)])
        asked = itertools.product((3, 6), (1, 2, 4, 8, 15)) if n < 9 else [rng.choice([(3, 15), (6, 3)])]
        for reading, faults in asked:
            yield ask(body, "fault", faults, reading, ROOM)
            yield ask(body, "trust", faults, reading, rng.randrange(reading), ROOM)


def settled_damage(rng):
    """A state marked true or false that steps to one that settles so: refused all the same, alone and behind others."""
    for n, k in ((2, 1), (3, 2), (7, 3), (64, 16), (65, 1), (128, 16)):
        for mark, rising in ((1, False), (1, True), (2, False), (2, True)):
            start, marks, rows = settling(n, k, mark, rising)
            rows[marks.index(mark)][rng.randrange(k)] = start
            for words in (["judge"], ["classes", n], ["fault", 16, 5, 0], ["trust", 15, 3, mark, ROOM]):
                yield ask(table(start, marks, rows), *words)
            yield listing(collection([(1, A), (2, table(start, marks, rows)), (3, E)]))


def classes_of_tables(rng):
    """All sizes of n; areas around n and very wide ones."""
    for n in list(range(1, 129)) * 3:
        body = random_table(rng, n, rng.randint(1, 16))
        for area in (n - 1, n, n + 1, rng.choice([0, 1, 255, 256] + WIDE)):
            yield ask(body, "classes", area)


def steps_and_traces(rng):
    """Every step of small tables, random steps of large ones; traces from the empty one to 70,000 messages."""
    for n, k in ((1, 1), (2, 2), (3, 4), (5, 3), (7, 2), (4, 16)):
        body = random_table(rng, n, k)
        for state in range(n + 1):
            for message in range(k + 1):
                yield from (ask(body, "step", reading, state, message) for reading in (3, 6))
    for _ in range(500):
        n, k = rng.randint(1, 128), rng.randint(1, 16)
        body = random_table(rng, n, k)
        yield ask(body, "step", rng.choice([3, 6]), rng.choice([0, n - 1, rng.randrange(n)]), rng.choice([0, k - 1]))
        length = rng.choice([0, 1, 2, 3, rng.randint(0, 20), rng.randint(0, 300)])
        messages = [rng.randrange(k) for _ in range(length)]
        yield ask(body, "trace", rng.choice([3, 6]), *messages)
        if messages:
            messages[rng.choice([0, -1, rng.randrange(length)])] = rng.choice([k, k + 1, 255] + WIDE)
            yield ask(body, "trace", rng.choice([3, 6, 3, 6, 5]), *messages)
    for length in (10000, 70000):
        yield ask(E, "trace", 3, *[0] * length, 1, 1)
        yield ask(E, "trace", 6, *[0] * length, 2, 1)


FILES = tempfile.TemporaryDirectory()   # for traces and bodies; kept until the tests end, since a case is run after it is made


def kept(name, data):
    """The name of a new file with these bytes."""
    with open(os.path.join(FILES.name, name), "wb") as file:
        file.write(bytes(data))
    return file.name


def stored(name, messages):
    """The word that names a new file with these messages."""
    return "@" + kept(name, messages)


def fallen_verdicts(rng):
    """Traces that end before the verdict falls, when it falls, later, and never; both readings."""
    kinds = set()
    for _ in range(250):
        n, k = rng.randint(1, 128), rng.randint(1, 16)
        body = rng.choice([random_table, vulnerable_table])(rng, n, k)
        messages = [rng.randrange(k) for _ in range(rng.randint(0, 60))]
        fell = reference.trace(body, 3, messages).count
        ends = {0, len(messages)} | ({max(fell - 1, 0), fell} if fell is not None else set())
        for end in sorted(ends):
            kinds.add("never" if fell is None or end < fell else "start" if fell == 0 else "last" if end == fell else "early")
            for reading in (3, 6):
                yield ask(body, "trace", reading, *messages[:end])
    assert kinds == {"never", "start", "last", "early"}, kinds


def traces_in_files(rng):
    """Messages from a file: none, one, as many as are taken and one more; wrong ones at the start, in the middle and at
    the end; a file that is not there, a folder, no name; and a file beside other messages, which is no form."""
    rules = collection([(7, A), (9, E)])
    most = [rng.randrange(2) for _ in range(262144)]
    quiet = [0] * 262144
    late = quiet[:-2] + [1, 1]
    for i, messages in enumerate(([], [1], [1, 1], [1, 0, 1], [0, 1, 1, 0], most, quiet, late, most[:262143], quiet + [1])):
        name = stored(f"sound {i}", messages)
        for reading in (3, 5, 6):
            yield ask(E, "trace", reading, name)
            yield ask(rules, "rule", rng.choice([7, 8, 9]), "trace", reading, name)
        yield ask(E[:-1], "trace", 3, name)
    for length in (1, 2, 3, 1000, 262144):
        for place in sorted({0, length // 2, length - 1}):
            for wrong in (2, 10, 48, 255):
                messages = quiet[:length]
                messages[place] = wrong
                yield ask(E, "trace", rng.choice([3, 6]), stored(f"wrong {length} {place} {wrong}", messages))
    sound = stored("sound", [1, 1])
    for word in ("@", "@" + FILES.name, sound + "x", "@@", sound + "/", "@" + "x" * 5000, "@tests/none"):
        yield ask(E, "trace", 3, word)
        yield ask(rules, "rule", 9, "trace", 3, word)
    for words in ([3, sound, 1], [3, 1, sound], [3, sound, sound], [sound], [sound, 3], ["x", sound]):
        yield ask(E, "trace", *words)
    yield ask(E, "step", 3, 0, sound)
    yield ask(E, "classes", sound)


# ---- proofs, and states that are never told apart --------------------------------------------------------

def proofs_of_small_tables(rng):
    """Proofs near the right one: some under each fault, under none and under all, the others under any set."""
    copies = [with_copies(rng, rng.choice(NAMED), rng.randint(4, 7), split)[0] for split in (False, True) * 3]
    for body in NAMED + [UNREACHED_DIFFER] + [body for body in SETTLING if 3 < body[0] < 7][-4:] + copies:
        for reading in (3, 6):
            for i, proof in enumerate(near_proofs(rng, reference.blocks(body, reading))):
                sets = (0, 1, 2, 4, 8, 15) if i < 6 else [rng.randint(0, 15)]
                yield from (ask(body, "proof", faults, reading, *proof) for faults in sets)


def large_alike(rng, n):
    """Tables of n states, with and without states that are never told apart."""
    yield named_anew(rng, *with_copies(rng, rng.choice([A, B, C, E]), n, True))[0]
    yield rng.choice([random_table, settling_table, far_table])(rng, n, rng.randint(3, 4))


def proofs_of_all_sizes(rng):
    """Some proofs of tables of many sizes, and how their states are told apart."""
    for n in (*range(4, 63, 9), 63, 64, 65, 96, 126, 127, 128):
        for body in large_alike(rng, n):
            for reading in (3, 6):
                proofs = list(near_proofs(rng, reference.blocks(body, reading)))
                for proof in proofs[:6] + rng.sample(proofs[6:], 10):
                    yield ask(body, "proof", rng.choice([4, 8, 12, 15, rng.randint(0, 15)]), reading, *proof)


def states_told_apart(rng):
    """`blocks` at every number of states, and of tables whose states settle or are told apart late."""
    bodies = NAMED + [UNREACHED_DIFFER, *SETTLING, *RINGS, table(*late_repeat(128, 16)), table(*in_a_row(128, 16))]
    bodies += [rng.choice([random_table, settling_table])(rng, n, rng.randint(1, 16)) for n in range(1, 129)]
    bodies += [body for n in range(4, 129, 10) for body in large_alike(rng, n)]
    for body in bodies:
        yield from (ask(body, "blocks", reading) for reading in (3, 6))


def wrong_blocks(rng):
    """Numbers of no state at each place, in bytes, in 64 bits and far beyond; too few and too many blocks; the order of
    9, 10, 14 and 15; and words that are no numbers."""
    rules = collection([(7, A), (9, E)])
    for body, right in ((A, [0, 1]), (E, [0, 1, 2]), (D, [0]), (A[:-1], [0, 1])):
        for place in range(len(right)):
            for wrong in (len(right) - 1, len(right), 128, 255, *WIDE, "00", "0" * 99 + "1", "9" * 9999):
                yield ask(body, "proof", 12, rng.choice([3, 6]), *right[:place], wrong, *right[place + 1:])
            for wrong in ("", "x", "-1", "+1", "1 ", "0x0", "@", "@@", "/", "1.0"):
                yield ask(body, "proof", 12, 3, *right[:place], wrong, *right[place + 1:])
                yield ask(rules, "rule", 9, "proof", 12, 3, *right[:place], wrong, *right[place + 1:])
        for length, wrong in itertools.product((0, 1, 2, 3, 4, 128, 255, 256, 257, 300, 10000), (0, 255, 2**64)):
            yield ask(body, "proof", rng.choice([12, 15]), rng.choice([3, 6]), *[wrong] * length)
        yield from (ask(body, "proof", 12, 3, *[0] * length) for length in (65536, 65537, 65538, 70000))
        for faults, reading in itertools.product((0, 15, 16, 255, 256, 2**64), (0, 3, 5, 6, 259, 2**64 + 3)):
            for proof in ([], right, [2**64] * len(right), [9, *right]):
                yield ask(body, "proof", faults, reading, *proof)
                yield ask(rules, "rule", rng.choice([7, 8, 9]), "proof", faults, reading, *proof)
        for reading in (*range(9), 255, 256 + 3, 256 + 6, *WIDE, "03", "0" * 99 + "6"):
            yield ask(body, "blocks", reading)
            yield ask(rules, "rule", rng.choice([7, 8, 9]), "blocks", reading)


def proofs_in_files(rng):
    """Blocks from a file: the right ones, others, none, one more, as many as are taken and one more; a file that is not
    there, a folder, no name; and a file beside other blocks, which is no form."""
    rules = collection([(7, A), (9, E), (11, E[:-1])])
    many = [0] * 262144
    short = [[0, 1, 2], [2, 0, 1], [0, 0, 1], [0, 0, 0], [0, 1], [], [0, 1, 2, 2], [3, 0, 1], [0, 1, 255], [255] * 3,
             [0, 1, 2, 10], b"012", b"0 1 2\n"]
    long = [many[:length] for length in (128, 255, 256, 257, 259, 65537, 262143, 262144)] + [many + [0], many * 2]
    for i, blocks in enumerate(short + long):
        name = stored(f"blocks {i}", blocks)
        for faults, reading in ((12, 3), (4, 6), (0, 3), (16, 3), (0, 5)):
            yield ask(E, "proof", faults, reading, name)
            yield ask(rules, "rule", rng.choice([7, 8, 9, 11]), "proof", faults, reading, name)
        yield ask(E[:-1], "proof", 12, 3, name)
        yield ask(bytes(65537), "proof", 12, 3, name)
    large = random_table(rng, 128, 16)
    for blocks in near_proofs(rng, reference.blocks(large, 3)):
        if rng.random() < 0.1:
            yield ask(large, "proof", rng.randint(0, 15), 3, stored(f"large {rng.random()}", blocks))
    right = stored("right", [0, 1, 2])
    for word in ("@", "@" + FILES.name, right + "x", "@@", right + "/", "@" + "x" * 5000, "@tests/none"):
        for data in (E, b"", bytes(65537)):
            yield ask(data, "proof", 12, 3, word)
        yield ask(rules, "rule", 9, "proof", 12, 3, word)
    for words in ([12, 3, right, 1], [12, 3, 0, right], [12, 3, right, right], [12, right], [right], [right, 12, 3],
                  [12, "x", right]):
        yield ask(E, "proof", *words)
        yield ask(rules, "rule", 9, "proof", *words)
        yield ask(rules, "collection", "proof", *words)
    yield from (ask(E, "blocks", *words) for words in ([right], [3, right], [right, 3]))


# ---- refused tables and numbers --------------------------------------------------------------------------

def damaged_bodies(rng, tables):
    """Each question 1 to 8 failing alone and with each later one, at the first, the last and any place."""
    for _ in range(tables):
        n, k = rng.choice([1, 2, 3, rng.randint(4, 128)]), rng.choice([1, 2, rng.randint(1, 16)])
        marks = [rng.choice([0, 1, 2]) for _ in range(n - 1)] + [rng.choice([1, 2])]
        body = random_table(rng, n, k, marks)
        for where in ("first", "last", "any"):
            for first in range(1, 9):
                yield damaged(rng, body, (n, k), first, where)
                for later in range(first + 1, 9):
                    yield damaged(rng, damaged(rng, body, (n, k), later, where), (n, k), first, where)


def damaged_in_listings(rng):
    """The refusal of each damaged body, as the listing shows it."""
    yield from map(listing, packed(damaged_bodies(rng, 60)))


def damaged_in_calls(rng):
    """A damaged table is refused first, whatever the numbers of the call are."""
    calls = [["judge"], ["classes", 0], ["classes", 128], ["step", 5, 199, 99], ["step", 3, 0, 0], ["trace", 5, 99],
             ["trace", 3], ["fault", 16, 5, 0], ["fault", 15, 3, 0], ["fault", 15, 6, ROOM], ["trust", 16, 5, 99, 0],
             ["trust", 15, 3, 0, 0], ["trust", 15, 6, 6, ROOM], ["proof", 16, 5], ["proof", 15, 3, 0],
             ["proof", 15, 6, 999], ["blocks", 3], ["blocks", 5]]
    for body in damaged_bodies(rng, 10):
        yield ask(body, "judge")
        yield ask(body, *rng.choice(calls))


def lengths_and_counts(rng):
    """Bodies of each length around the right one, with n and k around their limits."""
    for n in (0, 1, 2, 63, 64, 65, 66, 127, 128, 129, 130, 192, 255):
        for k in (0, 1, 2, 15, 16, 17, 18, 128, 255):
            right = 3 + n + n * k
            lengths = {0, 1, 2, 3, 4, right - 1, right, right + 1, right + 256}
            yield from (ask(bytes([n, k] + [0] * length)[:length], "judge") for length in sorted(lengths))
    full = table(0, [0] * 128, [[127] * 16] * 128)
    for length in (1091, 2178, 2179, 2180, 4096, 65535, 65536, 65537, 70000, 200000):
        yield ask(full[:length] + bytes(max(0, length - 2179)), "judge")
        yield ask(full[:length] + bytes(max(0, length - 2179)), "fault", 16, 5, 0)
        yield ask(full[:length] + bytes(max(0, length - 2179)), "trust", 15, 3, 3, 0)
        yield ask(full[:length] + bytes(max(0, length - 2179)), "proof", 15, 6, *[127] * 128)
        yield ask(full[:length] + bytes(max(0, length - 2179)), "blocks", 6)


def random_bytes(rng):
    """Bytes without any sense, and bytes that are small enough to pass some questions."""
    def body():
        top = rng.choice([255, 255, 128, 16, 4, 2, 1])
        return bytes(rng.randint(0, top) for _ in range(rng.choice([rng.randint(0, 6), rng.randint(0, 60)])))

    yield from map(listing, packed(body() for _ in range(4000)))
    for _ in range(400):
        yield ask(body(), "judge")
        yield ask(body(), "fault", rng.randint(0, 20), rng.randint(2, 7), rng.randint(0, 5))
        yield ask(body(), "trust", rng.randint(0, 20), rng.randint(2, 7), rng.randint(0, 7), rng.randint(0, 5))
        yield ask(body(), "proof", rng.randint(0, 20), rng.randint(2, 7), *[rng.randrange(3)] * rng.randint(0, 3))
        yield ask(body(), "blocks", rng.randint(2, 7))
        yield ask(body(), "collection")
        yield listing(body())


def numbers_around_limits(rng):
    """Sets, readings, verdicts, states, messages and areas around their limits, in bytes, in 64 bits and far beyond."""
    for n, k in ((1, 1), (2, 2), (5, 3), (64, 2), (65, 2), (128, 16), (13, 7)):
        body = vulnerable_table(rng, n, k)
        sets = list(range(18)) + [255] + WIDE
        readings = list(range(9)) + [255, 256 + 3, 256 + 6] + WIDE
        states = sorted({0, n - 1, n, n + 1, 63, 64, 127, 128, 255, 256 + n - 1, *WIDE})
        messages = sorted({0, k - 1, k, k + 1, 15, 16, 255, 256 + k - 1, *WIDE})
        for faults in sets:
            for reading in (3, 5, 6):
                yield ask(body, "fault", faults, reading, rng.choice([0, ROOM]))
                yield ask(body, "trust", faults, reading, rng.choice([0, 1, reading]), rng.choice([0, ROOM]))
                yield ask(body, "proof", faults, reading, *range(n))
        for reading in readings:
            yield ask(body, "fault", rng.choice([15, 16]), reading, ROOM)
            yield ask(body, "trust", rng.choice([15, 16]), reading, rng.choice([0, reading]), ROOM)
            yield ask(body, "proof", rng.choice([15, 16]), reading, *range(n))
            yield ask(body, "blocks", reading)
            yield ask(body, "step", reading, rng.choice([0, n]), rng.choice([0, k]))
            yield ask(body, "trace", reading, *rng.choice([[], [0], [0, k]]))
        for verdict in list(range(9)) + [255] + WIDE:
            yield from (ask(body, "trust", rng.choice([1, 15]), reading, verdict, 0) for reading in (3, 6))
            yield ask(body, "trust", *rng.choice([(16, 3), (15, 5), (16, 6), (16, 5)]), verdict, 0)
        for state in states:
            yield from (ask(body, "step", reading, state, m) for reading in (3, 5, 6) for m in (0, k - 1, k))
        for message in messages:
            yield from (ask(body, "step", reading, s, message) for reading in (3, 6) for s in (0, n - 1, n))
            yield ask(body, "trace", 3, message)
            yield ask(body, "trace", 6, 0, 0, message, k)
        for area in [0, 1, 2, n - 1, n, n + 1, 255, 256] + WIDE:
            yield ask(body, "classes", area)
            yield ask(body, "fault", 15, 3, area)
            yield ask(body, "trust", 15, 3, 0, area)


def leading_zeros(rng):
    """Numbers with many digits: zeros in front change nothing, a long number is too large."""
    body = E
    for zeros in ("0", "000", "0" * 30, "0" * 300, "0" * 100000):
        for area in ("2", "3", "18446744073709551619"):
            yield ask(body, "fault", zeros + "8", zeros + "3", zeros + area)
            yield ask(body, "trust", zeros + "1", zeros + "3", zeros + "1", zeros + area)
            yield ask(body, "classes", zeros + area)
        yield ask(body, "step", zeros + "6", zeros + "1", zeros + "1")
        yield ask(body, "trace", zeros + "3", zeros + "1", zeros + "1", zeros)
        yield ask(body, "trace", zeros + "3", zeros + "1", zeros + "2")
        yield from (ask(body, "proof", zeros + "4", zeros + "3", zeros, zeros + "1", zeros + x) for x in ("2", "3"))
        yield ask(body, "proof", zeros, zeros + "3", zeros, zeros + "1", zeros + "2")
        yield from (ask(body, "blocks", zeros + x) for x in ("3", "4", "6"))
    for long in ("9" * 30, "1" + "0" * 5000, "3" * 100000):
        yield ask(body, "classes", long)
        yield ask(body, "fault", long, 5, 0)
        yield ask(body, "fault", 8, long, 0)
        yield ask(body, "fault", 8, 3, long)
        yield ask(body, "trust", 1, long, long, 0)
        yield ask(body, "trust", 1, 3, long, 0)
        yield ask(body, "trust", 1, 3, 1, long)
        yield ask(body, "step", 3, long, 0)
        yield ask(body, "step", 3, 0, long)
        yield ask(body, "trace", 3, 0, long)
        yield from (ask(body, "proof", *words) for words in ([long, 3], [8, long], [8, 3, long], [0, 3, 0, 1, long]))
        yield ask(body, "blocks", long)


def wrong_arguments(rng):
    """Unknown questions, too few and too many arguments, and words that are no numbers: the usage line."""
    lines = ["", "3", "judg", "JUDGE", "judge 1", "judge judge", "help", "listing", "classes", "classes 1 2",
             "step", "step 3", "step 3 0", "step 3 0 0 0", "trace", "fault", "fault 1", "fault 1 3", "fault 1 3 9 9",
             "collection 0", "rule", "rule 1", "rule judge", "rule 1 1", "rule x judge", "rule -1 judge", "rule 1 judge 0",
             "rule 1 collection", "rule 1 rule 1 judge", "rule 1 why 1", "rule 1 --help", "rule 1 classes", "rule 1 step 3 0",
             "rule 1 trace", "rule 1 fault 1 3", "rule 1 trace 3 x", "why", "why x", "why 1 2", "trust", "trust 1",
             "trust 1 3", "trust 1 3 0", "trust 1 3 0 9 9", "trust fault 1 3 9", "TRUST 1 3 0 9", "rule 1 trust 1 3 0",
             "rule 1 trust 1 3 0 9 9", "rule 1 trust 1 3 x 9", "rule trust 1 3 0 9", "proof", "proof 1",
             "PROOF 1 3 0 1", "proof proof 1 3", "proofs 1 3 0 1", "proo 1 3 0 1", "rule 1 proof", "rule 1 proof 1",
             "rule proof 1 3 0 1", "rule 1 rule 1 proof 1 3 0 1", "rule x proof 1 3 0 1", "collection proof 1 3 0 1",
             "collection proof", "proof 1 3 collection", "blocks", "blocks 3 3", "BLOCKS 3", "block 3",
             "blocks blocks 3", "blocks 3 0 1", "rule 1 blocks", "rule 1 blocks 3 3", "rule blocks 3",
             "rule x blocks 3", "collection blocks 3", "collection blocks", "body proof 1 3 0 1", "body blocks 3", "write proof 1 3",
             "why proof"]
    calls = [line.split() for line in lines]
    # The last two: a digit of another script, and a byte that is no text.
    for bad in ("", " ", "-1", "+1", "1 ", " 1", "0x10", "1e3", "1.0", "1,000", "a", "3a", "9" * 30 + "x", "/", ":",
                "\u0663", "\udcff"):
        calls += [[bad], ["classes", bad], ["step", bad, "0", "0"], ["step", "3", "0", bad], ["trace", bad],
                  ["trace", "3", "0", bad], ["fault", bad, "3", "9"], ["fault", "1", "3", bad],
                  ["trust", bad, "3", "0", "9"], ["trust", "1", bad, "0", "9"], ["trust", "1", "3", bad, "9"],
                  ["trust", "1", "3", "0", bad], ["proof", bad, "3", "0", "1"], ["proof", "1", bad, "0", "1"],
                  ["proof", "1", "3", bad, "1"], ["proof", "1", "3", "0", bad], ["blocks", bad],
                  ["rule", "1", "blocks", bad], ["rule", bad, "proof", "1", "3", "0", "1"]]
    for words in calls:
        for data in (A, b"", b"\0\0"):
            yield ask(data, *words)


# ---- collections -----------------------------------------------------------------------------------------

def both(data):
    """The same collection asked about and listed."""
    yield ask(data, "collection")
    yield listing(data)


def cut_collections(rng):
    """Cut at every position, and with bytes added."""
    for data in (collection([(1, A), (2, B), (3, D), (4, E)]), collection([(0, b""), (7, b""), (65535, A)]), b"\0\0"):
        for length in range(len(data) + 1):
            yield from both(data[:length])
        for more in (1, 2, 8, 9, 256, 65536 - len(data)):
            yield from both(data + bytes(more))


def altered_collections(rng):
    """Each byte of the contents, and each byte of the bodies, changed in several ways."""
    data = collection([(5, A), (6, b""), (0x0102, E), (0xFFFF, B)])
    contents = 2 + 8 * 4
    for place in range(len(data)):
        old = data[place]
        ways = {old ^ 1, old ^ 0x80, (old + 1) % 256, (old - 1) % 256, 0, 255} if place < contents else {old ^ 1, 255}
        for new in sorted(ways - {old}):
            changed = data[:place] + bytes([new]) + data[place + 1:]
            yield from both(changed)
            if place < contents:
                other = rng.randrange(contents)
                yield ask(changed[:other] + bytes([rng.randrange(256)]) + changed[other + 1:], "collection")


def counts_and_numbers(rng):
    """Counts around the limit, and rule numbers that are equal or fall at the first, the last or any entry."""
    for count in (0, 1, 2, 255, 256, 257, 511, 512, 513, 514, 768, 1024):
        data = collection([(i, NAMED[i % len(NAMED)]) for i in range(count)])
        yield from both(data)
        yield from both(data[:2 + 8 * count])
        yield from both(data[:max(0, 2 + 8 * count - 1)])
    for count in (0x0200, 0x0201, 0x02FF, 0x0300, 0x8000, 0xFF00, 0xFFFF):
        yield from both(count.to_bytes(2, "little") + bytes(8 * 512))
    for count in (2, 3, 10, 512):
        for place in {1, count - 1, rng.randrange(1, count)}:
            for change in (0, -1, -256, 255, 256):
                numbers = [300 + 2 * i for i in range(count)]
                numbers[place] = numbers[place - 1] + change
                yield from both(collection([(rule, D) for rule in numbers]))
    for numbers in ([0], [65535], [0, 65535], [65535, 0], [65535, 65535], [0, 0], [0, 1, 256], [255, 256], [256, 255]):
        yield from both(collection([(rule, A) for rule in numbers]))


def gaps_and_overlaps(rng):
    """Offsets and lengths that do not meet, alone and together with other faults."""
    for count in (1, 2, 3, 9):
        bodies = [rng.choice(NAMED) for _ in range(count)]
        sound = collection(list(enumerate(bodies)))
        for entry in range(count):
            head = 2 + 8 * entry
            offset = int.from_bytes(sound[head:head + 4], "little")
            length = len(bodies[entry])
            for wrong in (offset + 1, offset - 1, 0, offset + 2**8, offset + 2**16, offset + 2**24, 2**32 - 1):
                changed = sound[:head] + wrong.to_bytes(4, "little") + sound[head + 4:]
                yield from both(changed)
                yield from both(changed + b"\0")
                yield from both(changed[:2 + 6] + b"\xff\xff" + changed[2 + 8:])    # rule numbers that fall as well
            for wrong in (length + 1, length - 1, 0, length + 256, 65535):
                yield from both(sound[:head + 4] + wrong.to_bytes(2, "little") + sound[head + 6:])
    # Contents that fit each other, with bodies far beyond the file's end, also by exactly 65,536 bytes.
    for lengths in ([65535], [65535, 1], [65535] * 16, [65535] * 512, [32768, 32768], [9, 65535, 1]):
        claimed = collection([(i, bytes(length)) for i, length in enumerate(lengths)])
        yield from both(claimed[:2 + 8 * len(lengths)])
        yield from both(claimed[:2 + 8 * len(lengths) + 9])


def random_collections(rng):
    """Sound collections of mixed bodies, and the same with a few bytes changed, cut or added."""
    for _ in range(350):
        rules = sorted(rng.sample(range(65536), rng.randint(0, 12)))
        entries = []
        for rule in rules:
            noise = bytes(rng.randrange(8) for _ in range(rng.randint(0, 20)))
            entries.append((rule, rng.choice([rng.choice(NAMED), b"", noise])))
        data = collection(entries)
        yield from both(data)
        for _ in range(rng.choice([1, 1, 2, 3])):
            place = rng.randrange(min(len(data), 2 + 8 * len(rules)))
            data = data[:place] + bytes([rng.choice([rng.randrange(256), data[place] ^ 1])]) + data[place + 1:]
        yield from both(rng.choice([data, data, data[:rng.randint(0, len(data))], data + bytes(rng.randint(1, 3))]))


def forms_for(rng, body):
    """Every form, with numbers that fit the body where it has any, and now and then one that does not."""
    n, k = (body + b"\1\1")[:2]
    state, message = rng.randrange(max(1, n) + 1), rng.randrange(max(1, k) + 1)
    yield ["judge"]
    yield ["classes", rng.choice([0, n, 128])]
    yield ["step", rng.choice([3, 6, 5]), state, message]
    yield ["trace", rng.choice([3, 6]), *[rng.randrange(max(1, k)) for _ in range(rng.randint(0, 9))], message]
    yield ["fault", rng.choice([1, 2, 4, 8, 15, 16]), rng.choice([3, 6]), rng.choice([0, 2, ROOM])]
    yield ["trust", rng.choice([1, 2, 4, 8, 15, 16]), rng.choice([3, 6]), rng.randrange(4), rng.choice([0, 2, ROOM])]
    proof = [0] * n if rng.random() < 0.3 else range(n + rng.choice([0, 0, 0, 1]))
    yield ["proof", rng.choice([0, 4, 12, 15, 16]), rng.choice([3, 6, 3, 6, 5]), *proof]
    yield ["blocks", rng.choice([3, 6, 5])]


def rules_of_collections(rng):
    """Every form asked of a rule: of one that is there, of one that is not, and in collections that are refused."""
    for _ in range(120):
        bodies = [rng.choice([rng.choice(NAMED), random_table(rng, rng.randint(1, 9), rng.randint(1, 4)), b"", b"\2\2",
                              NAMED[0][:-1]]) for _ in range(rng.randint(0, 8))]
        rules = sorted(rng.sample(range(300), len(bodies)))
        data = collection(list(zip(rules, bodies)))
        for rule, body in zip(rules, bodies):
            yield from (ask(data, "rule", rule, *form) for form in forms_for(rng, body))
        beside = [rule + by for rule in rules for by in (-1, 1, 256, 65536, 2**64)]
        for rule in {abs(rule) for rule in beside} | {0, 65535, rng.choice(WIDE)}:
            yield ask(data, "rule", rule, *rng.choice(list(forms_for(rng, A))))
        for damaged_file in (data[:-1], data + b"\0", data[:rng.randrange(len(data))], bytes([1]) + data[1:]):
            rule = rng.choice(rules + [7])
            yield ask(damaged_file, "rule", rule, *rng.choice(list(forms_for(rng, A))))
    for words in (["judge"], ["fault", 15, 3, ROOM], ["trust", 15, 3, 0, ROOM]):
        most = collection([(2 * i, NAMED[i % len(NAMED)]) for i in range(512)])
        yield from (ask(most, "rule", rule, *words) for rule in (0, 1, 2, 510, 511, 1021, 1022, 1023, 65535))
        yield ask(bytes(65537), "rule", 0, *words)


def bodies_of_rules(rng):
    """The body of each rule, and of rules that are not there; collections that are refused; wrong arguments."""
    for _ in range(40):
        bodies = [rng.choice([rng.choice(NAMED), random_table(rng, rng.randint(1, 128), rng.randint(1, 16)), b"",
                              b"\xff" * 300]) for _ in range(rng.randint(0, 8))]
        rules = sorted(rng.sample(range(300), len(bodies)))
        data = collection(list(zip(rules, bodies)))
        for rule in {*rules, *[rule + 1 for rule in rules], 0, 65535, 65536 + rng.choice(rules + [0]), rng.choice(WIDE)}:
            yield ask(data, "body", rule)
        for refused in (data[:-1], data + b"\0", bytes([1]) + data[1:]):
            yield ask(refused, "body", rng.choice(rules + [7]))
    for words in ([], [1, 2], ["x"], [""], ["-1"], ["judge"], [1, "judge"]):
        yield ask(collection([(1, A)]), "body", *words)
    yield ask(collection([(1, A)]), "rule", 1, "body")
    yield ask(bytes(65537), "body", 0)


# ---- collections to be written ---------------------------------------------------------------------------

def write(rules, lengths, bodies, area):
    return ask(bodies, "write", area, *rules, "/", *lengths)


def size_of(rules, bodies):
    return 2 + 8 * len(rules) + sum(map(len, bodies))


def areas_around(rng, size):
    """None, one short, exact, one more, and more than there is memory."""
    return sorted({0, size - 1, size, size + 1, rng.choice(WIDE)})


def some_rules(rng, count, top=65536):
    return sorted(rng.sample(range(top), count))


def written_lists(rng):
    """What is written is the file; every area around its length."""
    yield from (write([], [], b"", area) for area in (0, 1, 2, 3))
    for _ in range(300):
        bodies = [rng.choice(NAMED) if rng.random() < 0.5 else random_table(rng, rng.randint(1, 9), rng.randint(1, 4))
                  for _ in range(rng.randint(0, 9))]
        rules = some_rules(rng, len(bodies), rng.choice([10, 256, 257, 65536]))
        for area in areas_around(rng, size_of(rules, bodies)):
            yield write(rules, map(len, bodies), b"".join(bodies), area)


def unequal_lists(rng):
    """27 before all others; sums that are one off either way, after 23; rule numbers equal and falling at each place."""
    for _ in range(60):
        bodies = [rng.choice(NAMED + [b"", A[:-1]]) for _ in range(rng.randint(1, 7))]
        rules, lengths, joined = some_rules(rng, len(bodies), 100), [len(body) for body in bodies], b"".join(bodies)
        for area in (0, 1000):
            yield write(rules[1:], lengths, joined, area)
            yield write(rules, lengths[:-1], joined, area)
            yield write(rules[::-1] + rules, lengths, joined, area)
            for sum_off in (joined[:-1], joined + b"\0", b"", joined + joined):
                yield write(rules, lengths, sum_off, area)
                yield write(rules[::-1], lengths, sum_off, area)
            for place in range(1, len(rules)):
                for wrong in (rules[place - 1], rules[place - 1] - 1):
                    yield write([*rules[:place], max(wrong, 0), *rules[place + 1:]], lengths, joined, area)
                    yield write([*rules[:place], max(wrong, 0), *rules[place + 1:]], lengths, joined[1:], area)
            place = rng.randrange(len(lengths))
            longer = [length + (i == place) for i, length in enumerate(lengths)]
            yield write(rules, longer, joined, area)
            yield write(rules, longer, joined + b"\7", area)


def wrong_bodies(rng):
    """A wrong body at every entry with each of questions 1 to 8, alone, before another wrong one, and with a short area."""
    for count in (1, 2, 3, 6):
        for question in range(1, 9):
            for entry in range(count):
                n, k = rng.choice([2, 3, rng.randint(4, 128)]), rng.choice([1, 2, rng.randint(1, 16)])
                sound = [random_table(rng, n, k, [0] * (n - 1) + [rng.choice([1, 2])]) for _ in range(count)]
                bodies = list(sound)
                bodies[entry] = damaged(rng, sound[entry], (n, k), question, rng.choice(["first", "last", "any"]))
                rules = some_rules(rng, count)
                yield write(rules, map(len, bodies), b"".join(bodies), rng.choice([0, 100000]))
                other = rng.randrange(count)
                bodies[other] = damaged(rng, bodies[other], (n, k), rng.randint(1, 8), "any") if other != entry else b""
                yield write(rules, map(len, bodies), b"".join(bodies), rng.choice([0, 100000]))


def longest_bodies(rng):
    """As many bodies as a collection can have, of 65,536 bytes together."""
    bodies = [random_table(rng, 128, 16) for _ in range(28)] + [A] * 8 + [D] * 475 + [random_table(rng, 123, 12)]
    assert len(bodies) == 512 and sum(map(len, bodies)) == INPUT_LIMIT
    return bodies


def many_rules(rng):
    """512 and 513 rules; lists as long as `ask` takes and longer; the longest file; lengths of up to 65,535 bytes."""
    for count in (511, 512, 513, 1024, 1025):
        rules, lengths = list(range(count)), [len(D)] * count
        yield write(rules, lengths, D * count, 100000)
        yield write(rules[1:], lengths, D * count, 100000)
        yield write(rules, lengths[1:], D * count, 100000)
        yield write([*rules[:-1], 0], lengths, D * count, 100000)
    bodies = longest_bodies(rng)
    rules = some_rules(rng, len(bodies))
    for area in areas_around(rng, size_of(rules, bodies)):
        yield write(rules, map(len, bodies), b"".join(bodies), area)
    yield write([9], [65535], bytes(65535), 100000)
    yield write([9], [65535], bytes(65536), 100000)
    yield write([9, 10], [65535, 1], bytes(65536), 100000)
    yield write([9, 10], [65535, 65535], bytes(65536), 100000)
    yield write([9], [9], bytes(65537), 100000)
    yield write([0, 65535], [9, 9], A + A, 36)


def wrong_lists(rng):
    """Words that are no lists of two-byte numbers."""
    for word in ("", "x", "-1", "65536", "65537", "131072", str(2**64), "9" * 40, "1/", "//", "@"):
        yield ask(A, "write", 100, word, "/", 9)
        yield ask(A, "write", 100, 1, "/", word)
        yield ask(A, "write", 100, 1, word, 2, "/", 9, 9, 9)
    yield ask(A + A, "write", 100, "00001", "65535", "/", "9", "0000000000009")
    for words in ([], ["/"], [9], [100, 1, 9], [100, "/", 9, "/"], [100, "/", "/"], ["x", "/"], ["/", 100], [100, "/"], [100, 1, "/"]):
        yield ask(A, "write", *words)
        yield ask(b"", "write", *words)


def packed_files(rng):
    """`pack`: what is written, each refusal with its file, files that are missing or too long, and wrong arguments."""
    names = {body: kept(f"body {i}", body) for i, body in enumerate(NAMED + [b"", A[:-1], bytes(65535), bytes(65536), bytes(70000)])}
    sound = [names[body] for body in NAMED]

    def pairs(rules, files):
        return pack(*[word for pair in zip(rules, files) for word in pair])

    for count in range(1, len(sound) + 1):
        files = rng.sample(sound, count)
        yield pairs(some_rules(rng, count), files)
        yield pairs(some_rules(rng, count)[::-1], files)
        for question in range(1, 9):
            entry = rng.randrange(count)
            wrong = kept(f"wrong {count} {question}", damaged(rng, C, (3, 4), question, "any"))
            yield pairs(some_rules(rng, count), files[:entry] + [wrong] + files[entry + 1:])
        for missing in (FILES.name, names[A] + "x", "", "tests/none", "x" * 5000):
            entry = rng.randrange(count)
            yield pairs(some_rules(rng, count), files[:entry] + [missing] + files[entry + 1:])
    for first in (bytes(65535), bytes(65536), bytes(70000), A):
        for second in (b"", A, bytes(65535), bytes(65536)):
            yield pairs([1, 2], [names[first], names[second]])
    for count in (511, 512, 513, 514, 600):
        yield pairs(range(count), [names[A]] * count)
    large = [kept(f"large {i}", random_table(rng, 128, 16)) for i in range(30)]
    half, *last = [random_table(rng, n, k) for n, k in ((64, 16), (77, 12), (59, 16))]
    assert size_of(range(31), [bytes(29 * 2179), half, last[0]]) == INPUT_LIMIT
    half, fits, exceeds = kept("half", half), kept("fits", last[0]), kept("exceeds", last[1])
    yield pairs(range(29), large)
    yield pairs(range(30), large)
    yield pairs(range(31), large[:29] + [half, fits])
    yield pairs(range(31), large[:29] + [half, exceeds])
    yield pairs(range(31), large[:29] + [names[A], names[E]])
    for words in ([], [1], [names[A]], [names[A], 1], [1, names[A], 2], [65536, names[A]], ["x", names[A]], ["", ""],
                  [2**64, names[A]], [1, names[A], names[A], 2], ["01", names[A]]):
        yield pack(*words)


def input_sizes(rng):
    """Inputs around 65,536 bytes; accepted collections of exactly that size."""
    wide = [table(*late_repeat(128, 16))] + [random_table(rng, 128, 16, [0] * 126 + [1, 2]) for _ in range(28)]
    filled = wide + [bytes(65536 - 2 - 8 * 30 - 2179 * 29)]
    exact = [collection(list(enumerate(filled))), collection([(9, bytes(65526))]),
             collection([(i, A) for i in range(511)] + [(65535, bytes(65536 - 2 - 8 * 512 - 9 * 511))])]
    for data in exact:
        assert len(data) == INPUT_LIMIT and reference.judge_collection(data) > 0
        for sized in (data, data[:-1], data + b"\0", data + data):
            yield from both(sized)
    for length in (65535, 65536, 65537, 65538, 100000, 131072, 1000000):
        for first in (b"\0\0", b"\1\0", b"\xff\xff", A):
            data = first + bytes(length - len(first))
            yield from both(data)
            yield ask(data, "judge")
            yield ask(data, "trace", 3, 0)
            forms = (["classes", 128], ["step", 3, 0, 0], ["fault", 16, 5, 0], ["trust", 16, 5, 9, 0],
                     ["proof", 16, 5, 9], ["blocks", 5])
            yield ask(data, *rng.choice(forms))


def believed_marks(rng):
    """Cards: the specification's tables, rings, random small tables, some that settle, and a body that is refused."""
    bodies = NAMED + RINGS + [vulnerable_table(rng, rng.randint(2, 12), rng.randint(1, 4)) for _ in range(100)]
    bodies += [body for body in SETTLING if body[0] < 9] + some_settling(rng, 30)
    yield "card", [], collection(list(enumerate(bodies + [A[:-1]])))


GROUPS = [named_tables, small_listings, listings_of_all_sizes, far_listings, witnesses_of_small_tables,
          witnesses_of_all_sizes, areas_for_witnesses, trusted_verdicts, trust_questions, trust_of_all_sizes,
          far_misreadings, believed_marks, settled_listings, settled_answers, settled_damage, classes_of_tables,
          steps_and_traces, fallen_verdicts, traces_in_files, proofs_of_small_tables, proofs_of_all_sizes,
          states_told_apart, wrong_blocks, proofs_in_files, damaged_in_listings, damaged_in_calls, lengths_and_counts,
          random_bytes, numbers_around_limits, leading_zeros, wrong_arguments, cut_collections, altered_collections,
          counts_and_numbers, gaps_and_overlaps, random_collections, rules_of_collections, bodies_of_rules,
          written_lists, unequal_lists, wrong_bodies, many_rules, wrong_lists, packed_files, input_sizes]
