"""Checks reference.py against the specification's own facts, a plain enumeration of traces, and the other searches."""

import itertools
import random

import brute
import model
import reference
from reference import (CORRUPTION, LOSS, REPEAT, SWAP, Refused, blocks, classes, fault, judge, listing, proof, step,
                       trace, trust, write_collection)
from rings import rings
from tables import (A, B, C, D, E, G, H, HARMED_EARLIER, LOWER_TRACE_HARMED, LOWER_TRACE_SWAPPED, NAMED, SETTLING,
                    THREE_IN_A_ROW, UGLY_FURTHER_ON, UGLY_UNREACHABLE, UNREACHABLE_HARM, UNREACHED_DIFFER,
                    UNREACHED_SETTLES, collection, far_table, named_anew, near_proofs, random_table, settling_table,
                    table, with_copies)


def answer(call, *arguments):
    """The call's answer, or the refusal as (number, place)."""
    try:
        return call(*arguments)
    except Refused as no:
        return no.number, no.place


ROOM = 2000         # an area that holds every answer here
checks = 0


def check(got, wanted, about):
    global checks
    checks += 1
    if got != wanted:
        raise SystemExit(f"check_reference: {about}: wanted {wanted}, got {got}")


def figures(w):
    """Distance, sent trace, messages before the fault, kind and replacement of a witness; None if there is none."""
    return w and (w.distance, w.sent, w.before, w.kind, w.replacement)


def short(body, faults, reading=3):
    return figures(fault(body, faults, reading, ROOM))


def misread(body, faults, reading, verdict):
    return figures(trust(body, faults, reading, verdict, ROOM))


def starred_facts():
    for name, body, word in (("A", A, "pos"), ("B", B, "neg"), ("C", C, "both"), ("D", D, "none")):
        check(reference.MONITORABILITY[classes(body, 128).monitorability], word, name)
    for reading in (3, 6):
        check(short(D, 15, reading), None, "D, all faults")
        for faults in (REPEAT, SWAP, REPEAT | SWAP):
            check(short(A, faults, reading), None, "A, repeat and swap")
        check(short(A, CORRUPTION, reading), (1, [0], 0, CORRUPTION, 1), "A, corruption")
        check(short(C, SWAP, reading)[:2], (2, [0, 2]), "C, swap")
        check(short(E, REPEAT, reading)[:2], (1, [1]), "E, repeat")
        check(short(E, SWAP, reading), (3, [0, 1, 1], 0, SWAP, 0), "E, swap")
        for faults in range(16):
            check(short(H, faults, reading), None, "H, every set")
    check((short(G, CORRUPTION, 3)[0], short(G, CORRUPTION, 6)[0]), (2, 1), "G, corruption")
    check(classes(H, 2).classes[0], reference.GOOD, "H, state 0")


def edges():
    check(answer(judge, b"\2\2"), (1, 2), "2 bytes")
    sizes = [(n, 1, None) for n in (1, 63, 64, 65, 127, 128)] + [(n, 1, (2, 0)) for n in (129, 130, 255)]
    sizes += [(128, 16, None), (1, 16, None), (1, 17, (3, 1)), (1, 0, (3, 1)), (0, 0, (2, 0)), (129, 0, (2, 0))]
    for n, k, wanted in sizes:
        check(answer(judge, bytes([n, k, 0] + [0] * (n + n * k))), wanted, f"n = {n}, k = {k}")
    check(fault(E, SWAP, 3, 3).distance, 3, "E, swap, area 3")
    check(answer(fault, E, SWAP, 3, 2), (13, 0), "E, swap, area 2")
    check([fault(body, 0, r, 0) for body in (A, B, C, D, E, G, H) for r in (3, 6)], [None] * 14, "the empty set")
    traces = [trace(E, reading, messages).reading for messages in ([], [1, 1]) for reading in (3, 6)]
    check(traces, [0, 2, 1, 0], "traces of E")
    check(answer(reference.judge_collection, b"\0\0"), 0, "0 0")
    # Orders of questions, areas, full-width numbers.
    check(fault(D, 15, 3, 0), None, "immune needs no room")
    check(answer(classes, A, 1), (13, 0), "classes of A, area 1")
    check(classes(A, 2).classes, [2, 0], "classes of A")
    for (reading, state, message), number in (((5, 9, 9), 10), ((3, 9, 9), 11), ((3, 0, 9), 12)):
        check(answer(step, A, reading, state, message), (number, 0), "order in a step")
    check(answer(step, A, 3, 256, 0), (11, 0), "state 256")
    check(answer(fault, A, 257, 3, 9), (9, 0), "set 257")
    check(answer(fault, A, 99, 5, 9), (9, 0), "9 before 10")
    check(answer(trace, A, 5, [9]), (10, 0), "10 before 12")
    check(answer(trace, A, 3, [0, 1, 2, 3]), (12, 2), "place of 12")


def writer():
    """The contents that the specification writes out, and the order of the writer's questions."""
    contents = bytes.fromhex("03 00 1A 00 00 00 09 00 01 00 23 00 00 00 0C 00 02 00 2F 00 00 00 09 00 03 00")
    three, lengths = A + E + A, [9, 12, 9]
    check(write_collection([1, 2, 3], lengths, three, 56), contents + three, "the three tables written")
    check(answer(write_collection, [1, 2, 3], lengths, three, 55), (13, 0), "an area one byte short")
    check(write_collection([], [], b"", 2), b"\0\0", "empty lists")
    marked = bytearray(three)
    marked[21 + 4] = 3
    check(answer(write_collection, [1, 2, 3], lengths, bytes(marked), 0), (6, 2), "A with second mark 3 as entry 2")
    for rules, sizes, bodies, wanted in (
            (range(513), [0] * 512, b"", (27, 0)), (range(513), [0] * 513, b"", (21, 0)), ([5, 5], [9, 9], A, (23, 1)),
            ([5, 6], [9, 9], A, (28, 0)), ([5, 6], [0, 3], bytes(3), (1, 0)), ([5, 6], [9, 3], A[:-1] + b"\0" + bytes(3), (8, 0)),
            ([5, 6], [9, 3], A + bytes(3), (2, 1))):
        check(answer(write_collection, list(rules), sizes, bodies, 0), wanted, f"written: {wanted}")
    for file in (write_collection([1, 2, 3], lengths, three, 56), write_collection([], [], b"", 2)):
        read = reference.read_collection(file)
        check(collection(read), file, "written, read and written again")


def examples():
    """The wrong turns, the order of series, and refusals of bodies."""
    check(short(A, LOSS | CORRUPTION), (1, [1], 0, LOSS, 0), "A, set 3")
    check(short(LOWER_TRACE_HARMED, CORRUPTION), (2, [0, 1], 0, CORRUPTION, 1), "series before traces, corruption")
    check(short(LOWER_TRACE_SWAPPED, SWAP), (3, [0, 1, 0], 0, SWAP, 0), "series, swap")
    check(short(E, LOSS), (2, [1, 1], 0, LOSS, 0), "E, loss")
    check(short(A, LOSS), (1, [1], 0, LOSS, 0), "A, loss: received empty")
    check(short(THREE_IN_A_ROW, REPEAT)[:2], (2, [1, 1]), "three 1s in a row, repeat")
    check(short(UNREACHABLE_HARM, 15), None, "no fault at unreachable states")
    check(classes(UGLY_FURTHER_ON, 3).monitorability, 3, "ugly further on")
    check(classes(UGLY_UNREACHABLE, 2), (0, 1, [0, 5]), "an unreachable ugly state")
    check(classes(UNREACHED_SETTLES, 2), (0, 1, [0, 0]), "an unreachable state that settles")
    came = [figures(fault(HARMED_EARLIER, kind, 3, 99)) for kind in (LOSS, CORRUPTION, REPEAT, SWAP)]
    check(came, [(1, [1], 0, LOSS, 0), (1, [0], 0, CORRUPTION, 1), None, None], "settled marks, each fault")
    for body, wanted in (([3, 1, 0, 2, 1, 0, 2, 2, 0], (8, 6)), ([2, 2, 0, 0, 1, 0, 1, 0, 7], (7, 8)),
                         ([2, 2, 0, 0, 1, 0, 1, 0, 1], (8, 7)), ([2, 1, 0, 0, 1, 1, 0], (8, 6)),
                         ([2, 1, 0, 0, 2, 1, 0], (8, 6)), ([2, 2, 0, 0, 1, 0, 1, 1], (4, 8)),
                         ([0, 0, 0], (2, 0)), ([0, 0], (1, 2))):
        check(answer(judge, bytes(body)), wanted, body)


def counts():
    """When the verdict falls: of traces, by both readings; and of the sent and the received trace of a witness."""
    for body, messages, wanted in ((E, [1, 1], 2), (E, [1, 1, 0], 2), (E, [1, 0, 1], None), (E, [], None),
                                   (A, [0, 0, 1, 0], 3), (H, [], 0), (H, [0], 0), (HARMED_EARLIER, [0, 1, 0], 2),
                                   (HARMED_EARLIER, [0], None), (UGLY_UNREACHABLE, [], 0),
                                   (UGLY_UNREACHABLE, [0, 0], 0)):
        for reading in (3, 6):
            check(trace(body, reading, messages).count, wanted, (body.hex(), messages))
    for body, faults, reading, wanted in ((E, LOSS, 3, (2, None)), (E, CORRUPTION, 3, (None, 2)), (E, REPEAT, 3, (None, 2)),
                                          (E, SWAP, 3, (3, None)), (E, SWAP, 6, (3, None)), (C, SWAP, 3, (1, 1)),
                                          (G, CORRUPTION, 6, (None, None))):
        w = fault(body, faults, reading, 99)
        check((w.sent_count, w.received_count), wanted, (body.hex(), faults, reading))


def trusted():
    """Which verdicts of A and E can be trusted; one that is never received; which way round the readings are."""
    for verdict, wanted in enumerate(((1, [1], 0, LOSS, 0), None, None)):
        check(misread(A, LOSS, 3, verdict), wanted, f"A, loss, verdict {verdict}")
    for verdict, wanted in enumerate(((1, [1], 0, CORRUPTION, 0), (1, [0], 0, CORRUPTION, 1), None)):
        check(misread(A, CORRUPTION, 3, verdict), wanted, f"A, corruption, verdict {verdict}")
    check(trust(E, LOSS, 3, 1, 3), (3, 1, LOSS, 0, 0, 1, [1, 0, 1], None, 2), "E, loss, verdict 1")
    check(short(E, LOSS)[0], 2, "E, loss")
    for reading, verdict in ((3, 0), (3, 1), (3, 2), (6, 5)):
        check(trust(D, 15, reading, verdict, 0), None, "D, all faults: yes needs no room")
    check(trust(A, LOSS, 3, 1, 0), None, "A, loss, verdict 1: yes needs no room")
    check(answer(trust, E, LOSS, 3, 1, 2), (13, 0), "E, loss, verdict 1, area 2")
    for p, q, states, distance in ((10, 12, 25, 61), (28, 30, 61, 421), (44, 46, 93, 1013), (58, 66, 127, 1915)):
        body = table(*rings(p, q))
        check((body[0], misread(body, REPEAT, 3, 1)[0]), (states, distance), f"rings of {p} and {q}")
        check(answer(trust, body, REPEAT, 3, 1, distance - 1), (13, 0), f"rings of {p} and {q}, one byte short")


def trust_refusals():
    """19 behind all others but 13, and of the whole number."""
    for verdict in (3, 4, 5, 6, 255, 256, 257, 2**32 + 1, 2**64 - 1, 10**40):
        check(answer(trust, A, LOSS, 3, verdict, 0), (19, 0), f"reading 3, verdict {verdict}")
        check(answer(trust, A, LOSS, 6, verdict, 0), None if verdict < 6 else (19, 0), f"reading 6, verdict {verdict}")
    orders = ((9, 16, 5, 9), (10, 15, 5, 9), (19, 15, 3, 3), (19, 15, 6, 6), (13, 15, 3, 0))
    for number, faults, reading, verdict in orders:
        check(answer(trust, A, faults, reading, verdict, 0), (number, 0), f"the order: {number}")
        check(answer(trust, A[:-1], faults, reading, verdict, 0), (4, 8), f"4 before {number}")


def proved():
    """Proofs that the specification writes out, the order of their questions, and what their numbers can be."""
    for faults, reading, given, wanted in (
            (12, 3, [0, 1], None), (12, 3, [1, 0], None), (12, 3, [0, 0], (16, 1)), (12, 3, [0], (14, 1)),
            (12, 3, [2, 0], (15, 0)), (12, 3, [0, 1, 1], (14, 3)), (1, 3, [0, 1], (18, 0)), (12, 6, [0, 1], None),
            (16, 5, [9], (9, 0)), (15, 5, [9], (10, 0)), (15, 3, [9], (14, 1)), (15, 3, [9, 9], (15, 0)),
            (15, 3, [0, 256], (15, 1)), (15, 3, [0, 10**40], (15, 1)), (15, 3, [1, 1], (16, 1)), (15, 3, [], (14, 0))):
        check(answer(proof, A, faults, reading, given), wanted, ("A", faults, reading, given))
    for reading in (3, 6):
        check(answer(proof, E, SWAP, reading, [0, 0, 1]), (17, 1), "E, one block for 0 and 1")
        check(answer(proof, UNREACHABLE_HARM, 15, reading, [0, 1, 2]), None, "18 asks no unreachable state")
        check(answer(proof, A[:-1], 16, reading, []), (4, 8), "4 before 9")
        check((answer(blocks, A[:-1], reading), answer(blocks, A, reading + 1)), ((4, 8), (10, 0)), "blocks, refused")
    for reading, number in ((3, 17), (6, 16)):
        check(answer(proof, UNREACHED_DIFFER, 15, reading, [0, 1, 1, 3]), (number, 2), "17 asks unreachable states")
        check(answer(proof, G, 0, reading, [0, 1, 2, 1, 4]), (number, 3), "G, one block for 1 and 3")
    for body, by_marks, by_classes in ((D, [0], [0]), (E, [0, 1, 2], [0, 1, 2]), (H, [0, 0], [0, 0]),
                                       (UNREACHED_DIFFER, [0, 0, 2, 3], [0, 0, 2, 3]),
                                       (HARMED_EARLIER, [0, 1, 1], [0, 1, 1])):
        check((blocks(body, 3), blocks(body, 6)), (by_marks, by_classes), (body.hex(), "blocks"))


def check_proofs(body, rng, sets, asked=None):
    """Which states are never told apart, and proofs near that one, all or some, by model.py. The right one is accepted
    exactly if the table is immune."""
    b = list(body)
    for reading in (3, 6):
        alike = blocks(body, reading)
        check(alike, model.never_told_apart(b, reading), (body.hex(), reading, "blocks"))
        for faults in sets:
            immune = fault(body, faults, reading, ROOM) is None
            check(answer(proof, body, faults, reading, alike) is None, immune, (body.hex(), faults, reading, "immune"))
        given = list(near_proofs(rng, alike))
        for near in given if asked is None else given[:6] + rng.sample(given, asked):
            faults = rng.choice(sets)
            wanted = model.proof_refusal(b, faults, reading, near)
            check(answer(proof, body, faults, reading, near), wanted, (body.hex(), faults, reading, near))


def proofs():
    """Small tables, by every series of messages as well; larger ones; and tables of up to 128 states, some of which
    have many states that are never told apart."""
    rng = random.Random("proofs")
    small = [bytes(b) for b in model.small_tables()] + [random_table(rng, 3, 2) for _ in range(60)]
    for body in small:
        for reading in (3, 6):
            check(blocks(body, reading), brute.blocks_by_series(list(body), reading), (body.hex(), "blocks by series"))
            for near, faults in itertools.product(itertools.product(range(body[0]), repeat=body[0]), (0, 4, 8, 11)):
                wanted = brute.proof_by_series(list(body), faults, reading, near)
                check(answer(proof, body, faults, reading, near), wanted, (body.hex(), faults, reading, near))
    sizes = [(rng.randint(3, 9), rng.randint(1, 4)) for _ in range(40)]
    larger = [make(rng, n, k) for make in (random_table, settling_table) for n, k in sizes]
    larger += [with_copies(rng, rng.choice(NAMED), rng.randint(5, 9), split)[0] for split in (False, True) * 20]
    for body in small[:182] + larger:
        check_proofs(body, rng, range(16) if body[0] < 3 else (0, LOSS, CORRUPTION, REPEAT, SWAP, 12, 15))
    for n in (63, 64, 65, 127, 128):
        wide = [named_anew(rng, *with_copies(rng, rng.choice([A, B, C, E]), n, True))[0], far_table(rng, n, 3)]
        for body in wide + [make(rng, n, rng.randint(3, 4)) for make in (random_table, settling_table)]:
            check_proofs(body, rng, (REPEAT, SWAP, rng.randrange(16)), 20)


def collections():
    first = bytes.fromhex("0300 1A00000009000100 230000000C000200 2F00000009000300")
    text = reference.HEADER + "1 2 pos 1 1 - -\n2 3 pos 2 2 1 3\n3 refused 6 4\n"
    data = first + A + E + A[:4] + b"\3" + A[5:]
    check((len(data), listing(data)), (56, text), "the specification's listing")
    check(collection([(1, A), (2, E), (3, A[:4] + b"\3" + A[5:])]), data, "the collection's writer")
    rules = [(1, A), (2, B), (3, C), (4, D), (5, E), (6, G), (7, H), (8, b""), (9, b"\0"), (65535, bytes(range(6)))]
    lines = ("1 2 pos 1 1 - -/2 2 neg 1 1 - -/3 3 both 1 1 - 2/4 1 none - - - -/5 3 pos 2 2 1 3/6 5 both 2 2 1 3/"
             "7 2 pos - - - -/8 refused 1 0/9 refused 1 1/65535 refused 2 0/")
    check(listing(collection(rules)), reference.HEADER + lines.replace("/", "\n"), "listing of ten entries")
    for text, wanted in (("", (20, 0)), ("00", (20, 0)), ("0000FF", (25, 0)), ("0102", (21, 0)), ("0002", (22, 0)),
                         ("0100", (22, 0)), ("01000A00000009000100", (25, 0)), ("01000A00010000000100", (24, 0)),
                         ("01000A00000000000000", 1), ("0200 6300000000000500 1200000000000500", (23, 1)),
                         ("0200 1200000000000500 6300000000000600", (24, 1))):
        check(answer(reference.judge_collection, bytes.fromhex(text)), wanted, text)
    for rule, wanted in ((1, A), (2, E), (4, None), (0, None), (65537, None)):
        check(reference.body_of(data, rule), wanted, f"the body of rule {rule}")
    check(answer(reference.body_of, data[:-1], 1), (25, 0), "a rule of a refused collection")
    check(listing(b""), "collection refused 20\n", "empty input")
    check(listing(b"\0\0"), reference.HEADER, "0 0")
    check(listing(b"\0\0" + bytes(65534)), "collection refused 25\n", "65,536 bytes")
    check(listing(b"\0\0" + bytes(65535)), "collection refused 26\n", "65,537 bytes")


def enumerated(table, marks, faults, values):
    """The first witness of a fault question among all sent traces of up to 2 n messages and all faults in them."""
    def end(messages):
        state = table.start
        for m in messages:
            state = table.rows[state][m]
        return state

    def run(messages):
        return values[end(messages)]

    def fell(messages):
        marked = [i for i in range(len(messages) + 1) if marks[end(messages[:i])]]
        return min(marked, default=None)

    for length in range(2 * table.n + 1):
        found = []
        for sent in itertools.product(range(table.k), repeat=length):
            for i in range(length):
                one, two = sent[i:i + 1], sent[i:i + 2]
                changes = [(LOSS, one, 0, ())] + [(CORRUPTION, one, r, (r,)) for r in range(table.k)]
                changes += [(REPEAT, one, 0, one + one)] + [(SWAP, two, 0, two[::-1])] * (len(two) == 2)
                for kind, covered, replacement, put in changes:
                    rest = sent[i + len(covered):]
                    received = sent[:i] + put + rest
                    if faults & kind and run(sent) != run(received):
                        series = [(1, m) for m in sent[:i]] + [(0, kind, covered, replacement)] + [(1, m) for m in rest]
                        witness = (length, i, kind, replacement, run(sent), run(received), list(sent), fell(sent), fell(received))
                        found.append((series, witness))
        if found:
            return min(found)[1]
    return None


def small_tables(n, k):
    """All tables of n states and k messages that are accepted."""
    for start in range(n):
        for marks in itertools.product(range(3), repeat=n):
            for rows in itertools.product(range(n), repeat=n * k):
                body = bytes([n, k, start, *marks, *rows])
                if answer(judge, body) is None:
                    yield body


def enumeration():
    """All tables of one or two states and one or two messages, and random ones of three, some of which settle; all
    sets, both readings."""
    bodies = [body for n in (1, 2) for k in (1, 2) for body in small_tables(n, k)]
    check(len(bodies), 182, "number of small tables")
    rng = random.Random("check_reference")
    bodies += [random_table(rng, 3, 2) for _ in range(60)] + [random_table(rng, 2, 3) for _ in range(40)]
    bodies += [body for body in SETTLING if body[0] == 3] + [settling_table(rng, 3, 2) for _ in range(6)]
    for body in bodies:
        table, marks = reference.read_table(body), brute.marks_by_series(body)
        check(tuple(table.marks), marks, (body.hex(), "settled marks"))
        for reading in (3, 6):
            values = [reference.read_state(table, reading, s) for s in range(table.n)]
            for faults in range(16):
                wanted = enumerated(table, marks, faults, values)
                check(fault(body, faults, reading, 99), wanted, (body.hex(), faults, reading))


def series_of(w):
    """A witness as the model has it: its sent length and its steps."""
    if w is None:
        return None
    behind = w.before + (2 if w.kind == SWAP else 1)
    strike = (0, w.kind, tuple(w.sent[w.before:behind]), w.replacement)
    return w.distance, model.plain_steps(w.sent[:w.before]) + (strike,) + model.plain_steps(w.sent[behind:])


def every_series(b, reading, test):
    return brute.first_series(b, reading, b[0] ** 2, test)


def check_sets(b, first, found, about, sets=range(16)):
    """The first witness of every set, or of some, by the first of each kind."""
    for faults in sets:
        check(series_of(found(faults)), model.first_of(first, faults), (bytes(b).hex(), faults, about))


def searches():
    """Every verdict, by the searches of brute.py, for small tables, and of model.py; all sets, both readings."""
    rng = random.Random("searches")
    small = model.small_tables() + [list(random_table(rng, 3, 2)) for _ in range(20)]
    sizes = [(rng.randint(3, 9), rng.randint(1, 4)) for _ in range(40)]
    larger = [list(random_table(rng, n, k)) for n, k in sizes] + [list(table(*rings(4, 6)))]
    larger += [list(settling_table(rng, rng.randint(3, 9), 2)) for _ in range(6)]
    asked = [(b, every_series) for b in small] + [(b, model.first_witnesses) for b in small[182:] + larger]
    for (b, search), reading in itertools.product(asked, (3, 6)):
        for verdict in range(reading):
            first = search(b, reading, model.misread(verdict))
            check_sets(b, first, lambda faults: trust(bytes(b), faults, reading, verdict, ROOM), (reading, verdict))


def check_states(body, rng):
    """The settled marks, the classes, a step and a trace, by model.py."""
    b, n, k = list(body), *body[:2]
    check(tuple(reference.read_table(body).marks), model.settled(b), (body.hex(), "settled marks"))
    of_state = [model.state_class(b, q) for q in range(n)]
    came = classes(body, n)
    check(reference.MONITORABILITY[came.monitorability], model.monitorability(b), (body.hex(), "monitorability"))
    check((came.reached, came.classes), (len(model.reach(b, b[2])), of_state), (body.hex(), "classes"))
    for reading in (3, 6):
        state, message = rng.randrange(n), rng.randrange(k)
        after = model.run(b, state, [message])
        check(step(body, reading, state, message), (after, model.reading(b, reading, after)), (body.hex(), "step"))
        messages = [rng.randrange(k) for _ in range(rng.randrange(n + 1))]
        came = trace(body, reading, messages)
        wanted = model.reading(b, reading, model.run(b, b[2], messages)), model.count(b, messages)
        check((came.reading, "never" if came.count is None else str(came.count)), wanted, (body.hex(), messages))


def settled_tables():
    """Tables of which states settle; of small ones also the marks by every series of messages, and the witnesses."""
    rng = random.Random("settled tables")
    small = [body for body in SETTLING if body[0] < 10] + [settling_table(rng, rng.randint(3, 7), 2) for _ in range(20)]
    large = [body for body in SETTLING if body[0] > 10]
    large += [settling_table(rng, n, k) for n in (64, 65, 128) for k in (1, 2, 16)]
    for body in small + large:
        check_states(body, rng)
    for body in small:
        b, first = list(body), {reading: model.first_witnesses(list(body), reading, model.differ) for reading in (3, 6)}
        check(tuple(reference.read_table(body).marks), brute.marks_by_series(b), (body.hex(), "marks by series"))
        for reading in (3, 6):
            check_sets(b, first[reading], lambda faults: fault(body, faults, reading, ROOM), reading)
        check(reference.listing_line(5, body), f"5 {model.card(b, first[3])}\n", (body.hex(), "listing"))



def wide_tables():
    """Tables of as many states as a word has bits, of one less, of one more, and of the most: what is said of their
    states, and the first witnesses of some sets and against some verdicts, by model.py."""
    rng = random.Random("wide tables")
    for n in (63, 64, 65, 127, 128):
        makers = (far_table, far_table, random_table, random_table, settling_table)
        for body in [make(rng, n, rng.randint(3, 4)) for make in makers]:
            check_states(body, rng)
            b, reading = list(body), rng.choice((3, 6))
            verdict, sets = rng.randrange(reading), (LOSS, CORRUPTION, REPEAT, SWAP, rng.randint(1, 15))
            searched = [(model.differ, lambda faults: fault(body, faults, reading, ROOM)),
                        (model.misread(verdict), lambda faults: trust(body, faults, reading, verdict, ROOM))]
            for test, found in searched:
                check_sets(b, model.first_witnesses(b, reading, test), found, (reading, verdict), sets)


if __name__ == "__main__":
    starred_facts()
    edges()
    examples()
    writer()
    counts()
    trusted()
    trust_refusals()
    proved()
    proofs()
    collections()
    enumeration()
    searches()
    settled_tables()
    wide_tables()
    print(f"check_reference: {checks:,} checks, no difference")
