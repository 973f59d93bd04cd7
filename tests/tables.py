"""Makes tables and collections for the tests: valid ones of many shapes, and damaged ones."""

# The specification's tables, and tables that tell right from wrong readings of it.
A = bytes([2, 2, 0, 0, 1, 0, 1, 1, 1])
B = bytes([2, 2, 0, 0, 2, 1, 0, 1, 1])
C = bytes([3, 4, 0, 0, 1, 2, 2, 0, 1, 1, 1, 1, 1, 1, 2, 2, 2, 2])
D = bytes([1, 2, 0, 0, 0, 0])
E = bytes([3, 2, 0, 0, 0, 1, 0, 1, 0, 2, 2, 2])
G = bytes([5, 2, 0, 0, 0, 1, 0, 2, 3, 1, 1, 2, 2, 2, 4, 3, 4, 4])
H = bytes([2, 1, 0, 0, 1, 1, 1])
THREE_IN_A_ROW = bytes([4, 2, 0, 0, 0, 0, 1, 0, 1, 0, 2, 0, 3, 3, 3])
LOWER_TRACE_HARMED = bytes([3, 2, 0, 0, 0, 1, 1, 0, 0, 2, 2, 2])        # by corruption; the first series is another
LOWER_TRACE_SWAPPED = bytes([3, 2, 0, 0, 0, 1, 1, 0, 2, 0, 2, 2])       # the same for swap
UNREACHABLE_HARM = bytes([3, 2, 0, 1, 0, 2, 0, 0, 1, 2, 2, 2])
UGLY_FURTHER_ON = bytes([3, 2, 0, 0, 1, 0, 1, 2, 1, 1, 2, 2])
UGLY_UNREACHABLE = bytes([2, 1, 0, 1, 0, 0, 1])
HARMED_EARLIER = bytes([3, 2, 0, 0, 0, 1, 0, 1, 2, 2, 2, 2])            # by settled marks than by drawn ones
UNREACHED_SETTLES = bytes([2, 1, 1, 0, 1, 1, 1])
UNREACHED_DIFFER = bytes([4, 2, 0, 0, 0, 0, 1, 0, 0, 1, 1, 3, 2, 3, 3]) # 1 and 2, which read alike by marks alone
NAMED = [A, B, C, D, E, G, H, THREE_IN_A_ROW, LOWER_TRACE_HARMED, LOWER_TRACE_SWAPPED, UNREACHABLE_HARM,
         UGLY_FURTHER_ON, UGLY_UNREACHABLE]


def table(start, marks, rows):
    return bytes([len(marks), len(rows[0]), start, *marks, *(after for row in rows for after in row)])


def collection(entries):
    """The collection file of the entries, pairs of rule number and body."""
    end = 2 + 8 * len(entries)
    contents = len(entries).to_bytes(2, "little")
    for rule, body in entries:
        contents += end.to_bytes(4, "little") + len(body).to_bytes(2, "little") + rule.to_bytes(2, "little")
        end += len(body)
    return contents + b"".join(body for _, body in entries)


def packed(bodies, limit=65536):
    """Collections that hold all bodies in order, each of at most 512 entries and the given size."""
    held, size = [], 2
    for body in bodies:
        if len(held) == 512 or size + 8 + len(body) > limit:
            yield collection(list(enumerate(held)))
            held, size = [], 2
        held.append(body)
        size += 8 + len(body)
    yield collection(list(enumerate(held)))


# ---- valid tables ----------------------------------------------------------------------------------------

def renamed(rng, start, marks, rows):
    """The same table with its states and messages named anew at random."""
    n, k = len(marks), len(rows[0])
    states, messages = rng.sample(range(n), n), rng.sample(range(k), k)
    new_marks, new_rows = [0] * n, [[0] * k for _ in range(n)]
    for s in range(n):
        new_marks[states[s]] = marks[s]
        for m in range(k):
            new_rows[states[s]][messages[m]] = states[rows[s][m]]
    return table(states[start], new_marks, new_rows)


def random_marks(rng, n):
    """No state marked, the last one or two, about a quarter, most, or all alike."""
    return rng.choice([
        lambda: [0] * n,
        lambda: [0] * (n - 1) + [rng.choice([1, 2])],
        lambda: ([0] * n + [1, 2])[-n:],
        lambda: [rng.choice([0, 0, 0, 0, 0, 0, 1, 2]) for _ in range(n)],
        lambda: [rng.choice([0, 1, 2]) for _ in range(n)],
        lambda: [rng.choice([1, 2])] * n,
    ])()


def anywhere(rng, state, allowed):
    return rng.choice(allowed)


def lazy(rng, state, allowed):
    """Mostly stays where it is: sparse tables with many unreachable states."""
    return state if rng.random() < 0.8 else rng.choice(allowed)


def ahead(rng, state, allowed):
    """To the next state, to the lowest one, or nowhere: chains."""
    after = rng.choice([state + 1, state, min(allowed)])
    return after if after in allowed else state


def nearby(rng, state, allowed):
    """At most two states up or down: long ways."""
    return rng.choice([s for s in allowed if abs(s - state) <= 2])


def own_half(rng, state, allowed):
    """Even states lead to even ones, odd ones to odd ones: half of the table cannot be reached."""
    return rng.choice([s for s in allowed if s % 2 == state % 2])


def random_table(rng, n, k, marks=None):
    """A valid table of a random shape."""
    marks = marks or random_marks(rng, n)
    shape = rng.choice([anywhere, lazy, ahead, nearby, own_half])
    rows = []
    for state in range(n):
        allowed = [s for s in range(n) if marks[state] in (0, marks[s])]
        rows.append([shape(rng, state, allowed) for _ in range(k)])
    return renamed(rng, rng.choice([0, 0, rng.randrange(n)]), marks, rows)


# ---- valid tables with long distances --------------------------------------------------------------------

def in_a_row(n, k):
    """True after n - 1 times message 1 in a row: loss and corruption have distance n - 1, swap n, repeat n - 2."""
    rows = [[0, s + 1] + [s] * (k - 2) for s in range(n - 1)] + [[n - 1] * k]
    return 0, [0] * (n - 1) + [1], rows


def late_repeat(n, k):
    """Repeat harms at the very end of a path alone, and is seen only after the whole path again: distance 2 n - 3.

    The path goes from 0 to n - 2 by messages 1, 0, 2, 0, 2 and so on, and then to the true state n - 1. Any other
    message stays, but 1 leads from n - 2 back to 0, and a second 1 on to state 1."""
    path = [1] + [0 if s % 2 else 2 for s in range(1, n - 1)]
    rows = [[s + 1 if m == path[s] else s for m in range(k)] for s in range(n - 1)] + [[n - 1] * k]
    rows[n - 2][1] = 0
    return 0, [0] * (n - 1) + [1], rows


def far_table(rng, n, k):
    """One of the two above (n at least 4, k at least 3) with a few next states changed at random."""
    start, marks, rows = rng.choice([in_a_row, late_repeat])(n, k)
    for _ in range(rng.choice([0, 0, 1, 2, 5])):
        rows[rng.randrange(n - 1)][rng.randrange(k)] = rng.randrange(n - 1)
    return renamed(rng, start, marks, rows)


# ---- valid tables whose states settle ----------------------------------------------------------------------

def settling(n, k, mark, rising, stays=None):
    """States that settle one after the other, in rising or in falling number: the first has the mark, and each other
    leads to the one before it by every message. The start is the last. One of them, counted in this order, may stay
    by its last message; then it does not settle, and none behind it does."""
    order = list(range(n) if rising else reversed(range(n)))
    marks, rows = [0] * n, [[order[0]] * k for _ in range(n)]
    marks[order[0]] = mark
    for before, state in zip(order, order[1:]):
        rows[state] = [before] * k
    if stays is not None:
        rows[order[stays]][-1] = order[stays]
    return order[-1], marks, rows


def settling_tables():
    """Each such row of states: all of them reached, none but the marked one, and with half of them settled."""
    for n, k in ((2, 1), (3, 2), (4, 2), (64, 1), (64, 16), (65, 2), (128, 1), (128, 16)):
        for mark, rising in ((1, False), (1, True), (2, False), (2, True)):
            start, marks, rows = settling(n, k, mark, rising)
            yield table(start, marks, rows)
            yield table(marks.index(mark), marks, rows)
            yield table(*settling(n, k, mark, rising, n // 2))


SETTLING = [
    *settling_tables(),
    HARMED_EARLIER,
    UNREACHED_SETTLES,
    bytes([3, 2, 0, 0, 0, 2, 0, 1, 2, 2, 2, 2]),                                # as HARMED_EARLIER, with false
    bytes([6, 2, 5, 0, 0, 0, 1, 2, 0, 1, 2, 3, 3, 4, 4, 3, 3, 4, 4, 0, 0]),     # 0 leads to true and to false, 5 to 0
    bytes([6, 2, 1, 0, 0, 0, 1, 2, 0, 1, 2, 3, 3, 4, 4, 3, 3, 4, 4, 0, 0]),     # the same from a start that settles
    bytes([4, 2, 0, 0, 0, 0, 1, 1, 2, 2, 3, 3, 3, 3, 3]),                       # to true by ways of unequal length
    bytes([3, 1, 0, 0, 1, 1, 1, 2, 1]),                                         # to a ring of true states
    bytes([3, 2, 0, 0, 0, 1, 1, 2, 0, 2, 2, 2]),                                # a ring that can be left: not settled
    bytes([4, 2, 0, 0, 0, 0, 2, 1, 3, 2, 3, 2, 3, 3, 3]),                       # to a state that stays: not settled
    bytes([5, 2, 0, 0, 1, 0, 0, 2, 0, 1, 1, 1, 1, 1, 4, 4, 4, 4]),              # not reached: 2 settles true, 3 false
]


def settling_table(rng, n, k):
    """A random table of which most states lead only to states made before them that have one verdict or settle at it.
    Now and then a state leads anywhere besides."""
    marks, rows, settles = [], [], []
    for state in range(n):
        verdict = rng.choice([1, 2])
        alike = [s for s in range(state) if settles[s] == verdict][-rng.choice([1, 2, 128]):]
        marked = not alike or rng.random() < 0.1
        rows.append([rng.choice([state] if marked else alike) for _ in range(k)])
        if not marked and rng.random() < 0.15:
            rows[state][rng.randrange(k)] = rng.randrange(n)
            settles.append(0)
        else:
            settles.append(verdict)
        marks.append(verdict if marked else 0)
    return renamed(rng, rng.choice([n - 1, rng.randrange(n)]), marks, rows)


# ---- larger tables that say the same ------------------------------------------------------------------------

def parts(body):
    """The start, the marks and the rows of a table."""
    n, k, start = body[:3]
    return start, list(body[3:3 + n]), [list(body[3 + n + q * k:3 + n + q * k + k]) for q in range(n)]


def with_copies(rng, body, size, split):
    """The table with copies of states behind its last, up to this size, and of which state each is one. A copy leads
    where its state leads or to copies of that. If `split` is set, so does every state; if not, no copy is reached."""
    start, marks, rows = parts(body)
    n = len(marks)
    of = list(range(n)) + [rng.randrange(n) for _ in range(size - n)]
    alike = [[q for q in range(size) if of[q] == p] for p in range(n)]
    moved = [[rng.choice(alike[p]) if split or q >= n else p for p in rows[of[q]]] for q in range(size)]
    return table(start, [marks[p] for p in of], moved), of


def named_anew(rng, body, of):
    """The table with its states in another order."""
    start, marks, rows = parts(body)
    places = rng.sample(range(len(marks)), len(marks))
    inverse = sorted(range(len(marks)), key=places.__getitem__)
    new_rows = [[places[p] for p in rows[q]] for q in inverse]
    return table(places[start], [marks[q] for q in inverse], new_rows), [of[q] for q in inverse]


# ---- proofs ------------------------------------------------------------------------------------------------

def unequal_lengths(blocks):
    """The proof without its last block, without any, and with more."""
    return [blocks[:-1], [], blocks + [0], (blocks * 3)[:255]]


def altered(rng, blocks, state):
    """The proof with another block for one state: one that is there, one that is not, and numbers of no state."""
    n = len(blocks)
    free = [block for block in range(n) if block not in blocks]
    beyond = [block for block in (n, n + 1, 128, 129, 255) if block >= n]
    for others in ([block for block in blocks if block != blocks[state]], free, beyond):
        if others:
            yield blocks[:state] + [rng.choice(others)] + blocks[state + 1:]


def coarser(rng, blocks):
    """The proof with two of its blocks made one, if it has two, and with all of them made one."""
    if len(set(blocks)) > 1:
        one, two = rng.sample(sorted(set(blocks)), 2)
        yield [one if block == two else block for block in blocks]
    yield [rng.randrange(len(blocks))] * len(blocks)


def near_proofs(rng, blocks):
    """A proof; with its blocks named anew; coarser ones, and the finest; one block altered at every state; two; and
    other lengths."""
    n = len(blocks)
    names = rng.sample(range(n), n)
    yield blocks
    yield [names[block] for block in blocks]
    yield [n - 1 - block for block in blocks]
    yield from coarser(rng, blocks)
    yield names
    for state in range(n):
        yield from altered(rng, blocks, state)
    for one, two in [rng.sample(range(n), 2) for _ in range(2)] if n > 1 else []:
        for other in altered(rng, blocks, one):
            yield from altered(rng, other, two)
    yield from unequal_lengths(blocks)


# ---- damaged tables --------------------------------------------------------------------------------------

def chosen(rng, places, where):
    return {"first": places[0], "last": places[-1]}.get(where, rng.choice(places))


def damaged(rng, body, size, number, where):
    """The body with one of questions 1 to 8 answered with no, if it can be, at the first, the last or any place.

    The size is the sound table's pair n, k: the body may be damaged already, in a later question."""
    n, k = size
    data = bytearray(body)
    if number == 1:
        return body[:chosen(rng, [0, 1, 2], where)]
    if number == 2:
        data[0] = chosen(rng, [0, 130, 192, 255, 129], where)
    elif number == 3:
        data[1] = chosen(rng, [0, 18, 128, 255, 17], where)
    elif number == 4:
        return chosen(rng, [body[:-1], body[:3], body[:rng.randrange(3, len(body))], body + body, body + b"\0"], where)
    elif number == 5:
        data[2] = chosen(rng, [n, n + 1, 255], where)
    elif number == 6:
        data[chosen(rng, range(3, 3 + n), where)] = rng.choice([3, 4, 128, 255])
    elif number == 7:
        data[chosen(rng, range(3 + n, 3 + n + n * k), where)] = rng.choice([n, n + 1, 255])
    elif number == 8:
        marks = list(data[3:3 + n])
        places = [p for p in range(3 + n, 3 + n + n * k)
                  if marks[(p - 3 - n) // k] != 0 and len(set(marks)) > 1]
        if places:
            place = chosen(rng, places, where)
            mark = marks[(place - 3 - n) // k]
            data[place] = rng.choice([s for s in range(n) if marks[s] != mark])
    return bytes(data)
