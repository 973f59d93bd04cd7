"""The specification's rules on tables, faults and collections, written for clarity and not for speed.

The programs' answers are compared with these. Each function follows its words; none of it is taken
from the library. Bytes go in; an answer comes out or `Refused` is raised with a number and a place.
"""

import functools
import heapq
from collections import namedtuple

LOSS, CORRUPTION, REPEAT, SWAP = 1, 2, 4, 8
GOOD, BAD, POSITIVE, NEGATIVE, NEUTRAL, UGLY = range(6)
MONITORABILITY = ("pos", "neg", "both", "none")
STATE_LIMIT = 128
INPUT_LIMIT = 65536
HEADER = "rule states class loss corruption repeat swap\n"

Table = namedtuple("Table", "n k start marks rows")
Classes = namedtuple("Classes", "monitorability reached classes")
Traced = namedtuple("Traced", "reading count")
Witness = namedtuple("Witness", "distance before kind replacement sent_reading received_reading sent sent_count "
                                "received_count")


class Refused(Exception):
    """The first question answered with no: its number and a place."""

    def __init__(self, number, place):
        super().__init__(number, place)
        self.number, self.place = number, place


def question(yes, number, place):
    if not yes:
        raise Refused(number, place)


# ---- one table -------------------------------------------------------------------------------------------

def drawn_table(body):
    """Questions 1 to 8, and the table with its marks as drawn."""
    question(len(body) >= 3, 1, len(body))
    n, k, start = body[0], body[1], body[2]
    question(1 <= n <= STATE_LIMIT, 2, 0)
    question(1 <= k <= 16, 3, 1)
    question(len(body) == 3 + n + n * k, 4, len(body))
    question(start < n, 5, 2)
    first_next = 3 + n
    for place in range(3, first_next):
        question(body[place] <= 2, 6, place)
    for place in range(first_next, len(body)):
        question(body[place] < n, 7, place)
    marks = list(body[3:first_next])
    for place in range(first_next, len(body)):
        mark = marks[(place - first_next) // k]
        question(mark == 0 or marks[body[place]] == mark, 8, place)
    rows = [list(body[first_next + s * k:first_next + (s + 1) * k]) for s in range(n)]
    return Table(n, k, start, marks, rows)


def judge(body):
    """Accepted (nothing is answered), or refused."""
    drawn_table(body)


def settled_mark(table, state):
    """The verdict of all states to which the series of some length lead, or not yet.

    The lengths are tried one after the other. None is left to try where both verdicts have come, as they stay, or where
    the states are those of a length before."""
    states, before = {state}, []
    while states not in before:
        marks = {table.marks[s] for s in states}
        if marks == {1} or marks == {2}:
            return marks.pop()
        if marks >= {1, 2}:
            break
        before.append(states)
        states = {after for s in states for after in table.rows[s]}
    return 0


@functools.lru_cache(64)
def read_table(body):
    """Questions 1 to 8, and the table with its marks settled."""
    table = drawn_table(body)
    return table._replace(marks=[settled_mark(table, state) for state in range(table.n)])


def reached_from(table, state):
    """The states to which some trace leads from the state, itself included."""
    seen, waiting = {state}, [state]
    while waiting:
        new = set(table.rows[waiting.pop()]) - seen
        seen |= new
        waiting.extend(new)
    return seen


def class_of(table, state):
    if table.marks[state] != 0:
        return GOOD if table.marks[state] == 1 else BAD
    marks = {table.marks[s] for s in reached_from(table, state)}
    if 1 in marks:
        return NEUTRAL if 2 in marks else POSITIVE
    return NEGATIVE if 2 in marks else UGLY


def classes(body, area_length):
    """Monitorability as a number, the count of states reached, and the class of every state."""
    table = read_table(body)
    question(table.n <= area_length, 13, 0)
    of_state = [class_of(table, s) for s in range(table.n)]
    reached = reached_from(table, table.start)
    if any(of_state[s] == UGLY for s in reached):
        monitorability = 3
    else:
        monitorability = {GOOD: 0, POSITIVE: 0, BAD: 1, NEGATIVE: 1, NEUTRAL: 2}[of_state[table.start]]
    return Classes(monitorability, len(reached), of_state)


def read_state(table, reading, state):
    return table.marks[state] if reading == 3 else class_of(table, state)


def step(body, reading, state, message):
    """The next state and its reading."""
    table = read_table(body)
    question(reading in (3, 6), 10, 0)
    question(state < table.n, 11, 0)
    question(message < table.k, 12, 0)
    after = table.rows[state][message]
    return after, read_state(table, reading, after)


def states_of(table, messages):
    """The start, and the state after each message."""
    states = [table.start]
    for message in messages:
        states.append(table.rows[states[-1]][message])
    return states


def count_of(table, messages):
    """After how many messages the mark first became true or false; None is never."""
    return next((i for i, state in enumerate(states_of(table, messages)) if table.marks[state] in (1, 2)), None)


def trace(body, reading, messages):
    """The reading of the state reached from the start, and the count."""
    table = read_table(body)
    question(reading in (3, 6), 10, 0)
    for place, message in enumerate(messages):
        question(message < table.k, 12, place)
    return Traced(read_state(table, reading, states_of(table, messages)[-1]), count_of(table, messages))


# ---- the fault question, and the trust in a verdict ------------------------------------------------------

# A step's key: (0, kind, sent messages, replacement) for a fault step, (1, ..) for a plain one. Tuples compare as the
# specification orders steps.

def plain_step(message):
    return (1, 0, (message,), 0)


def fault_step(kind, sent, replacement=0):
    return (0, kind, sent, replacement)


def fault_steps(table, faults, state):
    """Each fault step at the state: its key, and the sent and the received state after it."""
    rows = table.rows
    for m in range(table.k):
        after = rows[state][m]
        if faults & LOSS:
            yield fault_step(LOSS, (m,)), (after, state)
        if faults & CORRUPTION:
            for r in range(table.k):
                yield fault_step(CORRUPTION, (m,), r), (after, rows[state][r])
        if faults & REPEAT:
            yield fault_step(REPEAT, (m,)), (after, rows[after][m])
        if faults & SWAP:
            for m2 in range(table.k):
                yield fault_step(SWAP, (m, m2)), (rows[after][m2], rows[rows[state][m2]][m])


def delivered(key):
    """The messages that a step delivers."""
    plain, kind, sent, replacement = key
    if plain:
        return sent
    return {LOSS: (), CORRUPTION: (replacement,), REPEAT: sent * 2, SWAP: sent[::-1]}[kind]


def followers(table, faults, sent, received):
    """Each step that a series can take at a node: its key and the node after it."""
    if received is None:
        yield from fault_steps(table, faults, sent)
    for m in range(table.k):
        yield plain_step(m), (table.rows[sent][m], None if received is None else table.rows[received][m])


def first_series(table, faults, values, told):
    """The first series of steps after which the two states' values are told apart, with both values; or None.

    `told` is a test of the sent and the received value. A node is a state before the fault (received None) or the sent
    and the received state after it. `first` holds the first series known to each node, as (sent length, step keys)."""
    # Of two series of equal sent length none begins the other, so appending steps keeps their order, and every
    # step adds length: the first pop of a node has its first series, and nodes are popped in the order of these.
    start = (table.start, None)
    first = {start: (0, ())}
    heap = [(first[start], start)]
    while heap:
        order, node = heapq.heappop(heap)
        if order is not first[node]:
            continue    # a better series came in after this one was noted
        (length, series), (sent, received) = order, node
        if received is not None and told(values[sent], values[received]):
            return series, values[sent], values[received]
        for key, after in followers(table, faults, sent, received):
            after_order = (length + len(key[2]), series + (key,))
            if after not in first or after_order < first[after]:
                first[after] = after_order
                heapq.heappush(heap, (after_order, after))
    return None


def examine(table, faults, values, told, area_length):
    """None, or the first witness that the test tells."""
    found = first_series(table, faults, values, told)
    if found is None:
        return None
    series, sent_reading, received_reading = found
    sent = [m for key in series for m in key[2]]
    question(len(sent) <= area_length, 13, 0)
    before = next(i for i, key in enumerate(series) if key[0] == 0)
    _, kind, _, replacement = series[before]
    received = [m for key in series for m in delivered(key)]
    return Witness(len(sent), before, kind, replacement, sent_reading, received_reading, sent,
                   count_of(table, sent), count_of(table, received))


def read_values(body, faults, reading):
    """Questions 1 to 10; the table, and the reading of each state."""
    table = read_table(body)
    question(faults <= 15, 9, 0)
    question(reading in (3, 6), 10, 0)
    return table, [read_state(table, reading, s) for s in range(table.n)]


def fault(body, faults, reading, area_length):
    """None for immune, or the first witness."""
    table, values = read_values(body, faults, reading)
    return examine(table, faults, values, lambda sent, received: sent != received, area_length)


def trust(body, faults, reading, verdict, area_length):
    """None if the verdict, received, was sent; or the first witness that another was."""
    table, values = read_values(body, faults, reading)
    question(verdict < reading, 19, 0)
    return examine(table, faults, values, lambda sent, received: received == verdict != sent, area_length)


# ---- proofs of immunity, and states that are never told apart --------------------------------------------

def first_disagreeing(blocks, values):
    """The lowest state whose value is not that of the lowest state of its block, or None."""
    lowest = {}
    for state, (block, value) in enumerate(zip(blocks, values, strict=True)):
        if lowest.setdefault(block, value) != value:
            return state
    return None


def proof(body, faults, reading, blocks):
    """Accepted (nothing is answered), or refused: the blocks are the proof, a number for each state."""
    table, values = read_values(body, faults, reading)
    question(len(blocks) == table.n, 14, len(blocks))
    for state, block in enumerate(blocks):
        question(block < table.n, 15, state)
    led = [tuple(blocks[after] for after in row) for row in table.rows]
    for number, compared in ((16, values), (17, led)):
        state = first_disagreeing(blocks, compared)
        question(state is None, number, state)
    for state in sorted(reached_from(table, table.start)):
        for _, (sent, received) in fault_steps(table, faults, state):
            question(blocks[sent] == blocks[received], 18, state)


def blocks(body, reading):
    """For each state the lowest that no trace tells apart from it.

    `kept` has for some traces, the empty one first, what each state reads behind them. A message before one of them is
    a longer trace, which is kept if it tells apart two states that none before does: at most n are. One that is not
    kept tells states apart by the same messages as those kept do, and so does every longer one."""
    table = read_table(body)
    question(reading in (3, 6), 10, 0)
    lowest = values = [read_state(table, reading, s) for s in range(table.n)]
    kept = [values]
    for read in kept:
        for m in range(table.k):
            longer = [read[row[m]] for row in table.rows]
            both = list(zip(lowest, longer))
            if len(set(both)) > len(set(lowest)):
                kept.append(longer)
                lowest = [both.index(pair) for pair in both]
    return [lowest.index(name) for name in lowest]


# ---- collections -----------------------------------------------------------------------------------------

def number_at(data, place, width):
    return int.from_bytes(data[place:place + width], "little")


def read_collection(data):
    """Questions 20 to 25, and the entries as pairs of rule number and body."""
    question(len(data) >= 2, 20, 0)
    count = number_at(data, 0, 2)
    question(count <= 512, 21, 0)
    question(len(data) >= 2 + 8 * count, 22, 0)
    heads = [2 + 8 * i for i in range(count)]
    offsets = [number_at(data, head, 4) for head in heads]
    lengths = [number_at(data, head + 4, 2) for head in heads]
    rules = [number_at(data, head + 6, 2) for head in heads]
    for i in range(1, count):
        question(rules[i] > rules[i - 1], 23, i)
    end = 2 + 8 * count
    for i in range(count):
        question(offsets[i] == end, 24, i)
        end += lengths[i]
    question(end == len(data), 25, 0)
    return [(rules[i], data[offsets[i]:offsets[i] + lengths[i]]) for i in range(count)]


def judge_collection(data):
    """The count of entries."""
    return len(read_collection(data))


def body_of(data, rule):
    """The body of a rule, None where the collection does not have it."""
    return dict(read_collection(data)).get(rule)


def least_first(n, width):
    """The bytes of a number, least byte first."""
    return bytes(n // 256 ** i % 256 for i in range(width))


def write_collection(rules, lengths, bodies, area_length):
    """The file of the rule numbers and of the bodies, which are cut at the lengths."""
    question(len(rules) == len(lengths), 27, 0)
    question(len(rules) <= 512, 21, 0)
    for entry in range(1, len(rules)):
        question(rules[entry - 1] < rules[entry], 23, entry)
    question(sum(lengths) == len(bodies), 28, 0)
    offset = 2 + 8 * len(rules)
    file = least_first(len(rules), 2)
    for rule, length in zip(rules, lengths):
        file += least_first(offset, 4) + least_first(length, 2) + least_first(rule, 2)
        offset += length
    start = 0
    for entry, length in enumerate(lengths):
        try:
            judge(bodies[start:start + length])
        except Refused as no:
            raise Refused(no.number, entry) from None
        start += length
    question(len(file + bodies) <= area_length, 13, 0)
    return file + bodies


def listing_line(rule, body):
    try:
        monitorability = MONITORABILITY[classes(body, STATE_LIMIT).monitorability]
    except Refused as no:
        return f"{rule} refused {no.number} {no.place}\n"
    witnesses = [fault(body, kind, 3, INPUT_LIMIT) for kind in (LOSS, CORRUPTION, REPEAT, SWAP)]
    distances = " ".join("-" if w is None else str(w.distance) for w in witnesses)
    return f"{rule} {body[0]} {monitorability} {distances}\n"


def listing(data):
    """The listing program's whole output."""
    try:
        question(len(data) <= INPUT_LIMIT, 26, 0)
        entries = read_collection(data)
    except Refused as no:
        return f"collection refused {no.number}\n"
    return HEADER + "".join(listing_line(rule, body) for rule, body in entries)
