"""A model of tables and witnesses, written from the specification alone, and the way to ask the built program `probe`.

The model shares nothing with the library but the byte format. Run the tests that use it after `make test` or
`make target/bin/probe`, at the root.
"""
import collections
import functools
import itertools
import subprocess
import sys

PROBE = "target/bin/probe"
BATCH = 65536
MONITORABILITY = ["pos", "neg", "both", "none"]
LOSS, CORRUPTION, REPEAT, SWAP = KINDS = 1, 2, 4, 8
READINGS = 3, 6

# The first word of an answer without a witness and with one: to a fault question, and of a verdict asked about.
FAULT, TRUST = ("immune", "vulnerable"), ("yes", "no")

# The tables A, B, C, D, E, G and H.
SAMPLES = [
    [2, 2, 0, 0, 1, 0, 1, 1, 1],
    [2, 2, 0, 0, 2, 1, 0, 1, 1],
    [3, 4, 0, 0, 1, 2, 2, 0, 1, 1, 1, 1, 1, 1, 2, 2, 2, 2],
    [1, 2, 0, 0, 0, 0],
    [3, 2, 0, 0, 0, 1, 0, 1, 0, 2, 2, 2],
    [5, 2, 0, 0, 0, 1, 0, 2, 3, 1, 1, 2, 2, 2, 4, 3, 4, 4],
    [2, 1, 0, 0, 1, 1, 1],
]


# ---- tables


def judge(b):
    """The refusal (number, place) of a body, or None."""
    if len(b) < 3:
        return 1, len(b)
    n, k, start = b[:3]
    if not 1 <= n <= 128:
        return 2, 0
    if not 1 <= k <= 16:
        return 3, 1
    if len(b) != 3 + n + n * k:
        return 4, len(b)
    if start >= n:
        return 5, 2
    for i in range(3, 3 + n):
        if b[i] > 2:
            return 6, i
    for i in range(3 + n, len(b)):
        if b[i] >= n:
            return 7, i
    for i in range(3 + n, len(b)):
        mark = b[3 + (i - 3 - n) // k]
        if mark and b[3 + b[i]] != mark:
            return 8, i
    return None


def successors(b, q):
    n, k = b[:2]
    return b[3 + n + q * k : 3 + n + q * k + k]


def reach(b, q):
    """The states that some trace leads to from q."""
    seen, todo = {q}, [q]
    while todo:
        for p in successors(b, todo.pop()):
            if p not in seen:
                seen.add(p)
                todo.append(p)
    return seen


def run(b, q, w):
    """The state that a trace leads to from q."""
    for a in w:
        q = successors(b, q)[a]
    return q


# ---- marks
# A function of a body gives the mark of each state. Where an answer goes by marks, it goes by the settled ones unless
# another such function is given.


def of_body(find):
    """A function of a body that keeps what it found of the last few."""
    kept = functools.lru_cache(256)(find)
    return lambda b: kept(bytes(b))


def drawn(b):
    return tuple(b[3 : 3 + b[0]])


@of_body
def settled(b):
    """A state that is not yet takes the verdict that all its next states have, until no state does any more."""
    marks, changed = list(drawn(b)), True
    while changed:
        changed = False
        for q in range(b[0]):
            ahead = {marks[p] for p in successors(b, q)}
            if not marks[q] and len(ahead) == 1 and ahead != {0}:
                marks[q], changed = ahead.pop(), True
    return tuple(marks)


def with_marks(b, marks):
    """The body with these marks in place of its own."""
    return [*b[:3], *marks, *b[3 + b[0] :]]


def state_class(b, q, marks=settled):
    of_state = marks(b)
    if of_state[q]:
        return of_state[q] - 1
    found = {of_state[p] for p in reach(b, q)}
    return {(True, False): 2, (False, True): 3, (True, True): 4, (False, False): 5}[1 in found, 2 in found]


def monitorability(b, marks=settled):
    reached = reach(b, b[2])
    ugly = any(state_class(b, q, marks) == 5 for q in reached)
    return MONITORABILITY[3 if ugly else [0, 1, 0, 1, 2, 3][state_class(b, b[2], marks)]]


def reading(b, d, q, marks=settled):
    return marks(b)[q] if d == 3 else state_class(b, q, marks)


def count(b, w, marks=settled):
    """After how many messages of the trace the mark is first true or false: a number, or the word never."""
    q, read, of_state = b[2], 0, marks(b)
    for a in w:
        if of_state[q]:
            break
        q, read = successors(b, q)[a], read + 1
    return str(read) if of_state[q] else "never"


# ---- all small tables


def all_tables(n, k):
    """Every accepted table with n states and k messages."""
    every = ([n, k, *rest] for rest in itertools.product(range(n), *[range(3)] * n, *[range(n)] * (n * k)))
    return [b for b in every if judge(b) is None]


def small_tables():
    """Every accepted table with at most 2 states and 2 messages."""
    small = [b for n, k in itertools.product((1, 2), (1, 2)) for b in all_tables(n, k)]
    assert len(small) == 182, len(small)
    return small


# ---- series of steps
# A plain step is (1, message), a fault step (0, kind, sent messages, replacement). Tuples compare as the
# specification orders steps, and so do witnesses, which are pairs of the sent length and the steps.


def fault_steps(k):
    ones, twos = list(itertools.product(range(k), repeat=1)), list(itertools.product(range(k), repeat=2))
    yield from ((0, LOSS, sent, 0) for sent in ones)
    yield from ((0, CORRUPTION, sent, replacement) for sent in ones for replacement in range(k))
    yield from ((0, REPEAT, sent, 0) for sent in ones)
    yield from ((0, SWAP, sent, 0) for sent in twos)


def plain_steps(w):
    return tuple((1, a) for a in w)


def sent_by(step):
    return step[2] if step[0] == 0 else step[1:]


def received_by(step):
    if step[0] == 1:
        return step[1:]
    _, kind, sent, replacement = step
    return {LOSS: (), CORRUPTION: (replacement,), REPEAT: sent + sent, SWAP: sent[::-1]}[kind]


# ---- the first witness
# A test of the sent and the received reading says what a witness is.


def differ(sent, received):
    """The test of a fault question."""
    return sent != received


def misread(verdict):
    """The test of the question whether a verdict can be trusted: it is received, and another was sent."""
    return lambda sent, received: received == verdict != sent


def first_traces(b):
    """Each state reached, with the first of the shortest traces that lead to it."""
    first, todo = {b[2]: ()}, [b[2]]
    for q in todo:
        for a, p in enumerate(successors(b, q)):
            if p not in first:
                first[p] = first[q] + (a,)
                todo.append(p)
    return first


def nearest(b, told):
    """Each pair of states that some messages lead to one of the pairs told, with the fewest that do."""
    into = collections.defaultdict(list)
    for pair in itertools.product(range(b[0]), repeat=2):
        for after in zip(*(successors(b, q) for q in pair)):
            into[after].append(pair)
    far, todo = dict.fromkeys(told, 0), list(told)
    for after in todo:
        for pair in into[after]:
            if pair not in far:
                far[pair] = far[after] + 1
                todo.append(pair)
    return far


def first_rest(b, far, pair):
    """The first of the shortest traces that lead a pair to one of those told."""
    rest = []
    while far[pair]:
        every = enumerate(zip(*(successors(b, q) for q in pair)))
        a, pair = next((a, after) for a, after in every if far.get(after) == far[pair] - 1)
        rest.append(a)
    return rest


def first_witnesses(b, d, test):
    """The first witness of each kind that has any: the first of those by each fault step at each state reached."""
    reads = [reading(b, d, q) for q in range(b[0])]
    far = nearest(b, [pair for pair in itertools.product(range(b[0]), repeat=2) if test(*(reads[q] for q in pair))])
    first = {}
    for (q, before), fault in itertools.product(first_traces(b).items(), fault_steps(b[1])):
        pair = run(b, q, sent_by(fault)), run(b, q, received_by(fault))
        if pair in far:
            kind, length = fault[1], len(before) + len(sent_by(fault)) + far[pair]
            if kind not in first or length <= first[kind][0]:
                witness = length, plain_steps(before) + (fault,) + plain_steps(first_rest(b, far, pair))
                first[kind] = min(first.get(kind, witness), witness)
    return first


def first_of(first, faults):
    """The first witness of a set, from those of the kinds; None if there is none."""
    return min((witness for kind, witness in first.items() if kind & faults), default=None)


# ---- proofs of immunity, and the states that are never told apart
# A proof gives each state the number of a block.


@functools.lru_cache(256)
def kept_readings(b, d):
    return [reading(b, d, q) for q in range(b[0])]


def all_readings(b, d):
    """The reading of each state."""
    return kept_readings(bytes(b), d)


@of_body
def struck(b):
    """By each kind of fault, a state reached before the fault step with the sent and the received state behind it."""
    every = itertools.product(reach(b, b[2]), fault_steps(b[1]))
    return {(fault[1], q, run(b, q, sent_by(fault)), run(b, q, received_by(fault))) for q, fault in every}


def disagreeing(blocks, values):
    """The states whose value is not that of some lower state of their block, in rising order."""
    return [q for q in range(len(blocks)) if any(blocks[p] == blocks[q] and values[p] != values[q] for p in range(q))]


def faulty_states(b, faults, d, blocks):
    """Of questions 15 to 18 on a proof of n blocks the number, with the states at fault."""
    yield 15, [q for q, block in enumerate(blocks) if block >= b[0]]
    yield 16, disagreeing(blocks, all_readings(b, d))
    yield 17, disagreeing(blocks, [[blocks[p] for p in successors(b, q)] for q in range(b[0])])
    yield 18, [q for kind, q, *behind in struck(b) if kind & faults and len({blocks[p] for p in behind}) > 1]


def proof_refusal(b, faults, d, blocks):
    """The refusal (number, place) of a proof, or None."""
    no = fault_refusal(b, faults, d)
    no = no or (None if len(blocks) == b[0] else (14, len(blocks)))
    return no or next(((no, min(at)) for no, at in faulty_states(b, faults, d, blocks) if at), None)


def never_told_apart(b, d):
    """For each state the lowest that no trace tells apart from it. States are alike that read alike; of these, those
    that each message leads to states alike; and so on until no more are told apart."""
    alike = all_readings(b, d)
    while True:
        looks = [(alike[q], *(alike[p] for p in successors(b, q))) for q in range(b[0])]
        finer = [looks.index(look) for look in looks]
        if finer == alike:
            return finer
        alike = finer


# ---- printed answers


def refusal(no):
    return f"refused {no[0]} {no[1]}"


def listed(area):
    return "".join(f" {x}" for x in area)


def fault_refusal(b, faults, d, verdict=0):
    """The refusal (number, place) of a fault question, or of a verdict asked about, but for its room; or None."""
    no = judge(b)
    no = no or (None if faults <= 15 else (9, 0))
    no = no or (None if d in READINGS else (10, 0))
    return no or (None if verdict < d else (19, 0))


def finding(b, d, w, room, words, marks=settled):
    """A witness or none, and then the whole area, in which every byte is 255 before."""
    area = [255] * room
    if w is None:
        return words[0] + listed(area)
    distance, steps = w
    if room < distance:
        return refusal((13, 0)) + listed(area)
    sent, received = ([a for step in steps for a in side(step)] for side in (sent_by, received_by))
    area[:distance] = sent
    before = next(i for i, step in enumerate(steps) if step[0] == 0)
    _, kind, _, replacement = steps[before]
    readings = " ".join(str(reading(b, d, run(b, b[2], trace), marks)) for trace in (sent, received))
    figures = f"distance {distance} before {before} kind {kind} replacement {replacement} readings {readings}"
    return f"{words[1]} {figures} counts {count(b, sent, marks)} {count(b, received, marks)}" + listed(area)


def card(b, first, marks=settled):
    """The listing's line without the rule number, from the first witness of each kind under reading 3."""
    distances = [str(first[kind][0]) if kind in first else "-" for kind in KINDS]
    return " ".join([str(b[0]), monitorability(b, marks), *distances])


def ask_trust(b, faults, d, verdict, room, w=None, marks=settled):
    """The question whether a verdict can be trusted, with its answer: that of the witness, if it is not refused."""
    no = fault_refusal(b, faults, d, verdict)
    answer = refusal(no) + listed([255] * room) if no else finding(b, d, w, room, TRUST, marks)
    return [7, faults, d, verdict, *divmod(room, 256)[::-1], *b], answer


def ask_proof(b, faults, d, blocks, refuse=proof_refusal):
    """The question whether a proof is accepted, with its answer."""
    no = refuse(b, faults, d, blocks)
    return [8, faults, d, len(blocks), *blocks, *b], refusal(no) if no else "accepted"


def ask_blocks(b, d, room, find=never_told_apart):
    """The question which states are never told apart, with its answer and the whole area."""
    no = judge(b)
    no = no or (None if d in READINGS else (10, 0))
    no = no or (None if b[0] <= room else (13, 0))
    area = [] if no else find(b, d)
    answer = refusal(no) if no else f"written {b[0]}"
    return [9, d, room, 0, *b], answer + listed([*area, *[255] * (room - len(area))])


# ---- the comparison


def answers(frames):
    """What the program answers to each frame: together they have at most as many bytes as it takes."""
    framed = b"".join(len(frame).to_bytes(2, "little") + bytes(frame) for frame in frames)
    out = subprocess.run([PROBE], input=framed, stdout=subprocess.PIPE, check=True).stdout.decode().split("\n")
    assert out.pop() == "" and len(out) == len(frames), "a line for each question"
    return out


def batches(questions):
    """The questions, whose first part is a frame, in lists of which the program takes the frames at once."""
    batch, size = [], 0
    for question in questions:
        if size + len(question[0]) + 2 > BATCH:
            yield batch
            batch, size = [], 0
        batch.append(question)
        size += len(question[0]) + 2
    yield batch


def compare(questions):
    """Asks the program each question, a frame with the answer expected. Returns how many they were, or ends at the
    first difference."""
    total = 0
    for batch in batches(questions):
        for (frame, expected), got in zip(batch, answers([frame for frame, _ in batch])):
            if got != expected:
                sys.exit(f"question (call, three numbers, bytes) {bytes(frame).hex(' ')}\n"
                         f"  expected {expected}\n  got      {got}")
        total += len(batch)
    return total
