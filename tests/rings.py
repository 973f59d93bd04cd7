"""Tables of which a verdict is misread only after very many messages, by one fault and at one place."""


def rings(one, two):
    """Two rings of states, of these even lengths: the start, the marks and the rows of a table of 4 messages.

    The first message is 3: it leads to the start of ring one, and once more to the start of ring two. Messages 0 and 1
    in turn lead along a ring, and one that comes twice leads no farther. Message 2 decides: true in ring one but at its
    last place, and in ring two at its last place alone. So under repeat (set 4) true (reading 3, verdict 1) is received
    where it was not sent only once both rings are at their last place, and the distance is the least common multiple of
    the two lengths and one more: 61 for 10 and 12, a table of 25 states, 421 for 28 and 30, one of 61 states, 1013 for
    44 and 46, one of 93, and 1915 for 58 and 66, one of 127, which is the most that 128 states have room for."""
    true, false, first, second = 1, 2, 3, 3 + one
    rows = [[false, false, false, first], [true] * 4, [false] * 4]
    for begin, length in ((first, one), (second, two)):
        for place in range(length):
            state, on = begin + place, begin + (place + 1) % length
            decided = true if (place == length - 1) == (begin == second) else false
            rows.append([state if place % 2 else on, on if place % 2 else state, decided, false])
    rows[first][3] = second
    return 0, [0, 1, 2] + [0] * (one + two), rows
