#!/usr/bin/env python3
"""Writes the sample collection: rules of a playout system, each here because it shows something; and a sample trace.

    python3 samples/make.py            writes samples/sample.collection, the same bytes as the input of the program `card`;
                                       samples/sound.collection, which is the sample without its rule at fault; and
                                       samples/hour.trace
    python3 samples/make.py --check    says whether these files are what this script writes

A rule has its number, its messages, and its states in order, the start first. A state has its mark and, for each message in order,
the state it steps to; a single one stands for all messages.
"""
import pathlib
import sys

ROOT = pathlib.Path(__file__).resolve().parent.parent
COLLECTIONS = [ROOT / "samples/sample.collection", ROOT / "crates/card/stdin"]
SOUND = ROOT / "samples/sound.collection"
TRACE = ROOT / "samples/hour.trace"
NOT_YET, TRUE, FALSE = 0, 1, 2


def table(messages, states):
    """The bytes of a table whose start is its first state."""
    k, names = len(messages.split()), list(states)
    body = [len(names), k, 0] + [mark for mark, _ in states.values()]
    for _, nexts in states.values():
        row = nexts.split()
        body += [names.index(name) for name in (row * k if len(row) == 1 else row)]
    return bytes(body)


RULES = {}

# Table A. An alarm was raised, at least once. A loss or a corruption can hide the alarm; a second copy or another order cannot.
RULES[3] = table("quiet alarm", {
    "waiting": (NOT_YET, "waiting raised"),
    "raised": (TRUE, "raised"),
})

# Table B. The signal never drops. As rule 3 with the verdicts exchanged: only false can be found.
RULES[8] = table("drop signal", {
    "watching": (NOT_YET, "dropped watching"),
    "dropped": (FALSE, "dropped"),
})

# Table C. Standby until on air: the first message that is not standby decides. The order counts and not how often, so a swap does harm and a
# repeat does none.
RULES[12] = table("off standby air test", {
    "standby": (NOT_YET, "missed standby aired aired"),
    "aired": (TRUE, "aired"),
    "missed": (FALSE, "missed"),
})

# Table D. The channel answers again and again. No finite trace settles that, so the rule never says more than not yet and no fault can change it.
RULES[17] = table("pause answer", {
    "listening": (NOT_YET, "listening"),
})

# Main and spare answer in turn. The two states expect different messages, but they read alike for ever: immune, although a fault leads to the wrong state.
RULES[19] = table("main spare", {
    "main": (NOT_YET, "spare main"),
    "spare": (NOT_YET, "spare main"),
})

# Table E. Two alarms in a row. The smallest rule here that all four faults harm; one repeat makes two alarms of one.
RULES[20] = table("quiet alarm", {
    "none": (NOT_YET, "none one"),
    "one": (NOT_YET, "none two"),
    "two": (TRUE, "two"),
})

# Table G. The first message names the side, main or spare, and another of the same kind confirms it. A corrupted first message is seen at once
# by classes, since one verdict only is left; by marks it is seen when that verdict comes.
RULES[26] = table("spare main", {
    "open": (NOT_YET, "spare main"),
    "main": (NOT_YET, "main main-sure"),
    "main-sure": (TRUE, "main-sure"),
    "spare": (NOT_YET, "spare-sure spare"),
    "spare-sure": (FALSE, "spare-sure"),
})

# Table H. Any message at all. The only message makes it true, so true is settled at the start: nothing can be told apart, and the rule is immune
# to every fault.
RULES[31] = table("message", {
    "dead": (NOT_YET, "alive"),
    "alive": (TRUE, "alive"),
})

# A countdown. While idle it can be held, started or aborted; once started nothing can stop it. So three, two and one are drawn not yet and count as
# true already, and closing counts as false.
RULES[35] = table("hold go abort", {
    "idle": (NOT_YET, "idle three closing"),
    "three": (NOT_YET, "two"),
    "two": (NOT_YET, "one"),
    "one": (NOT_YET, "zero"),
    "zero": (TRUE, "zero"),
    "closing": (NOT_YET, "closed"),
    "closed": (FALSE, "closed"),
})

# Three messages of any kind. What they are does not count, so true is settled from the start: the rule is immune, although it is drawn not yet for
# three messages. A rule that no corruption harms depends on the number of messages alone, so a verdict that it can find is settled at the start,
# and where it can find none it reads alike for ever. Either way no other fault harms it: every rule that is harmed at all is harmed by corruption.
# It is harmed by loss as well, since losses lead from every trace to the empty one.
RULES[40] = table("low high", {
    "none": (NOT_YET, "one"),
    "one": (NOT_YET, "two"),
    "two": (NOT_YET, "three"),
    "three": (TRUE, "three"),
})

# Ten alarms, with anything in between. A chain: a fault shows only at its end. The order does not count, so swap does no harm.
RULES[44] = table("quiet alarm", {
    **{str(i): (NOT_YET, f"{i} {i + 1}") for i in range(10)},
    "10": (TRUE, "10"),
})

# After thirty silences in a row the channel counts as failed; any sound starts the count again. A chain where the order counts: swap does harm as well.
RULES[47] = table("silence sound", {
    **{str(i): (NOT_YET, f"{i + 1} 0") for i in range(30)},
    "30": (FALSE, "30"),
})

# A check that can be switched off by hand. At the start both verdicts can still be found, but once off there is none to find: the rule is none.
RULES[52] = table("pass fail hand", {
    "checking": (NOT_YET, "passed failed off"),
    "passed": (TRUE, "passed"),
    "failed": (FALSE, "failed"),
    "off": (NOT_YET, "off"),
})

# Drawn with the wrong start: true from the beginning. The states that are not reached do not count, not even the ugly one: the rule is pos,
# and immune although its states read differently.
RULES[57] = table("quiet alarm", {
    "raised": (TRUE, "raised"),
    "waiting": (NOT_YET, "waiting raised"),
    "broken": (FALSE, "broken"),
    "lost": (NOT_YET, "lost"),
})

# The largest table here, 64 states and 16 messages. The first 31 messages are not looked at; then the sixteen slots must come in order, twice, and a
# wrong one starts them again. The longest traces here: corruption and swap do harm only near the slots, loss and repeat from the first message on.
SLOTS = 16
RULES[64] = table(" ".join(f"slot-{m}" for m in range(SLOTS)), {
    **{f"early-{i}": (NOT_YET, f"early-{i + 1}" if i < 30 else "turn-0") for i in range(31)},
    **{f"turn-{i}": (NOT_YET, " ".join(f"turn-{i + 1}" if m == i % SLOTS else "turn-0" for m in range(SLOTS))) for i in range(32)},
    "turn-32": (TRUE, "turn-32"),
})

# At fault: an alarm that clears itself. A verdict stays for ever, so the step from raised back to waiting is refused.
RULES[70] = table("quiet alarm", {
    "waiting": (NOT_YET, "waiting raised"),
    "raised": (TRUE, "waiting raised"),
})
AT_FAULT = [70]


def collection(rules):
    """The contents, eight bytes for each rule by rising number, and then the bodies."""
    contents, bodies, offset = len(rules).to_bytes(2, "little"), b"", 2 + 8 * len(rules)
    for number in sorted(rules):
        contents += offset.to_bytes(4, "little") + len(rules[number]).to_bytes(2, "little") + number.to_bytes(2, "little")
        bodies += rules[number]
        offset += len(rules[number])
    return contents + bodies


def hour():
    """The messages of an hour, one a second, for rule 20: a 1 every seventh second, and two in a row only as messages 2417 and 2418."""
    return bytes(1 if i % 7 == 0 or i in (2417, 2418) else 0 for i in range(1, 3601))


def main():
    sound = collection({number: body for number, body in RULES.items() if number not in AT_FAULT})
    made = {**dict.fromkeys(COLLECTIONS, collection(RULES)), SOUND: sound, TRACE: hour()}
    if sys.argv[1:] == ["--check"]:
        stale = [str(file.relative_to(ROOT)) for file, data in made.items() if not file.exists() or file.read_bytes() != data]
        if stale:
            sys.exit("not what samples/make.py writes: " + ", ".join(stale))
        print(f"samples: {len(RULES)} rules, {len(collection(RULES))} bytes, {len(sound)} of them in accepted rules, and a trace "
              f"of {len(hour())} messages, as written")
    elif sys.argv[1:]:
        sys.exit("usage: python3 samples/make.py [--check]")
    else:
        for file, data in made.items():
            file.write_bytes(data)


if __name__ == "__main__":
    main()
