"""Compares the programs `ask`, `listing` and `pack` with reference.py on valid, damaged and hostile inputs.

Run from the repository's root: python3 tests/hostile.py [FOLDER OF THE PROGRAMS]. The inputs are the same in each
run. The first difference is printed with its command and input, and the run fails.
"""

import multiprocessing
import os
import random
import re
import subprocess
import sys

import reference
from inputs import GROUPS
from reference import INPUT_LIMIT, MONITORABILITY, Refused

PROGRAMS = sys.argv[1] if len(sys.argv) > 1 else os.path.join("target", "bin")


# ---- what the programs must answer -----------------------------------------------------------------------

def number(word):
    """A decimal number; beyond 20 digits its first 21 say enough: it is too large for everything asked."""
    return int((word.lstrip("0") or "0")[:21])


# The greatest number of messages in a trace, and of blocks in a proof.
LISTED_LIMIT = 262144

# The greatest length of a list of rule numbers or body lengths, and the most bytes of the bodies that `pack` takes.
LIST_LIMIT = 1024
BODIES_LIMIT = 65535

# How many numbers follow the word of a form; and of a form that ends with a list, how many stand before the list.
COUNTS = {"judge": 0, "classes": 1, "step": 3, "fault": 3, "trust": 4, "blocks": 1}
LISTS = {"trace": 1, "proof": 2}

# The words of each refusal, which tests/readme.py compares with those of `ask why`.
with open("docs/FORMAT.md", encoding="utf-8") as format_text:
    REASONS = dict(re.findall(r"^\| (\d+) \| ([^|]+) \| [^|]+ \|$", format_text.read(), re.M))


def are_numbers(words):
    return all(re.fullmatch("[0-9]+", word) for word in words)


def list_of(words):
    """The words of the list with which a form ends."""
    return words[1 + LISTS[words[0]]:]


def named_file(words):
    """The file that a form names in place of a list, None if it does not."""
    listed = list_of(words) if words and words[0] in LISTS else []
    return listed[0][1:] if len(listed) == 1 and listed[0].startswith("@") and listed[0] != "@" else None


def is_form(words):
    """Whether the words are a question that can be asked of a body."""
    if named_file(words) is not None:
        words = words[:-1]
    command, numbers = (words or [""])[0], words[1:]
    right_count = len(numbers) >= LISTS[command] if command in LISTS else COUNTS.get(command) == len(numbers)
    return right_count and are_numbers(numbers)


class Unreadable(Exception):
    """A file that is not read, or a list that is too long: what standard error must say of it."""


def listed_numbers(words):
    """The messages of a trace or the blocks of a proof; none of a form without a list."""
    if words[0] not in LISTS:
        return []
    name = named_file(words)
    if name is None:
        return [number(word) for word in list_of(words)]
    try:
        with open(name, "rb") as file:
            listed = list(file.read())
    except OSError as error:
        raise Unreadable(f"ask: {name}: {os.strerror(error.errno)}\n")
    if len(listed) > LISTED_LIMIT:
        raise Unreadable(f"ask: {name}: more than {LISTED_LIMIT} bytes\n")
    return listed


def counted(count):
    return "never" if count is None else str(count)


def witness_answer(w, without, found):
    """A witness, or none, behind the word for it."""
    if w is None:
        return without
    return (f"{found} distance {w.distance} before {w.before} kind {w.kind} replacement {w.replacement} "
            f"readings {w.sent_reading} {w.received_reading} sent {' '.join(map(str, w.sent))} "
            f"counts {counted(w.sent_count)} {counted(w.received_count)}")


def form_answer(words, body):
    """The answer to a question of a body, without the line's end."""
    command = words[0]
    if command == "trace":
        answer = reference.trace(body, number(words[1]), listed_numbers(words))
        return f"reading {answer.reading} count {counted(answer.count)}"
    if command == "proof":
        reference.proof(body, number(words[1]), number(words[2]), listed_numbers(words))
        return "accepted"
    numbers = [number(word) for word in words[1:]]
    if command == "judge":
        reference.judge(body)
        return "accepted"
    if command == "classes":
        answer = reference.classes(body, *numbers)
        listed = " ".join(map(str, answer.classes))
        return f"monitorability {MONITORABILITY[answer.monitorability]} reached {answer.reached} classes {listed}"
    if command == "blocks":
        return " ".join(["blocks", *map(str, reference.blocks(body, *numbers))])
    if command == "step":
        return "state {} reading {}".format(*reference.step(body, *numbers))
    if command == "trust":
        return witness_answer(reference.trust(body, *numbers), "yes", "no")
    return witness_answer(reference.fault(body, *numbers), "immune", "vulnerable")


def two_bytes(words):
    return are_numbers(words) and all(number(word) < 65536 for word in words)


def lists_of(words):
    """The rule numbers and the body lengths of a collection to be written, as words."""
    slash = words.index("/", 2)
    return words[2:slash], words[slash + 1:]


def ask_answer(words, data):
    """The answer of `ask` to a question, without the line's end."""
    if words[0] == "write":
        rules, lengths = ([number(word) for word in listed] for listed in lists_of(words))
        file = reference.write_collection(rules, lengths, data, number(words[1]))
        return f"written {len(file)} bytes {' '.join(map(str, file))}"
    if words[0] == "body":
        body = reference.body_of(data, number(words[1]))
        return "absent" if body is None else " ".join(["body", *map(str, body)])
    if words == ["collection"]:
        return f"accepted {reference.judge_collection(data)}"
    if words[:1] == ["rule"]:
        body = reference.body_of(data, number(words[1]))
        return "absent" if body is None else form_answer(words[2:], body)
    return form_answer(words, data)


def is_question(words):
    if words[:1] == ["write"]:
        if not are_numbers(words[1:2]) or "/" not in words[2:]:
            return False
        if any(len(listed) > LIST_LIMIT for listed in lists_of(words)):
            raise Unreadable(f"ask: more than {LIST_LIMIT} numbers in a list\n")
        return all(map(two_bytes, lists_of(words)))
    if words[:1] == ["body"]:
        return len(words) == 2 and are_numbers(words[1:])
    if words[:1] == ["rule"]:
        return are_numbers(words[1:2]) and is_form(words[2:])
    return words == ["collection"] or is_form(words)


def read_bodies(names):
    """The bodies of these files."""
    bodies = []
    for name in names:
        try:
            with open(name, "rb") as file:
                bodies.append(file.read())
        except OSError as error:
            raise Unreadable(f"pack: {name}: {os.strerror(error.errno)}\n")
        if sum(map(len, bodies)) > BODIES_LIMIT:
            raise Unreadable(f"pack: {name}: the bodies up to this one have more than {BODIES_LIMIT} bytes\n")
    return bodies


def pack_expected(words):
    """The same for `pack`, which looks at one rule more than a collection can have."""
    rules, names = words[0:2 * 513:2], words[1:2 * 513:2]
    if not words or len(words) % 2 or not two_bytes(rules):
        return "", "usage: pack "
    try:
        bodies = read_bodies(names)
        file = reference.write_collection([number(rule) for rule in rules], [len(body) for body in bodies],
                                          b"".join(bodies), INPUT_LIMIT)
        return file.decode("latin-1"), ""
    except Unreadable as error:
        return "", str(error)
    except Refused as no:
        named = f": {names[no.place]}" if no.number in (1, 2, 3, 4, 5, 6, 7, 8, 23) else ""
        return "", f"pack: refused {no.number} {no.place}{named}: {REASONS[str(no.number)]}\n"


BELIEVE = "    believe:      "


def believe_lines(data):
    """The lines of cards that say which marks can be believed: four for each accepted body."""
    lines = []
    for _, body in reference.read_collection(data):
        try:
            reference.read_table(body)
        except Refused:
            continue
        for faults in (1, 2, 4, 8):
            said = ["no" if reference.trust(body, faults, 3, mark, 20000) else "yes" for mark in (1, 2, 0)]
            lines.append(BELIEVE + "true {}, false {}, not yet {}\n".format(*said))
    return "".join(lines)


def expected(program, words, data):
    """What the program must write to standard output and to standard error, of a card the believe lines alone. The usage
    is told by its beginning."""
    if program == "card":
        return believe_lines(data), ""
    if program == "listing":
        return reference.listing(data), ""
    if program == "pack":
        return pack_expected(words)
    try:
        if not is_question(words):
            return "", "usage: ask "
        listed_numbers(words[2:] if words[0] == "rule" else words)
        reference.question(len(data) <= INPUT_LIMIT, 26, 0)
        return ask_answer(words, data) + "\n", ""
    except Unreadable as error:
        return "", str(error)
    except Refused as no:
        return f"refused {no.number} {no.place}\n", ""


# ---- the comparison --------------------------------------------------------------------------------------

def run(program, words, data):
    """What the program wrote to standard output and standard error, as text."""
    try:
        done = subprocess.run([os.path.join(PROGRAMS, program), *words], input=data, capture_output=True, timeout=60)
    except subprocess.TimeoutExpired:
        return "(no end within 60 seconds)", ""
    died = f"(exit status {done.returncode})" if done.returncode != 0 else ""
    return done.stdout.decode("latin-1") + died, done.stderr.decode("latin-1")


def compare(case):
    """The count of answers compared (in a listing one for each entry) and the first difference, or None."""
    program, words, data = case
    wanted, wanted_error = expected(program, words, data)
    out, err = run(program, words, data)
    if program == "card":
        out = "".join(line for line in out.splitlines(True) if line.startswith(BELIEVE))
    if wanted_error.startswith("usage: "):
        told = err.startswith(wanted_error) and err.endswith("\n") and err.count("\n") == 1
    else:
        told = err == wanted_error
    if out == wanted and told:
        return max(1, wanted.count("\n") - 1) if program == "listing" else 1, None
    return 0, (f"command: {program} {' '.join(words)}\n{files_of(program, words)}{differing_entry(data, wanted, out)}"
               f"input ({len(data)} bytes): {data.hex()}\nexpected: {wanted}(standard error: {wanted_error})\n"
               f"came: {out}(standard error: {err})")


def files_of(program, words):
    """For `pack`: the files that it was given, which are its input."""
    if program != "pack":
        return ""
    held = []
    for name in words[1::2]:
        if os.path.isfile(name):
            with open(name, "rb") as file:
                held.append(f"file {name}: {file.read().hex()}\n")
    return "".join(held)


def differing_entry(data, wanted, came):
    """For a listing: the first line that differs, and its body."""
    for i, (one, other) in enumerate(zip(wanted.splitlines(), came.splitlines())):
        if one != other and i > 0 and wanted.startswith(reference.HEADER):
            body = reference.read_collection(data)[i - 1][1]
            return f"entry {i - 1}: expected {one}, came {other}, body: {body.hex()}\n"
    return ""


def main():
    for program in ("ask", "card", "listing", "pack"):
        if not os.access(os.path.join(PROGRAMS, program), os.X_OK):
            sys.exit(f"hostile: {os.path.join(PROGRAMS, program)} is missing")
    total = 0
    with multiprocessing.Pool(2) as pool:
        for group in GROUPS:
            name = group.__name__.replace("_", " ")
            count = 0
            for compared, difference in pool.imap(compare, group(random.Random(name)), chunksize=4):
                if difference is not None:
                    sys.exit(f"hostile: difference in {name}\n{difference}")
                count += compared
            print(f"{name}: {count:,}", flush=True)
            total += count
    print(f"hostile: {total:,} comparisons, no difference")


if __name__ == "__main__":
    main()
