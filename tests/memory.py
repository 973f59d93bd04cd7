"""Runs `listing`, `card`, `ask` and `pack` under valgrind on the largest, shortest and most damaged inputs.

Run from the repository's root: python3 tests/memory.py [FOLDER OF THE PROGRAMS]. What the programs print is not looked
at here; each invalid read or write, and each decision on a value that was never set, is an error. The refusals are
also run with a full device as output.
"""

import os
import random
import re
import shutil
import subprocess
import sys
from concurrent.futures import ThreadPoolExecutor

from inputs import FILES, RINGS, ROOM, ask, kept, listing, longest_bodies, pack, stored, write
from tables import A, D, E, collection, damaged, in_a_row, late_repeat, random_table, settling, table

PROGRAMS = sys.argv[1] if len(sys.argv) > 1 else os.path.join("target", "bin")
LONG = "7" * 100000


def card(data, *words):
    return "card", [str(word) for word in words], data


def large_tables():
    """The longest accepted tables, the longest distances, and states that settle last."""
    rng = random.Random("memory")
    far, row = table(*late_repeat(128, 16)), table(*in_a_row(128, 16))
    last = [table(n - 1, [0] * n, [[n - 1] * 16] * n) for n in (1, 64, 65, 128)]
    for body in (far, random_table(rng, 64, 16), random_table(rng, 65, 16), random_table(rng, 128, 16), *last):
        yield ask(body, "judge")
        yield ask(body, "classes", 128)
    for area in (252, 253, ROOM):
        yield ask(far, "fault", 4, 3, area)
    for area in (127, 128):
        yield ask(row, "fault", 8, 6, area)
    for area in (0, 2**64 - 1, 2**64 + 3):
        yield ask(A, "fault", 2, 3, area)
    yield ask(far, "fault", 15, 6, ROOM)
    for body, distance in zip(RINGS, (61, 421, 443, 1915), strict=True):
        for area in (distance - 1, distance, ROOM, 2**64 - 1):
            yield ask(body, "trust", 4, 3, 1, area)
    for area in (0, 16514, 16515):
        yield ask(RINGS[-1], "trust", 15, 6, 5, area)
        yield ask(far, "trust", 15, 6, 0, area)
    yield ask(far, "step", 6, 127, 15)
    yield ask(far, "trace", 6, *[rng.randrange(16) for _ in range(10000)])
    yield ask(far, "trace", 3, *[0] * 9999, 16)
    for name, messages in (("none", []), ("most", [0] * 262143 + [15]), ("wrong", [0] * 262143 + [16]), ("longer", [0] * 262145)):
        yield ask(far, "trace", 6, stored(name, messages))
        yield ask(collection([(1, far)]), "rule", 1, "trace", 3, stored(name, messages))
        yield ask(far, "proof", 15, 6, stored(name, messages))
    for word in ("@", "@" + FILES.name, "@tests/none", "@" + LONG):
        yield ask(far, "trace", 3, word)
        yield ask(far, "proof", 15, 3, word)
    for body, reading in ((far, 3), (RINGS[-1], 6), (last[-1], 3)):
        yield ask(body, "blocks", reading)
        yield ask(body, "proof", 15, 6, *[body[0] - 1] * body[0])
        yield ask(body, "proof", 8, 3, stored(f"alone {body[0]}", range(body[0])))
    for blocks in ([127] * 129, [127] * 127 + [128], [127] * 127 + [255], [2**64 + 1] * 128, [0] * 300):
        yield ask(last[-1], "proof", 15, 3, *blocks)
    yield ask(collection([(1, far)]), "rule", 1, "proof", 0, 3, *range(128))
    for k, rising in ((1, True), (16, False)):
        body = table(*settling(128, k, 2, rising))
        yield ask(body, "classes", 128)
        yield ask(body, "fault", 15, 3, 0)
        yield ask(table(*settling(128, k, 2, rising, 64)), "trust", 15, 6, 1, ROOM)
    both = collection([(1, far), (65535, row)])
    yield listing(both)
    yield card(both)
    yield card(both, 1, 65535, 2)


def collections():
    """Many entries, and inputs around the limit of 65,536 bytes."""
    most = collection([(i, D) for i in range(511)] + [(65535, bytes(65536 - 2 - 8 * 512 - 6 * 511))])
    single = collection([(9, bytes(65526))])
    for data in (b"", b"\0\0", most, most + b"\0", single, b"\xff" * 65536, bytes(200000)):
        yield ask(data, "collection")
        yield listing(data)
        yield card(data)
    for words in (["judge"], ["classes", 128], ["step", 6, 0, 1], ["trace", 3, 0, 1], ["fault", 15, 6, ROOM],
                  ["trust", 15, 6, 5, ROOM]):
        for rule in (0, 510, 511, 65535, 65536):
            yield ask(most, "rule", rule, *words)
    for rule in (0, 65535):
        yield ask(most, "rule", rule, "proof", 15, 6, 0)
        yield ask(most, "rule", rule, "blocks", 6)
    for data in (b"", b"\0\0", most + b"\0", most[:-1], most[:4000], single, b"\xff" * 65536):
        yield ask(data, "rule", 9, "fault", 15, 6, ROOM)
    yield card(most, 65535, 0, 510, 511)
    yield card(most, *range(10000))


def refusals():
    """Every refusal of a body, a number, or a collection."""
    rng = random.Random("memory")
    body = random_table(rng, 6, 3, [0, 0, 1, 1, 2, 2])
    broken = [damaged(rng, body, (6, 3), question, "last") for question in range(1, 9)]
    yield from (ask(data, "judge") for data in broken)
    yield listing(collection(list(enumerate(broken))))
    yield card(collection(list(enumerate(broken))))
    for line in ("fault 16 3 9", "fault 1 4 9", "fault 3 3 0", "classes 5", "step 2 0 0", "step 3 6 0", "step 3 0 3",
                 "trace 3 0 3", "trace 7", "trust 16 3 0 9", "trust 1 4 0 9", "trust 1 3 3 9", "trust 15 3 0 0"):
        yield ask(body, *line.split())
    for line in ("proof 16 3 0 1", "proof 12 4 0 1", "proof 12 3 0", "proof 12 3", "proof 12 3 2 0", "proof 12 3 0 0",
                 "proof 1 3 0 1", "blocks 4"):
        yield ask(A, *line.split())
    yield ask(E, "proof", 8, 3, 0, 0, 1)
    sound = collection([(1, A), (2, A)])
    for data in (b"\1\2", sound[:17], collection([(2, A), (2, A)]), sound[:10] + b"\xff" + sound[11:], sound[:-1]):
        yield ask(data, "collection")
        yield card(data)


def written():
    """The largest file, areas that just hold it or do not, and every refusal of the writer, by `ask` and by `pack`."""
    rng = random.Random("memory")
    bodies = longest_bodies(rng)
    rules, lengths, joined = sorted(rng.sample(range(65536), 512)), [len(body) for body in bodies], b"".join(bodies)
    for area in (0, 1, 69633, 69634, 69635, 2**64 + 1):
        yield write(rules, lengths, joined, area)
    yield write([], [], b"", 2)
    yield write([], [], b"", 1)
    yield write(rules + [65535], lengths, joined, 100000)
    yield write(list(range(513)), lengths + [0], joined, 100000)
    yield write(rules[::-1], lengths, joined, 100000)
    yield write(rules, lengths, joined[:-1], 100000)
    yield write([1], [65535], bytes(65536), 100000)
    yield write(list(range(1024)), [0] * 1024, b"", 9)
    yield write(list(range(1025)), [0] * 1025, b"", 9)
    body = random_table(rng, 6, 3, [0, 0, 1, 1, 2, 2])
    broken = [damaged(rng, body, (6, 3), question, "last") for question in range(1, 9)]
    for wrong in broken:
        yield write([1, 2], [len(body), len(wrong)], body + wrong, 1000)
        yield pack(1, kept("sound", body), 2, kept(f"wrong {broken.index(wrong)}", wrong))
    names = [kept(f"body {i}", body) for i, body in enumerate(bodies)]
    full, half = kept("full", random_table(rng, 128, 16)), kept("half", random_table(rng, 64, 16))
    for last in (full, kept("fits", random_table(rng, 77, 12)), kept("exceeds", random_table(rng, 59, 16))):
        yield pack(*[word for rule in range(29) for word in (rule, full)], 29, half, 30, last)
    yield pack(*[word for rule in range(513) for word in (rule, names[-2])])
    yield pack(*[word for rule in range(600) for word in (rule, names[-2])])
    yield pack(2, names[0], 1, names[0])
    for size in (65535, 65536, 200000):
        yield pack(1, kept(f"long {size}", bytes(size)), 2, names[0])
    for words in ([], [1], ["--help"], [1, "tests/none"], [1, "tests"], [LONG, names[0]], [1, LONG], [65536, names[0]]):
        yield pack(*words)
    for rule in (1, 2, LONG):
        yield ask(collection([(1, body), (3, b"")]), "body", rule)


def arguments():
    """No arguments, wrong ones, and very long ones."""
    for words in ([], ["x"], [""], [LONG], ["classes"], ["classes", "-1"], ["classes", LONG], ["classes", LONG + "x"],
                  ["fault", LONG, LONG, LONG], ["fault", 8, 3, "0" * 100000], ["step", 3, LONG, LONG],
                  ["trace", 3, 0, LONG], ["--help"], ["why", 8], ["why", LONG], ["why"], ["rule"], ["rule", LONG],
                  ["rule", LONG, "judge"], ["rule", 1, LONG], ["rule", 1, "trace", 3, LONG], ["write"], ["write", 9],
                  ["write", 9, LONG, "/"], ["write", LONG, "/"], ["write", 9, "/", LONG], ["write", 9, "x", "/"],
                  ["body"], ["trust"], ["trust", 1, 3, 0], ["trust", 1, 3, 0, 9, 9], ["trust", LONG, LONG, LONG, LONG],
                  ["trust", 1, 3, LONG, 9], ["trust", 1, 3, 0, LONG], ["trust", 1, 3, "x", 9], ["proof"], ["proof", 1],
                  ["proof", LONG, LONG, LONG], ["proof", 12, 3, 0, LONG], ["proof", 12, 3, "x"],
                  ["proof", 12, 3, "0" * 100000, 1], ["blocks"], ["blocks", LONG], ["blocks", "x"]):
        yield ask(A, *words)
    yield "listing", ["--help"], A
    yield "listing", [LONG], A
    for words in ([LONG], ["0" * 100000 + "1"], ["x"], [""], ["-1"], [65536], [2**64 + 1], ["--help"]):
        yield card(collection([(1, A)]), *words)


def error_of(case, out=os.devnull):
    """None, or the command, the input and what valgrind said of it."""
    program, words, data = case
    command = ["valgrind", "--error-exitcode=9", "-q", os.path.join(PROGRAMS, program), *words]
    try:
        with open(out, "wb") as stdout:
            done = subprocess.run(command, input=data, stdout=stdout, stderr=subprocess.PIPE, timeout=120)
        status, said = done.returncode, done.stderr.decode("latin-1")
    except subprocess.TimeoutExpired:
        status, said = -1, "no end within 120 seconds"
    if 0 <= status < 126 and status != 9 and not re.search(r"^==\d+==", said, re.MULTILINE):
        return None
    return (f"command: {program} {' '.join(words)[:200]}\ninput ({len(data)} bytes): {data[:200].hex()}\n"
            f"status {status}: {said[:4000]}")


def main():
    if shutil.which("valgrind") is None:
        sys.exit("memory: valgrind is not installed")
    for program in ("ask", "card", "listing", "pack"):
        if not os.access(os.path.join(PROGRAMS, program), os.X_OK):
            sys.exit(f"memory: {os.path.join(PROGRAMS, program)} is missing")
    cases = [*large_tables(), *collections(), *refusals(), *written(), *arguments()]
    full = list(refusals())
    with ThreadPoolExecutor(2) as pool:
        runs = [*pool.map(error_of, cases), *pool.map(error_of, full, ["/dev/full"] * len(full))]
    errors = [error for error in runs if error is not None]
    if errors:
        sys.exit("\n".join(["memory: an error under valgrind", *errors]))
    print(f"memory: {len(runs)} runs under valgrind, {len(full)} of them with a full device, no error")


if __name__ == "__main__":
    main()
