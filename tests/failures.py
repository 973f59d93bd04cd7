"""What the programs do where the machine fails them: no room for output, nobody who reads it, input that cannot be
read, and a small stack.

Run from the repository's root: python3 tests/failures.py [FOLDER OF THE PROGRAMS].
"""

import os
import pty
import resource
import signal
import subprocess
import sys
import tempfile
import termios
import tty

from inputs import RINGS, ROOM, kept, stored
from tables import E, collection, in_a_row, late_repeat, table

PROGRAMS = sys.argv[1] if len(sys.argv) > 1 else os.path.join("target", "bin")
with open(os.path.join("samples", "sample.collection"), "rb") as sample:
    SAMPLE = sample.read()
LONGEST = [(1, table(*late_repeat(128, 16))), (2, table(*in_a_row(128, 16)))]
LARGE = collection(LONGEST + [(i, E) for i in range(3, 513)])

# The bodies of a collection to be written, one behind the other, and with files of their own.
WRITE = ["ask", "write", "100", "1", "2", "/", str(len(E)), str(len(E))]
PACK = ["pack", "1", kept("first", E), "2", kept("second", E)]

# A call of each program, and of `ask` one that reads no input, some that read a trace or a proof and one that writes.
CALLS = [(["listing"], SAMPLE), (["card"], SAMPLE), (["card", "20", "21"], SAMPLE), (["ask", "judge"], E),
         (["ask", "rule", "20", "fault", "8", "3", "3"], SAMPLE), (["ask", "trust", "4", "3", "1", "61"], RINGS[0]),
         (["ask", "trace", "3", "1", "1"], E),
         (["ask", "trace", "3", stored("hour", [0] * 262142 + [1, 1])], E),
         (["ask", "proof", "0", "3", "0", "1", "2"], E), (["ask", "blocks", "3"], E),
         (["ask", "proof", "15", "6", stored("long proof", [0] * 262144)], E),
         (["ask", "why", "8"], b""), (["listing", "--help"], b""), (["card", "--help"], b""), (["ask", "--help"], b""),
         (WRITE, E + E), (PACK, b""), (["pack", "--help"], b""),
         (["ask", "rule", "20", "proof", "12", "6", stored("proof", [0, 1, 2])], SAMPLE),
         (["ask", "rule", "20", "blocks", "6"], SAMPLE)]

# The greatest stack, in KiB, that a call may need: of `listing`; of `card` and most forms of `ask`, which hold the
# longest witness as well; and of the rest. For `ask trace`, `ask proof` and `ask write` the room for 262,144 bytes
# comes on top, and `pack` has the bodies and the collection beside each other.
STACK, WITNESS_STACK, WIDE_STACK = 256, 384, 512


def run(words, data, limits=None, **streams):
    """A call's exit status (below 0: the signal that ended it), standard output where it is a pipe, and standard error."""
    command = [os.path.join(PROGRAMS, words[0]), *words[1:]]
    streams = {"stdout": subprocess.PIPE, **streams}
    if "stdin" not in streams:
        streams["input"] = data
    done = subprocess.run(command, stderr=subprocess.PIPE, preexec_fn=limits, timeout=60, **streams)
    return done.returncode, done.stdout, done.stderr.decode()


def check(what, words, came, wanted):
    if came != wanted:
        sys.exit(f"failures: {' '.join(words)[:200]}, {what}: wanted {str(wanted)[:2000]}, came {str(came)[:2000]}")


def told(words, stream, reason):
    return f"{words[0]}: standard {stream}: {reason}\n"


def full_device():
    for words, data in CALLS:
        with open("/dev/full", "wb") as full:
            _, _, err = run(words, data, stdout=full)
        check("a full device", words, err, told(words, "output", "No space left on device"))


def full_after(size):
    """What was written before the room ended stands there, nothing comes behind it, and one line tells it."""
    def limits():
        signal.signal(signal.SIGXFSZ, signal.SIG_IGN)
        resource.setrlimit(resource.RLIMIT_FSIZE, (size, size))
    for words, data in CALLS:
        _, whole, _ = run(words, data)
        with tempfile.TemporaryFile() as file:
            _, _, err = run(words, data, limits, stdout=file)
            file.seek(0)
            check(f"room for {size} bytes", words, file.read(), whole[:size])
        failed = size < len(whole)
        check(f"room for {size} bytes", words, err, told(words, "output", "File too large") if failed else "")


def closed_pipe(ignored):
    """A reader that has gone, whether or not the signal for it is ignored where the program is started: the kit's library
    ignores it when a program begins."""
    for words, data in CALLS:
        reader, writer = os.pipe()
        os.close(reader)
        limits = (lambda: signal.signal(signal.SIGPIPE, signal.SIG_IGN)) if ignored else None
        status, _, err = run(words, data, limits, stdout=writer)
        os.close(writer)
        check("a closed pipe", words, (status < 0, err), (False, told(words, "output", "Broken pipe")))


def closed_output():
    for words, data in CALLS:
        _, _, err = run(words, data, lambda: os.close(1))
        check("no standard output", words, err, told(words, "output", "Bad file descriptor"))


def unreadable_input():
    """A folder as input, and no input at all. Nothing is answered."""
    for words, data in CALLS:
        if data:
            folder = os.open("tests", os.O_RDONLY)
            _, out, err = run(words, data, stdin=folder)
            os.close(folder)
            check("a folder as input", words, (out, err), (b"", told(words, "input", "Is a directory")))
            _, out, err = run(words, data, lambda: os.close(0), stdin=subprocess.DEVNULL)
            check("no standard input", words, (out, err), (b"", told(words, "input", "Bad file descriptor")))


def unreadable_file():
    """The file of a trace or a proof that is not there, that is a folder, that cannot be read, that is too long, and,
    unless this is root, who may read all, that the user may not read. Nothing is answered, and nothing is read of
    standard input."""
    locked = stored("locked", [1, 1])
    os.chmod(locked[1:], 0)
    longer = stored("longer", [0] * 262145)
    failing = [("@tests/none", "tests/none: No such file or directory"), ("@tests", "tests: Is a directory"),
               ("@/proc/self/mem", "/proc/self/mem: Input/output error"),
               (longer, f"{longer[1:]}: more than 262144 bytes")]
    if os.geteuid() != 0:
        failing.append((locked, f"{locked[1:]}: Permission denied"))
    for word, reason in failing:
        forms = ["trace", "3", word], ["proof", "12", "3", word]
        calls = [(["ask", *form], E) for form in forms] + [(["ask", "rule", "20", *form], SAMPLE) for form in forms]
        for words, data in calls:
            with tempfile.TemporaryFile() as file:
                file.write(data)
                file.seek(0)
                _, out, err = run(words, data, stdin=file)
                left_at = os.lseek(file.fileno(), 0, os.SEEK_CUR)
            check("a file that cannot be read", words, (out, err, left_at), (b"", f"ask: {reason}\n", 0))


def unreadable_body():
    """The same for the file of a body, at the first place and at the second."""
    longer = kept("longer body", bytes(65536))
    failing = [("tests/none", "No such file or directory"), ("tests", "Is a directory"), ("/proc/self/mem", "Input/output error"),
               (longer, "the bodies up to this one have more than 65535 bytes")]
    for name, reason in failing:
        for words in (["pack", "1", name, *PACK[3:]], [*PACK[:3], "2", name]):
            _, out, err = run(words, b"")
            check("a body that cannot be read", words, (out, err), (b"", f"pack: {name}: {reason}\n"))


def small_stack():
    """The same answers with a small stack as with any. The environment, which it holds too, is empty."""
    calls = CALLS + [(["listing"], LARGE), (["card"], LARGE), (["card", "x"], SAMPLE), (["ask"], E),
                     (["ask", "rule", "1", "fault", "4", "6", str(ROOM)], LARGE), (["ask", "collection"], LARGE),
                     (["ask", "trust", "4", "3", "1", "9" * 99], RINGS[-1]),
                     (["ask", "rule", "1", "trust", "15", "6", "5", str(ROOM)], LARGE),
                     (["ask", "rule", "512", "trace", "6", stored("longest", [0] * 262144)], LARGE),
                     (["ask", "rule", "512", "proof", "15", "6", stored("longest proof", [0] * 262144)], LARGE),
                     (["ask", "rule", "1", "proof", "0", "6", *map(str, range(128))], LARGE),
                     (["ask", "rule", "2", "proof", "15", "3", *["1"] * 999], LARGE),
                     (["ask", "proof", "15", "3", *map(str, range(127))], RINGS[-1]),
                     (["ask", "rule", "1", "blocks", "6"], LARGE), (["ask", "blocks", "3"], RINGS[-1]),
                     (["ask", "body", "1"], LARGE), (["ask", "write", "9" * 99, *["1"] * 513, "/", *["0"] * 512], LARGE),
                     (["ask", "write", "100000", *map(str, range(512)), "/", *["12"] * 512], E * 512),
                     (["pack", *[word for i in range(512) for word in (str(i), PACK[2])]], b""),
                     (["pack", *[word for i in range(513) for word in (str(i), PACK[2])]], b""),
                     (["ask", "classes", "9" * 9999], E), (["ask", "rule", "512", "trace", "3"] + ["1"] * 999, LARGE)]
    for words, data in calls:
        wide = words[0] == "pack" or {"trace", "proof", "write"} & set(words)
        kib = WIDE_STACK if wide else STACK if words[0] == "listing" else WITNESS_STACK

        def limits():
            resource.setrlimit(resource.RLIMIT_STACK, (kib * 1024, kib * 1024))
        check(f"a stack of {kib} KiB", words, run(words, data, limits, env={}), run(words, data))


def terminal():
    """An input typed at a terminal ends with one end-of-file key."""
    for words, typed in ((["ask", "collection"], "@@"), (["listing"], "@@"), (["card"], "@@")):
        manager, line = pty.openpty()
        tty.setraw(line)
        settings = termios.tcgetattr(line)
        settings[3] |= termios.ICANON
        termios.tcsetattr(line, termios.TCSANOW, settings)
        command = [os.path.join(PROGRAMS, words[0]), *words[1:]]
        with subprocess.Popen(command, stdin=line, stdout=subprocess.PIPE, stderr=subprocess.STDOUT) as program:
            os.write(manager, typed.encode() + b"\n" + bytes([termios.tcgetattr(line)[6][termios.VEOF][0]]))
            try:
                out = program.communicate(timeout=10)[0]
            except subprocess.TimeoutExpired:
                program.kill()
                sys.exit(f"failures: {' '.join(words)} does not end with its input at a terminal")
        os.close(manager)
        os.close(line)
        _, wanted, _ = run(words, typed.encode() + b"\n")
        check("a terminal", words, out, wanted)


full_device()
for room in (0, 1, 20, 300, 100000):
    full_after(room)
closed_pipe(True)
closed_pipe(False)
closed_output()
unreadable_input()
unreadable_file()
unreadable_body()
terminal()
small_stack()
print(f"failures: no room, closed pipes, unreadable input and files, a terminal, and stacks of {STACK}, "
      f"{WITNESS_STACK} and {WIDE_STACK} KiB are as said")
