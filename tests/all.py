#!/usr/bin/env python3
"""Runs all tests on the built programs, two at a time, and prints what each of them prints, in the order below. The
first that fails ends the run.

    python3 tests/all.py [CLOSING LINE OF THE GATE]
"""
import concurrent.futures
import pathlib
import shlex
import subprocess
import sys

ROOT = pathlib.Path(__file__).resolve().parent.parent
# The longest stand first, so that the two ends of the work meet. What brute.py prints is stored.
TESTS = [
    "python3 -B tests/memory.py",
    "python3 tests/compare.py",
    "set -o pipefail; python3 tests/brute.py | diff tests/brute.expected - && cat tests/brute.expected",
    "python3 -B tests/hostile.py",
    "python3 -B tests/check_reference.py",
    "python3 -B tests/settled.py",
    "python3 -B tests/proofs.py",
    "python3 -B tests/limits.py",
    "python3 -B tests/failures.py",
    "python3 tests/readme.py {closing}",
    "python3 tests/setup.py",
    "python3 -B tests/published.py",
    "python3 tests/divisions.py",
    "python3 samples/make.py --check",
]


def run(test):
    done = subprocess.run(["bash", "-c", test], cwd=ROOT, stdin=subprocess.DEVNULL,
                          stdout=subprocess.PIPE, stderr=subprocess.STDOUT, text=True)
    return done.returncode, done.stdout


def main():
    closing = shlex.quote(sys.argv[1]) if len(sys.argv) > 1 else ""
    with concurrent.futures.ThreadPoolExecutor(max_workers=2) as pool:
        running = [(test, pool.submit(run, test.format(closing=closing))) for test in TESTS]
        for test, done in running:
            status, said = done.result()
            print(said, end="", flush=True)
            if status != 0:
                pool.shutdown(cancel_futures=True)
                sys.exit(f"tests: {test} ends with status {status}")


main()
