#!/usr/bin/env python3
"""Looks in the code of all crates for divisions and remainders, and for the shifts and masks that could stand for one.
There are those named here and no others: none by the number of states or by the square's width.
"""
import pathlib
import re
import sys

ROOT = pathlib.Path(__file__).resolve().parent.parent
# Of each file that has any, the operators with what follows them.
WANTED = {
    "crates/faults/src/lib.rt": [">> rank", "& 1"],
    "crates/pack/src/main.rt": ["% 2", "/ 2"],
    "crates/state_set/src/lib.rt": [">> q", "& 1", ">> q", "& 1"],
}

# What is no code, or code that is never run: comments, texts and single characters, and contracts, from their word to the
# end of their braces.
NO_CODE = re.compile(r"//[^\n]*|b?\"(?:\\.|[^\"\\])*\"|b?'(?:\\.|[^'\\])'", re.S)
CONTRACT = re.compile(r"\b(?:requires|ensures|ghost)\b[^{};]*[{;]")
# An operator with what follows it, a mask that is a number or a constant, a call of a function that divides.
DIVISION = re.compile(r"(/|%|>>)=?[\s(]*([^\s(),;]*)|(?<!&)(&)=?[\s(]*([0-9]\w*|[A-Z][A-Z_]+\b)|(?:\.|::)(\w*(?:div|rem_|multiple_of)\w*)\b")


def without_contracts(code):
    """The text with each contract and each ghost item left out; a brace in one ends it only with all that it opens."""
    kept, at = [], 0
    while match := CONTRACT.search(code, at):
        kept.append(code[at:match.start()])
        at, depth = match.end(), match.group().count("{")
        while depth and at < len(code):
            depth += {"{": 1, "}": -1}.get(code[at], 0)
            at += 1
    return " ".join([*kept, code[at:]])


def divisions(code):
    """What is found in a text, in order."""
    return [" ".join(filter(None, parts)) for parts in DIVISION.findall(without_contracts(NO_CODE.sub(" ", code)))]


def main():
    tried = """ghost use a.{◌/◌, ◌%◌};
fn f(i: usize, n: usize) -> usize
    requires { 0 < n }
    ensures whole { OnOk result (λ r. { p = r / n; q = r % n }) }
{ p = i / n; q %= (\n  LIMIT); // a / b\nr = usize::rem_euclid(i, n); s = i >> 6 & 63; t = i / *n; u(&mut b"/"); }"""
    if (came := divisions(tried)) != ["/ n", "% LIMIT", "rem_euclid", ">> 6", "& 63", "/ *n"]:
        sys.exit(f"divisions: in {tried!r} are found {came}")
    files = sorted(ROOT.glob("crates/*/src/**/*.rt"))
    found = {str(path.relative_to(ROOT)): divisions(path.read_text()) for path in files}
    if (came := {name: parts for name, parts in found.items() if parts}) != WANTED:
        sys.exit(f"divisions: wanted {WANTED}, came {came}")
    print(f"divisions: {sum(map(len, WANTED.values()))} operators in {len(files)} files of code, each as named")


main()
