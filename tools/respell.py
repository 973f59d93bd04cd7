#!/usr/bin/env python3
"""Spells the repository's own definitions and lemmas as today's Rattle does: words in snake case.

Run once, at the top of the repository, after the kit's port.py and before anything else by hand. It renames each name
that a file of specs/ or proofs/ declares (definitions, lemmas, fields, constructors, local lemmas) and that has a dash
or a capital within, wherever that name stands in a file of specs/ or proofs/, in a clause or in a comment that quotes
it. Types and modules, names of src/ outside clauses, strings, and the names of goals keep their spelling. Where a lemma
would fall together with a definition, it gets the ending `_lem`; the table below lists these.

With --list it prints what it would rename and changes nothing. Where it has run already it does nothing, since two
of the names below stand for a definition then.
"""
import collections
import glob
import re
import sys

WORD = re.compile(r"[A-Za-z_][\w'₀-₉]*(?:-[\w'₀-₉]+)*")
DECLARED = re.compile(
    r"^\s*(?:(?:pub|abbrev|unfoldable|private) )*([a-z][\w'₀-₉-]*(?: [a-z][\w'₀-₉-]*)*) :(?: |$)")
LIBRARIES = ("Rattle.std.", "mathlib.", "native.", "lib.", "Prim.", "borrow.", "denote.", "Rattle.core.")

# Lemmas whose name would fall together with a definition's or, the last two of these, with a library's; and two that
# name a word of the library, which is `get_or` today.
APART = {
    "column-texts": "column_texts_lem",
    "count-from": "count_from_lem",
    "distance-text": "distance_text_lem",
    "distance-texts": "distance_texts_lem",
    "entry-bytes": "entry_bytes_lem",
    "finding-text": "finding_text_lem",
    "first_by": "first_by_lem",
    "first-no": "first_no_lem",
    "in-part": "in_part_lem",
    "lowest-in": "lowest_in_lem",
    "mark-byte": "mark_byte_lem",
    "mark-in": "mark_in_lem",
    "no-values": "no_values_lem",
    "received-trace": "received_trace_lem",
    "sent-trace": "sent_trace_lem",
    "same_block": "same_block_lem",
    "settled-marks": "settled_marks_lem",
    "step-at": "step_at_lem",
    "symbol-done": "symbol_done_lem",
    "until-verdict": "until_verdict_lem",
    "bit-and": "bit_and_lem",
    "bit-or": "bit_or_lem",
    "getD-values": "get_or_values",
    "getD-filled": "get_or_filled",
}


def snake(name):
    name = re.sub(r"([a-z0-9₀-₉])([A-Z])", lambda m: m.group(1) + "_" + m.group(2).lower(), name)
    return name.replace("-", "_")


def proof_files():
    return sorted(glob.glob("crates/*/specs/**/*.antt", recursive=True)
                  + glob.glob("crates/*/proofs/**/*.antt", recursive=True))


def declared():
    """Each name that the repository declares, with the files in which it stands."""
    names = collections.defaultdict(set)
    for path in proof_files():
        for line in open(path, encoding="utf-8"):
            match = DECLARED.match(line)
            if not match or " : tie." in line or " : goal." in line:
                continue
            for name in match.group(1).split():
                names[name].add(path)
    return names


def library_names():
    """Each name that a file imports from a library."""
    names = set()
    for path in proof_files() + sorted(glob.glob("crates/*/src/**/*.rt", recursive=True)):
        text = open(path, encoding="utf-8").read()
        for match in re.finditer(r"^(?:ghost )?use ([\w.']+)\.\{([^}]*)\}", text, re.M):
            if match.group(1).startswith(LIBRARIES):
                names |= set(WORD.findall(match.group(2)))
    return names


def renaming():
    names = declared()
    library = library_names()
    table = {}
    for name in sorted(names):
        odd = "-" in name or re.search(r"[a-z0-9₀-₉][A-Z]", name)
        if name in APART:
            table[name] = APART[name]
        elif odd and name not in library:
            table[name] = snake(name)
    return table, names, library


def respell(text, table):
    return WORD.sub(lambda m: table.get(m.group(0), m.group(0)), text)


def respell_source(text, table):
    """A file of src/: strings keep their text, and so do comments but for what they quote."""
    out = []
    for part in re.split(r'(b?"(?:\\.|[^"\\])*"|//[^\n]*)', text):
        if part.startswith("//"):
            part = re.sub(r"`[^`\n]*`", lambda m: respell(m.group(0), table), part)
        elif not part.startswith(('"', 'b"')):
            part = respell(part, table)
        out.append(part)
    return "".join(out)


def main():
    table, names, library = renaming()
    if "stateLimit" not in names:
        sys.exit("respell: the names are in snake case already")
    if sys.argv[1:] == ["--list"]:
        for name in sorted(table):
            print(name, table[name])
        return
    if sys.argv[1:]:
        sys.exit("usage: respell.py [--list]")
    for path in proof_files():
        text = open(path, encoding="utf-8").read()
        new = respell(text, table)
        if new != text:
            open(path, "w", encoding="utf-8").write(new)
    for path in sorted(glob.glob("crates/*/src/**/*.rt", recursive=True)):
        text = open(path, encoding="utf-8").read()
        new = respell_source(text, table)
        if new != text:
            open(path, "w", encoding="utf-8").write(new)


if __name__ == "__main__":
    main()
