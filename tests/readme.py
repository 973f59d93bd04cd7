#!/usr/bin/env python3
"""Runs every command that README.md, docs/FORMAT.md and tests/programs.txt show, and compares what it prints.

    python3 tests/readme.py [CLOSING LINE OF THE GATE]

A command is an indented line that begins with `$ `. What it prints, standard error included, is shown in the indented
lines behind it. Commands run in the repository's root. `make test`, which runs this script, is not run again: of what
it prints the last line is shown, and that is compared with the closing line that is given.
"""
import pathlib
import re
import subprocess
import sys

ROOT = pathlib.Path(__file__).resolve().parent.parent
FILES = ["README.md", "docs/FORMAT.md", "tests/programs.txt"]
INDENT = "    "


def shown(text):
    """The commands of a text, each with the lines shown behind it."""
    commands = []
    for line in text.splitlines():
        if line.startswith(INDENT + "$ "):
            commands.append((line[len(INDENT) + 2:], []))
            inside = True
        elif line and not line.startswith(INDENT):
            inside = False
        elif commands and inside:
            commands[-1][1].append(line[len(INDENT):])
    return [(command, "\n".join(lines).rstrip("\n")) for command, lines in commands]


def printed(command):
    """What a command prints. One that fails is told, whatever it printed: no program here has an exit status but 0."""
    done = subprocess.run(["bash", "-c", command], cwd=ROOT, stdin=subprocess.DEVNULL,
                          stdout=subprocess.PIPE, stderr=subprocess.STDOUT)
    if done.returncode != 0:
        sys.exit(f"readme: {command} ends with status {done.returncode}")
    return done.stdout.decode("utf-8", "replace").rstrip("\n")


def refusals():
    """Each row of FORMAT's table of refusals has the words of `ask why`, and no number is left out."""
    section = (ROOT / "docs/FORMAT.md").read_text().partition("## Refusals")[2].partition("## ")[0]
    rows = re.findall(r"^\| (\d+) \| ([^|]+) \| [^|]+ \|$", section, re.M)
    for number, words in rows:
        if (came := printed(f"target/bin/ask why {number}")) != f"{number}: {words}":
            sys.exit(f"readme: docs/FORMAT.md has {number}: {words}, and ask why prints {came}")
    known = [number for number in range(40) if printed(f"target/bin/ask why {number}") != "no refusal has this number"]
    if known != [int(number) for number, _ in rows]:
        sys.exit(f"readme: docs/FORMAT.md does not have the refusals {known}")
    print(f"readme: the {len(rows)} refusals of docs/FORMAT.md are those of ask why")


def main():
    closing = sys.argv[1] if len(sys.argv) > 1 else None
    for name in FILES:
        commands = shown((ROOT / name).read_text())
        if not commands:
            sys.exit(f"readme: {name} shows no command")
        for command, lines in commands:
            if command != "make test":
                came = printed(command)
            else:
                came = lines if closing is None else closing
            if came != lines:
                sys.exit(f"readme: {name} shows of {command}\n{lines}\nand it prints\n{came}")
        print(f"readme: {len(commands)} commands of {name} print what is shown")
    refusals()


if __name__ == "__main__":
    main()
