#!/usr/bin/env python3
"""Tries what a user sets up: `make install` and `make uninstall` in a folder of its own, each command of the Makefile on
a machine where something that it needs is missing, and without `rt` on programs that are built.
"""
import os
import pathlib
import shutil
import subprocess
import sys
import tempfile

ROOT = pathlib.Path(__file__).resolve().parent.parent
PROGRAMS = ["ask", "card", "listing", "pack"]
SAMPLE = (ROOT / "samples/sample.collection").read_bytes()

# What a call of each program prints first.
CALLS = {"listing": "rule states class loss corruption repeat swap\n3 2 pos 1 1 - -\n", "card 31": "rule 31: pos (",
         "ask collection": "accepted 16\n", "pack --help": "pack writes a collection to standard output"}
# What a command prints first that needs no `rt` once the program is built.
SHOWN = {"list": CALLS["listing"], "card": "rule 3: pos ("}

# What each command needs where nothing is built, and where a user gets it.
KIT = "rt", "it is the command of the Rattle kit"
PYTHON, VALGRIND, COMPILER = [(name, f"the Debian package {name} has it") for name in ("python3", "valgrind", "gcc")]
NEEDS = {"programs": [KIT], "list": [KIT], "card": [KIT], "install": [KIT], "test": [KIT, PYTHON, VALGRIND],
         "bench": [KIT, PYTHON, VALGRIND, COMPILER]}


def make(*words, path=None, root=ROOT):
    env = dict(os.environ, MAKEFLAGS="", **({"PATH": path} if path else {}))
    return subprocess.run(["make", "--no-print-directory", *words], cwd=root, env=env, capture_output=True, text=True)


def check(what, came, wanted):
    if came != wanted:
        sys.exit(f"setup: {what}: wanted {wanted!r}, came {came!r}")


def installed(prefix, *words, path=None):
    done = make("install", f"PREFIX={prefix}", *words, path=path)
    check(f"make install {words}", (done.returncode, done.stdout, done.stderr), (0, "", ""))


def tools_in(folder, *names):
    """A folder with these of the machine's commands and no others."""
    for name in names:
        (folder / name).symlink_to(shutil.which(name))


def without_kit():
    """Below DESTDIR; and without `rt`, what is built is listed, shown and installed."""
    with tempfile.TemporaryDirectory() as folder:
        root, tools = pathlib.Path(folder) / "root", pathlib.Path(folder) / "tools"
        installed("/usr", f"DESTDIR={root}")
        check("what is below DESTDIR", sorted(path.name for path in (root / "usr/bin").iterdir()), PROGRAMS)
        tools.mkdir()
        tools_in(tools, "make", "bash", "mkdir", "cp")
        installed(root / "second", path=str(tools))
        check("what is installed without rt", sorted(path.name for path in (root / "second/bin").iterdir()), PROGRAMS)
        for target, wanted in SHOWN.items():
            done = make(target, path=str(tools))
            came = done.returncode, done.stdout[:len(wanted)], done.stderr
            check(f"make {target} without rt", came, (0, wanted, ""))


def installs():
    """The programs come, work from there, and go; what else is in the folder stays."""
    with tempfile.TemporaryDirectory() as folder:
        prefix = pathlib.Path(folder) / "a folder"
        (prefix / "bin").mkdir(parents=True)
        (prefix / "bin/other").write_text("stays")
        installed(prefix)
        check("what is installed", sorted(path.name for path in (prefix / "bin").iterdir()), sorted(PROGRAMS + ["other"]))
        for command, wanted in CALLS.items():
            name, *words = command.split()
            done = subprocess.run([prefix / "bin" / name, *words], cwd=folder, input=SAMPLE, capture_output=True)
            check(f"the installed {name}", done.stdout.decode()[:len(wanted)], wanted)
        check("make uninstall", make("uninstall", f"PREFIX={prefix}").returncode, 0)
        check("what is left", [path.name for path in (prefix / "bin").iterdir()], ["other"])


def without(target, absent):
    """Runs a command in a folder with nothing built, where all that it needs is there but one. Nothing may be built; each
    tool here only notes that it ran."""
    with tempfile.TemporaryDirectory() as folder:
        tools, ran = pathlib.Path(folder) / "tools", pathlib.Path(folder) / "ran"
        tools.mkdir()
        shutil.copy(ROOT / "Makefile", folder)
        for name, _ in NEEDS[target]:
            if name != absent:
                (tools / name).write_text(f"#!/bin/sh\necho {name} >> '{ran}'\nexit 1\n")
                (tools / name).chmod(0o755)
        tools_in(tools, "make", "bash", "sh")
        done = make(target, "FILE=/dev/null", f"DESTDIR={folder}", path=str(tools), root=folder)
        return done.returncode, done.stderr, ran.exists()


def what_is_built():
    """`make list` asks for the listing alone to be proved and built, `make card` for the card, `make` for all four; where
    they are built nothing is asked, and where a file that they are made from is newer they are asked for again, or serve
    as they are without `rt`. `rt` and what it builds only note here that they ran."""
    for target, programs in {"list": ["listing"], "card": ["card"], "programs": ["listing", "card", "ask", "pack"]}.items():
        with tempfile.TemporaryDirectory() as folder:
            top = pathlib.Path(folder)
            tools, asked, source = top / "tools", top / "asked", top / "crates/theory/src/lib.rt"
            for name in (*PROGRAMS, "theory"):
                (top / "crates" / name / "src").mkdir(parents=True)
            source.write_text("")
            tools.mkdir()
            shutil.copy(ROOT / "Makefile", folder)
            (tools / "rt").write_text(f"""#!/bin/sh
echo "${{PWD##*/}}: $*" >> '{asked}'
mkdir -p out
echo '#!/bin/sh' > "out/${{PWD##*/}}"
chmod 755 "out/${{PWD##*/}}"
""")
            (tools / "rt").chmod(0o755)
            tools_in(tools, "make", "bash", "sh", "mkdir", "cp", "chmod")
            wanted = "".join(f"{name}: run -- --help\n" for name in programs)
            # The file's time, beside the programs' own from the second turn on, which is 2000.
            for file_time, times in ((1000, 1), (1000, 1), (3000, 2), (1000, 2)):
                os.utime(source, (file_time, file_time))
                make(*[target] if target != "programs" else [], "FILE=/dev/null", path=str(tools), root=folder)
                check(f"what make {target} asks of rt", asked.read_text(), wanted * times)
                for name in programs:
                    os.utime(top / "target/bin" / name, (2000, 2000))
            (tools / "rt").unlink()
            os.utime(source, (3000, 3000))
            done = make(target, "FILE=/dev/null", path=str(tools), root=folder)
            check(f"make {target} without rt, with a newer file", (done.returncode, done.stderr), (0, ""))


def missing_tools():
    tried = 0
    for target, needs in NEEDS.items():
        for name, where in needs:
            status, said, ran = without(target, name)
            came = status != 0, said.splitlines()[:1], ran
            check(f"make {target} without {name}", came, (True, [f"{name} is missing: {where}"], False))
            tried += 1
    return tried


installs()
without_kit()
what_is_built()
print(f"setup: make install and uninstall do what they say; built programs need no rt; each command builds what it needs; "
      f"{missing_tools()} missing tools are told before anything is built")
