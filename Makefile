# The commands of the README. They print the same where another make runs them, as the tests do.
SHELL := /bin/bash
MAKEFLAGS += --no-print-directory

# The collection that `make list` and `make card` show, and the rules that `make card` shows (none: all).
FILE ?= samples/sample.collection
RULE ?=

# The programs for users, those for the tests, and the folder under which `make install` puts the first, in bin. All are
# kept in target/bin.
PROGRAMS := listing card ask pack
TEST_PROGRAMS := edges worked probe
PREFIX ?= /usr/local
BIN = $(DESTDIR)$(PREFIX)/bin

# Says at once which of these commands are missing; behind each stands the Debian package that has it.
need = missing=; for pair in $(1); do \
	tool=$${pair%%:*}; command -v "$$tool" > /dev/null && continue; missing=1; \
	if [ "$$tool" = rt ]; then echo 'rt is missing: it is the command of the Rattle kit' >&2; \
	else echo "$$tool is missing: the Debian package $${pair\#\#*:} has it" >&2; fi; done; [ -z "$$missing" ]

# What the programs are made from. Only whether a file is newer than a program is asked here; what has to be proved
# again is for `rt` to say.
SOURCES := $(wildcard crates.txt $(foreach part,src specs proofs,\
	$(foreach file,* */* */*/* */*/*/*,crates/*/$(part)/$(file))))

# All four.
programs: $(PROGRAMS:%=target/bin/%)
	@:

# Proves and builds one program, where a file is newer than it: `rt run` runs what it has built, so it is asked for help.
# Without `rt`, as it may be in the van or for root, a program that is built serves as it is.
$(patsubst %,target/bin/%,$(PROGRAMS) $(TEST_PROGRAMS)): target/bin/%: $(SOURCES)
	@if command -v rt > /dev/null; then \
	[ -x '$@' ] || echo 'proving and building $*: some minutes the first time' >&2; \
	said=$$(cd 'crates/$*' && rt run -- --help 2>&1 < /dev/null) || { printf '%s\n' "$$said" >&2; exit 1; }; \
	mkdir -p target/bin && cp -f 'crates/$*/out/$*' '$@'; \
	else [ -x '$@' ] || { $(call need,rt:); }; fi

list: target/bin/listing
	@$< < '$(FILE)'

card: target/bin/card
	@$< $(RULE) < '$(FILE)'

# The gate, over every crate and each of its edits, and then the tests on the programs that it built, two at a time. The
# gate passes over an edit that no longer fits its file or does not compile; here that is a failure. The gate's closing
# line comes last.
test:
	@$(call need,rt: python3:python3 valgrind:valgrind)
	@set -euo pipefail; log=$$(mktemp); trap 'rm -f "$$log"' EXIT; \
	rt ci 2>&1 | tee "$$log"; \
	ok=$$(grep '^rt: ok' "$$log") || { echo 'the gate: no line says that all is well' >&2; exit 1; }; \
	! grep -E ', [1-9][0-9]* bad' <<< "$$ok" >&2 || { echo 'the gate: must-fail edits are bad' >&2; exit 1; }; \
	mkdir -p target/bin; \
	for name in $(PROGRAMS) $(TEST_PROGRAMS); do cp -f "crates/$$name/out/$$name" target/bin/; done; \
	python3 tests/all.py "$$(tail -n 1 "$$log")"; \
	tail -n 1 "$$log"

install: $(PROGRAMS:%=target/bin/%)
	@mkdir -p '$(BIN)'
	@cp $(PROGRAMS:%=target/bin/%) '$(BIN)'

uninstall:
	@rm -f $(PROGRAMS:%='$(BIN)/%')

# Not part of the tests: the speed beside two implementations in C.
bench:
	@$(call need,rt: python3:python3 valgrind:valgrind gcc:gcc)
	@bench/run

.PHONY: programs list card test install uninstall bench
