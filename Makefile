# Building proves first: a program is only made of crates that are proved.
#
#   make demo      proves and builds fixed_tool alone, and answers the demo's lines
#   make try       answers them before any proof, in about a minute
#   make build     proves, and leaves every program in build/
#   make demo-command       shows a few commands of fixed
#   make quick CRATE=..     proves a crate and those that use it, while you edit
#   make check     every proof, test and program, without the wrong bodies
#   make test      the gate: the same with the wrong bodies of must-fail/
#   make wrong-bodies [CRATE=..]   the wrong bodies that the gate leaves out, of every crate or of these
#   make wrong-bodies-table        prints every wrong body, and what refused it when it was tried
#   make install   puts what make build and make library left below PREFIX (and DESTDIR); make uninstall removes it
#   make library   the library for C, in build/lib; make check-library tries it; make deb makes packages, make dist an archive
#   make doc       the reference, in build/doc: every public item with its clauses, every name in them a link
#   make options   prints the options of fixed, from the table that it reads them by, into completion/ and man/fixed.1
#   make bench     times, memory and instructions; make compare: seeded inputs against the reference in oracle/
#
# JOBS=N: how many proofs are made at a time. If it is not given, processors and memory decide.
# STORE=DIR: where what was compiled is kept, for every target and every clone; by default lomdeqash in the user's cache.
# ANEW=1: proves again what is kept beside the toolchain, and compiles again what is in the store.

PREFIX ?= /usr/local
export STORE ANEW
DESTDIR ?=
JOBS ?= 0
# How many seeded lines `make compare` hands over.
COUNT ?= 200000

CRATES := $(shell sed -n 's/^\([a-z0-9_]*\)[ :].*/\1/p' crates.txt)
# The programs that are installed, of those that there are, and the one that only times calls.
PROGRAMS := $(filter $(CRATES),fixed_tool enclose_tool least_tool constants_tool columns_tool fixed)
BENCH := $(filter $(CRATES),fixed_bench)
# The programs that only answer the references in oracle/.
VECTORS := $(filter $(CRATES),fixed_vectors)
# What make test compiles for CPU after the gate, so that make build, make library and the packages find it.
PRODUCTS := $(PROGRAMS) fixed_c
# The processor that programs and the library for C are compiled for: x86-64 is any amd64.
CPU ?= x86-64
PROVE := python3 .ci/prove.py --jobs $(JOBS) --cpu $(CPU)

# A command that names those of some files that are not there, and how to make them; its status is 1 if there are any.
need_files = (missing=; for file in $(1); do test -f "$$file" || missing="$$missing $$file"; done; \
  test -z "$$missing" || { echo "Not built:$$missing: run $(2)" >&2; exit 1; })

.PHONY: build build/v2 try demo demo-command quick check test wrong-bodies wrong-bodies-table install uninstall doc bench compare scale clean
.DELETE_ON_ERROR:

build:
	@$(PROVE) $(PROGRAMS)

# A first look: the program as it is compiled for a try, with its conditions tested as it runs, and nothing proved.
try:
	@echo "This proves nothing: it compiles fixed_tool and answers ten lines. make demo proves it first."
	@mkdir -p build
	@cd crates/fixed_tool && rt try <../../examples/demo.txt >../../build/tried 2>../../build/try.log; test $$? -le 1 || { cat ../../build/try.log; echo "fixed_tool does not compile (above)."; exit 1; }
	@paste -d '>' examples/demo.txt build/tried | sed 's/>/  ->  /'
	@echo "These are the answers of a first compilation. Nothing was proved."

# A status of 1 says that some line was refused, as two of these are meant to be.
demo:
	@$(PROVE) fixed_tool
	@build/fixed_tool <examples/demo.txt >build/answers; test $$? -le 1
	@paste -d '>' examples/demo.txt build/answers | sed 's/>/  ->  /'
	@echo "These are the answers of build/fixed_tool, which is proved."

demo-command:
	@$(PROVE) fixed
	@PATH="$(CURDIR)/build:$$PATH" sh examples/demo.sh
	@echo "This wrote build/fixed, which is proved."

quick:
	@$(PROVE) --above $(or $(CRATE),$(error make quick CRATE=NAME))

# Every proof, test and stored run that is not known to pass for these files. The gate takes what this proves.
check:
	@$(PROVE) --tests

# The gate: every proof, every must-fail edit, every test and every program's stored run, by rt ci; and then what make build and
# make library need beside it. Proofs and refusals of the same files that rt ci made before on this machine are taken.
test:
	@$(PROVE) --gate $(PRODUCTS)

# Those in a crate's wrong-bodies/: a change of its public clauses, or of a body that one of them edits, calls for them.
wrong-bodies:
	@python3 .ci/rules.py edits
	@python3 .ci/wrong_bodies.py try $(CRATE)

# Every wrong body, with what refused it in the last make test or make wrong-bodies that tried it as it is now.
wrong-bodies-table:
	@python3 .ci/wrong_bodies.py table

# What was built: as root, nothing is proved or built anew. What is missing is named before anything is copied.
install:
	@$(call need_files,$(PROGRAMS:%=build/%),make build); programs=$$?; $(call need_files,$(LIBRARY),make library) && test $$programs -eq 0
	@$(MAKE) --no-print-directory install-library
	install -d "$(DESTDIR)$(PREFIX)/bin"
	for program in $(PROGRAMS); do install -m 755 "build/$$program" "$(DESTDIR)$(PREFIX)/bin/$$program" || exit 1; done
	@echo "Installed below $(DESTDIR)$(PREFIX)."

uninstall: uninstall-library
	for program in $(PROGRAMS); do rm -f "$(DESTDIR)$(PREFIX)/bin/$$program"; done
	@echo "Removed from $(DESTDIR)$(PREFIX)."

# The reference, made from the sources by python3 alone: static pages, which need no network and no script.
doc:
	@python3 -m apidoc --into build/doc

# The completions and the lists of the manual page, from the rows in crates/fixed: after an option has changed.
.PHONY: options
options:
	@python3 .ci/options.py
	@echo "completion/ and man/fixed.1 are as the table of options."

# Times, memory and instructions of the programs and of single calls, beside C, a reference in plain Rust, and PEER (see
# bench/measure.py). What has no compiler here is left out.
bench: build
	@$(PROVE) $(BENCH)
	@if command -v rustc >/dev/null; then $(MAKE) -s --no-print-directory build/bench_ideal; fi
	@if command -v cc >/dev/null; then $(MAKE) -s --no-print-directory build/bench_c library build/bench_library; fi
	@if command -v valgrind >/dev/null; then $(MAKE) -s --no-print-directory build/v2; fi
	python3 bench/measure.py
	@echo "These are the figures of the programs in build/."

# The same programs and library, compiled for x86-64-v2, which `make bench` compares: what every amd64 processor costs.
build/v2:
	@$(PROVE) --cpu x86-64-v2 --into build/v2 $(PROGRAMS) fixed_c
	@if command -v cc >/dev/null; then cc -O2 -Wall -Wextra -Iinclude bench/library.c build/v2/libfixed_c.a -o build/v2/bench_library; fi

build/bench_ideal: bench/ideal.rs
	rustc --edition 2024 -A warnings -O -C codegen-units=1 -C panic=abort -C target-cpu=x86-64-v2 $< -o $@

build/bench_c: bench/calls.c
	cc -O2 -Wall -Wextra $< -o $@

build/bench_library: bench/library.c build/lib/libfixed.a
	cc -O2 -Wall -Wextra -Iinclude $^ -o $@

# Seeded inputs, answered by the programs and by whole-number arithmetic in Python.
compare:
	@$(PROVE) $(PROGRAMS) $(VECTORS)
	python3 oracle/compare.py --count $(COUNT)
	@echo "The programs and the references agree on every input above."

# The recipes of docs/SCALING.md, each compared byte for byte with one process.
scale: build
	scale/scale.sh
	@echo "Each recipe that was run wrote the bytes of one process."

# What was built here, and what rt keeps. The store stays: it is for every clone.
clean:
	rm -rf build crates/*/out
	@echo "Removed build/ and crates/*/out."

include packaging/library.mk
include packaging/python.mk
