# make run        builds the program without a proof, in about two minutes, and runs it on the six cases of examples/demo
# make            proves the program and builds it, as ./aa-trace
# make test       the gate: what tools/house-check checks, every proof from nothing, must-fail edits, tests, programs
# make house      checks the documents, crates.txt, the sizes and the lists of wrong bodies without a proof, in some seconds, and tests
#                 that the checks find planted faults
# make bench      prints times: large inputs, each with the ratio to half the size or to another input; compiling profiles;
#                 hostile input of each reader; the loop that runs names through a table, and many names side by side, next to
#                 loops in C; images with chains of defaults, next to those without; names judged from C; lists of names, next to
#                 grep; plans and walks over a row, and changes and walks over the row that threads share; reads of published
#                 profiles, and opens in threads, both next to a lock; opens of the same files again and again, with and without
#                 kept verdicts; questions about all names of real profiles; stat(2) and open(2) of the files that sessions open
# make tour       runs every command of README.md and docs/TOUR.md, and compares what it prints; completes command lines in the shells
#                 that are installed
# make tasks      runs every command of docs/TASKS.md, with Debian's profiles, and compares what it prints
# make calls      calls the library for C, linked and loaded, and compares its answers with those of ./aa-trace
# make embed      builds the examples for embedders, ./embed in C and ./embed_rs in Rust, and runs them
# make refusals   refuses each allocation of the program in turn, of calls of the libraries, each of which is then made again, and of
#                 walks on the row that threads share
# make storm      opens a file 1,600,000 times in 16 threads during renames and new profiles, then random paths a million times
#                 during random changes, and checks each answer
# make serve      runs a server whose four threads answer requests while its profile's file is replaced, and counts the answers
# make drawn      makes 100,000 random changes in a row and in plain memory, and runs random scripts of repeated opens on both, which
#                 must give the same answers
# make install    installs the program, the libraries for C, static and shared, with their header, the manual page, completion for
#                 bash, zsh and fish, and the documents, below PREFIX, by default /usr/local, with DESTDIR put before it; builds what
#                 isn't built
# make uninstall  removes what make install with the same PREFIX and DESTDIR installed
# make installed  installs to a folder of its own, tries there what was installed, and removes it again
# make fuzz       puts drawn and mutated texts, images, scripts and logs to ./aa-trace and to a second implementation of the rules, in
#                 Python: N=100000 of them, drawn from SEED=1; each that gets two answers is made smaller and kept
# make edits      tries the wrong bodies that the gate leaves out: the prover must refuse each
# make tested     tries the wrong bodies that contracts admit, such as one that is always out of memory: a test must refuse each
# make reproduce  prints the checksums of ./aa-trace and of libcoqetwal.a, which are the same wherever they are built
# make help       shows this

PREFIX ?= /usr/local
DESTDIR ?=
N ?= 100000
SEED ?= 1
export PREFIX DESTDIR
RT := $(shell command -v rt 2>/dev/null)
SOURCES := crates.txt HANDLES $(shell find crates -path '*/out' -prune -o -type f \( -name '*.rt' -o -name '*.antt' \) -print)

LIBRARY := crates/coqetwal/out/libcoqetwal.a
SHARED_LIBRARY := crates/coqetwal/out/libcoqetwal.so
LIBRARY_CRATES := coqetwal $(shell sed -n 's/^coqetwal staticlib: *//p' crates.txt)
LIBRARY_SOURCES := crates.txt HANDLES $(filter $(addprefix crates/,$(addsuffix /%,$(LIBRARY_CRATES))),$(SOURCES))

.PHONY: all run test house tour tasks bench calls embed refusals storm serve drawn fuzz edits tested reproduce install uninstall \
        installed help need-rt
# Each recipe takes all processors, and two that prove the same crates would disturb each other.
.NOTPARALLEL:

all: aa-trace

NEED_RT = $(if $(RT),,$(error the command rt is missing: install the Rattle toolchain and put its bin folder on PATH))

need-rt:
	@:$(NEED_RT)

# What is built needs no rt: it can be installed without one.
aa-trace: $(SOURCES)
	@:$(NEED_RT)
	@tools/build

$(LIBRARY): $(LIBRARY_SOURCES)
	@:$(NEED_RT)
	@tools/build coqetwal
	@touch $@

# Nothing but an installation needs it, and where there is no C compiler that does without.
$(SHARED_LIBRARY): $(LIBRARY) include/coqetwal.h library/coqetwal.c library/exports.map tools/shared-library VERSION
	@if command -v $(or $(CC),cc) >/dev/null 2>&1; then tools/shared-library; fi

run: need-rt
	@tools/demo

test: need-rt
	@tools/house-check
	rt ci

house:
	@tools/house-check
	@tools/house-check-test

tour: aa-trace
	tools/tour
	tools/try-completions

tasks: aa-trace
	tools/tasks

bench: aa-trace
	bench/run
	bench/compile
	bench/match
	bench/mixes
	bench/chains
	bench/growth
	bench/judge
	bench/names
	bench/row
	bench/cache
	bench/steps
	bench/registry
	bench/open
	bench/kept
	bench/questions
	bench/linux

calls: aa-trace $(LIBRARY)
	tools/batch-loop
	tools/calls

embed: aa-trace $(LIBRARY)
	tools/embed

refusals: aa-trace
	tools/refuse-allocations

storm: aa-trace
	tools/storm
	tools/random-storms

serve: need-rt
	tools/serve-example

drawn: need-rt
	tools/drawn-changes
	tools/drawn-scripts

fuzz: aa-trace
	tools/fuzz --cases $(N) --seed $(SEED)

edits: need-rt
	tools/more-edits --anew

tested: need-rt
	tools/tested-edits

reproduce: aa-trace $(LIBRARY)
	@sha256sum aa-trace
	@cd $(dir $(LIBRARY)) && sha256sum $(notdir $(LIBRARY))

install: aa-trace $(LIBRARY) $(SHARED_LIBRARY)
	@tools/install

uninstall:
	@tools/install uninstall

installed: aa-trace $(LIBRARY) $(SHARED_LIBRARY)
	@tools/try-installed

help:
	@sed -n '/^#/!q; s/^# \{0,1\}//p' $(firstword $(MAKEFILE_LIST))
