# make demo            build what is needed, and show a load, live moves and a refusal on the shipped examples
# make test            the gate (.ci/run): prove every crate, try the must-fail edits, run all tests
# make lib             build/libtekoweapa.a: the library for C, declared in include/tekoweapa.h
# make control         build/tekoweapa: the control program
# make c-tests         the tests in C alone (tests/run)
# make fuzz SECONDS=n  random cases against the second implementation, for n seconds
# make bench           times of the library beside the second implementation, and of the search for names
# make picture         docs/map.png, the map in README.md
# make proofs          prove what has changed since the last time, without the must-fail edits
# make sizes           functions, lines and must-fail edits of each crate: README.md's table, which the gate holds to the sources
# make times           seconds and memory of each crate's proofs, from nothing
# make clean           remove build/, and not what is proved
#
# CC and CFLAGS may be given, in the environment too. The gate adds -Werror: what another compiler warns of need not stop a build.
ifeq ($(origin CC),default)
CC := gcc
endif
CFLAGS ?= -O2
COMPILE = $(CC) -std=c11 -Wall -Wextra $(GATE_FLAGS) $(CFLAGS)
SECONDS := 60
PROGRAM := build/tekoweapa
PICTURE := docs/map.png

LIBRARY := build/libtekoweapa.a
# What rt makes lies in the crates' out/ folders.
RATTLE := $(shell find crates -name out -prune -o \( -name '*.rt' -o -name '*.antt' \) -print)

# rt keeps its work in the crates' folders, so no two rules that run it may run at the same time.
.NOTPARALLEL:
# A library cut short by a full disk must not pass for a new one.
.DELETE_ON_ERROR:
.PHONY: demo test lib control c-tests fuzz bench picture proofs sizes times clean

demo: build/tekoweapa
	@examples/demo

test:
	@bash .ci/run

lib: $(LIBRARY)

control: build/tekoweapa

c-tests: build/compare build/tekoweapa build/benchmark
	@bash tests/run

fuzz: build/compare
	build/compare --seconds $(SECONDS)

bench: build/benchmark
	build/benchmark

picture: $(PROGRAM)
	$(PROGRAM) sdx examples/score.sdx --names examples/names.txt --picture "$(PICTURE)" --quiet

proofs:
	@rt all check

sizes:
	@python3 tests/sizes.py

times:
	@python3 tests/times.py

clean:
	rm -rf build
	@[ -z "$(wildcard crates/*/out)" ] || echo "crates/*/out stay: what rt has proved and built takes minutes to make again; 'rm -rf crates/*/out' removes them"

$(LIBRARY): $(RATTLE) crates.txt
	@bash build-library $@

build/tekoweapa: $(wildcard control/*) include/tekoweapa.h $(LIBRARY)
	$(COMPILE) -Iinclude control/*.c $(LIBRARY) -o $@

build/compare: $(wildcard tests/compare/* tests/second/*) include/tekoweapa.h $(LIBRARY)
	$(COMPILE) -Iinclude -Itests/second tests/compare/*.c tests/second/*.c $(LIBRARY) -o $@

build/benchmark: $(wildcard benchmark/* tests/second/*) include/tekoweapa.h $(LIBRARY)
	$(COMPILE) -Iinclude -Itests/second benchmark/*.c tests/second/*.c $(LIBRARY) -o $@
