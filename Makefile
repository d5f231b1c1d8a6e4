# make list            build the listing program and list a sample archive (ARCHIVE=FILE for another one)
# make describe        build the describing program and describe a sample archive (ARCHIVE=FILE for another one)
# make test            prove every crate, try the must-fail edits, run the programs and tests
# make edits           try the must-fail edits alone, over what `rt check` kept
# make programs        build all programs: target/bin/NAME
# make library         build the C entry as target/staticlib/libhost.a
# make c-example       build the static library and a C program against it, and run it
# make python-example  build a shared library from the static one and run a Python program over it
# make damage          hand the console every truncation and single-bit change of some states and archives
# make fuzz            hand the programs a million random and damaged inputs (a minute or two)
# make bench           time the listing and the overlap on generated archives
RT ?= rt
PYTHON ?= python3
ARCHIVE ?= samples/pair.archive
PROGRAMS = list describe console walk bench

# `rt run` proves a program, builds it in its crate's folder, and runs it. What it says of that goes to build/NAME.log.
build = mkdir -p build target/bin && echo "building $(1) (the first time this proves it, which takes some minutes)" >&2 && \
	{ (cd crates/$(1) && $(RT) run </dev/null >/dev/null 2>../../build/$(1).log) || { cat build/$(1).log >&2; false; }; } && \
	cp crates/$(1)/out/$(1) target/bin/$(1)

.PHONY: list describe test edits programs library c-example python-example damage fuzz bench clean

list:
	@$(call build,list)
	@target/bin/list < $(ARCHIVE)

describe:
	@$(call build,describe)
	@target/bin/describe < $(ARCHIVE)

test:
	./.ci/run

edits:
	$(RT) must-fail

programs:
	@for program in $(PROGRAMS); do $(call build,$$program) || exit 1; done

library:
	cd crates/sangyldem && $(RT) lib
	mkdir -p target/staticlib && cp crates/sangyldem/out/libsangyldem.a target/staticlib/libhost.a

c-example: library
	$(MAKE) -C examples/c RT=$(RT)
	build/c/overlap

python-example: library
	$(MAKE) -C examples/python RT=$(RT)
	$(PYTHON) examples/python/overlap.py

damage: programs
	$(PYTHON) tests/damage.py

fuzz: programs
	$(PYTHON) tests/fuzz.py

bench: programs
	bench/run.sh

clean:
	rm -rf build target crates/*/out
