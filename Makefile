# make run: prove the programs and show how one number came about. make test: everything that is proved or compared.
# make library: the proved functions for C, Rust and Python. make compare N=..: N gates against the plain program. make bench: times.
.PHONY: run test library compare bench

PROGRAMS = target/bin/sheet target/bin/ledger target/bin/gate
ARCHIVE = target/staticlib/libuldrevin.a
SHARED = target/libuldrevin.so
CARGO = cargo --offline --quiet
CRATES = $(shell find crates crates.txt -type f -not -path '*/out/*')
N = 10000000

run: $(PROGRAMS)
	@sh examples/story.sh

test:
	python3 tests/run.py

library: $(SHARED)
	@:

# A program as rt proves and builds it. rt also runs it, here on no input, and that says nothing.
$(PROGRAMS): $(CRATES)
	@mkdir -p target/bin
	cd crates/$(@F) && rt run < /dev/null > /dev/null
	@cp crates/$(@F)/out/$(@F) $@

# The proved archive, and the same as a shared library. Each step is quiet, and prints all of its output where it fails.
QUIETLY = > target/library.log 2>&1 || { cat target/library.log >&2; exit 1; }

$(ARCHIVE): $(CRATES)
	@mkdir -p target/staticlib
	@(cd crates/uldrevin && rt lib) $(QUIETLY)
	@cp crates/uldrevin/out/libuldrevin.a $@

$(SHARED): $(ARCHIVE)
	@gcc -shared -o $@ -Wl,--whole-archive $(ARCHIVE) -Wl,--no-whole-archive $(QUIETLY)

# N gates, as single gates, scans and records, through the library and the plain program; SEED=.. repeats a run.
compare: library
	$(CARGO) run --release -p at_scale -- $(N) $(SEED)

# Times of whole scans, of the same gates one by one, of the plain program, and of numpy with PROJ, from one run; bytes of stack, code, constants.
bench: library $(PROGRAMS)
	$(CARGO) run --release -p benchmark
	@python3 tests/benchmark/sizes.py
