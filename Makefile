.PHONY: demo test library bench c-example rust-test differ differ-quiet bench-rust bench-instructions bench-peer clients model-cases model-searches

# The proved library: an archive, or the directory that has libexhash.a.
EXHASH_LIB ?= target/staticlib/libexhash.a
LIBRARY := $(abspath $(or $(wildcard $(EXHASH_LIB)/libexhash.a),$(EXHASH_LIB)))
WARNINGS := -Wall -Wextra -Werror
C := $(CC) -std=c99 -O2 $(WARNINGS) -Iinclude
CARGO := cd rust && EXHASH_LIB=$(LIBRARY) cargo

# The mistakes that trainees make, played against the proved library. The first time proves it, which takes minutes.
demo:
	@mkdir -p target
	@test -d crates/demo/out || echo "proving the library: some minutes" >&2
	@cd crates/demo && rt run <stdin 2>../../target/demo.log || { cat ../../target/demo.log; exit 1; }

# The archive for C and Rust, from the proved crates.
library: $(LIBRARY)

# The gate: every proof, every must-fail edit and every program, from nothing; the C examples, the Rust tests and the comparison.
test:
	@.ci/run

# The time of the store's check, by its size, in one run.
bench: c-example
	@target/bench-check

# Each C example prints what its .expected in examples/c says, the header's numbers are the library's, and it is good C++ too.
c-example: $(LIBRARY)
	@mkdir -p target
	@$(C) examples/c/session.c $(LIBRARY) -o target/session
	@target/session >target/session.out && diff examples/c/session.expected target/session.out
	@$(C) examples/c/side_by_side.c $(LIBRARY) -o target/side_by_side
	@target/side_by_side >target/side_by_side.out && diff examples/c/side_by_side.expected target/side_by_side.out
	@$(C) tests/c/refusals.c $(LIBRARY) -o target/refusals
	@target/refusals
	@$(C) bench/check.c $(LIBRARY) -o target/bench-check
	@$(CXX) -x c++ -fsyntax-only $(WARNINGS) include/exhash.h

# The Rust crates: format, lints and tests, with nothing printed if all is well. How many cases ran stands in
# target/rust-test.log.
rust-test: $(LIBRARY)
	@mkdir -p target
	@$(CARGO) fmt --check
	@$(CARGO) clippy --offline --quiet --workspace --all-targets -- -D warnings
	@$(CARGO) test --offline --quiet --workspace -- --show-output >../target/rust-test.log 2>&1 || { cat ../target/rust-test.log; exit 1; }

# The library and the second implementation on the same seeded inputs (SEED=1): every byte compared.
differ: $(LIBRARY)
	@$(CARGO) run --offline --quiet --release -p differ $(SEED)

# The same, with nothing printed if all is well.
differ-quiet: $(LIBRARY)
	@mkdir -p target
	@$(CARGO) run --offline --quiet --release -p differ $(SEED) >../target/differ.log 2>&1 || { cat ../target/differ.log; exit 1; }

# Their times on the same loads, in one run.
bench-rust: $(LIBRARY)
	@$(CARGO) run --offline --quiet --release -p bench

# The library's instructions on the same loads beside those of an archive built before: make bench-instructions BEFORE=path/to/libexhash.a. Needs python3 and valgrind.
bench-instructions: $(LIBRARY)
	@test -e "$(BEFORE)" || { echo "use: make bench-instructions BEFORE=path/to/libexhash.a, the archive before" >&2; exit 2; }
	@bench/instructions.py "$(BEFORE)" $(LIBRARY)

# The library beside another archive with the same interface, in turns: make bench-peer PEER=dir, where dir/run.sh takes our archive and prints the ratios.
bench-peer: $(LIBRARY)
	@test -x "$(PEER)/run.sh" || { echo "use: make bench-peer PEER=dir, a folder that has run.sh" >&2; exit 2; }
	@$(PEER)/run.sh $(LIBRARY)

# What Redis clients see in the replies of the demo's session; needs python3, and root where Debian's python3-redis and python3-hiredis are to be installed.
clients: $(LIBRARY)
	@$(CARGO) build --offline --quiet --release -p exhash --example replies
	@examples/clients/read_replies.py crates/demo/stdin rust/target/release/examples/replies

# Writes crates/cases/stdin again.
model-cases:
	@cd rust && cargo run --offline --quiet --release -p make_cases ../crates/cases/stdin

# Writes stdin and stdout of crates/searches again.
model-searches:
	@cd rust && cargo run --offline --quiet --release -p make_searches ../crates/searches

.DELETE_ON_ERROR:
$(abspath target/staticlib/libexhash.a): $(wildcard crates/*/src/*.rt crates/*/src/*/*.rt)
	@mkdir -p target/staticlib
	@cd crates/exhash && rt lib >../../target/staticlib.log 2>&1 || { cat ../../target/staticlib.log; exit 1; }
	@cp crates/exhash/out/libexhash.a $@
