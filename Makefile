# make test: every check that the project has; the last line is the prover's own verdict.
.PHONY: test checks demo bench check fmt

test:
	@sh checks/test.sh

# The archives held against the documents in Rust, over fractions, and what the C programs say.
checks:
	sh checks/run.sh

# The log program on the board's third row. It is proved and built first, which takes some minutes in a clean clone.
demo:
	@sh checks/prove.sh run walk_log
	crates/walk_log/out/walk_log < examples/third_row.log

# Nanoseconds a pair and a rod of a section, beside plain Rust.
bench:
	@sh checks/prove.sh lib tie_rod_c
	@sh checks/prove.sh lib section_c
	@sh checks/prove.sh lib grade_c
	cd checks && CARGO_TARGET_DIR=$(CURDIR)/target/cargo cargo run -q --offline --profile speed --bin bench

# The quick loop: proves what has changed since the last time.
check:
	rt all check

# Each crate's files in rt's layout, in which rt ci wants them.
fmt:
	for crate in crates/*/; do (cd "$$crate" && rt fmt) || exit 1; done
