# Two commands: `make run` does the main job, `make test` is the whole gate. The others are parts of them.
.PHONY: run test library bench soak clean

run:
	@scripts/run

test:
	@scripts/test

# target/staticlib/libmulzhegat.a, from the proved crates.
library:
	@scripts/library

bench: library
	@cd rust && cargo run --release --offline --quiet --bin bench -- --svg ../docs/benchmarks.svg
	@cd rust && cargo run --release --offline --quiet --bin rescan

# The random tests for longer than the gate does; one of them runs the program calls_run.
soak: library
	@scripts/programs
	@cd rust && MULZHEGAT_ROUNDS=$${MULZHEGAT_ROUNDS:-50} cargo test --release --offline -- --nocapture

clean:
	@rm -rf target rust/target crates/*/out
