.PHONY: run test setup

# Proves and builds the deciding program, and runs it on an example: a job that asks for rows by a column that isn't stored.
run: setup
	@tools/prove decide
	@cd crates/decide && rt run <stdin 2>../../out/run.log || { cat ../../out/run.log >&2; exit 1; }

# Everything that is checked; the gate, .ci/run, calls this.
test: setup
	@tests/run

# What the tests need beyond the Rattle kit.
setup:
	@tests/setup
