.PHONY: run month test
# The input of `make run`: a profile of 13 or 14 bytes, then the table.
TABLE ?= crates/settle/stdin
# The hall whose ticks `make run` shows after that: a sample, unless there is a TABLE of one's own.
HALL ?= $(if $(filter file,$(origin TABLE)),halls/repeater-lock.hall)

# Proves and builds the program `settle`, and runs it; then the program `hall`.
run:
	@bin/run settle "$(TABLE)"
	@[ -z "$(HALL)" ] || [ ! -d rust/hall ] || { echo; \
	cargo run --quiet --offline --locked --release --manifest-path rust/Cargo.toml -p hall -- run "$(HALL)"; }

# The input of `make month`: 13 bytes of profile, then tables, each led by its row count.
STREAM ?= crates/month/stdin

# Proves and builds the program `month`, and runs it.
month:
	@bin/run month "$(STREAM)"

# Proves every crate, tries the must-fail edits, runs the programs and the Rust tests.
test:
	@bin/test
