# The commands of a newcomer: `make list` shows what the planner does, `make test` is the gate.
.PHONY: list test bench count capacity fmt

BOOK = examples/a.book

# The listing of a book, by the proved program.
list:
	@tools/build.sh slotlist
	@tools/list.sh $(BOOK)

# Why each flow of a book waits in each of its first slots, or that it does not, by the proved program; `make why SLOTS=7` for so many slots.
.PHONY: why
why:
	@tools/build.sh planner
	@tools/program.sh planner why $(SLOTS) <$(BOOK)

test:
	bash .ci/run

# Calls per second of the archives, beside those of a planner in Rust, and the stack that each call takes.
bench:
	host/archives.sh
	host/build.sh target/staticlib/libradio.a target/host target/staticlib/libtables.a
	host/run.sh bench
	host/stack.sh

# Instructions of each call, beside those of the same planner in Rust.
count:
	host/archives.sh
	host/build.sh target/staticlib/libradio.a target/host target/staticlib/libtables.a
	host/count.sh

# How many flows come in: by the deadline count, by the bounds, and by a simulation of the run.
capacity:
	host/build.sh - target/capacity
	OUT=target/capacity host/run.sh bench capacity

fmt:
	for crate in crates/*/; do (cd $$crate && rt fmt) || exit 1; done
