.PHONY: run trace formats test bench instructions fuzz lib

# build exchange, proved, and run it: an initiator and the port, each message and each RDMA operation a line
run:
	@tools/build exchange
	@target/bin/exchange

# build trace, proved, and run it on standard input, one message to a line as hexadecimal digits behind > or <: make -s trace <messages
trace:
	@tools/build trace
	@target/bin/trace

# build formats, proved, and run it: how the values of an SRP_CMD's byte 5 divide, for every agreement
formats:
	@tools/build formats
	@target/bin/formats

# the gate
test:
	@bash .ci/run

# target/staticlib/libexports.a, for C and Rust to link
lib:
	@tools/build exports

# time the calls in C beside a port in plain Rust, then, with valgrind, count the instructions of both and print one
# table, and one of the last byte beside the yardstick: make bench [CASE="step, last"], cases by a part of their name
bench: lib
	@cd bench && cargo run --offline --locked --release --quiet -- --save ../target/bench.times $(CASE)
	@if command -v valgrind >/dev/null; then echo; bench/callgrind --times target/bench.times $(CASE); fi

# the instructions alone, which are the same in every run
instructions: lib
	@bench/callgrind $(CASE)

# compare the calls in C with their version in plain Rust on random arguments, and run the two-ended machine: make fuzz SECONDS=60 [SEED=1]
SECONDS ?= 60
fuzz: lib
	@cd tests/rust && cargo run --offline --locked --release --quiet --bin fuzz -- $(SECONDS) $(SEED)
