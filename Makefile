# make demo: a panel questions boxes with real signatures. make test: the gate, .ci/run: rt ci, then make library-test, the
# library and the bench's programs tested from C, shell and Rust. make fuzz: the sanitizers. make bench: the library's times and
# instructions beside plain and tuned Rust's. make library TARGET=..: the library for another processor. make test-targets:
# those libraries on emulated processors.
CARGO := cargo
RUST := --offline --release --manifest-path rust/Cargo.toml

.DEFAULT_GOAL := demo

include demo.mk
include targets.mk

.PHONY: test library-test rust-test bench

rust-test: $(RESPONDER_LIB) $(MAKE_IMAGE)
	$(CARGO) test -q $(RUST)

bench: $(RESPONDER_LIB)
	$(CARGO) run -q $(RUST) --bin bench

library-test: linked-names fuzz-short demo-sanitized demo-image host-example bench-tools rust-test

test:
	.ci/run
