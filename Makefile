# The commands that people type. `make` alone lists them. Nothing here is needed for the proofs: `rt` does those.

LIBRARY := target/staticlib/libtrain_receiver.a
CARGO_ORACLE := cd oracle && cargo

PROGRAMS := make_recording receive_recording order_tape

.PHONY: help programs run tape pipes test check library bindings oracle scale speed pages

help:
	@echo 'make programs  prove and build the three programs, into target/bin'
	@echo 'make run       make the sample recording and receive it (minutes the first time)'
	@echo 'make tape      the same by an order tape; README.md says how to take other settings'
	@echo 'make pipes     run order_tape over pipes, with a tape of a gigabyte (half a minute)'
	@echo 'make test      the gate: prove, refuse, run everything (the first time the larger part of an hour)'
	@echo 'make check     prove every crate, without the must-fail edits'
	@echo 'make library   the static library, $(LIBRARY) (minutes the first time)'
	@echo 'make bindings  the tests of the Rust crate, and the examples in C and Rust'
	@echo 'make oracle    the tests of the comparison with the original (needs its sources: oracle/README.md)'
	@echo 'make scale     compare the library with the original on 100 million symbols (a minute and a half)'
	@echo 'make speed     time the library beside the original; the table goes to docs/SPEED.md (some minutes)'
	@echo 'make pages     check the pages: labels, theorems, edits, links, widths'

# Proves each program and what it stands on, and builds it. What is proved already is not proved again.
programs:
	mkdir -p target/bin
	for p in $(PROGRAMS); do (cd crates/$$p && rt run < /dev/null > /dev/null) && cp crates/$$p/out/$$p target/bin/ || exit 1; done

run: programs
	target/bin/make_recording | target/bin/receive_recording

tape: programs
	target/bin/make_recording | python3 scripts/tape.py write --sps 4 | target/bin/order_tape | python3 scripts/tape.py read

pipes: programs
	python3 oracle/order_tape_pipes.py

test:
	.ci/run

check:
	rt all check

# What is proved already is not proved again. The archive keeps its name.
library:
	cd crates/train_receiver_c && rt lib
	mkdir -p $(dir $(LIBRARY))
	cp crates/train_receiver_c/out/libtrain_receiver_c.a $(LIBRARY)

bindings: library
	cd bindings/rust && cargo test --release
	cd bindings/rust && cargo run --release --example receive
	cc -O2 -I bindings/c bindings/c/example.c $(LIBRARY) -o target/example
	target/example

oracle: library
	$(CARGO_ORACLE) test --release --features ported

scale: library
	$(CARGO_ORACLE) run --release --features ported -- scale

speed: library
	$(CARGO_ORACLE) run --profile speed --features ported -- speed --into ../docs/SPEED.md

pages:
	python3 docs/check_pages.py
