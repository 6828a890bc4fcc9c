# make test: everything that is checked, as the gate runs it. make demo: see it work. make bench: how fast it is beside
# plain Rust. make instructions: the same, counted and not timed. make cost: what the proofs cost.
.PHONY: test demo bench instructions cost

test:
	@tools/test

demo:
	@tools/hosts host/demo.sh

bench:
	@tools/hosts cargo run --release --offline --quiet --manifest-path host/Cargo.toml --package bench

instructions:
	@tools/hosts tools/instructions

cost:
	@tools/cost
