# make test: every proof, must-fail edit, program, stored run, Rust test and the comparison with 000.
# make fit: the example table fitted by the Rust command. make listing: the printing program on a small job.
# Before the first of them the crates are proved, in some minutes; what is said of that goes to standard error.
# make instructions: instructions of fits, counted. make times: seconds of every proof and must-fail edit, one after the other.
# make against REVISION=HEAD~1: every line of the bench by the code as it was there and as it is here, in one run; leave the machine quiet.
# make compare N=100000: the comparison with that many random jobs. make store: stored answers of 000 anew, for crates/replay.
# make listings: the jobs of tests/listings/jobs.txt as files anew, with what 000 has gwrprint print of them.
# make bench: times against 000, and the stack of a fit; make bench ARGS="5 growth stack": of five runs, two of the tables.
# make fuzz SECONDS=60: the byte calls fuzzed from outside. make planted: the same, over planted faults that must be noticed.
.PHONY: test rust fit listing compare bench against instructions times store listings fuzz planted fmt

CARGO = cd rust && cargo run --offline --release --quiet --package

test:
	@bash scripts/test.sh

rust:
	@bash scripts/rust.sh

fit:
	@bash scripts/prove.sh gateway
	@$(CARGO) gateway --bin gwr -- ../examples/pantries.csv $(ARGS)

listing:
	@bash scripts/prove.sh gwrprint
	@crates/gwrprint/out/gwrprint <crates/gwrprint/stdin

compare:
	@$(CARGO) compare -- $(N)

bench:
	@$(CARGO) bench -- $(ARGS)

against:
	@bash scripts/against.sh $(REVISION) $(SECONDS)

instructions:
	@bash scripts/instructions.sh

times:
	@bash scripts/times.sh

store:
	@$(CARGO) oracle --bin store

listings:
	@$(CARGO) oracle --bin listings

fuzz:
	@bash scripts/fuzz.sh $(SECONDS)

planted:
	@bash scripts/fuzz.sh planted

fmt:
	@for crate in crates/*/; do (cd "$$crate" && rt fmt) || exit; done
	@cd rust && cargo fmt
