# make list: the blocks of a payload. make test: the gate: everything proved, every must-fail edit tried, a short round of each test below.
# make oracle: the original Rust beside the library, millions of calls. make bench: both sides timed in one run.
# make calls: the C calls, and a short round of any bytes. make fuzz: ten million. make rust: the crate's tests.
# make second: the library beside an independent program of the rules; WORDS=-l for the long round.
.PHONY: list test oracle bench calls fuzz rust second

# a sample unless FILE names a payload
FILE = crates/lister/stdin

list:
	@test -r "$(FILE)" || { echo "list: $(FILE) cannot be read"; exit 1; }
	@echo "list: proving and building the lister (a minute or two from nothing)"
	@tools/run lister <"$(FILE)"

test:
	tools/gate

oracle:
	oracle/run

bench:
	bench/run

calls:
	tests/c/run

# another SEED, other bytes
SEED = 1

fuzz:
	tests/c/run fuzz $(SEED) 10000000

rust:
	rust/run

second:
	tests/second/run $(WORDS)
