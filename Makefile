# make            prove every crate, build the programs and run them
# make bench      prove, build and run bench, lengthen and shorten, and prove no more than they are made of
# make test       the gate: `rt ci`, with the must-fail edits, then every test of what rt builds, and each wrong program by itself
# make tests      the tests alone, on bench and the library
# make refusals   each wrong program of the must-fail edits by itself, alone
# make lib        build/libsccc.a and build/libsccc.so
# make speed      time the library's calls beside a plain encoder's
# make tables     write annex C's tables anew from data/annex-c.csv, and the expected output that rests on them
# make expected   write the test programs' expected output anew, by the separately written encoder
# Each installs what it needs and the machine lacks, or says in a line what to install.
.PHONY: all bench test tests refusals first-half second-half lib speed tables expected oracle packages

oracle = tests/oracle/target/release/oracle
cargo_flags = --quiet --release --offline --manifest-path
build = cargo build $(cargo_flags)
# the tests' programs in Rust, whose own tests are run too
rust_tests = $(wildcard tests/*/Cargo.toml)
random_seconds = 20

# Debian's Python, for which Debian's numpy is.
PYTHON ?= /usr/bin/python3
export PYTHON
# What is tested is in build/, and the tests' programs are beside their sources.
unexport SCCC_LIBRARY SCCC_LIB_DIR CARGO_TARGET_DIR

all:
	@tools/packages rt
	rt all test

# the programs that take a job line
bench:
	@tools/packages rt
	for program in bench lengthen shorten; do (cd crates/$$program && rt run < stdin) || exit 1; done

# What is lacking is found before anything is proved.
test: packages
	tests/gate

# Two halves that need nothing of each other, side by side.
tests: packages
	$(MAKE) --no-print-directory bench
	$(MAKE) --no-print-directory --output-sync=target -j2 oracle lib
	$(MAKE) --no-print-directory --output-sync=target -j2 first-half second-half

refusals:
	@tools/packages rt
	tests/refusals

first-half:
	tests/c/run
	$(PYTHON) tests/python/test_sccc.py
	tests/examples/run
	tests/bench-lines
	tools/annex-c-tables --check
	$(oracle) self-check
	tests/expected --check
	tests/readme

second-half:
	tests/annex-c-rows
	for crate in $(rust_tests); do cargo test --all-targets $(cargo_flags) $$crate || exit 1; done
	$(build) tests/random/Cargo.toml
	tests/random/target/release/random --seconds $(random_seconds)

lib:
	@tools/packages rt cc
	tools/build-lib

speed: lib
	@tools/packages cargo
	tests/speed/run

tables:
	@tools/packages python3
	tools/annex-c-tables
	$(MAKE) expected

expected: oracle
	tests/expected

packages:
	@tools/packages

oracle:
	@tools/packages cc cargo
	$(build) tests/oracle/Cargo.toml
