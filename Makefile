# run           the worked case, as the program `ingress` prints it
# test          the gate
# lib           the static library for C: target/staticlib/libtransomrib.a, declared by include/transomrib.h
# compare       every case and random streams through the programs, the C library and the second program
# bench         nanoseconds beside plain Rust, as ratios
# check-second  the second program's own tests;  check-example  the C example, plain and under the compiler's checks
# check-streams what the programs say of a read or a write that fails
# check-sizes   the sizes of the code, the definitions, the header and the tests: one size, one number
.PHONY: run test lib compare bench check-second check-example check-streams check-sizes second programs

CARGO = cargo --quiet
SECOND = target/second/release
PROGRAMS = target/x86-64
WITH = tools/x86-64 with ingress report records --
export CARGO_TARGET_DIR = $(CURDIR)/target/second

run:
	@echo 'proving and building ingress: some minutes the first time' >&2
	@tools/build program ingress
	@tools/x86-64 run target/bin/ingress <crates/ingress/stdin

test:
	@.ci/run

lib:
	@tools/build archive transomrib_c transomrib

second:
	@$(CARGO) build --release --offline --manifest-path second/Cargo.toml

programs:
	@tools/build program ingress report records

check-second:
	@$(CARGO) test --release --offline --manifest-path second/Cargo.toml

check-example: lib
	@examples/run.sh

check-streams: programs
	@tests/streams.sh

check-sizes:
	@.ci/sizes

compare: second programs lib
	@mkdir -p target/tests
	@tools/x86-64 rustc --edition 2021 -O -C overflow-checks --crate-name second --crate-type rlib second/src/lib.rs -o target/tests/libsecond.rlib
	@tools/x86-64 rustc --edition 2021 -O tests/library.rs --extern second=target/tests/libsecond.rlib -L target/staticlib -l static=transomrib -o target/tests/library
	@tools/x86-64 run target/tests/library
	@$(WITH) $(SECOND)/compare --ingress $(PROGRAMS)/ingress --report $(PROGRAMS)/report --records $(PROGRAMS)/records --cases cases
	@$(WITH) $(SECOND)/compare --bursts --ingress $(PROGRAMS)/ingress --report $(PROGRAMS)/report

bench: second
	@bench/run.sh
