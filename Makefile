# The commands of README.md.
.PHONY: run test differential hostile stamps crashes soak bench install clean

# Where `make install` puts things, and the folder that stands before it while a package is made.
PREFIX ?= /usr/local
DESTDIR ?=

# The register on example tickets.
run: build/strikes
	@build/strikes demo

# All tests: lists of calls against the Rust where its source is at hand, the archive and the hosts, then the proofs' gate.
test:
	@bash .ci/run

# The register as an archive for C and Rust, proved first. It is made anew where any file that it is made and proved from is newer.
build/libstrikes.a: $(shell hosts/archive sources)
	@hosts/archive

# The host programs: the register as a program (demo, replay, view, explain, provoke, meter, soak), and a small gateway in C and in Rust.
build/strikes: build/libstrikes.a $(wildcard hosts/*/src/*.rs hosts/*/src/*/*.rs tests/calls/src/*.rs tests/generator/src/*.rs tests/generator/src/*/*.rs)
	@hosts/build strikes
build/gateway: build/libstrikes.a include/strikes.h $(wildcard hosts/c/*.c hosts/c/*.h)
	@hosts/build gateway
build/gateway_rust: build/libstrikes.a $(wildcard hosts/rust/src/*.rs hosts/rust/src/*/*.rs hosts/rust/examples/*.rs)
	@hosts/build gateway_rust

# The Rust that this register is a port of, built as a program that runs lists of calls (docs/CALLS.md).
build/oracle: $(wildcard tests/oracle/* tests/calls/src/* tests/generator/src/*)
	@tests/oracle/build

# The register against the Rust on the same generated lists: CALLS of each profile, from SEED.
SEED ?= 1
CALLS ?= 100000
differential: build/libstrikes.a
	@hosts/build differential
	build/differential $(SEED) $(CALLS)

# Random and damaged memory into every entry point: INPUTS of them, from SEED.
INPUTS ?= 2000000
hostile: build/libstrikes.a
	@hosts/build hostile
	build/hostile $(SEED) $(INPUTS)

# The smallest stamp for a verdict against takes with every stamp: QUESTIONS of them, from SEED.
QUESTIONS ?= 100000
stamps: build/libstrikes.a
	@hosts/build stamps
	build/stamps $(SEED) $(QUESTIONS)

# Gateways that are killed and started again: KILLS of them in C, in Rust, and of both on one folder.
KILLS ?= 1000
crashes: build/gateway build/gateway_rust
	@tests/crashes/run $(KILLS) $(SEED)

# Half a year of a gateway's clock, some 25 million tickets; the picture is build/soak.svg.
soak: build/strikes
	build/strikes soak $(SEED)

# Speed beside the Rust (docs/SPEED.md); the picture is build/speed.svg.
bench: build/libstrikes.a
	@hosts/build bench
	build/bench

# Archive, header and a pkg-config file.
install: build/libstrikes.a
	install -d $(DESTDIR)$(PREFIX)/lib/pkgconfig $(DESTDIR)$(PREFIX)/include
	install -m 644 build/libstrikes.a $(DESTDIR)$(PREFIX)/lib/libstrikes.a
	install -m 644 include/strikes.h $(DESTDIR)$(PREFIX)/include/strikes.h
	sed 's|@PREFIX@|$(PREFIX)|' hosts/c/strikes.pc >build/strikes.pc
	install -m 644 build/strikes.pc $(DESTDIR)$(PREFIX)/lib/pkgconfig/strikes.pc

clean:
	rm -rf build crates/*/out
