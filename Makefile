# Skepcottage drive card. `make demo` shows the card at work; `make test` is the gate.

.PHONY: demo test bench fuzz peer archive host-tools clean

SHELL := /bin/bash
HOST_ENV := . scripts/host-env.sh

# how many calls `make fuzz` compares, and from which seed (a number, or 0x..; the fixed one where it is empty)
N ?= 10000000
SEED ?=

demo: host-tools target/staticlib/libtapecard.a
	$(HOST_ENV) && (cd host && cargo build --release --offline --quiet) && scripts/demo.sh

test:
	.ci/run

bench: host-tools target/staticlib/libtapecard.a
	$(HOST_ENV) && cd host && cargo run --release --offline --quiet -p bench

fuzz: host-tools target/staticlib/libtapecard.a
	@[ "$(N)" != 0 ] || { echo "fuzz: N=0 would compare nothing; say how many calls, as in make fuzz N=1000000" >&2; exit 2; }
	@echo "fuzz: $(N) calls a drive, seed $(or $(SEED),the fixed one)"
	$(HOST_ENV) && cd host && TAPECARD_CALLS=$(N) TAPECARD_SEED=$(SEED) cargo test --release --offline -p compare --test random -- --nocapture

# the card beside a real SIMH, which is installed where it is missing; no part of the gate
peer: host-tools target/staticlib/libtapecard.a
	$(HOST_ENV) && (cd host && cargo build --release --offline --quiet) && scripts/peer.sh

# what builds and runs x86-64 programs, installed where it is missing; on x86-64 nothing is
host-tools:
	@scripts/host-tools.sh

# the proved archive that C and Rust hosts link
archive: target/staticlib/libtapecard.a

target/staticlib/libtapecard.a: crates.txt $(shell find crates \( -path '*/must-fail' -o -path '*/out' \) -prune -o -type f -print)
	scripts/archive.sh

clean:
	rm -rf target host/target crates/*/out
