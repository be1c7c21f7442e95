# Tapermoss: what a person builds and runs. `rt` (the Rattle toolchain) is expected on the PATH; whatever Debian
# packages the rest needs, `make setup` installs, and every other target asks for it first. All that is built goes
# under build/ (and crates/*/out/, which is rt's own). tools/machine is for machines that are not x86-64, and does nothing on others.

# How long `make fuzz` runs.
SECONDS ?= 60

export CARGO_TARGET_DIR := $(CURDIR)/build/host
export PERQ_LIB_DIR := $(CURDIR)/build

.PHONY: help setup library tool run python test bench fuzz clean

help:
	@echo 'make run      build the library and the tool, and walk through what it does'
	@echo 'make python   the shared object for host/python/tapermoss.py'
	@echo 'make test     every check: formatting, proofs, the host tests, the worked cases'
	@echo 'make bench    the library against the reference, as a table of ratios'
	@echo 'make fuzz SECONDS=60   every call on random and damaged images, between pages that trap'
	@echo 'make clean    remove what was built'
	@echo 'TAPERMOSS_CASES=1000000 make test   the same with so many random cases in each random test'

setup:
	@tools/setup

# The proved library, proved and built again when a file of it has changed.
library: setup build/libperq.a

build/libperq.a: crates.txt $(shell find crates/*/src crates/*/specs crates/*/proofs 2>/dev/null)
	@tools/library $@

tool: library
	@. tools/machine && cd host && cargo build --offline --quiet --release -p tapermoss

# The worked examples as a table, the walk-through, and the same jobs on images that the reference made.
run: tool
	@build/host/release/tapermoss tour
	@echo
	@tools/walk build/host/release/tapermoss build/walk
	@. tools/machine && cd host && cargo build --offline --quiet --release -p trials --bin batch_data
	@tools/reference build/host/release/tapermoss build/host/release/batch_data build/reference
	@printf '\nThe tool is build/host/release/tapermoss.\n'

# The shared object that host/python/tapermoss.py loads.
python: library build/libperq.so

build/libperq.so: build/libperq.a tools/shared
	@. tools/machine && tools/shared $< $@

test: setup
	@. tools/machine && tools/gate

bench: library
	@. tools/machine && tools/bench

fuzz: library
	@tools/fuzz $(SECONDS)

clean:
	rm -rf build crates/*/out
