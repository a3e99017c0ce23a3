# make test is the gate: its parts one after the other, and what they counted on its last line. Each part is a target too:
#
#   make scripts       the gate's own scripts, tested
#   make listed        crates/ and crates.txt name the same crates
#   make theorems      docs/THEOREMS.md names theorems that are there
#   make prove         every crate from nothing, the must-fail edits, the programs; the sources are as rt fmt lays them out
#   make rust          the Rust side: bindings, header, a bounded comparison with the originals, the record
#
# These are passed on to rust/Makefile, and are no part of the gate:
#
#   make show          the product at work: a scan's row written, read, asked and damaged
#   make differential  a long comparison with the originals (SEED, SCALE)
#   make record        write the originals' answers anew for crates/replay
#   make bench         times as ratios (ROUNDS)

PARTS = scripts listed theorems prove rust

.PHONY: test scripts listed theorems prove rust show differential record bench

test:
	@python3 -X utf8 tests/gate.py $(PARTS)

scripts:
	@python3 -X utf8 tests/test_scripts.py

listed:
	@python3 -X utf8 tests/listed.py

theorems:
	@python3 -X utf8 tests/theorems.py

prove:
	rt ci

rust:
	@$(MAKE) -C rust test

show differential record bench:
	@$(MAKE) -C rust $@
