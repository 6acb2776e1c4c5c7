# A menu over the scripts of this repository: `make` alone lists it.
PREFIX ?= /usr/local
CARGO = cd rust && cargo
RUN = run --release --offline --quiet

.DEFAULT_GOAL := help
.PHONY: help page certificate archive check documents test fmt doc inspect install uninstall \
	bench stack soak mutate

help: ## list the targets
	@echo "usage: make TARGET"
	@sed -n 's/^\([a-z]*\):.*## /\1\t/p' $(firstword $(MAKEFILE_LIST)) | expand -t 14

page: ## draw the withdrawal page of the example with the proved program
	./page-example

certificate: ## print the fields and the id of the example ticket
	./read-certificate

archive: ## prove the library and write crates/nattveldi_c/out/libnattveldi_c.a
	cd crates/nattveldi_c && rt lib --cpu x86-64

check: ## prove what changed since the last proof (rt all check); no edits, no Rust tests
	rt all check

documents: ## hold the documents to the sources, and look for unused lemmas; seconds
	.ci/documents

test: ## the gate: proofs from nothing, must-fail edits, programs, tests; up to an hour
	.ci/run

fmt: ## format the Rattle and Rust sources
	for crate in crates/*/; do (cd "$$crate" && rt fmt) || exit 1; done
	$(CARGO) fmt --all

doc: ## write the documentation of the Rust bindings to rust/target/doc
	$(CARGO) doc --offline --no-deps --package nattveldi

inspect: ## build rust/target/release/nattveldi-inspect (needs the archive)
	$(CARGO) build --release --offline --package nattveldi-inspect

install: ## install all below PREFIX=/usr/local, after `make archive inspect page`; DESTDIR= for a package
	./install --all --prefix $(PREFIX) $(if $(DESTDIR),--destdir $(DESTDIR))

uninstall: ## remove what install put below PREFIX
	./install --all --prefix $(PREFIX) $(if $(DESTDIR),--destdir $(DESTDIR)) --uninstall

bench: ## time the library against the reference (needs the archive); ROUNDS=300
	$(CARGO) $(RUN) --package bench -- $(ROUNDS)

stack: ## measure the stack of each operation (needs the archive)
	$(CARGO) $(RUN) --package stack

soak: ## a million random requests, library against reference (needs the archive)
	$(CARGO) $(RUN) --package difftest --bin soak

mutate: ## small wrong edits, each tried on the checker; after `make check`; hours
	tools/mutate
