# The commands of this repository. `make` alone lists them.
CONF = examples/whoami/Corefile
PORT = 5300
QUERIES = 1500

help:
	@sed -n 's/^## //p' Makefile

## make run          builds without proof, one to three minutes, and serves examples/whoami on port 5300; CONF=FILE another Corefile, PORT=N
run:
	@tools/run-unproved $(CONF) $(PORT)

## make try          builds without proof, one to three minutes, and runs a load in memory, of 1,500 queries or QUERIES=N
try:
	@echo "building without proof, one to three minutes; make build proves it, which takes longer"
	@cd crates/dnschain && rt try --seconds 1000000000 --steps 1000000000000 -- load $(QUERIES)

## make build        proves and builds the program, crates/dnschain/out/dnschain, and says how far it is
build:
	@tools/build

## make serve        builds where something has changed, and serves a Corefile with what was proved: CONF=FILE PORT=N
serve: build
	./dnschain serve --conf $(CONF) --port $(PORT)

## make conf-check   builds, and checks a Corefile without serving it: CONF=FILE
conf-check: build
	tools/check-corefile $(CONF)

## make deb          builds, and makes the Debian package of the program: packaging/out
deb: build
	packaging/build-deb

## make test         the gate: every proof and test, the edits of what has changed, and the scripts under tests/
test:
	.ci/run

## make test-all     the gate with every must-fail edit, as before a release
test-all:
	.ci/run all

## make check NAME=  proves one crate, as dns_wire
check:
	cd crates/$(NAME) && rt check

## make fmt          lays out the files of every crate
fmt:
	for crate in crates/*/; do (cd $$crate && rt fmt); done

.PHONY: help run try build serve conf-check deb test test-all check fmt
