# The way in: `make` lists the targets. Each is one script; its first lines say more.
PREFIX ?= /usr/local
PROGRAMS ?= binlog-feed binlog-kept binlog-changes binlog-capture

help: ## list the targets
	@sed -n 's/^\([a-z-]*\):.*## /\1|/p' Makefile | \
	  while IFS='|' read -r target text; do printf '  make %-15s %s\n' "$$target" "$$text"; done

try: ## report a small log without a proof, in half a minute; LOG=FILE reports a log of yours
	@tools/try $(LOG)

test: ## the gate, which proves everything from nothing and runs every check, in about an hour
	@checks/all

quick: ## run tests, tables of cases and programs without proofs, in a few minutes; CRATE=library_tests runs the tests alone
	@checks/cases/quick $(CRATE)

install: ## prove, build and install PROGRAMS in PREFIX/bin, with their manual pages (PREFIX=/usr/local)
	@tools/install $(PREFIX) $(PROGRAMS)

uninstall: ## remove what `make install` installed in PREFIX
	@tools/uninstall $(PREFIX)

library: ## prove and build libcuvragyen, for C, Rust, Python, Java and Go, in out/library
	@tools/library out/library

install-library: ## prove and build libcuvragyen, and install it in PREFIX
	@PREFIX=$(PREFIX) tools/library $(PREFIX)

wheel: ## prove and build libcuvragyen, and make a wheel of its Python package, in this folder
	@tools/wheel

deb: ## prove, build and make a Debian package of all programs, in this folder
	@tools/deb

edits: ## try the wrong programs of CRATE=NAME, which the prover must reject
	@checks/prover/edits $(or $(CRATE),$(error name a crate, as in make edits CRATE=rows_cells))

docs: ## write the generated pages and drawings anew; LOG=FILE takes the times from the output of `make test`
	@checks/documents/contents --write
	@checks/documents/audit --write
	@bench/plot
	@$(if $(LOG),tools/gate_times $(LOG))

bench: ## time reports of several kinds of logs; PROGRAM=PATH times that program without proving it first
	@bench/run $(if $(PROGRAM),--program $(PROGRAM))

.PHONY: help try test quick install uninstall library install-library wheel deb edits docs bench
