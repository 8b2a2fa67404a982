# What isn't the prover's: cleaning up, and putting the built program and its manual page on the path.
#   make clean                        removes what builds made: `out` of each crate and of the examples
#   make install [PREFIX=FOLDER]      copies the program and its manual page below FOLDER, ~/.local by default
PREFIX = $(HOME)/.local
PROGRAM = crates/rtlinux_cli/out/rtlinux_cli

help:
	@sed -n 's/^#   //p' Makefile

clean:
	rm -rf crates/*/out
	$(MAKE) -C examples clean

install:
	@test -x $(PROGRAM) || { echo "install: no program at $(PROGRAM): build it first" >&2; exit 1; }
	install -D $(PROGRAM) "$(PREFIX)/bin/rtlinux_cli"
	install -D -m 644 docs/rtlinux_cli.1 "$(PREFIX)/share/man/man1/rtlinux_cli.1"

.PHONY: help clean install
