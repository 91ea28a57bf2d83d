# Targets, which `make help` prints:
#
# make run       runs an example, with every check at run time and no proof; another one: make run EXAMPLE=examples/real-client
# make test      runs the tests of the libraries, all cases and the checks of the pages, with every check at run time and no proof
# make prove     proves all crates, runs the programs, and tries the few wrong bodies of must-fail: first part of the gate, .ci/run
# make build     proves and builds `krb_run`
# make tools     proves and builds `krb_run`, `krb_keys` and `krb_realm`
# make realm     proves and builds `krb_run` and `krb_realm`, and goes from a password to an encrypted message with them
# make library   proves and builds the library for C and Rust, static and shared
# make bindings  does the same, and tests it in C and Rust, and as it is installed: in ROUNDS=10000 rounds in C
# make gss       builds the interposer for GSS-API servers over that library, and tests it; it needs libkrb5-dev (docs/GSSAPI.md)
# make install   copies what make library and make gss built to PREFIX=/usr/local: library, header, pkg-config file, pages (docs/USING-C.md)
# make install-tools copies the programs that were built, and their manual pages
# make uninstall removes what make install and make install-tools copied, and nothing else
# make dist      writes menolavuri-VERSION.tar.gz from the last commit: the same bytes wherever it is made
# make deb       makes Debian packages of what was built, in out/deb (debian/rules)
# make fuzz      runs the harnesses of libFuzzer over that library, each for SECONDS=60 (bindings/fuzz); it needs clang
# make live      lets real clients, KDCs and services speak to that library's examples, in throw-away realms (docs/INTEROP.md)
# make bench     measures, draws two plots in out/bench, and reads the machine code (docs/PERFORMANCE.md)
EXAMPLE ?= examples/one-client
PREFIX ?= /usr/local
BINDIR ?= $(PREFIX)/bin
MANDIR ?= $(PREFIX)/share/man
VERSION := $(shell cat VERSION)
# The pages that make install copies to DOCDIR, and those of man.
PAGES = README.md CHANGELOG.md LICENSE-APACHE LICENSE-MIT $(wildcard docs/*.md)
CALLS = $(notdir $(wildcard man/*.3))
TOOLS = krb_run krb_keys krb_realm
BUILT = $(foreach it,$(TOOLS),$(if $(wildcard crates/$(it)/out/$(it)),$(it)))
COPY = $(MAKE) --no-print-directory -C bindings/c $@ DESTDIR=$(abspath $(DESTDIR)) PAGES="$(PAGES)" PREFIX=$(PREFIX)
COPY_GSS = $(if $(wildcard bindings/gss/Makefile),$(MAKE) --no-print-directory -C bindings/gss $@ DESTDIR=$(abspath $(DESTDIR)) PREFIX=$(PREFIX))

.PHONY: run help test prove build tools realm library bindings gss install install-tools uninstall dist deb fuzz live try-live bench
run:
	@cd crates/krb_run && rt try -- serve < $(abspath $(EXAMPLE))
	@echo "This was not proved: it ran with every check at run time. make build proves."

help:
	@sed -n 's/^# make/make/p' Makefile

test:
	tests/run

prove:
	rt ci

build:
	@.ci/build krb_run

tools:
	@.ci/build $(TOOLS)

realm:
	@.ci/build krb_run krb_realm
	@examples/realm/run

library:
	@for it in cc ar cargo rustc; do command -v $$it > /dev/null || { echo "make library needs cc and Rust 1.85, and there is no $$it"; exit 1; }; done
	@bindings/check-names
	@bindings/prove
	@$(MAKE) --no-print-directory -C bindings/c all

bindings: library
	$(MAKE) -C bindings/c -j3 test
	tests/install/run
	cd bindings/rust-sys && cargo test --offline --quiet
	cd bindings/rust && cargo test --offline --quiet
	bindings/check-docs

gss: library
	@$(MAKE) --no-print-directory -C bindings/gss all test

install:
	@$(COPY)
	@$(COPY_GSS)
	install -d $(DESTDIR)$(MANDIR)/man3
	install -m 644 $(CALLS:%=man/%) $(DESTDIR)$(MANDIR)/man3

install-tools:
	@test -n "$(BUILT)" || { echo "no program is there: make tools proves and makes them"; exit 1; }
	install -d $(DESTDIR)$(BINDIR) $(DESTDIR)$(MANDIR)/man1
	for it in $(BUILT); do install crates/$$it/out/$$it $(DESTDIR)$(BINDIR) && install -m 644 man/$$it.1 $(DESTDIR)$(MANDIR)/man1 || exit 1; done

uninstall:
	@$(COPY)
	@$(COPY_GSS)
	rm -f $(CALLS:%=$(DESTDIR)$(MANDIR)/man3/%) $(TOOLS:%=$(DESTDIR)$(BINDIR)/%) $(TOOLS:%=$(DESTDIR)$(MANDIR)/man1/%.1)

# No time, no owner and no name of this machine is in it: git takes the time of the commit, and gzip none.
dist:
	git archive --format=tar --prefix=menolavuri-$(VERSION)/ HEAD | gzip -9n > menolavuri-$(VERSION).tar.gz
	@sha256sum menolavuri-$(VERSION).tar.gz

deb:
	debian/rules binary

fuzz: library
	@bindings/fuzz/run $(or $(SECONDS),60)

live:
	@lacks=$$(tests/live/run --lacks) && if [ -n "$$lacks" ]; then echo "$$lacks"; else $(MAKE) --no-print-directory try-live; fi

try-live: library
	@test -x tests/live/out/cyrus/usr/lib/cyrus/bin/imtest || tests/live/unpack > /dev/null 2>&1 || echo "live: Heimdal could not be fetched"
	tests/live/run
	$(if $(wildcard bindings/gss/Makefile),tests/live/run gss tickets)

bench: library
	bench/run
	@mkdir -p out/bench
	tests/live/measure > out/bench/measured || { cat out/bench/measured; exit 1; }
	@bench/plot out/bench < out/bench/measured
	tests/machine-code/run
