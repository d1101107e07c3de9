# Two commands do everything on a machine with the Rattle kit: `make run` and `make test`.
.PHONY: run sheet test archive program sheet_program bench install clean

PREFIX ?= /usr/local
DESTDIR ?=
VERSION = 0.1.0

# Proves and builds what is needed, then runs the program on the Harbour log. What is proved is told on standard error as it goes; standard
# output is the program's.
run: program
	@target/bin/shortlist <examples/harbour.bin

# The same for the shift sheet of the Harbour log.
sheet: sheet_program
	@target/bin/sheet <examples/harbour.bin

# The gate: proofs from nothing, must-fail edits, programs, lints, tests from outside.
test:
	@bash .ci/run

# The library for C: target/archive holds libshortlist.a and shortlist.h.
archive:
	@mkdir -p target/archive
	@bash scripts/prove library console_c
	@mv target/staticlib/libconsole_c.a target/staticlib/libconsole.a
	@cp target/staticlib/libconsole.a target/archive/libshortlist.a
	@cp include/shortlist.h target/archive/shortlist.h

program:
	@bash scripts/prove program shortlist

sheet_program:
	@bash scripts/prove program sheet

# Our calls beside careful C and Rust ones: tables, and target/bench/rows.svg. docs/BENCHMARKS.md explains them.
# make bench BEFORE=path/to/libshortlist.a adds a column: ours divided by that archive. ONLY=text takes a few inputs.
bench: archive
	@BEFORE='$(BEFORE)' ONLY='$(ONLY)' bash bench/run

# Library, header, pkg-config file, programs and manual pages: make install PREFIX=/usr/local DESTDIR=
install: archive program sheet_program
	install -d "$(DESTDIR)$(PREFIX)/lib/pkgconfig" "$(DESTDIR)$(PREFIX)/include"
	install -d "$(DESTDIR)$(PREFIX)/bin" "$(DESTDIR)$(PREFIX)/share/man/man1"
	install -m 644 target/archive/libshortlist.a "$(DESTDIR)$(PREFIX)/lib"
	install -m 644 include/shortlist.h "$(DESTDIR)$(PREFIX)/include"
	sed -e 's|@PREFIX@|$(PREFIX)|' -e 's|@VERSION@|$(VERSION)|' shortlist.pc.in >target/shortlist.pc
	install -m 644 target/shortlist.pc "$(DESTDIR)$(PREFIX)/lib/pkgconfig"
	install -m 755 target/bin/shortlist target/bin/sheet "$(DESTDIR)$(PREFIX)/bin"
	install -m 644 man/shortlist.1 man/sheet.1 "$(DESTDIR)$(PREFIX)/share/man/man1"

clean:
	rm -rf target
