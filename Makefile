# make                 proves what the calls need and builds the command, target/tender, and the archive, target/lib/libtender.a
# make run [TEXT=..]   the same, and then the list of a text
# make install         puts command, header, archive, tender.pc and man page below PREFIX (/usr/local), in DESTDIR where one is given
# make uninstall       takes them away again
# make test            the whole gate: proofs, must-fail edits, programs, host tests, tests of the command
# make bench           counts instructions beside the reference program (needs valgrind and g++)
# make fuzz [TIME=..]  fuzzes the calls for C against the second implementation for so many seconds (needs clang; not in the gate)
# make rules           writes docs/RULES.md, what has to be believed, from the sources
# make times           writes docs/GATE.md, the gate's time, from the last run of the gate
# make clean           removes target/ and crates/*/out/, so that the next build proves everything anew
VERSION = 0.8.0
TEXT ?= examples/market-day.txt
PREFIX ?= /usr/local
TIME ?= 600
CC = gcc
CFLAGS = -O2

# The crates that export calls. The archive has the calls of each of them; include/tender.h declares them.
CALLS = listing_c rewrite_c highest_text_c

SHELL = bash
.SHELLFLAGS = -e -o pipefail -c
.DELETE_ON_ERROR:
.PHONY: all run install uninstall test bench fuzz rules times clean

all: target/tender
	@:

run: all
	@target/tender list -- "$(TEXT)"

SOURCES = $(shell find crates crates.txt -type f ! -path '*/must-fail/*' ! -path '*/out/*')

# rt proves again only what has changed. What it says is shown where it fails.
target/lib/libtender.a: $(SOURCES)
	@mkdir -p target/lib
	@for crate in $(CALLS); do \
	  (cd crates/$$crate && rt lib) > target/lib/log 2>&1 || { cat target/lib/log >&2; exit 1; }; \
	done
	@{ echo create $@; for crate in $(CALLS); do echo addlib crates/$$crate/out/lib$$crate.a; done; echo save; echo end; } | ar -M

# The list program, which reads nothing here.
target/bin/list: $(SOURCES)
	@mkdir -p target/bin
	@(cd crates/list && rt run < /dev/null) > target/bin/log 2>&1 || { cat target/bin/log >&2; exit 1; }
	@cp crates/list/out/list $@

target/tender: cli/tender.c include/tender.h target/lib/libtender.a Makefile
	@kit=$$(rt version); \
	$(CC) -std=c11 -Wall -Wextra $(CFLAGS) -pthread -DVERSION='"$(VERSION)"' -DKIT="\"$$kit\"" \
	  -I include -o $@ cli/tender.c target/lib/libtender.a $(LDFLAGS)

# Where each file goes.
BIN = $(DESTDIR)$(PREFIX)/bin
INCLUDE = $(DESTDIR)$(PREFIX)/include
LIB = $(DESTDIR)$(PREFIX)/lib
MAN = $(DESTDIR)$(PREFIX)/share/man/man1

install: all
	@case "$(PREFIX)" in /*) ;; *) echo "PREFIX has to begin with /: $(PREFIX)" >&2; exit 2;; esac
	@install -d "$(BIN)" "$(INCLUDE)" "$(LIB)/pkgconfig" "$(MAN)"
	@install -m 755 target/tender "$(BIN)"
	@install -m 644 include/tender.h "$(INCLUDE)"
	@install -m 644 target/lib/libtender.a "$(LIB)"
	@sed 's|@PREFIX@|$(PREFIX)|; s|@VERSION@|$(VERSION)|' cli/tender.pc.in | install -m 644 /dev/stdin "$(LIB)/pkgconfig/tender.pc"
	@install -m 644 man/tender.1 "$(MAN)"

uninstall:
	@rm -f "$(BIN)/tender" "$(INCLUDE)/tender.h" "$(LIB)/libtender.a" "$(LIB)/pkgconfig/tender.pc" "$(MAN)/tender.1"

test:
	@bash .ci/run

bench:
	@bash bench/run

fuzz:
	@bash tests/fuzz/run $(TIME)

rules:
	@tools/rules

times:
	@tools/times

clean:
	@rm -rf target crates/*/out
