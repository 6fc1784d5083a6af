# make                 builds the program: every function of it is proved first, on JOBS processors
# make try             runs README's example with nothing proved, in about a minute; STREET=FILE tries another street, of any name
# make example         builds the program and finds the best timing of a shipped street
# make tree            prints the tree of the certificate CERT=FILE and adds up its leaves for the street STREET=FILE
# make test            proves everything and runs every test
# make check           runs all that a change has to pass besides `make test`, and prints a line for each
# make check-examples  solves each shipped street, compares what is printed with its report, and checks its certificate
# make check-docs      runs the commands of the documents, and compares what they print with what stands there
# make check-pages     sees that what the documents say of the sources is true: tables, counts, names
# make second          solves the shipped streets by a second program, written from the documents alone, and compares
# make peers           solves made and shipped streets by cbc, glpsol and z3, and compares
# make faults          runs the program with one call of the system refused or failed, each in turn (wants a compiler of C)
# make believe         prints the definitions that a reader must believe to believe a verdict
# make pictures        draws the shipped streets by the program and by a second one, and compares
# make bench           times the program, and fractions and pivots beside plain Rust
# make clean           takes away what was built, and what the documents' commands made in work/
# make install         puts the program, its manual page, documents and examples under PREFIX (/usr/local)
# make uninstall       takes them away
# make help            prints these lines
PREFIX ?= /usr/local
STREET ?= examples/broadway.toml
CERT ?= broadway-certificate.txt
# Recipes read the names from the environment, since they may have blanks, quotes and dollars in them.
export STREET_FILE := $(value STREET)
export CERT_FILE := $(value CERT)
# As many proofs at a time as there are processors; one takes 1 to 4 GB of memory, so give fewer where memory is short.
JOBS ?= $(shell nproc 2>/dev/null || echo 1)
PROGRAM = crates/maxband/out/maxband
FRACTIONS = crates/fraction_bench/out/fraction_bench
PIVOTS = crates/pivot_bench/out/pivot_bench
SOURCES := crates.txt $(shell find crates \( -name out -o -name must-fail \) -prune -o \( -name '*.rt' -o -name '*.antt' \) -print)
DOCUMENTS = $(DESTDIR)$(PREFIX)/share/doc/maxband
MANUAL = $(DESTDIR)$(PREFIX)/share/man/man1/maxband.1

all: $(PROGRAM)

help:
	@sed -n '/^#/!q; s/^# //p' Makefile

# A program that is there was built of proved crates, so one whose crates have changed since goes where they aren't proved.
PROVE = scripts/prove --once --jobs $(JOBS) $(notdir $@) && touch $@ || { rm -f $@; exit 1; }

$(PROGRAM): $(SOURCES)
	@$(PROVE)

# The status of the program is 1 or 2 where there is no timing or the answer is open. The street is named from the top.
try:
	@test -f "$$STREET_FILE" || { printf 'there is no street %s\n' "$$STREET_FILE" >&2; exit 1; }
	@case $$STREET_FILE in /*) file=$$STREET_FILE ;; *) file=$$PWD/$$STREET_FILE ;; esac; cd crates/maxband; \
		rt try --data "street.toml=$$file" -- solve street.toml certificate.txt || test $$? -le 2
	@echo 'nothing was proved and no certificate is kept: `make` builds the proved program, whose `solve` puts one, and whose `draw`'
	@echo 'puts the diagram as a picture for a browser, as docs/broadway.svg'

example: $(PROGRAM)
	$(PROGRAM) solve examples/broadway.toml broadway-certificate.txt

tree:
	@scripts/tree "$$STREET_FILE" "$$CERT_FILE"

test:
	rt ci

check-examples: $(PROGRAM)
	scripts/examples

check-docs: $(PROGRAM)
	scripts/try-docs

# What needs no built program, and is looked at before the gate too (.ci/run).
check-pages:
	scripts/pages
	scripts/unused
	scripts/believe --check

# Each in its turn, also where one before it failed.
CHECKS = pages unused 'believe --check' examples try-docs second pictures
check: $(PROGRAM)
	@status=0; for check in $(CHECKS); do \
		if scripts/$$check; then echo "scripts/$$check: passed"; else echo "scripts/$$check: FAILED"; status=1; fi; \
	done; exit $$status

second: $(PROGRAM)
	scripts/second

peers: $(PROGRAM)
	scripts/peers

faults: $(PROGRAM)
	scripts/faults

pictures: $(PROGRAM)
	scripts/pictures

clean:
	rm -rf crates/*/out work

believe:
	@scripts/believe verdict

bench: $(PROGRAM) $(FRACTIONS) $(PIVOTS)
	scripts/bench

$(FRACTIONS) $(PIVOTS): $(SOURCES)
	@$(PROVE)

# The manual page names files by where they were put. The pages name one another by their places in the repository, which stay.
install: $(PROGRAM)
	install -D -m 755 $(PROGRAM) $(DESTDIR)$(PREFIX)/bin/maxband
	install -d $(dir $(MANUAL)) $(DOCUMENTS)/docs $(DOCUMENTS)/examples
	sed 's,/usr/local,$(PREFIX),' docs/maxband.1 > $(MANUAL)
	chmod 644 $(MANUAL)
	install -m 644 README.md CHANGELOG.md VERSION $(DOCUMENTS)
	install -m 644 docs/*.md docs/*.svg $(DOCUMENTS)/docs
	install -m 644 examples/* $(DOCUMENTS)/examples

uninstall:
	rm -f $(DESTDIR)$(PREFIX)/bin/maxband $(MANUAL)
	rm -rf $(DOCUMENTS)

.PHONY: all help try example tree test check check-examples check-docs check-pages second pictures peers faults believe bench clean install uninstall
