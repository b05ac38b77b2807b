# make try      a first look in a minute: paves an example by the program's libraries with no proof, and says so
# make          proves and builds the program on JOBS processors, all that there are, and leaves it as ./paver
# make demo     a first look, then the same; paves the example again, compares, and leaves its picture as demo/ring.svg
# make test     the tests of the program, by JOBS processors, with a line for each runner
# make gate     everything: every proof and wrong body from the sources, then the tests; what a merge has to pass
# make layout   tells in a minute which files the gate would refuse for their layout alone
# make fuzz     COUNT made texts, words and files each, a tenth as many systems and databases, and each allocation of each command refused in turn
# make soak HOURS=H    looks for faults for H hours (fractions too) with made cases; what it tried and found is added to soak.log
# make pictures draws each example into docs/pictures, and writes docs/GALLERY.md
# make tables   writes the tables of commands and of crates, the manual page's synopsis and the completions
# make bench    measures beside a lean Rust program, where there is a rustc
# make dist     packs the program, its man page, completions, examples and the package into dist/, with their SHA-256
# make install PREFIX=/usr/local      the program, its man page and completions; make uninstall takes them away
PREFIX ?= /usr/local
SHARE := $(DESTDIR)$(PREFIX)/share
JOBS ?= $(shell nproc)
COUNT ?= 100000
HOURS ?= 1
ALL := 1000000000
export PAVER := $(CURDIR)/paver
export PYTHONPATH := $(CURDIR)/python
SOURCES := $(shell find crates -name out -prune -o -type f \( -name '*.rt' -o -name '*.antt' \) -print) crates.txt

all: paver

# The libraries are proved side by side, by the kit's own `rt` where its parts have other names than build/prove.py knows.
# `rt run` then proves the program's own crate, compiles and links, and runs it; with no words it answers its usage line.
# Its jobs are given, since by itself it would take one: it counts 49 GB for the libraries below, of which a check takes few.
paver: $(SOURCES)
	python3 build/prove.py --jobs $(JOBS) paver || { [ $$? -eq 3 ] && rt all check --jobs $(JOBS); }
	rm -f crates/paver/out/paver
	cd crates/paver && rt run --jobs $(JOBS) >../../paver.log 2>&1; test -x out/paver || { tail -n 20 ../../paver.log; exit 1; }
	rm -f paver.log
	cp crates/paver/out/paver paver

bench: paver
	cd crates/bench_numbers && rt run -- add 1000 >/dev/null 2>&1
	cd crates/bench_trees && rt run -- none 0 >/dev/null 2>&1
	python3 bench/run.py

# Nothing is proved here, and not every slip would stop the run.
try:
	python3 build/first_look.py demo

# Something to look at comes first. What was proved so far is kept, so an ended call goes on where it was.
demo:
	@test -x paver || python3 build/first_look.py demo
	$(MAKE) --no-print-directory paver
	mkdir -p demo
	@test ! -f demo/try.txt || { ./paver run examples/ring.mbx --eps 0.5 | cmp - demo/try.txt && \
		echo "the proved program prints the same bytes as the first look"; }
	./paver run examples/ring.mbx --out demo/ring.paving
	./paver svg examples/ring.mbx demo/ring.paving --x x --y y > demo/ring.svg
	@echo "PROVED: the picture is in demo/ring.svg"

test: paver
	python3 -m tests.suite --jobs $(JOBS)

gate:
	.ci/run

pictures: paver
	examples/pictures.sh ./paver
	python3 -m tests.generators.gallery
	python3 -m tests.generators.view_picture ./paver

tables:
	python3 -m tests.generators.command_tables

layout:
	build/layout.sh

fuzz: paver
	for name in fuzz_reader fuzz_words fuzz_files; do COUNT=$(COUNT) python3 -m tests.runners.$$name || exit; done
	for name in fuzz_systems fuzz_databases; do COUNT=$$(($(COUNT) / 10)) python3 -m tests.runners.$$name || exit; done
	COUNT=$(ALL) python3 -m tests.runners.allocations
	COUNT=$(ALL) python3 -m tests.runners.campaign_allocations

soak: paver
	python3 -m tests.soak --hours $(HOURS) --jobs $(JOBS) --log soak.log

dist: paver
	build/dist.sh ./paver

install: paver
	install -d $(DESTDIR)$(PREFIX)/bin $(SHARE)/man/man1 $(SHARE)/bash-completion/completions
	install -d $(SHARE)/zsh/site-functions $(SHARE)/fish/vendor_completions.d
	install -m 755 paver $(DESTDIR)$(PREFIX)/bin/paver
	install -m 644 docs/paver.1 $(SHARE)/man/man1/paver.1
	install -m 644 completions/paver.bash $(SHARE)/bash-completion/completions/paver
	install -m 644 completions/_paver $(SHARE)/zsh/site-functions/_paver
	install -m 644 completions/paver.fish $(SHARE)/fish/vendor_completions.d/paver.fish

uninstall:
	rm -f $(DESTDIR)$(PREFIX)/bin/paver $(SHARE)/man/man1/paver.1 $(SHARE)/bash-completion/completions/paver
	rm -f $(SHARE)/zsh/site-functions/_paver $(SHARE)/fish/vendor_completions.d/paver.fish

clean:
	rm -rf paver demo dist crates/*/out

.PHONY: all try demo test gate layout tables pictures fuzz soak bench dist install uninstall clean
