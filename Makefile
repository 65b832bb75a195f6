# `make try` runs the program at once, unproved; `make` proves it, builds it and solves the small mine; `make test` runs the gate.
.PHONY: all try build library dist demo docs site install test style test-program test-plan thorough test-library mutants sweep storm bench setup

SMALL_MINE = examples/small_mine
PROGRAM = build/pitshell
PREFIX = /usr/local

all: build demo

# A first answer in two or three minutes. Nothing is proved: the sources are compiled and run as they are.
try:
	tools/first_run.py

# Proves the program and all below it, side by side, with a line for each crate, and links it; where nothing changed since, that is all.
build:
	tools/build.py
	tools/build.py pitschedule

# Proves what C and Python call, side by side as well, and links build/libpitshell.so and build/libpitshell.a for include/pitshell.h.
library:
	tools/build.py pitshell_c

# What others install, in build/dist: a Debian package, an archive, and wheels of the library and of the planner's layer. The library comes
# first, since a missing C compiler stops it before anything is proved.
dist: library build site
	tools/dist.py

# Renews what repeats a command line, the columns of tables or measurements: man pages, completions, FORMATS, stored words of
# tests, tables of README, SPEED and PROOFS. Then builds the site. What repeats the help of a program that is not built stays as it is.
docs:
	tools/make_docs.py
	tools/make_manual.py
	tools/columns_page.py
	tools/keys_page.py
	tools/bench_tables.py
	tools/definitions.py
	tools/pitplan completion bash > completions/pitplan.bash
	tools/pitplan completion zsh > completions/_pitplan
	tools/pitplan completion fish > completions/pitplan.fish
	$(MAKE) site

# Builds the pages of docs/ as HTML in build/site. It fails at a dead link or a missing picture.
site: setup
	rm -rf build/site
	/usr/bin/python3 -m sphinx -E -q -W --keep-going -d build/doctrees docs build/site
	@echo "open build/site/index.html"

demo:
	build/pitshell solve --model $(SMALL_MINE)/mine.upit --prec $(SMALL_MINE)/mine.prec > build/pit.txt
	head -n 8 build/pit.txt
	cmp build/pit.txt $(SMALL_MINE)/pit.txt

# Program, library, planner's layer, manual pages, completions, documents, examples and what was built, below PREFIX; where library or site
# was not built, all but that. DESTDIR comes before it, for those who make a package.
LAYER = $(DESTDIR)$(PREFIX)/lib/pitshell/python
DOC = $(DESTDIR)$(PREFIX)/share/doc/pitshell
DOCUMENTS = README.md CHANGELOG.md docs/*.* docs/*/* examples/*.ipynb examples/*/*.* examples/*/expected/* examples/*/realisations/*
install:
	test -x $(PROGRAM) || $(MAKE) build
	install -D -m 755 $(PROGRAM) $(DESTDIR)$(PREFIX)/bin/pitshell
	test ! -e build/pitschedule || install -D -m 755 build/pitschedule $(DESTDIR)$(PREFIX)/bin/pitschedule
	install -D -m 755 tools/pitplan $(DESTDIR)$(PREFIX)/bin/pitplan
	install -D -m 644 LICENSE $(DOC)/LICENSE
	for file in $(DOCUMENTS); do install -D -m 644 $$file $(DOC)/$$file || exit; done
	test ! -e build/site || (cd build/site && find . -type f -exec install -D -m 644 {} $(DOC)/site/{} ";")
	for name in $(PROGRAM) build/pitschedule build/libpitshell.so; do \
	  test ! -e $$name.version || install -D -m 644 -t $(DOC) $$name.version || exit; \
	done
	install -D -m 644 -t $(DESTDIR)$(PREFIX)/share/man/man1 man/pitshell.1 man/pitschedule.1 man/pitplan.1
	for name in pitshell pitschedule pitplan; do \
	  install -D -m 644 completions/$$name.bash $(DESTDIR)$(PREFIX)/share/bash-completion/completions/$$name || exit; \
	  install -D -m 644 completions/_$$name $(DESTDIR)$(PREFIX)/share/zsh/site-functions/_$$name || exit; \
	  install -D -m 644 completions/$$name.fish $(DESTDIR)$(PREFIX)/share/fish/vendor_completions.d/$$name.fish || exit; \
	done
	cd python && find pitplan planaudit minelib pitshell -type f ! -name "*.pyc" -exec install -D -m 644 {} $(LAYER)/{} ";"
	install -D -m 755 -t $(LAYER)/pitplan/checkers tools/check_certificate.py tools/replay_journal.py
	test ! -e build/libpitshell.so || install -D -m 644 -t $(DESTDIR)$(PREFIX)/lib build/libpitshell.so build/libpitshell.a
	test ! -e build/libpitshell.so || install -D -m 644 include/pitshell.h $(DESTDIR)$(PREFIX)/include/pitshell.h

# The gate: every proof, with the mutants that are due planted, and then the tests over the program and the library that were just
# proved and built: the program's own, and those of the planner's layer and of the library.
test: setup
	tools/uncited.py
	tools/named.py
	tools/prose.py
	tools/mutants.py --changed
	$(MAKE) style test-program test-plan

# Layout, imports, unused names and types of the Python code; nothing is changed. `black python && isort python` lays it out.
style: setup
	/usr/bin/python3 -m black --check --quiet python docs/conf.py
	/usr/bin/python3 -m isort --check-only --quiet python docs/conf.py
	/usr/bin/python3 -m pyflakes python/pitplan python/planaudit python/minelib python/tests docs/conf.py
	/usr/bin/python3 -m mypy -p pitplan -p planaudit -p minelib -p pitshell
	MYPYPATH=python/tests /usr/bin/python3 -m mypy -p oracle
	/usr/bin/python3 -m mypy docs/conf.py

# The tests of the built program and of the tools beside it alone.
test-program: setup
	test -x build/pitshell -a -x build/pitschedule || $(MAKE) build
	/usr/bin/python3 -m pytest tests -q -p no:cacheprovider

# The tests of the planner's layer alone, as many processes as processors. Where there is no program yet it is proved and built first,
# for half an hour.
test-plan: setup
	test -x build/pitshell || $(MAKE) build
	/usr/bin/python3 -m pytest python/tests -q -p no:cacheprovider -n auto --dist loadfile

# The same with many random cases that no run had before, a thousand projects against the oracle of tests/oracle, and
# 25 times as many examples of each property. SEED repeats a run.
SEED := $(shell date +%s)
thorough: setup
	test -x build/pitshell || $(MAKE) build
	@echo "to repeat this run: make thorough SEED=$(SEED)"
	PITPLAN_TESTS=thorough PITPLAN_SEED=$(SEED) /usr/bin/python3 -m pytest python/tests -q -p no:cacheprovider -n auto --dist loadfile \
	  --hypothesis-seed=$(SEED)

# Tries all mutants for the prover, for an hour or two, and renews mutants.lock. tools/mutants.py CRATE tries those of a crate.
mutants:
	tools/mutants.py

# The library through its Python package and its header alone.
test-library: setup
	test -x build/libpitshell.so || $(MAKE) library
	PYTHONPATH=python /usr/bin/python3 -m pytest python/tests/test_library.py -q -p no:cacheprovider

# Lets each request for memory, each thread, each read and each write of every row go wrong in turn, and changes each byte of
# certificates, journals and fixed files to each other byte; tests/test_sweeps.py and tests/test_hostile_files.py do a part of it.
sweep:
	test -x build/pitshell || $(MAKE) build
	tests/sweeps.py --results build/sweeps.md
	tools/compare_bent.py --results build/sweeps.md

# A thousand runs with workers on random mines, for half an hour or more, each journal replayed by the program and by tools/replay_journal.py.
storm:
	test -x build/pitshell || $(MAKE) build
	tools/journal_storm.py --runs 1000 --results build/journal-storm.md

# Times the program by all suites, next to other people's maximum flows, and writes bench/results/bench.md, from which make docs makes the
# tables of README and SPEED. SUITE chooses one suite, which writes build/bench.md: make bench SUITE=fixed. BENCH has options: BENCH=--small
# tries the machinery. Peers whose packages are missing are left out.
SUITE = all
bench:
	tools/setup.sh bench || echo "going on with the peers that there are"
	test -x $(PROGRAM) || $(MAKE) build
	test -e build/libpitshell.so || $(MAKE) library
	/usr/bin/python3 bench/bench.py $(SUITE) $(BENCH)

# Installs what the planner's layer and its tests need of Debian's packages, where anything is missing.
setup:
	@tools/setup.sh
