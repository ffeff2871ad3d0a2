# `make` shows a first answer, and then proves and builds the program. `make quick` runs the tests without proofs, `make test`
# is the full check, and `make bench` measures the program. What the full check built is not built again.
SHELL := /bin/bash
.SHELLFLAGS := -eu -o pipefail -c
.PHONY: answer first build quick test words docs wrong-bodies soak bench plots install tools

PREFIX := /usr/local
SHARE := $(DESTDIR)$(PREFIX)/share

QUESTION := ask --table emp=examples/emp.csv "VALIDTIME SELECT name FROM emp"

answer: first build
	bin/tq $(QUESTION)

# Prints a first answer from an unproved build, if there is no proved one yet. It takes about 70 seconds.
first: tools
	@[ -x bin/tq ] || { mkdir -p crates/tq/out; cd crates/tq; \
		echo "a first answer in a minute or two, from a build that is not proved yet:"; \
		rt try --data emp.csv=../../examples/emp.csv -- $(subst examples/,,$(QUESTION)) 2> out/first.log || cat out/first.log; }

# Proves and builds tq. The first time takes more than an hour on four cores. After the full check nothing is left to build.
build: tools
	@python3 gate/build.py

# Runs the tests without proofs, in eight minutes on four cores.
quick: tools
	@gate/quick.py

# Checks that the tools are installed.
tools:
	@for tool in rt python3; do command -v $$tool > /dev/null \
		|| { echo "make: $$tool is missing; the Rattle toolchain (rt) and Python 3 build tq"; exit 1; }; done

# The full check: proves every crate and its tests from nothing, and checks that each mutant is refused. It also runs tests and
# programs, runs the program on the cases of gate/, and checks the documents. Its log is bin/check.log.
test:
	@mkdir -p bin
	gate/run.sh 2>&1 | tee bin/check.log

# Lists the old names that are left in the code and the documents.
words:
	@gate/words.py

# Checks the links, names, length and words of the documents.
docs:
	@gate/docs.py

# Applies the mutants that the full check leaves out, of the crates of CRATES or of all.
wrong-bodies:
	gate/wrong_bodies.py $(CRATES)

# Runs one writer and eight readers of a store concurrently for MINUTES, and compares each answer. It ends with the numbers of
# queries, publishes and differences.
MINUTES := 10
soak: tools
	python3 gate/build.py tq_tests_concurrency
	gate/soak.py $(MINUTES)

bench: build
	bench/run.sh

# Measures the figures of docs/plots/, and draws them.
PLOTTED := 10000 100000 1000000 4000000
plots: build
	python3 bench/versus.py --rows $(PLOTTED) --csv docs/plots/peers.csv
	python3 bench/workers.py --rows 1000000 --csv docs/plots/workers.csv
	python3 bench/plots.py

# Installs the program, its man page, and the completions for shells.
install: build
	packaging/pages.py bin/tq bin/pages
	install -D bin/tq $(DESTDIR)$(PREFIX)/bin/tq
	install -D -m 644 bin/pages/tq.1 $(SHARE)/man/man1/tq.1
	install -D -m 644 bin/pages/tq.bash $(SHARE)/bash-completion/completions/tq
	install -D -m 644 bin/pages/_tq $(SHARE)/zsh/site-functions/_tq
	install -D -m 644 bin/pages/tq.fish $(SHARE)/fish/vendor_completions.d/tq.fish
