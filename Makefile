# `make` builds the program where it isn't built, which takes `rt`. `make try` shows one example in a minute, from
# sources that nothing has proved here. `make tools` builds the fast search. `make check-proofs` lets the program check
# the proofs of proofs/. `make install PREFIX=..` puts all of it below that folder, and `make uninstall PREFIX=..` takes
# it away. DESTDIR is put before PREFIX. `make dist` makes the archives of a release in dist/, `make deb` a package for
# Debian, and `make check-dist` tries what stands there.
PREFIX ?= /usr/local
to = $(DESTDIR)$(PREFIX)
docs = $(to)/share/doc/victor
library = $(to)/lib/victor
place = $(shell .ci/python-folder "$(PREFIX)")
python = $(to)$(place)
# What is installed: the program with the sums that were noted of it, none where that is empty, and the fast search.
program = crates/victor/out/victor
stamp = $(program).sources
search = tools/solve
# What the documents speak of, but for the sources and what is made.
texts = README.md CHANGELOG.md CONTRIBUTING.md examples/runs $(wildcard docs/*.md docs/img/*.png examples/*.* \
    examples/*/*.* examples/*/*/*.* tools/solve/Makefile tools/solve/usual.book tools/solve/*.h tools/solve/*.cpp)
package = $(wildcard tools/victor/*.py tools/victor/*.html tools/victor/py.typed tools/victor/_commands/*.py tools/victor/page/*)

all:
	./victor check <examples/usual-board.proof >/dev/null

# It runs the sources with checks in place of proofs, in a folder of its own, and keeps nothing.
try:
	@tools/try

# Unpacks the proofs of proofs/, compares their sums with proofs/README.md and lets the program check them, in seconds.
check-proofs:
	@.ci/proofs

# The table of crates, and a page of definitions and laws for each crate in docs/definitions.
docs:
	@.ci/documents

# The fast search, which decides far more positions than `victor prove`, the warm engine by the same search, and the
# program that makes books.
tools:
	@echo "victor: building tools/solve with $(or $(CXX),g++), in some two minutes; make install installs it too" >&2
	@$(MAKE) --no-print-directory -C tools/solve

# What is needed to run stands in bin, lib and share/victor. The folder of the documents is laid out as the checkout, with
# links to these, so that the documents' commands work there.
install: all
	install -d "$(to)/bin" "$(docs)/tools/solve"
	install -D -m 755 "$(program)" "$(library)/victor"
	[ -z "$(stamp)" ] || install -m 644 "$(stamp)" "$(library)/victor.sources"
	install -m 755 tools/why "$(library)/why"
	install -m 755 victor "$(to)/bin/victor"
	install -m 755 .ci/proofs "$(to)/bin/victor-check-proofs"
	install -D -m 644 victor.1 "$(to)/share/man/man1/victor.1"
	for file in proofs/*; do install -D -m 644 "$$file" "$(to)/share/victor/$$file" || exit 1; done
	for file in $(texts); do install -D -m 644 "$$file" "$(docs)/$$file" || exit 1; done
	for file in $(package); do install -D -m 644 "$$file" "$(python)/$${file#tools/}" || exit 1; done
	install -m 755 tools/check.py "$(python)/victor_check.py"
	sed 's|^HERE = .*|HERE = str(pathlib.Path(__file__).resolve().parents[1]) + "$(place)"|' tools/lab >"$(to)/bin/victor-lab"
	chmod 755 "$(to)/bin/victor-lab"
	for name in solve engine; do \
	    [ -x "$(search)/$$name" ] || continue; \
	    install -m 755 "$(search)/$$name" "$(to)/bin/victor-$$name" && \
	        ln -srf "$(to)/bin/victor-$$name" "$(docs)/tools/solve/$$name" || exit 1; \
	done
	ln -srf "$(to)/bin/victor" "$(docs)/victor"
	ln -srf "$(to)/bin/victor-lab" "$(docs)/tools/lab"
	ln -srf "$(library)/why" "$(docs)/tools/why"
	ln -srf "$(python)/victor_check.py" "$(docs)/tools/check.py"
	ln -srfn "$(to)/share/victor/proofs" "$(docs)/proofs"

uninstall:
	cd "$(to)/bin" && rm -f victor victor-lab victor-solve victor-engine victor-check-proofs
	rm -f "$(to)/share/man/man1/victor.1" "$(python)"/victor_check.py "$(python)"/__pycache__/victor_check.*
	rm -rf "$(docs)" "$(library)" "$(to)/share/victor" "$(python)/victor"

# What is handed on. UNPROVED=PATH takes that program in place of the proved one, to try these, and their names say so.
dist deb check-dist:
	@UNPROVED="$(UNPROVED)" .ci/dist $@

.PHONY: all try docs tools check-proofs install uninstall dist deb check-dist
