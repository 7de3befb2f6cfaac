# `make run` shows what the program does, in a minute or two; `make unproved` compiles it for a trial; `make dcmbox` proves
# and builds it, and `make verify` checks whether a given program is that one; `make kept` proves what `make check` starts
# from; `make quick` runs the tests of the tree and of the crates without proof; `make test` is the whole gate.
PROGRAM := crates/cli/out/cli

# The tests of the tree, and those of the program from outside: as many in parallel as there are processors. Tests of the
# tree that share one run of a tool form a group, which runs in one process.
WORKERS ?= $(shell nproc)
PYTEST := PYTHONDONTWRITEBYTECODE=1 /usr/bin/python3 -m pytest -c tests/pytest.ini -n $(WORKERS)
TREE := $(PYTEST) --dist loadgroup
# Leaves out the tests that prove small crates, which need nearly all the time.
UNPROVED := -m 'not proves'
OUTSIDE := $(PYTEST) --program=$(PROGRAM)

# Where `make install` puts the program, its manual page, its completion, its alerts and its systemd units. Neither `make install` nor
# `make uninstall` changes an existing /etc/default/dcmbox, the options of the units.
PREFIX ?= /usr/local
DESTDIR ?=

.PHONY: run unproved verify kept quick packages test steps tree outside bench probe docs check mutants fmt gate-table clean install uninstall deb release

run:
	@tools/run

# Compiles the program without proof, for a trial, to ./dcmbox-unproved: its version and its log say so.
unproved:
	@tools/unproved

# Proves every crate that the program depends on as the gate does, several in parallel, compiles the program, and puts it
# here, with dcmbox.proved: the digests of the program and of the sources at the start of the build, and the toolchain.
dcmbox: FORCE
	@mkdir -p crates/cli/out && tools/is-proved --sources >crates/cli/out/sources
	tools/build cli
	install -m 755 $(PROGRAM) dcmbox
	@tools/is-proved --note "$$(cat crates/cli/out/sources)"

# Proves and builds in the same way, replaces no program, and reports in one line whether ./dcmbox, or another program given
# as OF=/usr/bin/dcmbox, is the program proved of these sources.
verify:
	@tools/verify $(OF)

.PHONY: FORCE
FORCE:

# Proves the libraries of the program and keeps the results: `make check` then proves only what changed in a crate.
kept:
	tools/build --keep

# Runs the tests of the tree, and every test of the crates, compiled with checks and without proof: some minutes. The tests
# of the tree need what `make packages` installs.
quick:
	$(TREE) $(UNPROVED) tests/tree
	tools/quick

# Installs the Debian packages that the tests need (tests/packages.txt), if one is missing.
packages:
	@wanted=$$(grep -v '^#' tests/packages.txt); \
	if [ "$$(dpkg-query -W -f '$${db:Status-Status}\n' $$wanted 2>/dev/null | grep -cx installed)" -ne "$$(echo $$wanted | wc -w)" ]; then \
		apt-get update && DEBIAN_FRONTEND=noninteractive apt-get install -y --no-install-recommends $$wanted; \
	fi

# The whole gate. Checks the tree: what the crates cite of each other, whether generated files are up to date, whether the
# targets of claims and links exist, and that each of these checks can fail. Proves every crate and its tests from nothing,
# runs the tests and the program, computes the examples of the definitions, tries the mutants, and then tests the program from
# outside: with invalid arguments and missing files, along docs/TOUR.md, under strace, with the tools of DCMTK, also on
# compressed images, by its log, with several peers at once, as a Debian package, and as docs/DEPLOY.md describes. Prints
# the times of the long steps, and at the end what each crate cost.
test: packages
	tools/gate-table $(MAKE) --no-print-directory steps

steps:
	tools/timed env $(TREE) tests/tree
	tools/timed env RT_JOBS=$$(tools/build --lanes) rt ci
	tools/timed tools/examples
	tools/timed tools/mutants
	tools/timed env $(OUTSIDE) tests/program

# Runs the tests of the tree alone: all but those that prove small crates, all of one file (FILE=layers), or those whose
# names contain given words (TEST='stale index').
tree:
	$(TREE) $(if $(FILE),,$(UNPROVED)) $(if $(TEST),-k '$(TEST)') tests/tree$(if $(FILE),/test_$(FILE).py)

# Runs the tests from outside alone: all, those of one file (FILE=log), or those whose names contain given words
# (TEST='log and calling title').
outside:
	$(OUTSIDE) $(if $(TEST),-k '$(TEST)') tests/program$(if $(FILE),/test_$(FILE).py)

# Compares the program with DCMTK's storescp and with a baseline that checks nothing: prints tables of ratios, and draws the
# figures of docs/PERFORMANCE.md (with Debian's python3-matplotlib).
bench: dcmbox
	/usr/bin/python3 bench/bench.py ./dcmbox --draw docs/figures

# Compares the program with DCMTK's storescp (and with Orthanc, whose program is given as ORTHANC=..) from outside: prints
# the table of docs/COMPARISON.md.
probe: dcmbox
	bench/probe.py ./dcmbox $(if $(ORTHANC),--orthanc $(ORTHANC))

# Writes what tools write of the documents: the definitions of an evening's reading, the tables of options, limits, statuses
# and faults, and the diagram of crates; and in docs/out, which is not committed, the whole booklet and the index of definitions.
docs:
	tools/definitions
	tools/tables
	tools/booklet
	tools/diagram

# Checks one crate, starting from what earlier checks kept: make check CRATE=pdu
check:
	cd crates/$(CRATE) && rt check

# Tries the mutants of one crate: make mutants CRATE=pdu
mutants:
	tools/mutants --all $(CRATE)

# Formats every .rt and .antt file as the gate requires.
fmt:
	set -e; for crate in crates/*/; do (cd $$crate && rt fmt); done

# Proves every crate and its tests from nothing, tries the mutants, and prints what each crate cost (docs/GATE.md).
gate-table:
	tools/gate-table sh -c 'rt ci && tools/mutants --all'

# Installs what `make dcmbox` proved and built. A package build sets DESTDIR to the folder that it packs.
install:
	@tools/is-proved
	install -D -m 755 dcmbox $(DESTDIR)$(PREFIX)/bin/dcmbox
	install -D -m 644 man/dcmbox.1 $(DESTDIR)$(PREFIX)/share/man/man1/dcmbox.1
	install -D -m 644 packaging/dcmbox.bash $(DESTDIR)$(PREFIX)/share/bash-completion/completions/dcmbox
	install -D -m 644 packaging/dcmbox.rules.yml $(DESTDIR)$(PREFIX)/share/doc/dcmbox/dcmbox.rules.yml
	packaging/make-units $(PREFIX) $(DESTDIR)$(PREFIX)/lib/systemd/system
	test -e $(DESTDIR)/etc/default/dcmbox || install -D -m 644 packaging/dcmbox.default $(DESTDIR)/etc/default/dcmbox

# Builds a Debian package here of what `make dcmbox` proved and built.
deb:
	@tools/is-proved
	packaging/make-deb dcmbox .

# Puts the files of a release of what `make dcmbox` proved and built into the folder release, from a tree without changes.
release:
	@tools/is-proved
	@changes=$$(git status --porcelain) && test -z "$$changes" || { echo "there are changes that are not committed, or git fails" >&2; exit 1; }
	packaging/make-release dcmbox release

uninstall:
	rm -f $(DESTDIR)$(PREFIX)/bin/dcmbox $(DESTDIR)$(PREFIX)/share/man/man1/dcmbox.1 \
		$(DESTDIR)$(PREFIX)/share/bash-completion/completions/dcmbox $(DESTDIR)$(PREFIX)/share/doc/dcmbox/dcmbox.rules.yml \
		$(DESTDIR)$(PREFIX)/lib/systemd/system/dcmbox.service $(DESTDIR)$(PREFIX)/lib/systemd/system/dcmbox@.service \
		$(DESTDIR)$(PREFIX)/lib/systemd/system/dcmbox-send@.service $(DESTDIR)$(PREFIX)/lib/systemd/system/dcmbox-send@.timer

clean:
	rm -rf dcmbox dcmbox-unproved dcmbox.proved dcmbox_*.deb release docs/out crates/*/out
