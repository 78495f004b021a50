# Everything here goes through `rt`, which builds only what it has proved.

PREFIX ?= /usr/local
# How many processors a build works on: all that there are, where nothing is named.
JOBS ?=
PROVE = scripts/prove $(if $(JOBS),--jobs $(JOBS))

.PHONY: all lib wheel install install-built install-lib dist test test-edits test-built test-house test-c test-python test-large test-rows test-reference test-readings test-reading test-inflate test-command test-completion test-words test-workflows test-cluster test-klayout test-klayout-prepared bench bench-klayout clean

# The programs: proves every crate that they stand on and no other, and leaves them as ./oascanon and ./oasprep. It tells how far it
# is, and goes on where it was stopped.
all:
	@$(PROVE) oascanon oasprep

# The library for C: proves crates/oascanon_c and all that it stands on, and leaves lib/liboascanon.a and lib/liboascanon.so.
LIBRARY ?= lib
lib:
	@$(PROVE) oascanon_c
	scripts/library crates/oascanon_c/out/liboascanon_c.a lib

# The Python package: a wheel with that library in it, in dist/.
wheel: lib
	python3 python/backend.py dist

install: all lib install-built

# The same of the ./oascanon and the ./oasprep that are there.
install-built:
	install -D -m 755 -t $(DESTDIR)$(PREFIX)/bin oascanon oasprep scripts/oascanon-textconv scripts/klayout-to-canonical
	install -D -m 644 -t $(DESTDIR)$(PREFIX)/share/man/man1 man/oascanon.1 man/oasprep.1 man/oascanon-textconv.1 man/klayout-to-canonical.1
	install -D -m 644 completions/oascanon.bash $(DESTDIR)$(PREFIX)/share/bash-completion/completions/oascanon
	install -D -m 644 completions/oasprep.bash $(DESTDIR)$(PREFIX)/share/bash-completion/completions/oasprep
	install -D -m 644 -t $(DESTDIR)$(PREFIX)/share/zsh/site-functions completions/_oascanon completions/_oasprep
	install -D -m 644 -t $(DESTDIR)$(PREFIX)/share/fish/vendor_completions.d completions/oascanon.fish completions/oasprep.fish
	if [ -e $(LIBRARY)/liboascanon.a ]; then $(MAKE) --no-print-directory install-lib; fi

# The library that is there, its header, and its pkg-config file.
VERSION = $(shell sed -n 's/^const VERSION.*"\([0-9a-z.-]*\) .*/\1/p' crates/oas_request/src/usage.rt)
install-lib:
	install -D -m 644 include/oascanon.h $(DESTDIR)$(PREFIX)/include/oascanon.h
	install -D -m 644 $(LIBRARY)/liboascanon.a $(DESTDIR)$(PREFIX)/lib/liboascanon.a
	install -D -m 755 $(LIBRARY)/liboascanon.so $(DESTDIR)$(PREFIX)/lib/liboascanon.so.0
	ln -sf liboascanon.so.0 $(DESTDIR)$(PREFIX)/lib/liboascanon.so
	mkdir -p $(DESTDIR)$(PREFIX)/lib/pkgconfig
	sed -e 's|@PREFIX@|$(PREFIX)|' -e 's|@VERSION@|$(VERSION)|' oascanon.pc.in >$(DESTDIR)$(PREFIX)/lib/pkgconfig/oascanon.pc

# The gate: `rt ci` (every proof from nothing, the tests of the crates, the stored runs), with it the edits that must fail, and then, on
# the programs that it built, each of the tests below (tests/run). Its last line is `N passed, M failed`.
test:
	tests/run

# Those edits alone: small bugs, each of which the prover has to refuse.
test-edits: all lib
	tests/edits.py

# Those tests alone, side by side, on the programs as `make` builds them.
test-built: all
	@$(PROVE) oas_bench
	tests/run --built

# What may stand at the top, and how many paths crates.txt has.
test-house:
	tests/house/run

# The worked rows through the library for C, from C and from Python.
test-c: lib
	tests/c/run lib

# The Python package, with ten times as many random files as the gate gives. It wants pytest and KLayout: Debian's packages, where they
# aren't there.
test-python: all lib
	python3 -c 'import pytest' 2>/dev/null || test -e /usr/lib/python3/dist-packages/pytest || apt-get install -y python3-pytest
	test -e /usr/lib/klayout/pymod || apt-get install -y klayout
	tests/python/run ./oascanon 10000

# Files at the limits, given to the built program: too large for the tests of a crate.
test-large: all
	tests/large ./oascanon

# Rows for the built programs: files, and what each command has to say of them.
test-rows: all
	tests/rows/run ./oascanon

# Random files, given to the built programs and to a plain, slow one that was written from the same rules. The gate gives 2,000.
test-reference: all
	tests/reference/compare ./oascanon

# Each rule of that program changed in turn: some row of the gate must tell the difference.
test-readings:
	tests/reference/readings

# The definitions on which the promise rests, as docs/READING.md lists and counts them.
test-reading:
	tests/reading/run

# Random deflated streams, inflated by the proved crate and by zlib.
test-inflate:
	@$(PROVE) oas_bench
	tests/inflate

# The packages: a tar.gz, a .deb, a wheel for Python and SHA256SUMS in dist/, tried in clean folders, and by Debian's lintian.
dist: all lib
	command -v lintian >/dev/null || apt-get install -y lintian
	tests/dist/run
	scripts/dist dist

# What a user sees of the built programs, by real files, pipes and limits.
test-command: all
	tests/command/run ./oascanon

# Which run each command line requests, over all words of each command in each order.
test-words: all
	tests/words/run ./oascanon

# What zsh and fish complete: Debian's packages, where they aren't there.
test-completion: all
	tests/run --built completion

# The recipes of docs/WORKFLOWS.md as they are printed there, also over a vault of 20,000 files. They want GNU parallel and pre-commit: Debian's packages, where they aren't there.
test-workflows: all
	tests/run --built workflows vault pre-commit

# The recipes for many machines, by Slurm on this one and by GNU parallel: Debian's packages, where they aren't there.
test-cluster: all
	tests/run --built cluster

# The ways from KLayout's files into the profile, by the real KLayout: Debian's package, where it isn't there.
test-klayout: all
	tests/run --built klayout klayout-package klayout-prepared

# Files as KLayout writes them, through the second program, byte for byte.
test-klayout-prepared: all
	tests/run --built klayout-prepared

# Speed and memory, beside a baseline in the same run; and beside a program written for speed, where its folder is at hand.
FAST ?= ../shared/bench
bench: all
	bench/run
	bench/layouts
	bench/inflate
	bench/canon ./oascanon
	bench/questions ./oascanon
	bench/growth ./oascanon
	bench/orders ./oascanon
	if [ -x $(FAST)/compare ]; then $(FAST)/compare ./oascanon --profile 2; fi

# The same files through KLayout's reading and writing: Debian's package, where it isn't there.
bench-klayout: all
	test -x /usr/lib/klayout/strm2oas || apt-get install -y klayout
	bench/klayout ./oascanon

clean:
	rm -rf crates/*/out oascanon oasprep lib
