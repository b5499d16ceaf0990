# Installs what this repository builds, each proved by the kit:
#
#     make install PREFIX=/usr/local [DESTDIR=..]
#
# the program `lines`, the library for C with its header, man pages, and completions for bash and
# zsh. What `.ci/run` has built of this very text is taken as it is; else it is proved first, which
# takes an hour. `make install-lines` leaves out the library. `make uninstall` takes all of it away.
#
# `make dist` makes one archive of all this, build/notsimbera-VERSION-x86_64.tar.gz, which a machine
# without the kit unpacks, and says `make install` in.
PREFIX ?= /usr/local
DESTDIR ?=
to = $(DESTDIR)$(PREFIX)
program = crates/lines/out/lines
archive = crates/gimli_c/out/libgimli_c.a
man = build/lines.1
version = $(shell sed -n 's/^\#define GIMLI_LINE_VERSION_\(MAJOR\|MINOR\|PATCH\) \([0-9]*\)$$/\2/p' crates/gimli_c/include/gimli_line.h | paste -sd.)
name = notsimbera-$(version)-x86_64
pages = README.md CHANGELOG.md LICENSE-APACHE LICENSE-MIT docs/reference/LINES.md docs/reference/JSON.md docs/reference/INDEX.md docs/guide/signal-handler.md docs/guide/look-up-from-c.md

.PHONY: all program library install install-lines install-library uninstall dist

all: program library

# `rt run` proves what has changed, and nothing else.
program:
	install/fresh lines $(program) || (cd crates/lines && rt run -- --version)

# The archive of `make dist` has the object that is made of it, and no archive.
library:
	[ ! -f crates.txt ] || install/fresh gimli_c $(archive) || .ci/proof/library
	$(MAKE) -C crates/gimli_c

$(man): docs/reference/LINES.md docs/reference/JSON.md
	mkdir -p build
	install/man $^ > $@

install: install-lines install-library

install-lines: program $(man)
	install -d "$(to)/bin" "$(to)/share/man/man1" "$(to)/share/bash-completion/completions" "$(to)/share/zsh/site-functions"
	install -m 755 $(program) "$(to)/bin/lines"
	install -m 644 $(man) "$(to)/share/man/man1/lines.1"
	install -m 644 install/lines.bash "$(to)/share/bash-completion/completions/lines"
	install -m 644 install/_lines "$(to)/share/zsh/site-functions/_lines"

install-library: library
	$(MAKE) -C crates/gimli_c install PREFIX="$(PREFIX)" DESTDIR="$(DESTDIR)"

uninstall:
	rm -f "$(to)/bin/lines" "$(to)/share/man/man1/lines.1"
	rm -f "$(to)/share/bash-completion/completions/lines" "$(to)/share/zsh/site-functions/_lines"
	$(MAKE) -C crates/gimli_c uninstall PREFIX="$(PREFIX)" DESTDIR="$(DESTDIR)"

# The folders are those of the repository, so that this file serves there too.
dist: program library $(man)
	rm -rf build/$(name) && mkdir -p build/$(name)/crates
	cp --parents -p $(program) install/fresh install/lines.bash install/_lines Makefile $(pages) build/$(name)
	cp --parents -p $(man) build/$(name)
	$(MAKE) -C crates/gimli_c dist
	cp -r crates/gimli_c/build/gimli_line-$(version) build/$(name)/crates/gimli_c
	tar -C build -czf build/$(name).tar.gz $(name)
