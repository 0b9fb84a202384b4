# make install PREFIX=/usr/local    the program, the scripts of bin, the manual pages, the modules for Python and the guide
# make uninstall PREFIX=/usr/local  takes away what that installed
# make install-library PREFIX=..    the library in C (tools/install)
# make check                        the tests, on the program that ./mal runs (tests/all)
#
# DESTDIR, where it is set, stands before PREFIX. The program is the one that ./mal runs: the released one, or the one that was built
# here. It stands in PREFIX/lib/mal with the scripts and modules, and PREFIX/bin has links to these.
PREFIX = /usr/local
DESTDIR =
SHELL = /bin/bash
.SHELLFLAGS = -euo pipefail -c
.ONESHELL:
.SILENT:
.PHONY: all install uninstall library install-library check
to = to='$(DESTDIR)$(PREFIX)' && [[ '$(PREFIX)' == /* ]] || { echo 'PREFIX is a folder that is named from / on' >&2; exit 2; }

all:
	./mal --path

install:
	$(to)
	program=$$(./mal --path)
	install -d "$$to"/{bin,lib/mal,share/man/man1,share/doc/mal}
	install -m 755 mal "$$to/bin"
	install -m 755 "$$program" "$$to/lib/mal/mal"
	install -m 755 bin/mal-* "$$to/lib/mal"
	install -m 644 bin/*.py clients/python/mal*.py docs/help.txt "$$to/lib/mal"
	install -m 644 docs/*.1 "$$to/share/man/man1"
	install -m 644 README.md docs/{GUIDE,FORMATS}.md "$$to/share/doc/mal"
	for script in bin/mal-*; do
	    ln -sfn "../lib/mal/$${script##*/}" "$$to/bin"
	done
	if [ -L target/mal ]; then
	    printf '%s\n' "mal $$(<VERSION)" "proved and built by $$(rt version)"
	else
	    ./mal --version | sed -n 1,3p
	fi >"$$to/lib/mal/VERSION"

uninstall:
	$(to)
	for script in "$$to"/lib/mal/mal-*; do
	    rm -f "$$to/bin/$${script##*/}"
	done
	for page in docs/*.1; do
	    rm -f "$$to/share/man/man1/$${page##*/}"
	done
	rm -rf "$$to/bin/mal" "$$to"/{lib,share/doc}/mal

library:
	tools/build --library

install-library:
	DESTDIR='$(DESTDIR)' tools/install '$(PREFIX)'

check:
	tests/all
