# Builds, installs and tests keynoted: make, make install [PREFIX=..] [DESTDIR=..], make uninstall, make check, make
# test, make deb.
PREFIX ?= /usr/local
PROGRAM ?= crates/keynoted/out/keynoted
VERSION = $$(sed -n 's/^version=//p' keynoted)
TO = $(DESTDIR)$(PREFIX)
MAN = $(TO)/share/man
DOC = $(TO)/share/doc/keynoted
EXAMPLES = $(TO)/share/examples/keynoted
PYTHON = $(TO)/share/keynoted/python

# what was built elsewhere is taken as it is
all:
	case $(PROGRAM) in crates/*) tools/build ;; esac

install: all
	mkdir -p $(TO)/bin $(TO)/libexec/keynoted $(MAN)/man5 $(MAN)/man7 $(MAN)/man8 $(PYTHON)/keynoted $(EXAMPLES) $(DOC)
	cp $(PROGRAM) $(TO)/libexec/keynoted/keynoted
	cp keynoted $(TO)/bin/keynoted
	cp man/*.5 $(MAN)/man5
	cp man/*.7 $(MAN)/man7
	cp man/*.8 $(MAN)/man8
	cp -R examples/. $(EXAMPLES)
	cp clients/python/keynoted.py $(PYTHON)/keynoted.py
	cp clients/python/keynoted/*.py clients/python/keynoted/py.typed $(PYTHON)/keynoted
	ln -sf ../share/keynoted/python/keynoted.py $(TO)/bin/keynoted-client
	cp README.md CHANGELOG.md docs/*.md $(DOC)
	chmod 755 $(TO)/libexec/keynoted/keynoted $(TO)/bin/keynoted $(PYTHON)/keynoted.py

# takes away what install puts there, and no file of /etc
uninstall:
	rm -f $(TO)/bin/keynoted $(TO)/bin/keynoted-client
	rm -f $(MAN)/man5/keynoted.keys.5 $(MAN)/man5/keynoted.policy.5 $(MAN)/man7/keynoted.protocol.7 $(MAN)/man8/keynoted.8
	rm -rf $(TO)/libexec/keynoted $(TO)/share/keynoted $(EXAMPLES) $(DOC)

# the program alone, by its cases; KEYNOTED names another one
check:
	tests/run.sh

# a package for Debian, in out/
deb: all
	tools/deb $(PROGRAM) $(VERSION) out

test:
	.ci/run

.PHONY: all install uninstall check deb test
