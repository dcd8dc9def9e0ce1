# Builds the program certview, proved, and installs it. The library for C has a Makefile of its own, in c/.
#
#   make                    crates/certview/out/certview, by `rt run`: all below it is proved first
#   make install            to PREFIX (/usr/local), under DESTDIR: the program, its manual page, the schema of its JSON
#   make uninstall
#
# PROGRAM is the program that is installed. Where it is there, no kit is needed.
PREFIX ?= /usr/local
PROGRAM ?= crates/certview/out/certview

all: $(PROGRAM)

$(PROGRAM):
	cd crates/certview && rt run < stdin > /dev/null

install: $(PROGRAM)
	install -D -m755 $(PROGRAM) $(DESTDIR)$(PREFIX)/bin/certview
	install -D -m644 docs/certview.1 $(DESTDIR)$(PREFIX)/share/man/man1/certview.1
	install -D -m644 docs/certview.schema.json $(DESTDIR)$(PREFIX)/share/certview/certview.schema.json

uninstall:
	rm -f $(DESTDIR)$(PREFIX)/bin/certview $(DESTDIR)$(PREFIX)/share/man/man1/certview.1
	rm -f $(DESTDIR)$(PREFIX)/share/certview/certview.schema.json

.PHONY: all install uninstall
