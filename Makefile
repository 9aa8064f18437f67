# Proves and builds the programs, tests them, and installs the commands `bitfields`, `formats` and `format`.
#
#   make                          proves and builds, in up to an hour; it needs the toolchain's `rt`
#   make check                    the gate
#   make install PREFIX=FOLDER    the commands, the completions for bash and zsh, and the man page
#   make uninstall PREFIX=FOLDER
PREFIX = /usr/local
DESTDIR =
PROGRAMS = bitfields formats
COMMANDS = $(PROGRAMS) format
parts = $(PREFIX)/lib/bitstream_io
bash = $(PREFIX)/share/bash-completion/completions
zsh = $(PREFIX)/share/zsh/site-functions
man = $(PREFIX)/share/man/man1

all:
	for it in $(PROGRAMS); do ./$$it --build || exit 1; done

check:
	./test

# Each command is a script that finds its parts beside it, so the one in `bin` only calls it.
install:
	for it in $(PROGRAMS); do test -x crates/$$it/out/$$it || { echo "run make first: $$it is not built" >&2; exit 1; }; done
	install -d $(foreach it,$(PREFIX)/bin $(bash) $(zsh) $(man),$(DESTDIR)$(it))
	for it in $(PROGRAMS); do install -D crates/$$it/out/$$it $(DESTDIR)$(parts)/crates/$$it/out/$$it || exit 1; done
	install $(COMMANDS) $(DESTDIR)$(parts)
	install -m 644 -D crates/formats/src/help.rt $(DESTDIR)$(parts)/crates/formats/src/help.rt
	find tools/layout_fault.py tools/describing -type f ! -name '*.pyc' \
	  -exec install -m 644 -D {} $(DESTDIR)$(parts)/{} ';'
	for it in $(COMMANDS); do \
	  printf '#!/bin/sh\nexec %s/%s "$$@"\n' $(parts) $$it >$(DESTDIR)$(PREFIX)/bin/$$it && \
	  chmod 755 $(DESTDIR)$(PREFIX)/bin/$$it && \
	  install -m 644 tools/completion/$$it.bash $(DESTDIR)$(bash)/$$it && \
	  install -m 644 tools/completion/_$$it $(DESTDIR)$(zsh)/_$$it || exit 1; \
	done
	install -m 644 docs/made/bitfields.1 $(DESTDIR)$(man)

uninstall:
	rm -rf $(DESTDIR)$(parts) $(DESTDIR)$(man)/bitfields.1
	for it in $(COMMANDS); do \
	  rm -f $(DESTDIR)$(PREFIX)/bin/$$it $(DESTDIR)$(bash)/$$it $(DESTDIR)$(zsh)/_$$it; \
	done

.PHONY: all check install uninstall
