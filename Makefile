# Proves, builds, tests and installs aegis.
#
#   make                       proves and builds the program; the first time takes tens of minutes
#   make test                  the test of everything
#   make dist                  a package for Debian and an archive for any other x86-64 Linux, to out/, of what `make test` has passed
#   make install               to PREFIX, which is /usr/local where nothing else is said; DESTDIR stands before it
#   make install-built         the same, of a program that was built before
#   make install-account       besides, what the GUIDE's account of its own needs; root puts the rules for sudo in place by hand
#   make uninstall             takes it away again

PREFIX = /usr/local
DESTDIR =
INSTALL = install

PROGRAM = crates/aegis/out/aegis
# what is right in share/ goes by what it is: what can be run, pages of the manual, completion, and what these read
SCRIPTS := $(shell find share -maxdepth 1 -type f -perm -u+x | sort)
PAGES := $(wildcard share/*.1)
FORMATS := $(wildcard share/*.5)
READ := $(filter-out $(SCRIPTS) $(PAGES) $(FORMATS) share/completion.bash,$(shell find share -maxdepth 1 -type f | sort))
# folders that scripts read, with all that is below them
BELOW := $(shell find share -mindepth 2 -type f ! -path 'share/account/*' ! -path '*/__pycache__/*' ! -path '*/.*' | sort)

bin = $(DESTDIR)$(PREFIX)/bin
share = $(DESTDIR)$(PREFIX)/share
TO_PREFIX = sed -i 's|/usr/local|$(PREFIX)|g'

all:
	./aegis --version

test:
	.ci/run

dist:
	packaging/make-packages $(PROGRAM) out

install: all install-built

# Installs what was built before. `aegis --version` says the commit that was noted at the build of just this program, or none.
install-built:
	$(INSTALL) -d $(bin) $(share)/man/man1 $(share)/man/man5 $(share)/bash-completion/completions $(share)/aegis
	$(INSTALL) -m 755 $(PROGRAM) $(bin)/aegis
	$(INSTALL) -m 755 $(SCRIPTS) $(bin)
	$(INSTALL) -m 644 $(PAGES) $(share)/man/man1
	$(INSTALL) -m 644 $(FORMATS) $(share)/man/man5
	$(INSTALL) -m 644 share/completion.bash $(share)/bash-completion/completions/aegis
	$(INSTALL) -m 644 $(READ) $(share)/aegis
	for file in $(BELOW:share/%=%); do \
		if [ -x "share/$$file" ]; then mode=755; else mode=644; fi; \
		$(INSTALL) -D -m $$mode "share/$$file" "$(share)/aegis/$$file" || exit 1; \
	done
	$(TO_PREFIX) $(SCRIPTS:share/%=$(bin)/%) $(PAGES:share/%=$(share)/man/man1/%) $(FORMATS:share/%=$(share)/man/man5/%) \
		$(share)/bash-completion/completions/aegis $(READ:share/%=$(share)/aegis/%) $(BELOW:share/%=$(share)/aegis/%)
	.ci/note-build read $(PROGRAM) >$(share)/aegis/commit
	chmod 644 $(share)/aegis/commit

# The paths in these files are those of the PREFIX; what they run has to belong to root.
account = $(DESTDIR)$(PREFIX)/lib/aegis
install-account:
	$(INSTALL) -d $(bin) $(share)/aegis $(share)/man/man1 $(account)/shell
	$(INSTALL) -m 755 share/account/aeteam $(bin)
	$(INSTALL) -m 755 share/account/aegis-for share/account/hand-over $(account)
	$(INSTALL) -m 755 share/account/sh $(account)/shell
	$(INSTALL) -m 644 share/account/sudoers $(share)/aegis
	$(INSTALL) -m 644 share/account/aeteam.1 $(share)/man/man1
	$(TO_PREFIX) $(bin)/aeteam $(account)/aegis-for $(account)/shell/sh $(share)/aegis/sudoers $(share)/man/man1/aeteam.1

uninstall:
	rm -f $(bin)/aeteam $(account)/aegis-for $(account)/hand-over $(account)/shell/sh $(share)/aegis/sudoers $(share)/man/man1/aeteam.1
	[ ! -d $(account) ] || rmdir $(account)/shell $(account)
	rm -f $(bin)/aegis $(SCRIPTS:share/%=$(bin)/%) $(PAGES:share/%=$(share)/man/man1/%) $(FORMATS:share/%=$(share)/man/man5/%)
	rm -f $(share)/bash-completion/completions/aegis $(READ:share/%=$(share)/aegis/%) $(BELOW:share/%=$(share)/aegis/%) $(share)/aegis/commit
	[ ! -d $(share)/aegis ] || find $(share)/aegis -depth -type d -empty -delete

.PHONY: all test dist install install-built install-account uninstall
