# make install [PREFIX=/usr/local] [DESTDIR=]   installs the program and the library that are here, and with a compiler
#                                               for C tracehost-cc and tracehost-run, whose runtime it builds
# make install-strip                            the same, without the program's symbols
# make uninstall                                removes them, with the same variables
# make deb, make wheel                          make a Debian package and a Python wheel in out/
# make check                                    runs ./test
#
# The other variables are GNU's directory variables.

PREFIX ?= /usr/local
prefix = $(PREFIX)
exec_prefix = $(prefix)
bindir = $(exec_prefix)/bin
includedir = $(prefix)/include
libdir = $(exec_prefix)/lib
datarootdir = $(prefix)/share
datadir = $(datarootdir)
mandir = $(datarootdir)/man
man1dir = $(mandir)/man1
docdir = $(datarootdir)/doc/tracehost
pkgdatadir = $(datadir)/tracehost
pkgconfigdir = $(datadir)/pkgconfig
libpkgconfigdir = $(libdir)/pkgconfig
cmakedir = $(libdir)/cmake/tracehost
bashcompletiondir = $(datadir)/bash-completion/completions
zshcompletiondir = $(datadir)/zsh/site-functions

INSTALL = install
INSTALL_PROGRAM = $(INSTALL)
INSTALL_DATA = $(INSTALL) -m 644
PYTHON = python3
OUT = out
SONAME = libtracehost.so.1

PAGES = tracehost.1 tracehost-view.1 tracehost-perfetto.1
DATA = schema/scenario.schema.json viewer/src/* viewer/*.py
# tracehost-debug: the package of the client in Python
DEBUGGER = $(wildcard clients/python/tracehost/*.py) clients/python/tracehost/py.typed
DOCUMENTS = LICENSE THIRD-PARTY.txt README.md CHANGELOG.md SECURITY.md docs/*.* docs/internals/* examples/*
# of the library
HEADERS = include/tracehost.h include/tracehost_fuzz.h $(patsubst %,include/tracehost%.hpp,_artifacts _catch2 _crashes _explain _gtest _record _test) include/tracehost.hpp
# the client in C: tracehost_client.c includes the others
CLIENT = tracehost_client.c internal.h artifacts.c calls.c crashes.c failing.c library.c names.c pages.c record.c \
  refusals.c rows.c session.c steps.c threads.c
# C programs on the model: its Makefile, and where it installs. Relative names are those of this folder.
staged = $(if $(filter /%,$(firstword $(DESTDIR)$(bindir))),$(DESTDIR),$(CURDIR)/$(DESTDIR))
POSIX = -C clients/posix --no-print-directory DESTDIR='$(staged)' bindir='$(bindir)' libdir='$(libdir)' \
  man1dir='$(man1dir)' libpkgconfigdir='$(libpkgconfigdir)'
# commands whose completions come from their own --help
HELPED = tracehost-cc tracehost-run tracehost-corpus tracehost-view tracehost-perfetto
# what the linker finds without being told
SYSTEM_LIBRARIES = /usr/lib /usr/lib/% /usr/lib64 /lib /lib/% /lib64

all:
	@tools/program

# readable by all, whatever the umask. What root builds here is the owner's of this folder, who builds here too
install:
	@tools/program >/dev/null
	@umask 022 && $(MAKE) --no-print-directory install-files
	@for folder in out clients/posix/build; do [ "$$(id -u)" -ne 0 ] || [ ! -d $$folder ] || \
	  chown -hR --reference=Makefile $$folder || true; done

install-files:
	for folder in "$(bindir)" "$(includedir)" "$(man1dir)" "$(docdir)/docs/internals" "$(docdir)/examples" "$(pkgdatadir)/schema" \
	  "$(pkgdatadir)/viewer/src" "$(pkgconfigdir)" "$(cmakedir)" "$(bashcompletiondir)" "$(zshcompletiondir)"; do \
	  $(INSTALL) -d "$(DESTDIR)$$folder" || exit; done
	$(INSTALL_PROGRAM) "$$(tools/program)" "$(DESTDIR)$(bindir)/tracehost"
	for page in $(PAGES); do $(INSTALL_DATA) man/$$page "$(DESTDIR)$(man1dir)" || exit; done
	for file in $(DATA); do $(INSTALL_DATA) $$file "$(DESTDIR)$(pkgdatadir)/$$file" || exit; done
	for file in $(DOCUMENTS); do $(INSTALL_DATA) $$file "$(DESTDIR)$(docdir)/$$file" || exit; done
	$(INSTALL) viewer/make "$(DESTDIR)$(pkgdatadir)/viewer/make"
	ln -sfr "$(DESTDIR)$(pkgdatadir)/viewer/make" "$(DESTDIR)$(bindir)/tracehost-view"
	$(INSTALL) viewer/perfetto "$(DESTDIR)$(pkgdatadir)/viewer/perfetto"
	ln -sfr "$(DESTDIR)$(pkgdatadir)/viewer/perfetto" "$(DESTDIR)$(bindir)/tracehost-perfetto"
	$(INSTALL) -d "$(DESTDIR)$(pkgdatadir)/python/tracehost"
	for file in $(DEBUGGER); do $(INSTALL_DATA) $$file "$(DESTDIR)$(pkgdatadir)/python/tracehost" || exit; done
	printf '%s\n' '#!/bin/sh' 'here=$$(dirname "$$(readlink -f "$$0")")' 'export TRACEHOST="$${TRACEHOST:-$$here/tracehost}"' \
	  "export TRACEHOST_LIBRARY=\"\$${TRACEHOST_LIBRARY:-\$$here/$$(realpath -m --relative-to="$(bindir)" "$(libdir)")/$(SONAME)}\"" \
	  "export PYTHONPATH=\"\$$here/$$(realpath -m --relative-to="$(bindir)" "$(pkgdatadir)")/python\$${PYTHONPATH:+:\$$PYTHONPATH}\"" \
	  'exec python3 -B -m tracehost.debug "$$@"' >"$(DESTDIR)$(bindir)/tracehost-debug"
	chmod 755 "$(DESTDIR)$(bindir)/tracehost-debug"
	$(INSTALL_DATA) clients/c/tracehost_client.h "$(DESTDIR)$(includedir)"
	$(INSTALL) -d "$(DESTDIR)$(pkgdatadir)/c"
	for file in $(CLIENT); do $(INSTALL_DATA) clients/c/$$file "$(DESTDIR)$(pkgdatadir)/c" || exit; done
	sed -e 's|@prefix@|$(prefix)|; s|@bindir@|$(bindir)|; s|@includedir@|$(includedir)|; s|@pkgdatadir@|$(pkgdatadir)|' \
	  -e 's|=$(prefix)/|=$${prefix}/|' -e "s|@version@|$$(tools/version)|" clients/c/tracehost-client.pc.in \
	  >"$(DESTDIR)$(pkgconfigdir)/tracehost-client.pc"
	for file in tracehost-config tracehost-config-version; do \
	  from() { realpath -m --relative-to="$$1" "$$2"; }; \
	  sed -e "s|@to_prefix@|$$(from "$(cmakedir)" "$(prefix)")|; s|@includedir@|$$(from "$(prefix)" "$(includedir)")|" \
	    -e "s|@libdir@|$$(from "$(prefix)" "$(libdir)")|; s|@pkgdatadir@|$$(from "$(prefix)" "$(pkgdatadir)")|" \
	    -e "s|@version@|$$(tools/version)|; s|@soname@|$(SONAME)|" include/cmake/$$file.cmake.in \
	    >"$(DESTDIR)$(cmakedir)/$$file.cmake" || exit; done
	if library=$$(tools/library); then $(MAKE) --no-print-directory install-library library="$$library"; fi
	$(INSTALL_DATA) completions/tracehost.bash "$(DESTDIR)$(bashcompletiondir)/tracehost"
	$(INSTALL_DATA) completions/_tracehost completions/_tracehost-commands "$(DESTDIR)$(zshcompletiondir)"
	$(INSTALL_DATA) completions/tracehost-commands.bash "$(DESTDIR)$(bashcompletiondir)/tracehost-run"
	for name in $(filter-out tracehost-run,$(HELPED)); do \
	  ln -sf tracehost-run "$(DESTDIR)$(bashcompletiondir)/$$name" || exit; done
	if command -v $(CC) >/dev/null; then $(MAKE) $(POSIX) install; \
	  else echo "there is no $(CC): tracehost-cc, tracehost-run, tracehost-corpus and tracehost-ld are not installed" >&2; fi

# the library of the present sources, from the folder that tools/library prints
install-library:
	$(INSTALL) -d "$(DESTDIR)$(includedir)" "$(DESTDIR)$(libpkgconfigdir)"
	$(INSTALL_DATA) $(HEADERS) "$(DESTDIR)$(includedir)"
	$(INSTALL_DATA) "$(library)/libtracehost.a" "$(DESTDIR)$(libdir)"
	$(INSTALL_DATA) "$(library)/libtracehost.so" "$(DESTDIR)$(libdir)/$(SONAME)"
	ln -sf $(SONAME) "$(DESTDIR)$(libdir)/libtracehost.so"
	sed -e 's|@prefix@|$(prefix)|; s|@libdir@|$(libdir)|; s|@includedir@|$(includedir)|' \
	  -e 's|@rpath@|$(if $(filter $(SYSTEM_LIBRARIES),$(libdir)),, -Wl,-rpath,"$${libdir}")|' \
	  -e 's|=$(prefix)/|=$${prefix}/|' -e "s|@version@|$$(tools/version)|" include/tracehost.pc.in \
	  >"$(DESTDIR)$(libpkgconfigdir)/tracehost.pc"
	if [ -z "$(DESTDIR)" ] && [ "$$(id -u)" -eq 0 ] && [ -n "$(filter /usr/local/lib $(SYSTEM_LIBRARIES),$(libdir))" ]; then \
	  PATH="$$PATH:/sbin:/usr/sbin" ldconfig || true; fi

install-strip:
	$(MAKE) INSTALL_PROGRAM='$(INSTALL_PROGRAM) -s' install

# folders that other programs may share stay
uninstall:
	for file in "$(bindir)/tracehost" "$(bindir)/tracehost-view" "$(bindir)/tracehost-perfetto" "$(bindir)/tracehost-debug" \
	  "$(includedir)/tracehost_client.h" $(HEADERS:include/%="$(includedir)/%") \
	  "$(libdir)/libtracehost.a" "$(libdir)/libtracehost.so" "$(libdir)/$(SONAME)" \
	  "$(libpkgconfigdir)/tracehost.pc" "$(pkgconfigdir)/tracehost-client.pc" \
	  "$(pkgdatadir)/viewer/make" "$(pkgdatadir)/viewer/perfetto" "$(bashcompletiondir)/tracehost" \
	  "$(zshcompletiondir)/_tracehost" "$(zshcompletiondir)/_tracehost-commands" \
	  "$(cmakedir)/tracehost-config.cmake" "$(cmakedir)/tracehost-config-version.cmake"; do rm -f "$(DESTDIR)$$file"; done
	for name in $(HELPED); do rm -f "$(DESTDIR)$(bashcompletiondir)/$$name"; done
	$(MAKE) $(POSIX) uninstall
	for page in $(PAGES); do rm -f "$(DESTDIR)$(man1dir)/$$page"; done
	for file in $(CLIENT); do rm -f "$(DESTDIR)$(pkgdatadir)/c/$$file"; done
	test ! -d "$(DESTDIR)$(pkgdatadir)/c" || rmdir "$(DESTDIR)$(pkgdatadir)/c"
	for file in $(DATA); do rm -f "$(DESTDIR)$(pkgdatadir)/$$file"; done
	for file in $(notdir $(DEBUGGER)); do rm -f "$(DESTDIR)$(pkgdatadir)/python/tracehost/$$file"; done
	for file in $(DOCUMENTS); do rm -f "$(DESTDIR)$(docdir)/$$file"; done
	for folder in "$(cmakedir)" "$(docdir)/docs/internals" "$(docdir)/docs" "$(docdir)/examples" "$(docdir)" \
	  "$(pkgdatadir)/python/tracehost" "$(pkgdatadir)/python" "$(pkgdatadir)/schema" "$(pkgdatadir)/viewer/src" "$(pkgdatadir)/viewer" "$(pkgdatadir)"; do \
	  test ! -d "$(DESTDIR)$$folder" || rmdir "$(DESTDIR)$$folder"; done

deb:
	tools/deb "$(OUT)"

# twice the same bits: no time but the release's, and no mode but the umask's; without a program it is only the client
wheel:
	@tools/program >/dev/null || echo "the wheel contains the client, without the program" >&2
	umask 022 && SOURCE_DATE_EPOCH=$${SOURCE_DATE_EPOCH:-$$(tools/version --time)} \
	  $(PYTHON) -m pip wheel --quiet --no-deps $(PIPFLAGS) --wheel-dir "$(OUT)" ./clients/python

check:
	./test

.PHONY: all install install-files install-library install-strip uninstall deb wheel check
