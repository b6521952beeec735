# For GNU make.
#
#   make              the library, static and shared, and the program hanxin; the first time it proves the library, which takes minutes
#   make install      installs both, the header, the page of the manual and what pkg-config reads; builds what is not built
#   make uninstall    removes what 'make install' with the same variables put there
#   make check        the tests of all that is in C, some minutes; .ci/run has all tests
#   make clean        removes what 'make' built, and leaves what is proved
#   make help         these lines
#
# Variables, each as NAME=VALUE after 'make':
#
#   PREFIX=/usr/local below which all is installed; BINDIR, LIBDIR, INCLUDEDIR, MANDIR and DOCDIR are folders below it
#   DESTDIR=          a folder that stands before all of these, for who makes a package
#   CC, CFLAGS        the C compiler, and its options for the program
#   PROVED=           another build of the proved functions; nothing is proved then, and what is built goes to target/given
#   BUILD=target      the folder for what is built
#
# The loader finds a library that is new in /usr/local/lib after ldconfig has been run as root.

PREFIX = /usr/local
BINDIR = $(PREFIX)/bin
LIBDIR = $(PREFIX)/lib
INCLUDEDIR = $(PREFIX)/include
MANDIR = $(PREFIX)/share/man
DOCDIR = $(PREFIX)/share/doc/han_xin
CFLAGS = -O2
PROVED =
BUILD = $(if $(PROVED),target/given,target)
export CC

version := $(shell sed -n 's/^.define HX_LIBRARY_VERSION "\([0-9.]*\)"$$/\1/p' include/han_xin.h)
major := $(firstword $(subst ., ,$(version)))
archive = $(BUILD)/lib/libhan_xin.a
soname = libhan_xin.so.$(major)
shared = $(BUILD)/lib/libhan_xin.so.$(version)
links = $(soname) libhan_xin.so
sources := $(filter-out %_test.c,$(wildcard program/*.c))
program = $(BUILD)/c/hanxin
manual = man/hanxin.1
licences = LICENSE-MIT LICENSE-APACHE NOTICE
ifeq ($(shell pkg-config --exists libpng 2>/dev/null && echo yes),yes)
png_flags := -DHAVE_PNG $(shell pkg-config --cflags libpng)
png_libraries := $(shell pkg-config --libs libpng)
endif

all: $(archive) $(shared) $(addprefix $(BUILD)/lib/,$(links)) $(program)

# c/library proves again only what has changed, but it needs rt for that. So it is called only when a source is newer than the library: what
# is built can be installed where there is no rt, or as root. Another build of the proved functions may be older than what was made
# from a third one, so with PROVED it is called each time.
ifeq ($(PROVED),)
$(archive): $(shell find crates -name out -prune -o -name '*.rt' -print -o -name '*.antt' -print) crates.txt include/han_xin.h c/words.c c/library
	c/library $(if $(filter-out target,$(BUILD)),&& mkdir -p $(@D) && cp target/lib/libhan_xin.a $@)
else
$(archive): always
	c/library '$(PROVED)' $@
endif

# -nostartfiles: the library has nothing to do when it is loaded. -z text: its code is the same wherever it is loaded.
$(shared): $(archive) packaging/han_xin.map
	$(CC) -shared -nostartfiles -Wl,-soname,$(soname) -Wl,--version-script,packaging/han_xin.map -Wl,-z,defs,-z,text,-z,now,-z,noexecstack \
	  $(LDFLAGS) -Wl,--whole-archive $(archive) -Wl,--no-whole-archive -o $@

$(addprefix $(BUILD)/lib/,$(links)): $(shared)
	ln -sf $(<F) $@

$(program): $(sources) $(wildcard program/*.h) include/han_xin.h $(archive) Makefile
	@mkdir -p $(@D)
	$(if $(png_flags),,@echo "left out: PNG in the program hanxin, pkg-config finds no libpng")
	$(CC) -std=c99 -Wall -Wextra -Wpedantic -Wconversion $(CPPFLAGS) $(CFLAGS) -Iinclude $(png_flags) $(LDFLAGS) \
	  $(sources) $(archive) $(png_libraries) $(LDLIBS) -o $@

# The paths below PREFIX are written by ${prefix}, which pkg-config lets its user set.
install: all
	install -d '$(DESTDIR)$(BINDIR)' '$(DESTDIR)$(INCLUDEDIR)' '$(DESTDIR)$(LIBDIR)/pkgconfig' '$(DESTDIR)$(MANDIR)/man1' '$(DESTDIR)$(DOCDIR)'
	install -m 644 include/han_xin.h '$(DESTDIR)$(INCLUDEDIR)'
	install -m 644 $(archive) $(shared) '$(DESTDIR)$(LIBDIR)'
	for link in $(links); do ln -sf $(notdir $(shared)) '$(DESTDIR)$(LIBDIR)'/$$link || exit 1; done
	sed -e 's|@PREFIX@|$(PREFIX)|' -e 's|@LIBDIR@|$(LIBDIR:$(PREFIX)/%=$${prefix}/%)|' \
	  -e 's|@INCLUDEDIR@|$(INCLUDEDIR:$(PREFIX)/%=$${prefix}/%)|' -e 's|@VERSION@|$(version)|' packaging/han_xin.pc.in \
	  >'$(DESTDIR)$(LIBDIR)/pkgconfig/han_xin.pc'
	chmod 644 '$(DESTDIR)$(LIBDIR)/pkgconfig/han_xin.pc'
	install -m 644 $(licences) '$(DESTDIR)$(DOCDIR)'
	install -m 755 $(program) '$(DESTDIR)$(BINDIR)'
	install -m 644 $(manual) '$(DESTDIR)$(MANDIR)/man1'

uninstall:
	rm -f '$(DESTDIR)$(BINDIR)/hanxin' '$(DESTDIR)$(INCLUDEDIR)/han_xin.h' '$(DESTDIR)$(MANDIR)/man1/hanxin.1'
	for file in libhan_xin.a $(notdir $(shared)) $(links) pkgconfig/han_xin.pc; do rm -f '$(DESTDIR)$(LIBDIR)'/$$file || exit 1; done
	for file in $(licences); do rm -f '$(DESTDIR)$(DOCDIR)'/$$file || exit 1; done
	rmdir '$(DESTDIR)$(DOCDIR)' 2>/dev/null || true

check:
	c/run $(PROVED)

clean:
	rm -f $(archive) $(BUILD)/lib/libhan_xin.so* $(program)

help:
	@sed -n '3,/^$$/s/^# \{0,1\}//p' Makefile

always:

.PHONY: all install uninstall check clean help always
.DELETE_ON_ERROR:
