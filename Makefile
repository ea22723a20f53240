# For C programmers: the library of the twelve calls, the program, the examples, the tests, the installation.
#
#   make                  the library target/c/libirr.a, the program target/bin/rackmap, the examples
#   make check            the host tests and the test of the installation
#   make install          installs the library, the header, the program and the man pages
#   make uninstall        takes them away again
#   make sources          compiles every C file by itself, without the library
#   make clean            takes away what make built; what is proved stays
#
# The library and the program are for x86-64 Linux. The first make proves them, which takes some
# minutes and needs rt, the Rattle toolchain's command.
#
# PREFIX, and below it BINDIR, LIBDIR, INCLUDEDIR and MANDIR, say where to install; DESTDIR is put
# before them. CC, CXX, CPPFLAGS, CFLAGS, CXXFLAGS, LDFLAGS, LDLIBS, AR and INSTALL are used as usual.
# ARCHIVE names another library than the one that is built here: it is used as it is.

PREFIX ?= /usr/local
BINDIR ?= $(PREFIX)/bin
LIBDIR ?= $(PREFIX)/lib
INCLUDEDIR ?= $(PREFIX)/include
MANDIR ?= $(PREFIX)/share/man

ifeq ($(origin CC),default)
CC := gcc
endif
CFLAGS ?= -O2 -Wall -Wextra -Werror
CXXFLAGS ?= -O2 -Wall -Wextra -Werror
INSTALL ?= install

OUT := target/c
PROVED := crates/capi/out/libcapi.a
PROGRAM := target/bin/rackmap
ARCHIVE ?= $(OUT)/libirr.a
# the version, from the header alone
VERSION := $(shell sed -n 's/^.define IRR_VERSION_[MP][A-Z]* \([0-9]*\)$$/\1/p' include/irr.h | paste -s -d .)
COMPILE = $(CC) $(CPPFLAGS) $(CFLAGS) -std=c11 -Iinclude
CRATES := crates.txt $(shell find crates -name out -prune -o -type f -print)
INSTALLED = $(LIBDIR)/libirr.a $(INCLUDEDIR)/irr.h $(LIBDIR)/pkgconfig/irr.pc $(BINDIR)/rackmap \
	$(MANDIR)/man1/rackmap.1 $(MANDIR)/man3/irr.3

.PHONY: all archive program example check install uninstall sources clean FORCE
.DELETE_ON_ERROR:

all: archive program example

archive: $(ARCHIVE)
program: $(PROGRAM)
example: $(OUT)/rack $(OUT)/carry $(OUT)/sheet

$(PROVED): $(CRATES)
	tools/prove capi
	cd crates/capi && rt lib
	@touch $@

$(OUT)/libirr.a: $(PROVED)
	@mkdir -p $(OUT)
	cp $(PROVED) $@
	$(AR) s $@

$(PROGRAM): $(CRATES)
	tools/prove rackmap
	cd crates/rackmap && rt run < /dev/null
	@mkdir -p $(dir $@)
	cp crates/rackmap/out/rackmap $@

# a file that changes when another library is named
$(OUT)/archive: FORCE
	@mkdir -p $(OUT)
	@echo '$(ARCHIVE)' | cmp -s - $@ || echo '$(ARCHIVE)' > $@

$(OUT)/rack $(OUT)/carry $(OUT)/sheet: $(OUT)/%: examples/%.c include/irr.h $(ARCHIVE) $(OUT)/archive
	$(COMPILE) $(LDFLAGS) $< $(ARCHIVE) $(LDLIBS) -o $@

check: $(ARCHIVE) $(PROGRAM)
	ARCHIVE='$(ARCHIVE)' OUT='$(OUT)/tests' CC='$(CC)' CXX='$(CXX)' CPPFLAGS='$(CPPFLAGS)' \
		CFLAGS='$(CFLAGS)' LDFLAGS='$(LDFLAGS)' LDLIBS='$(LDLIBS)' sh tests/host/run.sh
	ARCHIVE='$(ARCHIVE)' CC='$(CC)' CXX='$(CXX)' CPPFLAGS='$(CPPFLAGS)' CFLAGS='$(CFLAGS)' \
		CXXFLAGS='$(CXXFLAGS)' LDFLAGS='$(LDFLAGS)' LDLIBS='$(LDLIBS)' sh tests/install.sh

$(OUT)/irr.pc: include/irr.pc.in include/irr.h FORCE
	@mkdir -p $(OUT)
	@sed -e 's|@PREFIX@|$(PREFIX)|' -e 's|@LIBDIR@|$(LIBDIR)|' -e 's|@INCLUDEDIR@|$(INCLUDEDIR)|' \
		-e 's|@VERSION@|$(VERSION)|' include/irr.pc.in > $@

install: $(ARCHIVE) $(PROGRAM) $(OUT)/irr.pc
	$(INSTALL) -d $(addprefix $(DESTDIR),$(sort $(dir $(INSTALLED))))
	$(INSTALL) -m 644 $(ARCHIVE) $(DESTDIR)$(LIBDIR)/libirr.a
	$(INSTALL) -m 644 include/irr.h $(DESTDIR)$(INCLUDEDIR)/irr.h
	$(INSTALL) -m 644 $(OUT)/irr.pc $(DESTDIR)$(LIBDIR)/pkgconfig/irr.pc
	$(INSTALL) -m 755 $(PROGRAM) $(DESTDIR)$(BINDIR)/rackmap
	$(INSTALL) -m 644 man/rackmap.1 $(DESTDIR)$(MANDIR)/man1/rackmap.1
	$(INSTALL) -m 644 man/irr.3 $(DESTDIR)$(MANDIR)/man3/irr.3

uninstall:
	rm -f $(addprefix $(DESTDIR),$(INSTALLED))

# bench/ as its scripts compile it
sources:
	@mkdir -p $(OUT)/sources
	@for source in examples/*.c tests/*.c tests/host/*.c; do \
		$(COMPILE) -c $$source -o $(OUT)/sources/compiled.o || exit 1; \
	done
	@for source in bench/*.c; do \
		$(CC) $(CPPFLAGS) -O3 -std=c11 -Wall -Wextra -Werror -D_POSIX_C_SOURCE=200809L \
			-c $$source -o $(OUT)/sources/compiled.o || exit 1; \
	done

clean:
	rm -rf $(OUT)
