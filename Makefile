# Builds and installs the library of the proved calls, thin over `rt` and scripts/.
#   make                              target/lib: libcitternblaze.a, libcitternblaze.so, citternblaze.pc
#   make check                        installs into an empty prefix, and builds and runs examples/ and python/ from there
#   make install PREFIX=.. DESTDIR=.. the libraries, the two headers, citternblaze.pc
#   make uninstall PREFIX=.. DESTDIR=..
# STATICLIBS=DIR takes libcapi.a and libhost.a from there, in place of proving and building them with scripts/libraries.sh.

PREFIX ?= /usr/local
LIBDIR ?= $(PREFIX)/lib
INCLUDEDIR ?= $(PREFIX)/include
DESTDIR ?=
RT ?= rt
STATICLIBS ?=

version := $(shell cat VERSION)
major := $(firstword $(subst ., ,$(version)))
built := target/lib
soname := libcitternblaze.so.$(major)
libraries := libcitternblaze.a libcitternblaze.so.$(version)
headers := citternblaze.h citternblaze_host.h

.PHONY: all check install uninstall

all:
	CC="$(CC)" RT="$(RT)" STATICLIBS="$(STATICLIBS)" scripts/library.sh $(built)

check: all
	scripts/library_test.sh

# the place of the libraries is known only now
install: all
	mkdir -p "$(DESTDIR)$(LIBDIR)/pkgconfig" "$(DESTDIR)$(INCLUDEDIR)"
	install -m 644 $(libraries:%=$(built)/%) "$(DESTDIR)$(LIBDIR)"
	ln -sf libcitternblaze.so.$(version) "$(DESTDIR)$(LIBDIR)/$(soname)"
	ln -sf $(soname) "$(DESTDIR)$(LIBDIR)/libcitternblaze.so"
	install -m 644 $(headers:%=include/%) "$(DESTDIR)$(INCLUDEDIR)"
	sed -e 's|@LIBDIR@|$(LIBDIR)|' -e 's|@INCLUDEDIR@|$(INCLUDEDIR)|' -e 's|@VERSION@|$(version)|' \
	  scripts/citternblaze.pc.in >"$(DESTDIR)$(LIBDIR)/pkgconfig/citternblaze.pc"

uninstall:
	cd "$(DESTDIR)$(LIBDIR)" && rm -f $(libraries) $(soname) libcitternblaze.so pkgconfig/citternblaze.pc
	cd "$(DESTDIR)$(INCLUDEDIR)" && rm -f $(headers)
