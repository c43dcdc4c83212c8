# The library for C and other languages, and what is installed.
#
#   make                  builds the library into out/: archive and shared object
#   make check            builds it and runs its tests, as tests/run_library does
#   make install          installs the program, where tools/install is there, and the library
#   make install-library  installs header, archive, shared object and pkg-config file alone
#
# PREFIX is where (/usr/local if not given), DESTDIR goes before it. LIBRARY names the folder of a library that is built
# already, as LIBRARY=out: that one is installed as it is, which needs no toolchain. LIBRARY=release stands for the one
# that is there, built here or stored in release/, where it was made from the sources as they are.

PREFIX = /usr/local
DESTDIR =
LIBRARY =

VERSION = 1

.PHONY: all library check install install-program install-library clean

all: library

library:
	dev/make_library

check: library
	tests/run_library

install: install-program install-library

install-program:
	DESTDIR="$(DESTDIR)" tools/install "$(PREFIX)"

BUILT := $(if $(filter release,$(LIBRARY)),$(shell ./tiny_tera --library),$(or $(LIBRARY),out))

install-library: $(if $(LIBRARY),,library)
	@test -n "$(BUILT)"
	install -d "$(DESTDIR)$(PREFIX)/include" "$(DESTDIR)$(PREFIX)/lib/pkgconfig"
	install -m 644 include/tiny_tera.h "$(DESTDIR)$(PREFIX)/include/"
	install -m 644 "$(BUILT)/libtiny_tera.a" "$(DESTDIR)$(PREFIX)/lib/"
	install -m 755 "$(BUILT)/libtiny_tera.so" "$(DESTDIR)$(PREFIX)/lib/libtiny_tera.so.$(VERSION)"
	ln -sf libtiny_tera.so.$(VERSION) "$(DESTDIR)$(PREFIX)/lib/libtiny_tera.so"
	sed -e 's|@PREFIX@|$(PREFIX)|' -e 's|@VERSION@|$(VERSION)|' include/tiny_tera.pc.in \
		>"$(DESTDIR)$(PREFIX)/lib/pkgconfig/tiny_tera.pc"

clean:
	rm -rf out
