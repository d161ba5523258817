# make              proves and builds the library: libthresholm.a, and of it libthresholm.so, in target/native
# make install      installs the header, both libraries and a pkg-config file under PREFIX, in DESTDIR where that is set
# make uninstall    removes them again
# make check        tests the C face, and what is installed
# ARCHIVE is an archive that is there already; the shared library is then put beside it.
PREFIX ?= /usr/local
LIBDIR ?= $(PREFIX)/lib
INCLUDEDIR ?= $(PREFIX)/include
ARCHIVE ?= target/native/libthresholm.a

shared := $(dir $(ARCHIVE))libthresholm.so
version := $(shell sed -nE 's/^.define THRESHOLM_VERSION_(MAJOR|MINOR|PATCH) //p' include/thresholm.h | paste -sd.)
soname := libthresholm.so.$(firstword $(subst ., ,$(version)))
lib_dir := $(DESTDIR)$(LIBDIR)
include_dir := $(DESTDIR)$(INCLUDEDIR)
under_prefix = $(patsubst $(PREFIX)/%,$${prefix}/%,$(1))

.PHONY: all install uninstall check
all: $(ARCHIVE) $(shared)

target/native/libthresholm.a: crates.txt tools/native-archive $(shell find $(wildcard crates/*/src crates/*/specs crates/*/proofs) -type d -o -name '*.rt' -o -name '*.antt')
	bash tools/native-archive

# The calls are the only symbols of the archive that are not local, so they are all that it exports.
$(shared): $(ARCHIVE)
	$(CC) $(LDFLAGS) -shared -Wl,-soname,$(soname) -Wl,-z,defs -Wl,--whole-archive $(ARCHIVE) -Wl,--no-whole-archive -o $@

install: all
	install -d '$(include_dir)' '$(lib_dir)/pkgconfig'
	install -m 644 include/thresholm.h '$(include_dir)/thresholm.h'
	install -m 644 $(ARCHIVE) '$(lib_dir)/libthresholm.a'
	install -m 755 $(shared) '$(lib_dir)/libthresholm.so.$(version)'
	ln -sf libthresholm.so.$(version) '$(lib_dir)/$(soname)'
	ln -sf $(soname) '$(lib_dir)/libthresholm.so'
	sed -e 's|@PREFIX@|$(PREFIX)|; s|@LIBDIR@|$(call under_prefix,$(LIBDIR))|; s|@INCLUDEDIR@|$(call under_prefix,$(INCLUDEDIR))|' \
	  -e 's|@VERSION@|$(version)|' tools/thresholm.pc.in >'$(lib_dir)/pkgconfig/thresholm.pc'

uninstall:
	rm -f '$(include_dir)/thresholm.h' '$(lib_dir)/pkgconfig/thresholm.pc' '$(lib_dir)/libthresholm.a'
	rm -f '$(lib_dir)/libthresholm.so' '$(lib_dir)/$(soname)' '$(lib_dir)/libthresholm.so.$(version)'

check:
	bash tests/c/run
