# Builds, installs and packs the library, static and shared, its headers, its manual pages, the programs `product`, `disassemble`,
# `assemble`, `bodlarina-bench` and `bodlarina-salvage`, the program `bodlarina-firmware` with its plugin for QEMU, and the module for Python.
#
#     make                     prove and build the library and the programs; needs the Rattle kit (rt)
#     make firmware            build bodlarina-firmware over the library; needs libdw (Debian: libdw-dev), and is left out by make without it
#     make install PREFIX=..   install them; needs no kit where they are built, as in an archive of `make dist`
#     make dist                build, and write target/dist/bodlarina-VERSION-linux-x86_64.tar.gz with all built; the same bytes from the same sources,
#                              wherever and whenever
#     make test                all tests (.ci/run)

PREFIX ?= /usr/local
DESTDIR ?=
INSTALL ?= install

# the order of files is that of their bytes, wherever it is built
export LC_ALL := C

VERSION := $(shell sed -n 's/^.define BODLARINA_VERSION "\(.*\)"$$/\1/p' include/bodlarina.h)
PACKAGE := bodlarina-$(VERSION)-linux-x86_64

# the day of the version, by which all in the archive is dated, or by SOURCE_DATE_EPOCH in seconds
RELEASED := $(shell sed -n 's/^.. $(VERSION), \([-0-9]*\)$$/\1/p' CHANGES.md)
SOURCE_DATE_EPOCH ?= $(shell date -u -d '$(RELEASED)' +%s)
HEADERS := include/bodlarina.h include/bodlarina_words.h include/bodlarina_asm.h
PROVED := product disassemble assemble
PROGRAMS := $(PROVED) bodlarina-bench bodlarina-salvage
MANUAL := man/bodlarina.3 $(PROGRAMS:%=man/%.1) man/bodlarina-firmware.1

# The shared library and the name that a host asks for at run time: while the major number is 0, that has the minor number too.
NUMBERS := $(subst ., ,$(VERSION))
SHARED_NAME := libbodlarina.so.$(VERSION)
SONAME := libbodlarina.so.$(word 1,$(NUMBERS))$(if $(filter 0,$(word 1,$(NUMBERS))),.$(word 2,$(NUMBERS)))

# bodlarina-firmware, and its plugin, which it looks for in ../lib/bodlarina
FIRMWARE = $(BIN)/bodlarina-firmware
PLUGIN = $(BIN)/../lib/bodlarina/bodlarina-qemu.so
HAS_LIBDW = echo '\#include <elfutils/libdwfl.h>' | $(CC) -E -x c -o /dev/null - 2>/dev/null
NO_LIBDW := libdw is not installed (Debian: libdw-dev): bodlarina-firmware is not built
.PHONY: firmware

# In an archive of `make dist` the libraries and the programs stand built in lib/ and bin/.
ifneq ($(wildcard lib/libbodlarina.a),)
LIBRARY := lib/libbodlarina.a
SHARED := lib/$(SHARED_NAME)
BIN := bin
else
LIBRARY := target/staticlib/libbodlarina.a
SHARED := target/sharedlib/$(SHARED_NAME)
BIN := target/bin
endif
BUILT := $(PROGRAMS:%=$(BIN)/%)

# Lines at the bench's prompt can be edited where libedit is there, or else libreadline; with EDITING= they are plain, and the program needs neither.
EDITING ?= $(shell has() { $(CC) -E -include "$$1" -x c /dev/null >/dev/null 2>&1; }; \
  if has editline/readline.h; then echo -DLINES_BY_LIBEDIT -ledit; elif has readline/readline.h; then echo -DLINES_BY_READLINE -lreadline; fi)

.PHONY: all lib shared $(PROVED) bench salvage install uninstall dist pack test

all: lib $(PROVED)
	$(MAKE) bench salvage
	@if $(HAS_LIBDW); then $(MAKE) firmware; else echo "$(NO_LIBDW)"; fi

ifeq ($(LIBRARY),lib/libbodlarina.a)
lib shared $(PROVED) bench salvage firmware:
	@echo "built already: $(LIBRARY), $(SHARED), $(BUILT)"
else
# for each x86-64 processor; the kit's default, x86-64-v2, has instructions beyond that, which a static library does not look for
lib:
	cd crates/bodlarina && rt lib --cpu x86-64
	mkdir -p $(dir $(LIBRARY))
	cp crates/bodlarina/out/libbodlarina.a $(LIBRARY)
	$(MAKE) shared

# over the library as it is built; the linker refuses code that has to be written to where it is loaded. Its further names are no symbolic links,
# since rt takes none in a checkout
shared:
	@test -f $(LIBRARY) || { echo "$(LIBRARY) is not built: make lib"; exit 1; }
	mkdir -p $(dir $(SHARED))
	$(CC) -shared -Wl,--whole-archive $(LIBRARY) -Wl,--no-whole-archive -Wl,-soname,$(SONAME) -Wl,--version-script,bodlarina.map \
	  -Wl,-z,defs -Wl,-z,text -o $(SHARED)
	ln -f $(SHARED) $(dir $(SHARED))$(SONAME)
	ln -f $(SHARED) $(dir $(SHARED))libbodlarina.so

# The tool, and what QEMU loads, which finds QEMU's functions when it is loaded; both over the bench's machine.
DEVICE := bench/device.c bench/instructions.c bench/reader.c bench/files.c
TOOL := $(filter-out firmware/plugin%,$(wildcard firmware/*.c)) bench/trace.c bench/picture.c
firmware:
	@test -f $(LIBRARY) || { echo "$(LIBRARY) is not built: make lib"; exit 1; }
	@$(HAS_LIBDW) || { echo "$(NO_LIBDW)"; exit 1; }
	mkdir -p $(BIN) $(dir $(PLUGIN))
	$(CC) -std=c99 -O2 -Iinclude -Ibench $(TOOL) $(DEVICE) $(LIBRARY) -ldw -lelf -o $(FIRMWARE)
	$(CC) -std=c99 -O2 -Iinclude -Ibench -fPIC -fvisibility=hidden -shared firmware/plugin*.c $(DEVICE) $(LIBRARY) -o $(PLUGIN)

# proved, built, and run on its example
$(PROVED):
	mkdir -p $(BIN) crates/$@/out
	cd crates/$@ && rt run <stdin >out/stdout && cmp out/stdout stdout
	cp crates/$@/out/$@ $(BIN)

# over the library as it is built
bench:
	@test -f $(LIBRARY) || { echo "$(LIBRARY) is not built: make lib"; exit 1; }
	mkdir -p $(BIN)
	$(CC) -std=c99 -O2 -Iinclude bench/*.c $(LIBRARY) $(EDITING) -o $(BIN)/bodlarina-bench

salvage:
	@test -f $(LIBRARY) || { echo "$(LIBRARY) is not built: make lib"; exit 1; }
	mkdir -p $(BIN)
	$(CC) -std=c99 -O2 -Iinclude -Ibench tools/salvage.c bench/files.c bench/kept.c bench/program.c $(LIBRARY) -o $(BIN)/bodlarina-salvage
endif

# pkg-config's `bodlarina` is the static library, `bodlarina-shared` the shared one, found at run time where it is installed
PC := sed -e 's|@PREFIX@|$(PREFIX)|' -e 's|@VERSION@|$(VERSION)|'

install:
	@for file in $(LIBRARY) $(SHARED); do test -f $$file || { echo "$$file is not built: make lib"; exit 1; }; done
	$(INSTALL) -d $(DESTDIR)$(PREFIX)/lib/pkgconfig $(DESTDIR)$(PREFIX)/include $(addprefix $(DESTDIR)$(PREFIX)/share/bodlarina/,python gdb)
	$(INSTALL) -d $(DESTDIR)$(PREFIX)/share/man/man1 $(DESTDIR)$(PREFIX)/share/man/man3
	$(INSTALL) -m 644 $(LIBRARY) $(DESTDIR)$(PREFIX)/lib/libbodlarina.a
	$(INSTALL) -m 755 $(SHARED) $(DESTDIR)$(PREFIX)/lib/$(SHARED_NAME)
	ln -sf $(SHARED_NAME) $(DESTDIR)$(PREFIX)/lib/$(SONAME)
	ln -sf $(SONAME) $(DESTDIR)$(PREFIX)/lib/libbodlarina.so
	$(INSTALL) -m 644 $(HEADERS) $(DESTDIR)$(PREFIX)/include
	$(PC) -e 's|@NAME@|bodlarina|' -e 's|@LIBS@|$${libdir}/libbodlarina.a|' bodlarina.pc.in \
	  >$(DESTDIR)$(PREFIX)/lib/pkgconfig/bodlarina.pc
	$(PC) -e 's|@NAME@|bodlarina-shared|' -e 's|@LIBS@|-L$${libdir} -Wl,-rpath,$${libdir} -lbodlarina|' bodlarina.pc.in \
	  >$(DESTDIR)$(PREFIX)/lib/pkgconfig/bodlarina-shared.pc
	$(INSTALL) -m 644 python/bodlarina.py $(DESTDIR)$(PREFIX)/share/bodlarina/python
	$(INSTALL) -m 644 firmware/bodlarina-gdb.py $(DESTDIR)$(PREFIX)/share/bodlarina/gdb
	$(INSTALL) -m 644 man/bodlarina.3 $(DESTDIR)$(PREFIX)/share/man/man3
	for name in $(PROGRAMS); do if test -f $(BIN)/$$name; then $(INSTALL) -d $(DESTDIR)$(PREFIX)/bin && \
	  $(INSTALL) -m 755 $(BIN)/$$name $(DESTDIR)$(PREFIX)/bin && \
	  $(INSTALL) -m 644 man/$$name.1 $(DESTDIR)$(PREFIX)/share/man/man1 || exit 1; fi; done
	if test -f $(FIRMWARE); then $(INSTALL) -d $(DESTDIR)$(PREFIX)/lib/bodlarina && \
	  $(INSTALL) -m 755 $(FIRMWARE) $(DESTDIR)$(PREFIX)/bin && $(INSTALL) -m 755 $(PLUGIN) $(DESTDIR)$(PREFIX)/lib/bodlarina && \
	  $(INSTALL) -m 644 man/bodlarina-firmware.1 $(DESTDIR)$(PREFIX)/share/man/man1; \
	  else echo "bodlarina-firmware is not built, and not installed"; fi

uninstall:
	rm -f $(addprefix $(DESTDIR)$(PREFIX)/,$(HEADERS) \
	  lib/libbodlarina.a lib/libbodlarina.so lib/$(SONAME) lib/$(SHARED_NAME) \
	  lib/pkgconfig/bodlarina.pc lib/pkgconfig/bodlarina-shared.pc share/man/man3/bodlarina.3 \
	  $(PROGRAMS:%=bin/%) $(PROGRAMS:%=share/man/man1/%.1))
	rm -f $(DESTDIR)$(PREFIX)/bin/bodlarina-firmware $(DESTDIR)$(PREFIX)/share/man/man1/bodlarina-firmware.1
	rm -rf $(DESTDIR)$(PREFIX)/share/bodlarina $(DESTDIR)$(PREFIX)/lib/bodlarina

dist:
	$(MAKE) all EDITING=
	$(MAKE) pack

# the archive of what is built already, and the sum of each file in it
pack:
	@test -n '$(RELEASED)' || { echo "CHANGES.md does not date version $(VERSION)"; exit 1; }
	rm -rf target/dist/$(PACKAGE)
	mkdir -p $(addprefix target/dist/$(PACKAGE)/,include lib bin man examples/bench python firmware/examples docs)
	cp $(HEADERS) target/dist/$(PACKAGE)/include
	cp $(LIBRARY) $(SHARED) target/dist/$(PACKAGE)/lib
	cp $(BUILT) target/dist/$(PACKAGE)/bin
	if test -f $(FIRMWARE); then mkdir -p target/dist/$(PACKAGE)/lib/bodlarina && cp $(FIRMWARE) target/dist/$(PACKAGE)/bin && \
	  cp $(PLUGIN) target/dist/$(PACKAGE)/lib/bodlarina; else echo "bodlarina-firmware is not built, and not packed"; fi
	cp $(MANUAL) target/dist/$(PACKAGE)/man
	cp examples/*.c examples/*.out target/dist/$(PACKAGE)/examples
	cp bench/examples/* target/dist/$(PACKAGE)/examples/bench
	$(BIN)/bodlarina-bench --report target/dist/$(PACKAGE)/examples/bench/loop-four.html bench/examples/loop-four.bench >target/dist/loop-four.out
	cp python/bodlarina.py python/four_loops.py python/four_loops.out target/dist/$(PACKAGE)/python
	cp firmware/bodlarina-gdb.py target/dist/$(PACKAGE)/firmware
	cp $(addprefix firmware/examples/,Makefile *.[chS] bare.ld recorder.out) target/dist/$(PACKAGE)/firmware/examples
	cp docs/INSTRUCTIONS.md docs/FIRMWARE.md docs/TRUST.md docs/firmware.svg target/dist/$(PACKAGE)/docs
	cp Makefile bodlarina.pc.in CHANGES.md target/dist/$(PACKAGE)
	cd target/dist/$(PACKAGE) && find * -type f | sort | xargs sha256sum >../SHA256SUMS && mv ../SHA256SUMS .
	tar -C target/dist --sort=name --owner=0 --group=0 --numeric-owner --mode=u=rwX,go=rX --mtime=@$(SOURCE_DATE_EPOCH) --format=gnu \
	  -cf target/dist/$(PACKAGE).tar $(PACKAGE)
	gzip -9nf target/dist/$(PACKAGE).tar
	@echo target/dist/$(PACKAGE).tar.gz

test:
	.ci/run
