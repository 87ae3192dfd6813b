# The library for programs that link it: `make lib` writes target/lib, `make install` puts it in place with the header.
# First `make archive`, which proves the library and writes the archive that both are made of, for any x86-64 processor.
PREFIX = /usr/local
DESTDIR =

ARCHIVE = crates/capi/out/libcapi.a
HEADER = include/lakhido.h
OUT = target/lib
# The loader's name of the shared library: it counts changes that break programs that are linked already.
SONAME = liblakhido.so.0
VERSION := $(shell sed -n 's/^\#define LAKHIDO_VERSION "\(.*\)"$$/\1/p' $(HEADER))

.PHONY: archive lib install

lib: $(OUT)/liblakhido.a $(OUT)/liblakhido.so $(OUT)/lakhido.pc

archive:
	cd crates/capi && rt lib --cpu=x86-64

$(ARCHIVE):
	@echo 'make: $@ is not there: `make archive` writes it' >&2; exit 1

$(OUT)/liblakhido.a: $(ARCHIVE)
	@mkdir -p $(OUT)
	cp $(ARCHIVE) $@

# No symbol is left for others to define, so that a fault shows here and not where the library is loaded.
$(OUT)/liblakhido.so: $(ARCHIVE)
	@mkdir -p $(OUT)
	$(CC) $(LDFLAGS) -shared -Wl,-soname,$(SONAME) -Wl,-z,defs -o $@ -Wl,--whole-archive $(ARCHIVE) -Wl,--no-whole-archive

$(OUT)/lakhido.pc: $(HEADER) Makefile
	@mkdir -p $(OUT)
	printf '%s\n' 'prefix=$(PREFIX)' 'includedir=$${prefix}/include' 'libdir=$${prefix}/lib' '' 'Name: lakhido' \
	    'Description: Proved motif search and answer cache for folded RNA' 'Version: $(VERSION)' \
	    'Cflags: -I$${includedir}' 'Libs: -L$${libdir} -llakhido' > $@

# Where the prefix is one of the system's loader, `ldconfig` makes the shared library known to it afterwards.
install: lib
	install -d $(DESTDIR)$(PREFIX)/include $(DESTDIR)$(PREFIX)/lib/pkgconfig
	install -m 644 $(HEADER) $(DESTDIR)$(PREFIX)/include/lakhido.h
	install -m 644 $(OUT)/liblakhido.a $(DESTDIR)$(PREFIX)/lib/liblakhido.a
	install -m 755 $(OUT)/liblakhido.so $(DESTDIR)$(PREFIX)/lib/liblakhido.so.$(VERSION)
	ln -sf liblakhido.so.$(VERSION) $(DESTDIR)$(PREFIX)/lib/$(SONAME)
	ln -sf $(SONAME) $(DESTDIR)$(PREFIX)/lib/liblakhido.so
	sed 's|^prefix=.*|prefix=$(PREFIX)|' $(OUT)/lakhido.pc > $(DESTDIR)$(PREFIX)/lib/pkgconfig/lakhido.pc
