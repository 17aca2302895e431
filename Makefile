# The library as one archive, and its installation. rt makes the archives that it is put together from, where sources changed.
#
#   make                              target/lib/libff_state.a
#   make install PREFIX=/usr/local    libff_state.a, ff_state.h and ff_state.pc; DESTDIR goes before each path
#   make uninstall PREFIX=/usr/local  removes these three

PREFIX ?= /usr/local
override PREFIX := $(abspath $(PREFIX))
LIBDIR ?= $(PREFIX)/lib
INCLUDEDIR ?= $(PREFIX)/include
DESTDIR ?=
AR ?= ar
INSTALL ?= install

out := target/lib
# 0xMMmmpp00, as the header has it, with dots.
version := $(shell sed -n 's/^.define FF_STATE_VERSION \(0x..\)\(..\)\(..\)00u$$/\1 0x\2 0x\3/p' include/ff_state.h | xargs printf '%d.%d.%d')

.PHONY: all install uninstall
.DELETE_ON_ERROR:

all:
	.ci/build
	rm -rf $(out)
	mkdir -p $(out)/objects
	cd $(out)/objects && for crate in $$(../../../.ci/archives); do $(AR) x ../../staticlib/lib$$crate.a || exit 1; done
	$(AR) rcsD $(out)/libff_state.a $(out)/objects/*.o
	{ echo 'prefix=$(PREFIX)'; echo 'libdir=$(LIBDIR)'; echo 'includedir=$(INCLUDEDIR)'; echo; \
	  echo 'Name: ff_state'; \
	  echo "Description: The vertex state of Direct3D 9's fixed-function pipeline, proved"; \
	  echo 'Version: $(version)'; \
	  echo 'Cflags: -I$${includedir}'; \
	  echo 'Libs: -L$${libdir} -lff_state -lm'; } >$(out)/ff_state.pc

install: all
	$(INSTALL) -d $(DESTDIR)$(LIBDIR)/pkgconfig $(DESTDIR)$(INCLUDEDIR)
	$(INSTALL) -m 644 $(out)/libff_state.a $(DESTDIR)$(LIBDIR)
	$(INSTALL) -m 644 $(out)/ff_state.pc $(DESTDIR)$(LIBDIR)/pkgconfig
	$(INSTALL) -m 644 include/ff_state.h $(DESTDIR)$(INCLUDEDIR)

uninstall:
	rm -f $(DESTDIR)$(LIBDIR)/libff_state.a $(DESTDIR)$(LIBDIR)/pkgconfig/ff_state.pc $(DESTDIR)$(INCLUDEDIR)/ff_state.h
