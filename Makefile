# make install PREFIX=/usr/local   puts the header, the proved library and its pkg-config file below that folder
#
# DESTDIR, where it is given, stands before PREFIX: for who makes a package. LIBRARY names another archive.

PREFIX  = /usr/local
DESTDIR =
LIBRARY = crates/desterlin/out/libdesterlin.a
HEADER  = include/desterlin.h

INCLUDES  = $(DESTDIR)$(PREFIX)/include
LIBRARIES = $(DESTDIR)$(PREFIX)/lib
PACKAGE   = $(LIBRARIES)/pkgconfig/desterlin.pc
# The dot is the sign that begins a comment here.
VERSION  := $(shell sed -n 's/^.define DESTERLIN_VERSION //p' $(HEADER))

.PHONY: help install

help:
	@echo "make install PREFIX=/usr/local   install the header, the proved library and desterlin.pc"

# Who links by pkg-config gets the folder as it is written here, from wherever that is done.
install: $(LIBRARY)
	@case '$(PREFIX)' in *[[:space:]]* | [!/]* | '') echo "PREFIX must be a whole path without blanks" >&2; exit 1 ;; esac
	install -d '$(INCLUDES)' '$(dir $(PACKAGE))'
	install -m 644 $(HEADER) '$(INCLUDES)/desterlin.h'
	install -m 644 '$(LIBRARY)' '$(LIBRARIES)/libdesterlin.a'
	sed -e 's|@PREFIX@|$(PREFIX)|' -e 's|@VERSION@|$(VERSION)|' include/desterlin.pc.in > '$(PACKAGE)'

$(LIBRARY):
	@echo "The proved library is not built yet. Run:  cd crates/desterlin && rt lib" >&2
	@exit 1
