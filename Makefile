# make             proves and builds the library (archive, shared object), and the SQLite extension
# make install     installs them with header, pkg-config file, command, Python package and licences under PREFIX
# make archive     target/viskorrel-VERSION-x86_64-linux.tar.gz: what is installed, to unpack where there is no Rattle kit
# make deb         target/viskorrel_VERSION_amd64.deb
# make wheel       target/viskorrel-VERSION-py3-none-linux_x86_64.whl
#
# VISKORREL_LIBRARY may name a folder with libviskorrel.a and libviskorrel.so: then nothing is proved, and these are taken.

PREFIX = /usr/local
DESTDIR =
BINDIR = $(PREFIX)/bin
LIBDIR = $(PREFIX)/lib
INCLUDEDIR = $(PREFIX)/include
SHAREDIR = $(PREFIX)/share/viskorrel
DOCDIR = $(PREFIX)/share/doc/viskorrel
PYTHONDIR =# where `import viskorrel` looks, if it is to be found without PYTHONPATH

PYTHON = python3
INSTALL = install
VERSION := $(shell cat VERSION)
NAME = viskorrel-$(VERSION)-x86_64-linux
EXTENSION = target/viskorrel_sqlite.so

ifdef VISKORREL_LIBRARY
export VISKORREL_LIBRARY
ifeq ($(shell test -f "$(VISKORREL_LIBRARY)/libviskorrel.a" && test -f "$(VISKORREL_LIBRARY)/libviskorrel.so" && echo both),)
$(error VISKORREL_LIBRARY is to name a folder with libviskorrel.a and libviskorrel.so here, not $(VISKORREL_LIBRARY))
endif
ARCHIVE = $(VISKORREL_LIBRARY)/libviskorrel.a
SHARED = $(VISKORREL_LIBRARY)/libviskorrel.so
else
ARCHIVE = target/staticlib/libviskorrel.a
SHARED = target/libviskorrel.so
endif

.PHONY: all library sqlite install archive deb wheel clean
all: library sqlite

# what is due is decided by content, in dig/build.py
library:
	$(PYTHON) -B -m dig.build

sqlite: library
	sqlite/build $(EXTENSION)

install: all
	$(INSTALL) -d "$(DESTDIR)$(BINDIR)" "$(DESTDIR)$(LIBDIR)/pkgconfig" "$(DESTDIR)$(INCLUDEDIR)" "$(DESTDIR)$(SHAREDIR)/dig" \
	    "$(DESTDIR)$(SHAREDIR)/python/viskorrel" "$(DESTDIR)$(DOCDIR)"
	$(INSTALL) -m 644 "$(ARCHIVE)" "$(DESTDIR)$(LIBDIR)/libviskorrel.a"
	$(INSTALL) -m 644 "$(SHARED)" "$(DESTDIR)$(LIBDIR)/libviskorrel.so.$(VERSION)"
	ln -sf libviskorrel.so.$(VERSION) "$(DESTDIR)$(LIBDIR)/libviskorrel.so.2"
	ln -sf libviskorrel.so.2 "$(DESTDIR)$(LIBDIR)/libviskorrel.so"
	$(INSTALL) -m 644 $(EXTENSION) "$(DESTDIR)$(LIBDIR)/viskorrel_sqlite.so"
	$(INSTALL) -m 644 include/*.h "$(DESTDIR)$(INCLUDEDIR)"
	sed -e 's|@PREFIX@|$(PREFIX)|' -e 's|@LIBDIR@|$(LIBDIR)|' -e 's|@INCLUDEDIR@|$(INCLUDEDIR)|' -e 's|@VERSION@|$(VERSION)|' \
	    install/viskorrel.pc.in >"$(DESTDIR)$(LIBDIR)/pkgconfig/viskorrel.pc"
	$(INSTALL) -m 755 viskorrel "$(DESTDIR)$(SHAREDIR)"
	$(INSTALL) -m 644 VERSION "$(DESTDIR)$(SHAREDIR)"
	$(INSTALL) -m 644 dig/*.py "$(DESTDIR)$(SHAREDIR)/dig"
	$(INSTALL) -m 644 python/viskorrel/*.py "$(DESTDIR)$(SHAREDIR)/python/viskorrel"
	ln -sfr "$(DESTDIR)$(SHAREDIR)/viskorrel" "$(DESTDIR)$(BINDIR)/viskorrel"
	$(INSTALL) -m 644 LICENSE-MIT LICENSE-APACHE NOTICE README.md CHANGELOG.md "$(DESTDIR)$(DOCDIR)"
	$(INSTALL) -m 644 python/README.md "$(DESTDIR)$(DOCDIR)/README-python.md"
	$(INSTALL) -m 644 sqlite/README.md "$(DESTDIR)$(DOCDIR)/README-sqlite.md"
	$(INSTALL) -m 644 dig/README.md "$(DESTDIR)$(DOCDIR)/README-dig.md"
	$(INSTALL) -D -m 644 docs/demo.svg "$(DESTDIR)$(DOCDIR)/docs/demo.svg"
ifneq ($(PYTHONDIR),)
	$(INSTALL) -d "$(DESTDIR)$(PYTHONDIR)"
	ln -sfnr "$(DESTDIR)$(SHAREDIR)/python/viskorrel" "$(DESTDIR)$(PYTHONDIR)/viskorrel"
endif

# the paths in the pkg-config file are written from its own place there, so that the folder may stand anywhere
archive: all
	rm -rf target/$(NAME)
	$(MAKE) --no-print-directory install PREFIX=/$(NAME) DESTDIR="$(CURDIR)/target"
	sed -i 's|^prefix=.*|prefix=$${pcfiledir}/../..|; s|=/$(NAME)|=$${prefix}|' target/$(NAME)/lib/pkgconfig/viskorrel.pc
	tar -C target --owner=0 --group=0 -czf target/$(NAME).tar.gz $(NAME)
	rm -rf target/$(NAME)
	@echo target/$(NAME).tar.gz

deb: all
	rm -rf target/deb
	$(MAKE) --no-print-directory install PREFIX=/usr LIBDIR=/usr/lib/x86_64-linux-gnu PYTHONDIR=/usr/lib/python3/dist-packages \
	    DESTDIR="$(CURDIR)/target/deb"
	install/deb target/deb target/viskorrel_$(VERSION)_amd64.deb
	rm -rf target/deb
	@echo target/viskorrel_$(VERSION)_amd64.deb

wheel: library
	cd python && $(PYTHON) -B -c 'import backend; print("target/" + backend.build_wheel("../target"))'

# the proofs stay
clean:
	rm -rf target/deb target/viskorrel-* target/viskorrel_* target/libviskorrel.so target/libviskorrel.so.made-of
