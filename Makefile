# What callers use, in any language.
#   make                        the Python package with its shared object, from the code in made/: seconds, with a C compiler and no kit
#   make prove                  the same, of what is proved on this machine first: long from nothing, and needs the Rattle kit, which is for x86-64
#   make made                   the code in made/, of what is proved on this machine: for who changes the library
#   make install PREFIX=/usr    header, archive, shared object, pkg-config file, man pages and completions
#   make wheel, make sdist      what pip takes, in target/dist: the same bytes each time
#   make deb                    Debian packages for this machine's kind, in target/deb
#   make test                   the tests of what stands around the library
VERSION := 4.1.0
PREFIX ?= /usr/local
DESTDIR ?=

SONAME := libtteuyomal.so.$(firstword $(subst ., ,$(VERSION)))

STATIC := target/staticlib/libtteuyomal.a
SHARED := target/staticlib/libtteuyomal.so
PACKED := python/tteuyomal/libtteuyomal.so
MAN := share/man
BASH := share/bash-completion/completions
ZSH := share/zsh/site-functions

.PHONY: python prove made shared install wheel sdist deb test

python: $(PACKED)
shared: $(SHARED)

# an archive that was proved here stays until made/ has newer code
$(STATIC): $(wildcard made/*.s)
	CC='$(CC)' AR='$(AR)' made/code assemble

prove:
	made/code prove
	$(MAKE) python

made:
	made/code prove
	made/code write
	$(MAKE) python

# its name has the version, which stands here
$(SHARED): $(STATIC) Makefile
	CC='$(CC)' made/code shared $(SONAME)

$(PACKED): $(SHARED)
	cp target/staticlib/made.txt python/tteuyomal/
	cp $< $@

install: $(SHARED)
	install -d $(addprefix $(DESTDIR)$(PREFIX)/,include lib/pkgconfig $(MAN)/man1 $(MAN)/man3 $(BASH) $(ZSH))
	install -m 644 include/tteuyomal.h $(DESTDIR)$(PREFIX)/include/
	install -m 644 $(STATIC) $(DESTDIR)$(PREFIX)/lib/
	install -m 755 $(SHARED) $(DESTDIR)$(PREFIX)/lib/$(SONAME)
	ln -sf $(SONAME) $(DESTDIR)$(PREFIX)/lib/libtteuyomal.so
	packages/pkgconfig $(PREFIX) lib $(VERSION) >$(DESTDIR)$(PREFIX)/lib/pkgconfig/tteuyomal.pc
	packages/manual command >$(DESTDIR)$(PREFIX)/$(MAN)/man1/tteuyomal.1
	packages/manual functions >$(DESTDIR)$(PREFIX)/$(MAN)/man3/tteuyomal.3
	packages/manual bash >$(DESTDIR)$(PREFIX)/$(BASH)/tteuyomal
	packages/manual zsh >$(DESTDIR)$(PREFIX)/$(ZSH)/_tteuyomal

wheel sdist: python
	mkdir -p target/dist
	cd python && python3 -Bc "import builder; print('target/dist/' + builder.build_$@('../target/dist'))"

deb: python
	packages/deb $(VERSION)

test: python
	python3 tests/run.py
