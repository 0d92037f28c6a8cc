# Installs the release of dist/: the program enc, the C library with its header and what pkg-config and CMake ask for,
# the manual pages, and the completion of commands and file names for bash.
#   make install [PREFIX=/usr/local] [LIBDIR=PREFIX/lib] [DESTDIR=..]    make uninstall    make deb    make nuget
PREFIX = /usr/local
LIBDIR = $(PREFIX)/lib
VERSION := $(shell cat VERSION)
INSTALL = install
# words for the shell and for the text that sed puts in, whatever stands in them, such as a space
quoted = '$(subst ','\'',$(1))'
escaped = $(subst &,\&,$(subst |,\|,$(subst \,\\,$(1))))
to = $(call quoted,$(DESTDIR)$(PREFIX))
lib = $(call quoted,$(DESTDIR)$(LIBDIR))
deb = out/enc_$(VERSION)_amd64.deb
pages = out/enc.1.gz out/libenc.3.gz
files = $(to)/bin/enc $(to)/include/enc.h $(to)/share/man/man1/enc.1.gz $(to)/share/man/man3/libenc.3.gz \
	$(to)/share/bash-completion/completions/enc $(lib)/libenc.so $(lib)/libenc.a $(lib)/pkgconfig/enc.pc \
	$(lib)/cmake/enc/enc-config.cmake $(lib)/cmake/enc/enc-config-version.cmake
nupkg = out/Enc.$(VERSION).nupkg

.PHONY: all install uninstall deb nuget clean
all:
	@echo "nothing has to be built: dist/ holds the release. make install, make uninstall, make deb, make nuget"

out/%.gz: release/%.in VERSION
	mkdir -p out
	sed -e 's|@VERSION@|$(VERSION)|' $< | gzip -9n >$@

# enc.pc is written where it is installed, so that it has the PREFIX of this call. Behind an install for all the loader
# finds the library
install: $(pages)
	$(INSTALL) -D -m 755 dist/enc $(to)/bin/enc
	$(INSTALL) -D -m 644 dist/libenc.so $(lib)/libenc.so
	$(INSTALL) -D -m 644 dist/libenc.a $(lib)/libenc.a
	$(INSTALL) -D -m 644 dist/enc.h $(to)/include/enc.h
	$(INSTALL) -D -m 644 release/enc.pc.in $(lib)/pkgconfig/enc.pc
	sed -e $(call quoted,s|@PREFIX@|$(call escaped,$(PREFIX))|) \
		-e $(call quoted,s|@LIBDIR@|$(call escaped,$(subst $(PREFIX)/,$${prefix}/,$(LIBDIR)))|) \
		-e 's|@VERSION@|$(VERSION)|' release/enc.pc.in >$(lib)/pkgconfig/enc.pc
	$(INSTALL) -D -m 644 release/enc-config.cmake $(lib)/cmake/enc/enc-config.cmake
	sed -e 's|@VERSION@|$(VERSION)|' release/enc-config-version.cmake.in >$(lib)/cmake/enc/enc-config-version.cmake
	$(INSTALL) -D -m 644 out/enc.1.gz $(to)/share/man/man1/enc.1.gz
	$(INSTALL) -D -m 644 out/libenc.3.gz $(to)/share/man/man3/libenc.3.gz
	$(INSTALL) -D -m 644 release/enc.bash $(to)/share/bash-completion/completions/enc
	@case $(lib):$$(id -u) in /usr/*:0) ldconfig ;; esac

uninstall:
	rm -f $(files)

deb: $(deb)
$(deb): dist/SOURCES release/deb $(wildcard debian/*) VERSION
	release/deb out

nuget: $(nupkg)
$(nupkg): dist/libenc.so release/nuget csharp/Enc.nuspec csharp/Enc.cs docs/csharp.md VERSION LICENSE
	release/nuget $(VERSION) dist/libenc.so out/nuget $@

clean:
	rm -rf out/nuget
	rm -f $(pages) out/*.deb out/*.nupkg
