# Packages of what `make lib` left in build/: installed below PREFIX, or packed for others.
.PHONY: install uninstall dist package-test

PREFIX ?= /usr/local
LIBDIR ?= $(PREFIX)/lib
INCLUDEDIR ?= $(PREFIX)/include
MANDIR ?= $(PREFIX)/share/man
DOCDIR ?= $(PREFIX)/share/doc/castulfrisa
PKGCONFIGDIR ?= $(LIBDIR)/pkgconfig
CMAKEDIR ?= $(LIBDIR)/cmake/castulfrisa
PACKAGE = python3 packaging/package.py

# Each folder may be set by itself, and uninstall asks for DOCDIR alone; DESTDIR stands in no file. TARGET installs the archives for another machine.
install: ## what make lib left, with header, man pages and documents, into PREFIX (/usr/local); DESTDIR goes ahead of it
	@$(PACKAGE) install --destdir '$(DESTDIR)' --target '$(or $(TARGET),x86-64)' --prefix '$(PREFIX)' --libdir '$(LIBDIR)' --includedir '$(INCLUDEDIR)' \
		--mandir '$(MANDIR)' --docdir '$(DOCDIR)' --pkgconfigdir '$(PKGCONFIGDIR)' --cmakedir '$(CMAKEDIR)'

uninstall: ## away again with what make install put there
	@$(PACKAGE) uninstall --destdir '$(DESTDIR)' --docdir '$(DOCDIR)'

# TARGETS names fewer machines beside x86-64.
dist: ## the library for every machine, with all that belongs to it, as one file in build/dist/
	@$(MAKE) --no-print-directory lib TARGET='$(TARGETS)'
	@$(PACKAGE) dist x86-64 $(TARGETS)

# Within seconds, from the archives that are there: installed, used from C, C++, CMake and Rust, removed again, and packed twice.
package-test: lib ## the packages, tried as a user would
	python3 tests/package_test.py
