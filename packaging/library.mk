# The library for C: what make library, make dist and make deb make, and what make install puts in place beside the programs.

VERSION := $(shell cat packaging/VERSION)
CALLS := $(shell sed -n 's/^ *\(fixed_[a-z_]*\);$$/\1/p' packaging/fixed.map)
LIBRARY := build/lib/libfixed.a build/lib/libfixed.so.1
MANUALS := $(patsubst man/%,%,$(wildcard man/*.1)) fixed.3
# The sources of the crate for Rust, which a Cargo.toml names by their folder.
CRATE := rust/Cargo.toml rust/build.rs $(wildcard rust/src/*.rs)
CC ?= cc

.PHONY: library dist deb check-library install-library uninstall-library

# Proves the library, and leaves it as an archive and as a shared library with the header's symbols alone. (The gate refuses a
# link in any folder, and so the name without a number is a copy.)
library:
	@$(PROVE) fixed_c
	@mkdir -p build/lib
	cp build/libfixed_c.a build/lib/libfixed.a
	@$(MAKE) --no-print-directory build/lib/libfixed.so.1
	cp build/lib/libfixed.so.1 build/lib/libfixed.so
	@echo "build/lib has libfixed.a and libfixed.so.1, proved and compiled for $(CPU)."

build/lib/libfixed.so.1: build/lib/libfixed.a packaging/fixed.map
	$(CC) -shared -o $@ -Wl,-soname,libfixed.so.1 -Wl,--version-script=packaging/fixed.map \
	  -Wl,--gc-sections -Wl,-z,relro -Wl,-z,now $(CALLS:%=-Wl,-u,%) build/lib/libfixed.a -nostartfiles -lc

# Compiles the callers in examples/, the crate for Rust, the header for C++ and SQLite's extension with what compilers there are,
# and runs them against the library.
check-library: library
	python3 .ci/library.py --built build
	python3 .ci/wrappers.py --built build
	@echo "Every caller that could be compiled here agrees with the library in build/lib."

install-library:
	@$(call need_files,$(LIBRARY),make library)
	install -d "$(DESTDIR)$(PREFIX)/include" "$(DESTDIR)$(PREFIX)/lib/pkgconfig" "$(DESTDIR)$(PREFIX)/share/man/man1" "$(DESTDIR)$(PREFIX)/share/man/man3"
	install -m 644 include/fixed.h include/fixed.hpp "$(DESTDIR)$(PREFIX)/include/"
	for file in $(CRATE); do install -D -m 644 "$$file" "$(DESTDIR)$(PREFIX)/share/lomdeqash/$$file" || exit 1; done
	install -m 644 build/lib/libfixed.a "$(DESTDIR)$(PREFIX)/lib/libfixed.a"
	install -m 755 build/lib/libfixed.so.1 "$(DESTDIR)$(PREFIX)/lib/libfixed.so.1"
	ln -sf libfixed.so.1 "$(DESTDIR)$(PREFIX)/lib/libfixed.so"
	sed -e 's|@PREFIX@|$(PREFIX)|' -e 's|@VERSION@|$(VERSION)|' packaging/fixed.pc.in >"$(DESTDIR)$(PREFIX)/lib/pkgconfig/fixed.pc"
	chmod 644 "$(DESTDIR)$(PREFIX)/lib/pkgconfig/fixed.pc"
	for page in man/*.1; do install -m 644 "$$page" "$(DESTDIR)$(PREFIX)/share/man/man1/" || exit 1; done
	install -m 644 man/fixed.3 "$(DESTDIR)$(PREFIX)/share/man/man3/fixed.3"
	for call in $(CALLS); do echo '.so man3/fixed.3' >"$(DESTDIR)$(PREFIX)/share/man/man3/$$call.3" || exit 1; done
	install -d "$(DESTDIR)$(PREFIX)/share/bash-completion/completions" "$(DESTDIR)$(PREFIX)/share/zsh/site-functions" "$(DESTDIR)$(PREFIX)/share/fish/vendor_completions.d"
	for file in completion/*.bash; do name=$${file##*/}; install -m 644 "$$file" "$(DESTDIR)$(PREFIX)/share/bash-completion/completions/$${name%.bash}" || exit 1; done
	for file in completion/_*; do install -m 644 "$$file" "$(DESTDIR)$(PREFIX)/share/zsh/site-functions/" || exit 1; done
	for file in completion/*.fish; do install -m 644 "$$file" "$(DESTDIR)$(PREFIX)/share/fish/vendor_completions.d/" || exit 1; done

uninstall-library:
	rm -f "$(DESTDIR)$(PREFIX)/include/fixed.h" "$(DESTDIR)$(PREFIX)/include/fixed.hpp" "$(DESTDIR)$(PREFIX)/lib/pkgconfig/fixed.pc"
	rm -rf "$(DESTDIR)$(PREFIX)/share/lomdeqash"
	for file in libfixed.a libfixed.so.1 libfixed.so; do rm -f "$(DESTDIR)$(PREFIX)/lib/$$file"; done
	for page in $(MANUALS); do rm -f "$(DESTDIR)$(PREFIX)/share/man/man$${page##*.}/$$page"; done
	for call in $(CALLS); do rm -f "$(DESTDIR)$(PREFIX)/share/man/man3/$$call.3"; done
	for file in completion/*.bash; do name=$${file##*/}; rm -f "$(DESTDIR)$(PREFIX)/share/bash-completion/completions/$${name%.bash}"; done
	for file in completion/_*; do rm -f "$(DESTDIR)$(PREFIX)/share/zsh/site-functions/$${file##*/}"; done
	for file in completion/*.fish; do rm -f "$(DESTDIR)$(PREFIX)/share/fish/vendor_completions.d/$${file##*/}"; done

# An archive of the sources that builds by itself: what is committed, below one folder.
dist:
	@mkdir -p build
	git archive --format=tar.gz --prefix=lomdeqash-$(VERSION)/ -o build/lomdeqash-$(VERSION).tar.gz HEAD
	@echo "build/lomdeqash-$(VERSION).tar.gz has what is committed."

# Packages of the programs, of the library, and of what is needed to build against it.
deb: build library
	packaging/deb.sh $(VERSION) $(PROGRAMS)
	@echo "The packages are in build/deb."
