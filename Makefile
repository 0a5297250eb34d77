# make demo      builds all, then writes, shows, cuts, merges and checks a table of CPU affinities.
# make test      the gate, .ci/run: proves every crate, tries every must-fail edit, runs every program; then builds the archive and tries
#                it from C, from Rust and by the command. Its last line is rt's own: 'N passed, 0 failed'.
# make lib       proves and builds the archive: build/libdurpaxeta.a and build/durpaxeta.h.
# make tool      builds the command build/durpaxeta over that archive.
# make install   puts command, header, archive, pkg-config file and man pages under PREFIX, an absolute path; make uninstall takes
#                them away again. For a package DESTDIR is where they lie for now, before PREFIX.
# make compare   holds the archive against the original Rust; make teeth, make fuzz, make bench: oracle/README.md.
.PHONY: test lib tool demo install uninstall

test:
	@.ci/run

lib: build/libdurpaxeta.a build/durpaxeta.h
	@echo "build/libdurpaxeta.a and build/durpaxeta.h are there"

# A failed rt leaves the archive of an earlier run in out/, so its status decides. The old copy stays until the new one is there.
build/libdurpaxeta.a: crates.txt $(shell find crates -name out -prune -o -type f -print)
	@mkdir -p build
	@package/archive.sh
	@cp crates/ffi/out/libffi.a $@.new
	@mv -f $@.new $@

build/durpaxeta.h: include/durpaxeta.h
	@mkdir -p build
	@cp $< $@

tool: build/durpaxeta
	@echo "build/durpaxeta is there"

build/durpaxeta: build/libdurpaxeta.a demo/guests.txt $(shell find tool bindings/rust -type f)
	@CARGO_TARGET_DIR="$(CURDIR)/build/cargo" cargo build --offline --locked --release --quiet --manifest-path tool/Cargo.toml
	@cp build/cargo/release/durpaxeta $@

demo: lib tool
	@demo/affinity.sh

PREFIX ?= /usr/local
DESTDIR ?=
FILES := include/durpaxeta.h lib/libdurpaxeta.a lib/pkgconfig/durpaxeta.pc share/man/man1/durpaxeta.1 share/man/man3/durpaxeta.3
# A page for each call, which leads to that of them all: man dpx_encode.
CALL_PAGES = $(patsubst %,share/man/man3/%.3,$(shell package/calls.sh))

# Seen before anything is built.
ifneq ($(filter install uninstall,$(MAKECMDGOALS)),)
ifeq ($(filter /%,$(firstword $(PREFIX))),)
$(error PREFIX is an absolute path, not '$(PREFIX)')
endif
endif

install: lib tool
	@sed -e 's|@PREFIX@|$(PREFIX)|' -e "s|@VERSION@|$$(cat VERSION)|" package/durpaxeta.pc.in > build/durpaxeta.pc
	@package/man.sh 1 > build/durpaxeta.1
	@package/man.sh 3 > build/durpaxeta.3
	@echo '.so man3/durpaxeta.3' > build/call.3
	@install -D -m 755 build/durpaxeta "$(DESTDIR)$(PREFIX)/bin/durpaxeta"
	@for file in $(FILES); do install -D -m 644 "build/$${file##*/}" "$(DESTDIR)$(PREFIX)/$$file" || exit 1; done
	@for page in $(CALL_PAGES); do install -D -m 644 build/call.3 "$(DESTDIR)$(PREFIX)/$$page" || exit 1; done
	@echo "installed under $(DESTDIR)$(PREFIX): bin/durpaxeta $(FILES), and a man page for each call"

uninstall:
	@rm -f $(foreach file,bin/durpaxeta $(FILES) $(CALL_PAGES),"$(DESTDIR)$(PREFIX)/$(file)")
	@echo "removed from $(DESTDIR)$(PREFIX): bin/durpaxeta $(FILES), and the man page of each call"

include oracle/oracle.mk
