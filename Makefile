PREFIX ?= /usr/local
BINDIR ?= $(PREFIX)/bin
LIBDIR ?= $(PREFIX)/lib
INCLUDEDIR ?= $(PREFIX)/include
DATADIR ?= $(PREFIX)/share
MANDIR ?= $(DATADIR)/man
# The name under which the program is installed: Debian's libaec-tools has an `aec` too.
PROGRAM ?= aec
# The one that builds the Python package: it has cffi, setuptools, wheel and pip.
PYTHON ?= /usr/bin/python3
RANDOM_INPUTS ?= 100000
PYTHON_CODES ?= 1000000
LIBRARY_CODES ?= 1000000

.DEFAULT_GOAL := help
.PHONY: help library small compat python install install-command install-library install-documents install-compat uninstall check clean dist release deb released two-builds test edit rows hostile interop exhaustive any-block refused-memory installed recipes documents options guesses vectors pictures imports lemmas progress bench-others bench examples stack small-sizes compare-small header axioms hostile-library hostile-pulls clients hostile-compat python-tests aarch64 bench-compat wrappers trusted plant

help:
	@echo 'make aec                    prove and build the program, as ./aec (some twenty minutes the first time)'
	@echo 'make library                prove and build the library for C, as ./librice.a and ./librice.so (as long)'
	@echo 'make library TARGET=aarch64-unknown-linux-gnu   the same for another processor, in out/TARGET'
	@echo 'make small                  prove and build the small library for C, as ./librice_small.a (with TARGET=.. too)'
	@echo 'make compat                 build the interfaces of libaec and szlib over the library, in ./compat/out'
	@echo 'make python                 build the Python package over ./librice.a, as a wheel and unpacked, in ./out/python'
	@echo 'make install PREFIX=DIR     install both in DIR (/usr/local), with manual page, completions, header, rice.pc and documents'
	@echo 'make install-command, make install-library, make install-documents   install one of them'
	@echo 'make install-compat         install the interfaces of libaec and szlib in DIR/lib/rice-compat'
	@echo 'make uninstall PREFIX=DIR   remove what these installed'
	@echo 'make check                  run what is built through the cases of scripts/rows.txt and through damaged codes, without the toolchain'
	@echo 'make release                pack what is built, with all that belongs to it, and the sources, into ./dist'
	@echo 'make dist                   pack the sources alone'
	@echo 'make deb                    make Debian packages of what is built, in ./dist'
	@echo 'make released               try these in a clean Debian (as root, by debootstrap)'
	@echo 'make two-builds             build and pack all once more in another folder, and compare'
	@echo 'make clean                  remove what was built, and what was kept of proofs'
	@echo 'make test                   prove everything, try the edits that must fail, and run all tests: what passed here before is kept'
	@echo 'make edit NAME=CRATE        try the edits that must fail of a crate, crates/CRATE/must-fail: those that changed since they were tried'
	@echo 'make rows                   run the cases of scripts/rows.txt with ./aec and the library'
	@echo 'make hostile                run ./aec on damaged and random codes, and on files and streams that fail'
	@echo "make interop                exchange codes between ./aec and Debian's aec (libaec-tools)"
	@echo "make exhaustive             give every short list and code to the library and to Debian's libaec (libaec-dev)"
	@echo "make any-block              code blocks of every even size by the library and by Debian's libaec (libaec-dev)"
	@echo 'make refused-memory         refuse each request for memory of ./aec in turn'
	@echo 'make installed              install ./aec and the library into a folder, and try them there'
	@echo 'make recipes                run the recipes of docs/COOKBOOK.md with ./aec'
	@echo 'make documents              try the links, commands, messages and lengths of sentences of the documents with ./aec'
	@echo 'make options                compare all lists of the options with scripts/options.txt'
	@echo 'make progress               look at what ./aec --verbose shows on a terminal (python3-pexpect)'
	@echo 'make pictures               draw docs/pictures from docs/benchmarks and the tables of pages (python3-matplotlib)'
	@echo 'make bench-others           compare sizes and speeds with zstd, xz, lz4, bzip2, fpack, blosc and libaec'
	@echo "make vectors                try the files of vectors/ with ./aec and with Debian's aec"
	@echo 'make guesses                have recipes/guess.py find the options of codes (minutes)'
	@echo "make bench                  compare the speed of ./aec and the library with Debian's aec and libaec (libaec-tools, libaec-dev)"
	@echo 'make examples               build and run examples/c and examples/cpp, with sanitizers and under valgrind'
	@echo 'make python-tests           try the Python package against ./aec, and with damaged codes'
	@echo 'make stack                  measure the stack that a call of the library takes'
	@echo 'make small-sizes            measure the code and the stack of programs over the small library'
	@echo 'make compare-small          give both libraries the same samples and codes, at once and in pieces, and compare'
	@echo 'make header                 compare include/rice.h with the library and its crate'
	@echo 'make axioms                 compare docs/axioms.txt with the C functions that the proofs rest on'
	@echo 'make hostile-library        give the library damaged and random codes, and too little room'
	@echo 'make hostile-pulls          give the library such codes in pieces, and compare with all at once'
	@echo 'make clients                run programs that use libaec on ./compat/out and on Debian'"'"'s libaec'
	@echo 'make hostile-compat         give the interfaces of libaec and szlib damaged codes in pieces'
	@echo "make aarch64                build the libraries for aarch64, and run the examples on it (qemu-user, gcc-aarch64-linux-gnu)"
	@echo 'make bench-compat           compare the speed of ./compat/out and of Debian'"'"'s libaec and szlib (libaec-dev)'
	@echo 'make wrappers               turn the wrappers of readers, writers and the runtime into wrong ones, which the tests refuse'
	@echo 'make imports                look for imports of definitions that no clause uses'
	@echo 'make lemmas                 look for public lemmas without a line that says what they state, and for long lines'
	@echo 'make trusted                compare docs/TRUSTED.md with the definitions that the promises rest on'
	@echo 'make plant                  plant wrong bodies under all contracts, and list those that are proved (hours)'
	@scripts/toolchain

# Another processor than that of x86-64 Linux, as `rt lib --target` names it. What is built for it stands in a folder of its own.
TARGET ?=
LIBRARY := $(if $(TARGET),out/$(TARGET)/)
ifneq ($(TARGET),)
ifeq ($(origin CC),default)
CC := $(subst -unknown,,$(TARGET))-gcc
endif
endif

VERSION := $(shell sed -n 's/^.define RICE_VERSION_TEXT "\(.*\)"/\1/p' include/rice.h)
# The number behind its name is that of its interface: it grows where a program that used the library has to be built anew.
SHARED := librice.so.0

LIBRARIES := rice_bits rice_samples rice_code rice_fast rice_stream
sources = $(shell find $(foreach crate,$(1),$(wildcard $(addprefix crates/$(crate)/,src specs proofs))) -type f) crates.txt
# The processes that share a check. Each takes a gigabyte or more.
JOBS ?= $(shell n=$$(nproc); echo $$((n < 4 ? n : 4)))
prove = for crate in $(1); do (cd crates/$$crate && rt lib --jobs $(JOBS) > /dev/null) || exit 1; done

aec: crates/aec_tool/out/aec_tool
	cp $< $@

# The libraries first, one after the other: `rt run` alone would begin with a pass over all sources, which takes minutes.
crates/aec_tool/out/aec_tool: $(call sources,$(LIBRARIES) aec_command aec_run aec_tool)
	$(call prove,$(LIBRARIES) aec_command aec_run)
	cd crates/aec_tool && rt run --jobs $(JOBS) -- --help > /dev/null
	touch $@

library: $(LIBRARY)librice.a $(LIBRARY)librice.so

librice.a: crates/rice_c/out/librice_c.a
	cp $< $@

small: $(LIBRARY)librice_small.a

librice_small.a: crates/rice_small/out/librice_small.a
	cp $< $@

# The object needs nothing but memcpy, memmove and memset (make header), so the shared library is the static one.
$(LIBRARY)librice.so: $(LIBRARY)librice.a
	$(CC) $(LDFLAGS) -shared -Wl,-soname,$(SHARED) -Wl,-z,now,-z,relro -Wl,--whole-archive $< -Wl,--no-whole-archive -o $@

# The interfaces of libaec and of its szlib, over the library. They export these calls alone, and libsz takes the libaec beside it.
# The linker's names for them are copies, since rt ci takes no links.
COMPAT := $(or $(LIBRARY:/=),compat)/out
CFLAGS ?= -O2
COMPAT_CC = $(CC) -std=c99 -Wall -Wextra -Wpedantic -Werror $(CPPFLAGS) $(CFLAGS) -fPIC -fvisibility=hidden -Iinclude -shared \
	$(LDFLAGS) -Wl,-z,defs,-z,now,-z,relro

compat: $(COMPAT)/libaec.so.0 $(COMPAT)/libsz.so.2

$(COMPAT)/libaec.so.0: $(addprefix compat/,shared.c encode.c decode.c shared.h libaec.h) include/rice.h $(LIBRARY)librice.a
	mkdir -p $(COMPAT)
	$(COMPAT_CC) -Wl,-soname,libaec.so.0 -Wl,--exclude-libs,ALL $(filter %.c,$^) $(LIBRARY)librice.a -o $@
	cp $@ $(COMPAT)/libaec.so

$(COMPAT)/libsz.so.2: compat/szlib.c compat/szlib.h $(COMPAT)/libaec.so.0
	$(COMPAT_CC) -Wl,-soname,libsz.so.2 -Wl,-rpath,'$$ORIGIN' compat/szlib.c $(COMPAT)/libaec.so.0 -o $@
	cp $@ $(COMPAT)/libsz.so

# The libraries for C: that of fast engines, and the small one, of plain ones.
FOR_C := $(LIBRARIES) rice_calls

crates/rice_c/out/librice_c.a crates/rice_small/out/librice_small.a: crates/%.a: $(call sources,$(FOR_C) rice_c rice_small)
	$(call prove,$(FOR_C))
	cd crates/$(firstword $(subst /, ,$*)) && rt lib --jobs $(JOBS) > /dev/null
	touch $@

# `rt lib` leaves a library where that for this machine is, which is put aside and back.
ifneq ($(TARGET),)
$(LIBRARY)librice.a: BUILT := crates/rice_c/out/librice_c.a
$(LIBRARY)librice_small.a: BUILT := crates/rice_small/out/librice_small.a
$(LIBRARY)librice.a $(LIBRARY)librice_small.a: $(call sources,$(FOR_C) rice_c rice_small)
	mkdir -p $(@D)
	$(call prove,$(FOR_C))
	mv $(BUILT) $(@D)/here.a || true
	cd $(dir $(BUILT)).. && rt lib --jobs $(JOBS) --target $(TARGET) > /dev/null
	mv $(BUILT) $@
	mv $(@D)/here.a $(BUILT) || true
	touch $@
endif

python: out/python/rice121

out/python/rice121: librice.a include/rice.h scripts/wheel $(wildcard LICENSE* NOTICE* python/*.* python/rice121/*.*)
	scripts/wheel $(PYTHON)

# What stands here is installed, and nothing is proved or built for it.
paths_are_whole = $(foreach it,PREFIX BINDIR LIBDIR INCLUDEDIR DATADIR MANDIR,$(if $(filter /%,$($(it))),,$(error $(it) has to begin with /, unlike $($(it)))))\
	$(foreach it,DESTDIR PREFIX BINDIR LIBDIR INCLUDEDIR DATADIR MANDIR,$(if $(word 2,$($(it))),$(error $(it) has a blank in it: $($(it)))))
are_built = @for it in $(1); do [ -e $$it ] || { echo "there is no $$it: it is built by make $(2)" >&2; exit 1; }; done
to_paths = sed -e 's|@PREFIX@|$(PREFIX)|' -e 's|@LIBDIR@|$(LIBDIR)|' -e 's|@INCLUDEDIR@|$(INCLUDEDIR)|' -e 's|@VERSION@|$(VERSION)|' -e 's|@SHARED@|$(SHARED)|'

install: install-command install-library install-documents

install-command:
	$(paths_are_whole)
	$(call are_built,aec,aec)
	install -D -m 755 aec $(DESTDIR)$(BINDIR)/$(PROGRAM)
	install -d $(addprefix $(DESTDIR),$(MANDIR)/man1 $(DATADIR)/bash-completion/completions $(DATADIR)/zsh/site-functions)
	sed 's/^\.Nm aec$$/.Nm $(PROGRAM)/' man/aec.1 > $(DESTDIR)$(MANDIR)/man1/$(PROGRAM).1
	sed 's/ aec$$/ $(PROGRAM)/' completions/aec.bash > $(DESTDIR)$(DATADIR)/bash-completion/completions/$(PROGRAM)
	sed 's/^#compdef aec$$/#compdef $(PROGRAM)/' completions/_aec > $(DESTDIR)$(DATADIR)/zsh/site-functions/_$(PROGRAM)

install-library:
	$(paths_are_whole)
	$(call are_built,$(addprefix $(LIBRARY),librice.a librice.so),library)
	install -D -m 644 $(LIBRARY)librice.a $(DESTDIR)$(LIBDIR)/librice.a
	install -D -m 644 $(LIBRARY)librice.so $(DESTDIR)$(LIBDIR)/$(SHARED).$(VERSION)
	ln -sf $(SHARED).$(VERSION) $(DESTDIR)$(LIBDIR)/$(SHARED)
	ln -sf $(SHARED) $(DESTDIR)$(LIBDIR)/librice.so
	install -D -m 644 include/rice.h $(DESTDIR)$(INCLUDEDIR)/rice.h
	install -d $(DESTDIR)$(LIBDIR)/pkgconfig $(DESTDIR)$(LIBDIR)/cmake/rice
	$(to_paths) include/rice.pc.in > $(DESTDIR)$(LIBDIR)/pkgconfig/rice.pc
	$(to_paths) include/rice-config.cmake.in > $(DESTDIR)$(LIBDIR)/cmake/rice/rice-config.cmake
	$(to_paths) include/rice-config-version.cmake.in > $(DESTDIR)$(LIBDIR)/cmake/rice/rice-config-version.cmake

DOCUMENTS := README.md LICENSE.md NOTICE docs examples recipes vectors
DOCDIR = $(DESTDIR)$(DATADIR)/doc/$(PROGRAM)

# A link to another file of the repository becomes plain text.
install-documents:
	$(paths_are_whole)
	install -d $(DOCDIR)
	cp -r $(DOCUMENTS) $(DOCDIR)
	rm -rf $(DOCDIR)/recipes/__pycache__
	chmod -R a+rX $(DOCDIR)
	sed -Ei 's;\[([^]]*)\]\((\.\./)?(compat|crates|include|man|python|scripts)[^)]*\);\1;g' $(addprefix $(DOCDIR)/,README.md docs/*.md)

# In a folder of their own, so that they stand in for libaec only where a program is told to look there.
COMPAT_DIR = $(DESTDIR)$(LIBDIR)/rice-compat

install-compat:
	$(paths_are_whole)
	$(call are_built,$(addprefix $(COMPAT)/,libaec.so.0 libsz.so.2),compat)
	install -D -m 644 $(COMPAT)/libaec.so.0 $(COMPAT_DIR)/libaec.so.0
	install -D -m 644 $(COMPAT)/libsz.so.2 $(COMPAT_DIR)/libsz.so.2
	ln -sf libaec.so.0 $(COMPAT_DIR)/libaec.so
	ln -sf libsz.so.2 $(COMPAT_DIR)/libsz.so
	install -D -m 644 -t $(COMPAT_DIR)/include compat/libaec.h compat/szlib.h
	install -d $(COMPAT_DIR)/pkgconfig
	for name in libaec libsz; do $(to_paths) compat/$$name.pc.in > $(COMPAT_DIR)/pkgconfig/$$name.pc || exit 1; done

uninstall:
	$(paths_are_whole)
	rm -f $(addprefix $(COMPAT_DIR)/,libaec.so libaec.so.0 libsz.so libsz.so.2 include/libaec.h include/szlib.h)
	rm -f $(addprefix $(COMPAT_DIR)/pkgconfig/,libaec.pc libsz.pc)
	rm -f $(addprefix $(DESTDIR)$(LIBDIR)/,librice.a librice.so $(SHARED) $(SHARED).$(VERSION) pkgconfig/rice.pc)
	rm -f $(addprefix $(DESTDIR)$(LIBDIR)/cmake/rice/,rice-config.cmake rice-config-version.cmake)
	rm -f $(DESTDIR)$(INCLUDEDIR)/rice.h
	rm -rf $(addprefix $(DOCDIR)/,$(DOCUMENTS))
	rm -f $(DESTDIR)$(BINDIR)/$(PROGRAM)
	rm -f $(DESTDIR)$(MANDIR)/man1/$(PROGRAM).1
	rm -f $(DESTDIR)$(DATADIR)/bash-completion/completions/$(PROGRAM)
	rm -f $(DESTDIR)$(DATADIR)/zsh/site-functions/_$(PROGRAM)

# What is built is tried, without the toolchain.
check:
	$(call are_built,aec,aec)
	$(call are_built,librice.a librice.so,library)
	scripts/rows.py ./aec scripts/rows.txt librice.so
	scripts/hostile_devices ./aec
	scripts/hostile.py ./aec 1000

dist:
	scripts/release source

all_are_built = $(call are_built,aec librice.a librice.so compat/out/libaec.so.0 compat/out/libsz.so.2,aec library compat)

release:
	$(all_are_built)
	scripts/release all

deb:
	$(all_are_built)
	$(call are_built,out/python/rice121,python)
	scripts/packages

released: release deb
	scripts/released

two-builds: release
	scripts/two_builds

clean:
	rm -rf crates/*/out compat/out python/build python/*.egg-info out dist aec librice.a librice_small.a librice.so

test:
	scripts/test

edit:
	rt must-fail $(NAME)

rows: aec library
	scripts/rows.py ./aec scripts/rows.txt librice.so

hostile: aec
	scripts/hostile_devices ./aec
	scripts/hostile.py ./aec $(RANDOM_INPUTS)

interop: aec
	scripts/interop ./aec

# The small library with the calls that it lacks, which scripts make.
out/small_with_all.a: librice.a librice_small.a scripts/small_with_all
	mkdir -p out
	scripts/small_with_all librice.a librice_small.a $@

exhaustive: library aec out/small_with_all.a
	scripts/exhaustive librice.a ./aec
	scripts/exhaustive out/small_with_all.a ./aec

any-block: library out/small_with_all.a
	scripts/any_block librice.a
	scripts/any_block out/small_with_all.a

refused-memory: aec
	scripts/refused_memory ./aec

installed: aec library
	scripts/installed ./aec librice.a

recipes: aec library compat python
	scripts/recipes.py ./aec

documents: aec
	scripts/documents.py ./aec

options: aec
	scripts/options.py ./aec

progress: aec
	scripts/progress.py ./aec

pictures:
	scripts/pictures.py

bench-others: aec python
	scripts/bench_others.py ./aec

vectors: aec
	scripts/vectors.py ./aec /usr/bin/aec

guesses: aec python
	scripts/guesses.py ./aec /usr/bin/aec

bench: aec library
	scripts/bench

examples: library
	scripts/examples librice.a

stack: library
	scripts/stack librice.a

small-sizes: small
	scripts/small librice_small.a

compare-small: library small
	scripts/compare_small librice.a librice_small.a

header: library
	scripts/header.py librice.a

axioms:
	scripts/axioms

hostile-library: library aec out/small_with_all.a
	scripts/hostile_library librice.a ./aec $(LIBRARY_CODES)
	scripts/hostile_library out/small_with_all.a ./aec $(LIBRARY_CODES)

hostile-pulls: library out/small_with_all.a
	scripts/hostile_pulls librice.a 200000
	scripts/hostile_pulls out/small_with_all.a 200000

clients: compat
	scripts/clients $(COMPAT)

hostile-compat: library
	scripts/hostile_compat librice.a 200000

python-tests: aec librice.a
	scripts/python ./aec $(PYTHON_CODES)

aarch64: library
	$(MAKE) library small compat TARGET=aarch64-unknown-linux-gnu CC=aarch64-linux-gnu-gcc
	scripts/aarch64 out/aarch64-unknown-linux-gnu/librice.a out/aarch64-unknown-linux-gnu/librice_small.a librice.a

bench-compat: compat
	scripts/bench_compat $(COMPAT) $(LIBRARY)librice.a

wrappers:
	scripts/wrong_wrappers.py

trusted:
	scripts/trusted.py

imports:
	scripts/unused_imports.py

lemmas:
	scripts/lemma_lines.py

plant:
	for crate in $(FOR_C) rice_c rice_small aec_command aec_run aec_tool; do (cd crates/$$crate && rt plant --max 1000000 --minutes 10000) || exit 1; done
