# make run      build the program and settle the example archive
# make test     the whole gate: every proof and every must-fail edit, then comparisons with the outside program
# make lib      libsandegmur, static and shared, its header and pkg-config file in target/lib, proved first
# make install  program, libraries, header, pages and man page below PREFIX (/usr/local), DESTDIR in front of it; builds what isn't built
# make compare  200,000 generated calls against the outside program (CALLS=, SEED=)
# make check-pages  the examples of docs/FORMAT.md and docs/RULES.md, and every wrong reading told by them; then generated cases against a
#                   reader made from the two pages alone (ARCHIVES=, SEED=)
# make cases    the outside program's calls and answers for crates/cases, written anew
# make bench    times beside the outside program's, as ratios (BEFORE=DIR: another checkout that has been built, in the same run)
# make count    instructions beside the outside program's, by valgrind (BEFORE=DIR: as for bench)
.PHONY: run test program lib install printed check-reference check-c check-install check-program check-cases cases compare check-pages
.PHONY: places bench count

PREFIX ?= /usr/local
PROGRAM := target/sandegmur
LIB := target/lib
PRINTED := target/printed
SOURCES := crates.txt $(shell find crates -name out -prune -o '(' -name '*.rt' -o -name '*.antt' ')' -print)
version = $(shell sed -n 's/^.define SANDEGMUR_VERSION_$(1) //p' include/sandegmur.h)
VERSION := $(call version,MAJOR).$(call version,MINOR)
# what rt links with every program
RUNTIME = $(addprefix $(dir $(shell rt doc))c/,libos_c.a liblibc_c.a)
SHARED := libsandegmur.so.$(call version,MAJOR)
CFLAGS := -std=c99 -Wall -Wextra -Wconversion -Wsign-conversion -Werror -pedantic -O2
SEED ?= 1
CALLS ?= 200000
ARCHIVES ?= 20000
PAGES := target/pages
ASK = target/reference/release/ask $(SEED) $(ARCHIVES) $(PAGES)
CARGO := cd reference && SANDEGMUR_LIB=$(CURDIR)/$(LIB) CARGO_TARGET_DIR=$(CURDIR)/target/reference cargo

run: program
	$(PROGRAM) < crates/sandegmur/stdin

test:
	.ci/run

program: $(PROGRAM)

# rt proves every crate below, builds the program and runs it.
crates/sandegmur/out/sandegmur.o: $(SOURCES)
	.ci/check sandegmur run < crates/sandegmur/stdin > /dev/null
	touch -c $@

# What rt built, linked anew with c/signals.c.
$(PROGRAM): crates/sandegmur/out/sandegmur.o c/signals.c
	mkdir -p target
	$(CC) $(CFLAGS) c/signals.c $< $(RUNTIME) -Wl,--wrap=__sysv_signal -o $@

lib: $(LIB)/libsandegmur.a $(LIB)/libsandegmur.so $(LIB)/sandegmur.h $(LIB)/sandegmur.pc

crates/host/out/libhost.a: $(SOURCES)
	.ci/check host lib
	touch -c $@

# A host's own function settle takes the place of a weak one.
$(LIB)/libsandegmur.a: crates/host/out/libhost.a
	mkdir -p $(LIB)
	objcopy --weaken-symbol=settle $< $@

# Both names are files, since `rt ci` refuses a link anywhere in the checkout.
$(LIB)/libsandegmur.so: $(LIB)/libsandegmur.a
	$(CC) -shared -nostartfiles -Wl,-z,defs,-z,now,-soname,$(SHARED) -Wl,--whole-archive $< -Wl,--no-whole-archive -o $(LIB)/$(SHARED)
	cp $(LIB)/$(SHARED) $@

$(LIB)/sandegmur.h: include/sandegmur.h
	mkdir -p $(LIB)
	cp $< $@

# Works where it lies: header and libraries are in its own folder.
$(LIB)/sandegmur.pc: include/sandegmur.pc.in include/sandegmur.h
	mkdir -p $(LIB)
	$(call pkgconfig,$${pcfiledir},,) > $@

# The pkg-config file for a prefix and the folders of header and libraries below it.
pkgconfig = sed -e 's|@PREFIX@|$(1)|' -e 's|@INCLUDE@|$(2)|' -e 's|@LIB@|$(3)|' -e 's|@VERSION@|$(VERSION)|' include/sandegmur.pc.in

# What is built, as it is.
install: ROOT = $(DESTDIR)$(PREFIX)
install: $(PROGRAM) lib
	install -d $(ROOT)/bin $(ROOT)/include $(ROOT)/lib/pkgconfig $(ROOT)/share/man/man1 $(ROOT)/share/doc/sandegmur/examples
	install $(PROGRAM) $(ROOT)/bin
	install -m 644 include/sandegmur.h $(ROOT)/include
	install -m 644 $(LIB)/libsandegmur.a $(LIB)/$(SHARED) $(ROOT)/lib
	ln -sf $(SHARED) $(ROOT)/lib/libsandegmur.so
	$(call pkgconfig,$(PREFIX),/include,/lib) > $(ROOT)/lib/pkgconfig/sandegmur.pc
	install -m 644 docs/sandegmur.1 $(ROOT)/share/man/man1
	install -m 644 docs/FORMAT.md docs/RULES.md $(ROOT)/share/doc/sandegmur
	install -m 644 examples/*.* $(ROOT)/share/doc/sandegmur/examples

# The outside program's own tests, and its calendar beside Python's.
check-reference:
	$(CARGO) test -q --release
	$(CARGO) build -q --release --bin dates
	tests/dates.py --self-test
	tests/dates.py target/reference/release/dates

# By the outside program: document 01's printed example, and what the examples in C have to print.
printed:
	$(CARGO) run -q --release --bin example -- $(CURDIR)/$(PRINTED)

check-c: lib printed
	tests/c.sh $(LIB) "$(CFLAGS)" $(PRINTED)

check-install: lib program printed
	tests/install.sh $(VERSION) "$(CC) $(CFLAGS)" $(PRINTED)

check-program: program printed
	cmp $(PRINTED)/archive crates/sandegmur/stdin
	cmp $(PRINTED)/program crates/sandegmur/stdout
	$(CARGO) build -q --release --bin emit --bin program
	tests/program.sh $(PROGRAM) target/reference/release 400
	tests/streams.py target/reference/release/program $(PROGRAM)
	tests/streams_wrong.sh target/reference/release/program $(PROGRAM)
	tests/examples.sh $(PROGRAM)
	tests/man.sh docs/sandegmur.1

# crates/cases holds the outside program's word, byte for byte.
check-cases:
	$(CARGO) run -q --release --bin cases -- $(CURDIR)/target/cases
	cmp target/cases/data/calls crates/cases/data/calls
	cmp target/cases/stdout crates/cases/stdout

cases:
	$(CARGO) run -q --release --bin cases -- $(CURDIR)/crates/cases

compare: lib
	$(CARGO) run -q --release --features compare --bin compare -- $(SEED) $(CALLS)

check-pages: lib program
	$(CARGO) build -q --release --features compare --bin ask --bin reader --bin pages
	target/reference/release/pages $(CURDIR) $(PROGRAM)
	$(ASK) $(PROGRAM)
	target/reference/release/reader < $(PAGES)/cases > $(PAGES)/read && cmp $(PAGES)/lines $(PAGES)/read || { $(ASK); exit 1; }
	@echo "no difference between the library and the reader of the pages"

# The versions that bench and count take.
VERSIONS := $(if $(BEFORE),target/bench/before) target/bench/now
places: lib program
	tests/places.sh . target/bench/now
	$(if $(BEFORE),tests/places.sh $(BEFORE) target/bench/before)

bench: places
	$(CARGO) build -q --release --features compare --bin fast --bin bench
	target/reference/release/bench 512 $(VERSIONS)

count: places
	$(CARGO) build -q --release --features compare --bin once
	tests/count.py target/reference/release/once $(VERSIONS)
