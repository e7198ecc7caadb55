# The C package: `make`, `make test`, `make install`, `make uninstall`, `make dist`, `make bench`, `make clean`; docs/C.md says
# what each does. Everything that is made goes to build/, but for the archive, which the Rattle kit (`rt`) proves and makes.

# Where `make install` puts things. DESTDIR goes before each of them and is in no installed file.
DESTDIR =
PREFIX = /usr/local
BINDIR = $(PREFIX)/bin
INCLUDEDIR = $(PREFIX)/include
LIBDIR = $(PREFIX)/lib
MANDIR = $(PREFIX)/share/man

# The user's. What the sources need is in COMPILE, so that these may be anything. WERROR=-Werror makes warnings errors.
CFLAGS ?= -O2
CPPFLAGS ?=
LDFLAGS ?=
WERROR ?=

# How many calls the guard test makes.
CALLS = 1000000

# What `make test` runs: programs, each made from the file of its name in tests/c, with the words that words_NAME has for it,
# and then scripts of tests/.
TESTS = known survey stack guard
words_stack = samples/*.matter
words_guard = $(CALLS)
SCRIPTS = header link explain client examples install dist

HEADER = include/matter_idl.h
VERSION := $(shell sed -n 's/^.define MATTER_IDL_VERSION "\(.*\)"$$/\1/p' $(HEADER))
FORMAT := $(shell sed -n 's/^.define MATTER_IDL_FORMAT \([0-9]*\)$$/\1/p' $(HEADER))

# A client's inline functions fit one format, so the format is the number in the shared library's SONAME.
EXPORTS = matter_idl_read matter_idl_survey matter_idl_unescape matter_idl_format_$(FORMAT)
LINK = libmatter_idl.so
SONAME = $(LINK).$(FORMAT)
SHARED = $(SONAME).$(VERSION)

COMPILE = $(CC) -std=c11 -Iinclude $(CPPFLAGS) -Wall -Wextra $(WERROR) $(CFLAGS) $(LDFLAGS)
PROGRAMS = build/explain build/clusters
PACKAGE = matter_idl-$(VERSION)-x86_64-linux

# A word for the shell, whatever is in it; a word for pkg-config, as `sed` must be handed it.
quoted = '$(subst ','\'',$(1))'
empty =
escaped = $(subst $(empty) ,\ ,$(subst ",\",$(subst ',\',$(subst \,\\,$(1)))))
replacement = $(subst |,\|,$(subst &,\&,$(subst \,\\,$(1))))
# pc PREFIX,INCLUDEDIR,LIBDIR: writes matter_idl.pc to standard output.
pc_line = s|@$(1)@|$(call replacement,$(2))|;
pc = sed $(call quoted,$(call pc_line,PREFIX,$(1))$(call pc_line,INCLUDEDIR,$(2))$(call pc_line,LIBDIR,$(3))$(call pc_line,VERSION,$(VERSION))) matter_idl.pc.in
# What `make install` writes to, by kind.
to_bin = $(call quoted,$(DESTDIR)$(BINDIR))
to_include = $(call quoted,$(DESTDIR)$(INCLUDEDIR))
to_lib = $(call quoted,$(DESTDIR)$(LIBDIR))
to_man = $(call quoted,$(DESTDIR)$(MANDIR))

all: $(PROGRAMS) build/$(LINK)

# An archive that ARCHIVE names is taken as it is. The other one is made anew where a source is younger; folders are among the
# sources, since their times tell that a file is gone.
ifndef ARCHIVE
ARCHIVE = target/staticlib/libmatter_idl.a
CRATES = matter_idl_c $(shell sed -n 's/^matter_idl_c staticlib://p' crates.txt)
$(ARCHIVE): crates.txt $(shell find $(wildcard $(foreach crate,$(CRATES),crates/$(crate)/src crates/$(crate)/specs crates/$(crate)/proofs)))
	@command -v rt >/dev/null || { echo "$@ isn't there or is older than its sources, and rt, which makes it, isn't there; ARCHIVE=path takes an archive as it is" >&2; exit 1; }
	cd crates/matter_idl_c && rt lib
	mkdir -p $(@D)
	cp crates/matter_idl_c/out/libmatter_idl_c.a $@
endif
# As a word for the shell, and as a prerequisite.
archive = $(call quoted,$(ARCHIVE))
ARCHIVE_FILE = $(subst $(empty) ,\ ,$(ARCHIVE))

build:
	mkdir -p build

build/explain: $(wildcard explain/*.c explain/*.h) $(HEADER) $(ARCHIVE_FILE) | build
	$(COMPILE) -o $@ $(filter %.c,$^) $(archive)

build/clusters: examples/c/clusters.c $(HEADER) $(ARCHIVE_FILE) | build
	$(COMPILE) -o $@ $< $(archive)

# The archive's code, which is position independent (-z text); it exports the interface's names and no other.
build/$(SHARED): $(HEADER) $(ARCHIVE_FILE) | build
	echo '{ global: $(EXPORTS:=;) local: *; };' >build/exports
	$(CC) $(CFLAGS) $(LDFLAGS) -shared -Wl,-soname,$(SONAME) -Wl,-z,text,-z,defs -Wl,--version-script=build/exports -Wl,--whole-archive $(archive) -Wl,--no-whole-archive -o $@

build/$(SONAME): build/$(SHARED)
	ln -sf $(SHARED) $@

build/$(LINK): build/$(SONAME)
	ln -sf $(SONAME) $@

build/%: tests/c/%.c $(wildcard tests/c/*.h) $(HEADER) $(ARCHIVE_FILE) | build
	$(COMPILE) -D_DEFAULT_SOURCE -pthread -o $@ $< $(archive)

test: all $(TESTS:%=build/%)
	$(foreach test,$(TESTS),build/$(test) $(words_$(test)) && )true
	$(foreach script,$(SCRIPTS),tests/$(script) && )true

# Each measurement brings its own archive.
bench:
	for script in bench/*.sh; do echo "$$script" && "$$script" || exit 1; done

install: build/explain build/$(LINK)
	install -d $(to_bin) $(to_include) $(to_lib)/pkgconfig $(to_man)/man1
	install -m 755 build/explain $(to_bin)/matter-idl-explain
	install -m 644 $(HEADER) $(to_include)/matter_idl.h
	install -m 644 $(archive) $(to_lib)/libmatter_idl.a
	install -m 755 build/$(SHARED) $(to_lib)/$(SHARED)
	ln -sf $(SHARED) $(to_lib)/$(SONAME)
	ln -sf $(SONAME) $(to_lib)/$(LINK)
	$(call pc,$(call escaped,$(PREFIX)),$(call escaped,$(INCLUDEDIR)),$(call escaped,$(LIBDIR))) >$(to_lib)/pkgconfig/matter_idl.pc
	chmod 644 $(to_lib)/pkgconfig/matter_idl.pc
	install -m 644 explain/matter-idl-explain.1 $(to_man)/man1/matter-idl-explain.1

# Files only: a folder may hold what others put there.
uninstall:
	rm -f $(to_bin)/matter-idl-explain $(to_include)/matter_idl.h $(to_lib)/libmatter_idl.a $(to_lib)/$(SHARED) $(to_lib)/$(SONAME) $(to_lib)/$(LINK)
	rm -f $(to_lib)/pkgconfig/matter_idl.pc $(to_man)/man1/matter-idl-explain.1

# What is installed, as a folder that may be put anywhere, with papers and sums.
dist: build/explain build/$(LINK)
	rm -rf build/dist
	$(MAKE) install DESTDIR=build/dist/$(PACKAGE) PREFIX= BINDIR=/bin INCLUDEDIR=/include LIBDIR=/lib MANDIR=/share/man
	$(call pc,$${pcfiledir}/../..,$${prefix}/include,$${prefix}/lib) >build/dist/$(PACKAGE)/lib/pkgconfig/matter_idl.pc
	tools/dist $(PACKAGE) $(archive) $(call quoted,$(CC))

# The archive, in target/, stays, and what is proved, in crates/*/out/.
clean:
	rm -rf build

.PHONY: all test bench install uninstall dist clean
