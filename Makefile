# make: prove and build bin/regcheck, bin/regsearch and bin/reglevel.
# make help: show these lines.
# make run: run regcheck on a shipped example, or on FILE=...
# make try: run an unproved build on it, with checks at run time; for a first look. PROGRAM=regsearch takes
#   repeated values and cas, and PROGRAM=reglevel says which weaker levels hold.
# make test: the gate: every proof, edits that must fail, tests, and scripts over the built programs.
# make edits: try the wrong bodies that `make test` leaves out, in an hour or more: after a change of a
#   contract or of a body that they edit.
# make costs: write the tables of what the programs spend, after a change that is meant to cost more or less.
# make fuzz: compare the program with the reference on spoiled histories for SECONDS=...
# make library: bin/libregcheck.a, bin/libregcheck.so and bin/regcheck.pc, to call the checkers from C and
#   other languages.
# make embed-test: compare the library with the programs from C, Python, Go and Rust, on COUNT=... histories;
#   under valgrind too; and run the tests of the packages for other languages.
# make bench-library: time small calls, and 2^20 events against the program with one worker.
# make picture-test: look at pages of `regkit draw` in a headless browser, and keep the screenshots in
#   SHOTS=...
# make bench: time it on generated histories, in three to fifteen minutes.
# make bench-compare: time it and an older build, OLD=..., in turn.
# make bench-search: compare regsearch with a depth-first search on generated histories, in some twenty
#   minutes or more; needs cargo.
# make bench-search-worst: run regsearch over histories that are made to be hard, and say where it takes more
#   time or memory than is promised.
# make bench-search-common: time regsearch beside regcheck, on a million events that repeat no value.
# make bench-levels: time reglevel beside regcheck, on a million events of histories that are hard for it.
# make install: all of the next two below PREFIX, within DESTDIR.
# make install-programs: the programs, man pages, documents, examples, completions, and the packages for
#   other languages.
# make install-library: the library.
# make dist: the release in dist/: a tarball, a Debian package, their bill of materials and their sums.
# make dist-library: a tarball of the library in dist/, with the packages for other languages.
# make wheel: regkit, the program and the library in one file in dist/, for pip.
# make dist ARCH=arm64, and so with the two others: the same for ARM64 Linux, beside those in dist/; it needs
#   Debian's gcc-aarch64-linux-gnu.
# make arm64-test: run the programs and the library for ARM64 as the gate runs those for x86-64; it needs
#   qemu-user-static.
# make stores: record real stores and check them, those whose servers are installed, with pages in STORES=...
#   REGCHECK=... names the program; without it, make builds one.
FILE ?= examples/new_old_inversion.jsonl
PROGRAM ?= regcheck
PREFIX ?= /usr/local
SECONDS ?= 600
SHOTS ?= /tmp/regkit-shots
STORES ?= /tmp/regkit-stores
COUNT ?= 10000
VERSION := $(shell cat VERSION)
# What a release is for: amd64 or arm64, as Debian calls them; how Linux does; and the tools for ARM64.
ARCH ?= amd64
LINUX := $(if $(filter arm64,$(ARCH)),aarch64,x86_64)
CROSS := aarch64-linux-gnu-
CROSS_CC := $(if $(filter arm64,$(ARCH)),$(CROSS)gcc,$(CC))
# The folders with the library and the programs of a release for it.
LIBRARY := $(if $(filter arm64,$(ARCH)),bin/arm64,bin)
STATIC := $(if $(filter arm64,$(ARCH)),bin/arm64,bin/static)
# The number behind .so is that of the interface.
SONAME := libregcheck.so.1
SOURCES := $(shell find crates -name out -prune -o -type f \( -name '*.rt' -o -name '*.antt' \) -print)
PYTHON := $(shell find python/regkit -name '*.py' -o -name '*.js')
# The packages for other languages, without what somebody built in their folders.
PACKAGES := $(shell find clojure go java javascript rust -name target -prune -o -type f \
	\( -name '*.clj' -o -name '*.go' -o -name '*.java' -o -name '*.cjs' -o -name '*.cts' -o -name '*.rs' \
	-o -name go.mod -o -name Cargo.toml -o -name pom.xml -o -name package.json -o -name deps.edn \
	-o -name README.md \) -print | sort)
PROGRAMS := regcheck regsearch reglevel
# The folder that has them; a release has those of bin/static.
BUILT := bin
DOCUMENTS = $(DESTDIR)$(PREFIX)/share/doc/regcheck
# What isn't only read, since a container's packages may come without documents.
SHARED = $(DESTDIR)$(PREFIX)/share/regcheck

.PHONY: all help run try test edits costs fuzz picture-test bench bench-compare bench-search \
	bench-search-worst bench-search-common bench-levels library embed-test bench-library install \
	install-programs install-library dist dist-library wheel arm64-test stores clean

all: $(PROGRAMS:%=bin/%)

help:
	@sed -n '/^#/!q; s/^# //p' Makefile

# The crates below a program are proved side by side. Then `rt run` proves the program's own, builds it and
# leaves it in out/; its stored input keeps it from waiting for ours. What they say goes to logs in bin/, and
# a line for each crate to standard error.
$(PROGRAMS:%=bin/%): bin/%: $(SOURCES) crates.txt
	packaging/prove_crates $*
	cd crates/$* && $(CURDIR)/packaging/prove $(CURDIR)/bin/$*.log rt run < stdin
	cp crates/$*/out/$* bin/$*

bin/history_generator: $(SOURCES) crates.txt
	cd crates/history_generator && \
		$(CURDIR)/packaging/prove $(CURDIR)/bin/history_generator.log rt run -- sequential
	cp crates/history_generator/out/history_generator bin/history_generator

library: $(LIBRARY)/libregcheck.a $(LIBRARY)/libregcheck.so $(LIBRARY)/regcheck.h bin/regcheck.pc

# The names of the library, which library/regcheck.map has too.
CALLS := regcheck_report regcheck_refusal regsearch_report regsearch_refusal reglevel_report

# What a release is made from, for either machine: the object of each program, and the archive of the
# library, which stands on no crate that no program stands on.
$(PROGRAMS:%=bin/amd64/%.o): bin/amd64/%.o: bin/% packaging/compile
	packaging/compile $* amd64 $@

$(PROGRAMS:%=bin/arm64/%.o): bin/arm64/%.o: bin/% packaging/compile
	packaging/compile $* arm64 $@

bin/amd64/libregcheck_c.a bin/arm64/libregcheck_c.a: bin/%/libregcheck_c.a: $(PROGRAMS:%=bin/%) \
		packaging/compile
	packaging/compile regcheck_c $* $@

# The archive leaves out the C part of the toolchain's allocator; here it is put in, and its names are hidden,
# so that nothing but the calls can clash with a name of the program that links it.
bin/libregcheck.a: bin/amd64/libregcheck_c.a
	ld -r $(CALLS:%=-u %) -o bin/libregcheck.o $^ "$$(dirname "$$(rt doc)")/c/liblibc_c.a"
	objcopy $(CALLS:%=--keep-global-symbol=%) bin/libregcheck.o
	rm -f $@
	ar rcsD $@ bin/libregcheck.o

bin/arm64/libregcheck.a: bin/arm64/libregcheck_c.a bin/arm64/heap.o
	$(CROSS)ld -r $(CALLS:%=-u %) -o bin/arm64/libregcheck.o $^
	$(CROSS)objcopy $(CALLS:%=--keep-global-symbol=%) bin/arm64/libregcheck.o
	rm -f $@
	$(CROSS)ar rcsD $@ bin/arm64/libregcheck.o

$(LIBRARY)/libregcheck.so: $(LIBRARY)/libregcheck.a library/regcheck.map
	$(CROSS_CC) -shared -o $(@D)/$(SONAME) -Wl,-soname,$(SONAME),--version-script=library/regcheck.map \
		-Wl,--no-undefined,-z,noexecstack,-z,now $(@D)/libregcheck.o
	ln -sf $(SONAME) $@

bin/arm64/heap.o bin/arm64/words.o: bin/arm64/%.o: packaging/arm64/%.c
	mkdir -p $(@D)
	$(CROSS)gcc -O2 -fPIC -Wall -Wextra -c $< -o $@

# The header stands beside the library, as in a release: what finds one finds both.
$(LIBRARY)/regcheck.h: library/regcheck.h $(LIBRARY)/libregcheck.a
	cp $< $@

bin/regcheck.pc: library/regcheck.pc.in VERSION
	mkdir -p bin
	sed 's|@VERSION@|$(VERSION)|' library/regcheck.pc.in > $@

embed-test: library $(PROGRAMS:%=bin/%) bin/history_generator
	tests/embed --count $(COUNT)
	tests/languages

bench-library: library bin/regcheck bin/reglevel bin/history_generator
	bench/library

run: bin/regcheck
	bin/regcheck < $(FILE); status=$$?; test $$status -le 1

try:
	@packaging/try_unproved $(PROGRAM) $(FILE); status=$$?; test $$status -le 1

# tests/gate says what it runs, and at its end how long each part took.
test:
	tests/gate

# Over what `make` or `make test` left: what isn't proved yet is proved in the copy first.
edits:
	tests/check_edits
	tests/try_edits

costs: $(PROGRAMS:%=bin/%)
	for program in $^; do tests/costs $$program --write || exit 1; done

fuzz: bin/regcheck bin/history_generator
	tests/spoiled_bytes bin/regcheck --seconds $(SECONDS)

picture-test: bin/regcheck bin/history_generator
	tests/picture_test $(SHOTS)

bench: bin/regcheck bin/history_generator
	bench/run

bench-compare: bin/regcheck bin/history_generator
	bench/compare $(OLD)

bench-search: bin/regsearch
	bench/search

bench-search-worst: bin/regsearch
	bench/search_worst

bench-search-common: bin/regsearch bin/regcheck bin/history_generator
	bench/search_common

bench-levels: bin/reglevel bin/regcheck
	bench/levels

bin/regkit: $(PYTHON) python/make_archive
	mkdir -p bin
	python3 python/make_archive bin/regkit

bin/completions: $(PROGRAMS:%=bin/%) $(PYTHON) packaging/make_completions packaging/command_lines.py
	packaging/make_completions $(PROGRAMS:%=bin/%) $@
	touch $@

install: install-programs install-library

# Everything that a release has is installed here, so that make dist has it too.
install-programs: $(PROGRAMS:%=bin/%) bin/regkit bin/completions
	install -D -m 755 -t $(DESTDIR)$(PREFIX)/bin $(PROGRAMS:%=$(BUILT)/%)
	install -D -m 755 bin/regkit $(DESTDIR)$(PREFIX)/bin/regkit
	install -D -m 644 -t $(DESTDIR)$(PREFIX)/share/man/man1 docs/*.1
	install -D -m 644 -t $(DESTDIR)$(PREFIX)/share/bash-completion/completions bin/completions/bash/*
	install -D -m 644 -t $(DESTDIR)$(PREFIX)/share/zsh/site-functions bin/completions/zsh/*
	install -D -m 644 -t $(DESTDIR)$(PREFIX)/share/fish/vendor_completions.d bin/completions/fish/*
	install -D -m 644 -t $(DOCUMENTS) README.md CHANGELOG.md
	install -D -m 644 -t $(DOCUMENTS)/docs docs/*.md
	install -D -m 644 -t $(DOCUMENTS)/docs/stores docs/stores/*
	install -D -m 644 -t $(DOCUMENTS)/examples examples/README.md \
		examples/*.jsonl examples/*.report examples/*.refusal
	for folder in search levels; do \
	    install -D -m 644 -t $(DOCUMENTS)/examples/$$folder \
	        examples/$$folder/*.jsonl examples/$$folder/*.report || exit 1; \
	done
	install -D -m 755 -t $(DOCUMENTS)/examples examples/recorder.py
	install -D -m 644 -t $(DOCUMENTS)/examples/tutorial examples/tutorial/*.py
	install -D -m 644 -t $(DOCUMENTS)/examples/stores examples/stores/harness.py
	install -D -m 755 -t $(DOCUMENTS)/examples/stores \
		$(addprefix examples/stores/,redis.py postgresql.py etcd.py)
	install -D -m 755 -t $(SHARED)/engines engines/*
	for file in $(PACKAGES); do install -D -m 644 $$file $(SHARED)/$$file || exit 1; done
	for folder in engines $(sort $(foreach file,$(PACKAGES),$(firstword $(subst /, ,$(file))))); do \
	    rm -rf $(DOCUMENTS)/$$folder; ln -s ../../regcheck/$$folder $(DOCUMENTS)/$$folder || exit 1; \
	done

install-library: library
	install -D -m 644 -t $(DESTDIR)$(PREFIX)/include library/regcheck.h
	install -D -m 644 -t $(DESTDIR)$(PREFIX)/lib $(LIBRARY)/libregcheck.a
	install -D -m 755 -t $(DESTDIR)$(PREFIX)/lib $(LIBRARY)/$(SONAME)
	ln -sf $(SONAME) $(DESTDIR)$(PREFIX)/lib/libregcheck.so
	install -D -m 644 -t $(DESTDIR)$(PREFIX)/lib/pkgconfig bin/regcheck.pc

$(PROGRAMS:%=bin/static/%): bin/static/%: bin/amd64/%.o packaging/link_static
	packaging/link_static $< $@

$(PROGRAMS:%=bin/arm64/%): %: %.o bin/arm64/heap.o bin/arm64/words.o packaging/link_static
	CC=$(CROSS)gcc STRIP=$(CROSS)strip packaging/link_static $< $@ "bin/arm64/heap.o bin/arm64/words.o"

dist: $(PROGRAMS:%=$(STATIC)/%)
	rm -rf bin/tree $(if $(filter arm64,$(ARCH)),,dist)
	$(MAKE) --no-print-directory -s install-programs DESTDIR=bin/tree PREFIX= BUILT=$(STATIC)
	CC=$(CROSS_CC) packaging/make_dist bin/tree dist

LIBRARY_TREE := bin/library/libregcheck-$(VERSION)-$(LINUX)-linux

dist-library:
	rm -rf bin/library
	$(MAKE) --no-print-directory -s install-library DESTDIR=$(LIBRARY_TREE) PREFIX=
	cp --parents $(PACKAGES) docs/embedding.md docs/format.md docs/levels.md $(LIBRARY_TREE)
	ln $(LIBRARY_TREE)/include/regcheck.h $(LIBRARY_TREE)/lib/libregcheck.a $(LIBRARY_TREE)/go/regcheck
	CC=$(CROSS_CC) packaging/make_bill $(LIBRARY)/libregcheck.a $(LIBRARY)/$(SONAME) \
		> $(LIBRARY_TREE)/libregcheck.spdx.json
	mkdir -p dist
	tar --sort=name --owner=root --group=root --mode=u+rw,go=rX -C bin/library -c . \
		--mtime=@$$(PYTHONPATH=packaging python3 -c 'from release import epoch; print(epoch())') \
		| gzip -9n > dist/$(notdir $(LIBRARY_TREE)).tar.gz
	packaging/write_sums dist

wheel: $(PROGRAMS:%=$(STATIC)/%) $(LIBRARY)/libregcheck.so
	CC=$(CROSS_CC) packaging/make_bill $(PROGRAMS:%=$(STATIC)/%) $(LIBRARY)/$(SONAME) > bin/regkit.spdx.json
	packaging/make_wheel $(PROGRAMS:%=$(STATIC)/%) $(LIBRARY)/$(SONAME) bin/regkit.spdx.json dist
	packaging/write_sums dist

arm64-test: $(PROGRAMS:%=bin/%) $(PROGRAMS:%=bin/arm64/%) bin/arm64/libregcheck.a
	tests/arm64

# Status 5 is that of a store whose server isn't here.
stores: $(if $(REGCHECK),,bin/regcheck) $(if $(REGLEVEL),,bin/reglevel)
	@right=0; for store in redis postgresql etcd; do \
	    examples/stores/$$store.py $(STORES); status=$$?; test $$status = 0 -o $$status = 5 || right=1; \
	done; exit $$right

clean:
	rm -rf bin dist crates/*/out python/build python/*.egg-info
