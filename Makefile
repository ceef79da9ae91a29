# make run        the demonstration: the command lc3 on the programs of examples/
# make demo       the proved demonstration: a candidate's program beside the examiner's monitor
# make test       everything: formatting, the proofs with the wrong programs that must be refused, the host tests
# make lint       mypy and flake8 on our Python; setup.cfg says how
# make lib        build/libfanthrig.a and build/libfanthrig.so; the header is include/fanthrig/lc3.h
# make page       build/page/lc3.html, the LC-3 as one file for a browser; build/fanthrig.wasm, build/fanthrig.mjs
# make page-test  these against the reference, the native library and real browsers
# make page-rate  the page's figures: sizes, steps a second beside native, time to be ready and of a step, of page-test
# make install    library, header, fanthrig.pc, module, command, manual pages, page, examples, under DESTDIR and PREFIX
# make uninstall  takes away what `make install` put there
# make dist       a release in build/dist: source, binary archive, wheel, Debian packages, sums, provenance
# make bench      time against C: runs, lines of text, and object files
# make rate       time of the Python module and of the command beside that of lc3_run alone
# make soak       many more random runs against the reference simulator; SITTINGS=1000000 by both runs
# make mutants    alters the definitions one point at a time: would a wrong rule be noticed? (no part of make test)
# make release-test   a release, made twice, and installed without the kit: wheel, packages in a fresh Debian, archive

EXPORTS = lc3_machine lc3_step lc3_step_second lc3_logging lc3_telling lc3_long lc3_second lc3_words lc3_lines \
    lc3_objects lc3_monitor lc3_certify lc3_version
ARCHIVES = $(EXPORTS:%=build/archives/lib%.a)
PROGRESS = tools/progress
# The product's version. The shared library has the name by which hosts ask for it, which ends in the version of the
# header: that of the interface.
RELEASE := $(shell cat VERSION)
HEADER = fanthrig/lc3.h
INTERFACE := $(shell sed -n 's/^.define LC3_VERSION //p' include/$(HEADER))
SONAME := libfanthrig.so.$(INTERFACE)
CARGO = $(APART) cargo test --quiet --offline --release --manifest-path host/Cargo.toml --target-dir build/cargo

# Where things are installed. Debian's own Python is taken where it is there: the command runs by it.
PREFIX = /usr/local
DESTDIR =
LIBDIR = $(PREFIX)/lib
PYTHON = $(or $(wildcard /usr/bin/python3),python3)
IN = $(DESTDIR)$(PREFIX)
IN_LIB = $(DESTDIR)$(LIBDIR)
PACKAGE = $(DESTDIR)$(MODULES)/fanthrig
# The folder under PREFIX/lib in which this Python looks for modules by itself: on Debian 12 that is
# python3.11/dist-packages in /usr/local, and python3/dist-packages in /usr. Where it looks in none, the latter is
# taken: the command finds its module anyway.
MODULES = $(or $(shell $(PYTHON) -c 'import site, sys; lib = sys.argv[1].rstrip("/") + "/lib/"; \
    places = [*site.getsitepackages(), site.getusersitepackages()]; \
    print(next((p for p in places if p.startswith(lib)), lib + "python3/dist-packages"))' \
    "$(PREFIX)"),$(error $(PYTHON) does not run: name another by PYTHON=))
DOC = $(PREFIX)/share/doc/fanthrig
# Writes a path as it is from a folder, also where that ends in a slash or is the root.
FROM = $(PYTHON) -c 'import os, sys; print(os.path.relpath(*sys.argv[1:]))'
# What may be left empty of a staged tree, and goes as well then; folders of a system stay.
SHARED = share/man/man1 share/man/man5 share/doc share/bash-completion/completions
FOLDERS = "$(LIBDIR)/pkgconfig" "$(MODULES)" $(foreach part,$(dir include/$(HEADER)) bin $(SHARED),"$(PREFIX)/$(part)")
# Tells the system's loader of the library, unless the tree is only staged.
LOADER = @[ -n "$(DESTDIR)" ] || /sbin/ldconfig 2>/dev/null || \
    echo "Run ldconfig as root, so that programs find $(SONAME)."

.PHONY: run told demo test lib page page-test page-rate install uninstall dist release-test bench rate soak mutants
.PHONY: format lint clean host host-c host-counts host-rust host-python host-python-first host-python-second

run: told lib
	@examples/run.sh

told:
	@command -v python3 >/dev/null || { echo "The command needs python3, and none is found." >&2; exit 2; }
	@[ -e build/libfanthrig.so ] || echo "The library is proved and built first, once."

# `make test` compares what it prints with crates/demo/stdout. rt runs a program in its own folder, and its files are in
# data/: so it is run there once rt has built it, whatever came of that run.
demo:
	@$(KIT)
	@echo "The demonstration. It is proved before it runs: minutes the first time, then seconds."
	@$(PROGRESS) build/demo.log env -C crates/demo rt check
	@env -C crates/demo rt run </dev/null >build/demo.run.log 2>&1; \
	    [ -e crates/demo/out/demo.stamp ] || { cat build/demo.run.log >&2; exit 1; }
	@cd crates/demo/data && ../out/demo

# What `rt ci` passes it keeps, beside the kit: where a run on this computer has passed the same files, it runs the
# tests and programs alone. What it has proved is then compiled, and what hosts see is tested. These tests wait much for
# browsers, terminals and packages, and run four at a time. The verdict is repeated as the last line of all.
test:
	@echo "Everything: formatting, all proofs, wrong programs that must be refused, and the host tests."
	@tools/prerequisites
	@$(MAKE) --no-print-directory format lint
	@rm -f build/ci.log build/ci.passed
	@mkdir -p build && touch build/ci.began
	@TERM=dumb $(PROGRESS) build/ci.log rt ci
	@mv build/ci.began build/ci.passed
	@$(MAKE) --no-print-directory lib page
	@$(MAKE) --no-print-directory -j4 -O release-test page-test host
	@tail -n 1 build/ci.log

# The layout of crates is refused by `rt ci`, where it is not that of `rt fmt`.
format:
	python3 docs/check.py
	python3 tools/contracts.py
	python3 tools/way.py 9 14
	cargo fmt --all --check --manifest-path host/Cargo.toml

lint:
	mypy
	flake8 python docs examples tools page

# The host tests, in five parts: `make -j2 host` runs two at a time, the longest first. A part that calls make itself is
# not to ask for the jobs of this one.
APART = env -u MAKEFLAGS -u MFLAGS
host: host-python host-c host-counts host-rust

host-c: lib
	host/c/run.sh
	host/bench/symbols.sh lc3_run '*::run_steps' '*::run_accepted' '*::fast_steps'
	host/bench/symbols.sh lc3_run_logged '*::run_accepted'
	host/bench/symbols.sh lc3_run_long '*::run_long_steps' '*::run_cached' '*::read_word'
	host/bench/symbols.sh lc3_run_second '*::run_steps' '*::run_accepted'
	host/bench/symbols.sh lc3_step
	host/bench/symbols.sh lc3_step_second

host-counts: lib
	host/bench/count.sh

host-rust: lib
	$(CARGO) --workspace -- --nocapture
	$(subst cargo test,cargo run,$(CARGO)) --example log | diff host/examples/log.txt -
	$(APART) RUSTDOCFLAGS="-D warnings" \
	    cargo doc --workspace --quiet --no-deps --offline --manifest-path host/Cargo.toml --target-dir build/cargo

host-python: host-python-first host-python-second

host-python-first host-python-second: host-python-%: lib page
	cd python && $(APART) python3 -m tests.half $*

lib: build/libfanthrig.so

# The archives, and the crates that they rest on, each proved once.
KIT = command -v rt >/dev/null || { cat tools/no-kit.txt >&2; exit 2; }
build/proved: crates.txt $(shell find crates -name out -prune -o \( -name '*.rt' -o -name '*.antt' \) -print)
	@$(KIT)
	@$(PROGRESS) build/proved.log tools/archives.py $(EXPORTS)
	@touch $@

BITCODE = $(EXPORTS:%=build/wasm/%.bc)
$(ARCHIVES) $(BITCODE): build/proved ;

# The archives' objects under names of their own.
build/libfanthrig.a: build/proved
	rm -rf $@ build/objects
	@for name in $(EXPORTS); do \
	    mkdir -p build/objects/$$name && (cd build/objects/$$name && ar x ../../archives/lib$$name.a) && \
	    for o in build/objects/$$name/*.o; do mv $$o build/objects/$$name-$${o##*/} || exit; done || exit; \
	done
	ar rcs $@ build/objects/*.o

build/$(SONAME): build/libfanthrig.a
	gcc -shared -s -Wl,-soname,$(SONAME) -o $@ -Wl,--whole-archive $< -Wl,--no-whole-archive

build/libfanthrig.so: build/$(SONAME)
	ln -sf $(SONAME) $@

# For browsers and hosts in JavaScript: the LLVM modules that the archives are compiled from, compiled by the kit for
# WebAssembly.
page: build/page/lc3.html build/fanthrig.mjs

build/fanthrig.wasm: build/proved tools/wasm include/$(HEADER)
	@$(KIT)
	tools/wasm $@ $(BITCODE)

build/fanthrig.mjs: tools/page.py $(wildcard page/lib/*)
	python3 tools/page.py module $@

build/page/lc3.html: build/fanthrig.wasm tools/page.py VERSION $(wildcard page/lib/* page/ui/* page/*.* examples/*.obj)
	python3 tools/page.py page build/fanthrig.wasm $@

page-test: lib page
	page/tests/run.sh

page-rate: lib page
	page/tests/figures.sh

# `make -o lib -o page install` takes the library and the page as they stand.
install: lib page
	install -d "$(IN_LIB)/pkgconfig" "$(IN)/bin" "$(IN)/share/man/man1" "$(DESTDIR)$(DOC)/examples"
	install -m 644 build/libfanthrig.a build/$(SONAME) "$(IN_LIB)"
	ln -sf $(SONAME) "$(IN_LIB)/libfanthrig.so"
	install -D -m 644 include/$(HEADER) "$(IN)/include/$(HEADER)"
	sed -e 's|@PREFIX@|$(subst &,\&,$(PREFIX))|' -e 's|@VERSION@|$(RELEASE)|' \
	    -e 's|@LIBDIR@|$(subst &,\&,$(subst $(PREFIX)/,$${prefix}/,$(LIBDIR)))|' \
	    tools/fanthrig.pc.in | install -m 644 /dev/stdin "$(IN_LIB)/pkgconfig/fanthrig.pc"
	rm -rf "$(PACKAGE)"
	find python/fanthrig -type f ! -path '*/__pycache__/*' -printf '%P\n' | while read -r file; do \
	    install -D -m 644 "python/fanthrig/$$file" "$(PACKAGE)/$$file" || exit; done
	umask 022 && $(PYTHON) -m compileall -q -s "$(DESTDIR)" -p / "$(PACKAGE)"
	$(FROM) "$(LIBDIR)/$(SONAME)" "$(MODULES)/fanthrig" | \
	    install -m 644 /dev/stdin "$(PACKAGE)/libfanthrig.path"
	sed -e "s|@PYTHON@|$$($(PYTHON) -c 'import sys; print(sys.executable)')|" \
	    -e "s|@MODULES@|$$($(FROM) "$(MODULES)" "$(PREFIX)/")|" \
	    tools/lc3.in | install -m 755 /dev/stdin "$(IN)/bin/lc3"
	install -m 644 docs/lc3.1 docs/lc3-debug.1 "$(IN)/share/man/man1"
	install -D -m 644 docs/lc3-mark.5 "$(IN)/share/man/man5/lc3-mark.5"
	install -D -m 644 -t "$(IN)/share/fanthrig" build/page/lc3.html build/fanthrig.wasm build/fanthrig.mjs
	install -D -m 644 tools/completion.bash "$(IN)/share/bash-completion/completions/lc3"
	install -m 644 examples/*.lst examples/*.obj examples/*.keys "$(DESTDIR)$(DOC)/examples"
	$(LOADER)

uninstall:
	rm -f "$(IN_LIB)/libfanthrig.a" "$(IN_LIB)/$(SONAME)" "$(IN_LIB)/libfanthrig.so" "$(IN_LIB)/pkgconfig/fanthrig.pc" \
	    "$(IN)/include/$(HEADER)" "$(IN)/bin/lc3" "$(IN)/share/man/man1/lc3.1" \
	    "$(IN)/share/man/man1/lc3-debug.1" "$(IN)/share/man/man5/lc3-mark.5" \
	    "$(IN)/share/bash-completion/completions/lc3"
	rm -rf "$(PACKAGE)" "$(DESTDIR)$(DOC)" "$(IN)/share/fanthrig"
	@[ -z "$(DESTDIR)" ] || for folder in $(FOLDERS); do \
	    (cd "$(DESTDIR)" && rmdir -p --ignore-fail-on-non-empty ".$$folder") 2>/dev/null || true; done
	@rmdir "$(IN)/$(dir include/$(HEADER))" 2>/dev/null || true
	$(LOADER)

# `make -o lib -o page dist` takes the library and the page as they stand.
dist: lib page
	PYTHONPATH=tools python3 -m release

release-test: lib page
	$(APART) host/release/run.sh

bench: lib
	host/bench/run.sh
	host/bench/lines.sh
	host/bench/objects.sh

rate: lib
	cd python && python3 -m tests.rate
	cd python && python3 -m tests.rate_command
	cd python && python3 -m tests.rate_marking

SITTINGS = 1000000
soak: lib
	LC3_RUNS=20000000 $(CARGO) --test differential soak -- --ignored --nocapture
	LC3_RUNS=2000000 $(CARGO) --test long soak -- --ignored --nocapture
	LC3_RUNS=$(SITTINGS) $(CARGO) --test both_runs soak -- --ignored --nocapture

# It proves nothing and builds nothing: definitions, tables and theorems are computed by Python.
mutants:
	PYTHONPATH=tools python3 -m mutants

clean:
	rm -rf build crates/*/out .mypy_cache
