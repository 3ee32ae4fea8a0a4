# The two commands of README, the libraries and their installation, the longer trials of kills and of crashes, the notebook, the
# benchmark.
.PHONY: run test kill crash library python install notebook bench clean

# The main job: prove, build, and run the program on the names of NAMES, one a line. What `rt` says of it goes to stderr.
NAMES ?= crates/overview/stdin
run:
	@cd crates/overview && rt run --cpu x86-64 < $(abspath $(NAMES))

# All proofs, the layout of every file, all tests.
test:
	@scripts/test

# Processes killed over a file on disk, the library's and then the Python package's, for so many seconds each.
SECONDS ?= 60
kill: python
	@cd tests && PALHAVENTO_SECONDS=$(SECONDS) cargo test --release --offline --test killed -- --nocapture

# So many crash states of a disk in memory, over which the Python package runs.
STATES ?= 100000
crash: python
	@python3 python/tests/crash.py $(STATES)

# The static library for C, Rust and whoever links it, in target/staticlib. Every crate is checked for it.
library:
	@scripts/archive

# The same as a shared library, in the Python package, and the package's extensions, where Python's headers are.
python: library
	@gcc -shared -Wl,--whole-archive target/staticlib/libcapi.a -Wl,--no-whole-archive -o python/palhavento/libpalhavento.so
	@python3 python/packing.py

# The header, both libraries under the project's own name, and what pkg-config tells of them. Who packs a package gives DESTDIR,
# which stands before every place.
PREFIX ?= /usr/local
ARCHIVE = target/staticlib/libcapi.a
VERSION = $(shell sed -n 's/^\#define PALHAVENTO_VERSION_[A-Z]* //p' include/palhavento.h | paste -sd.)
SONAME = libpalhavento.so.$(firstword $(subst ., ,$(VERSION)))
install: library
	@install -d "$(DESTDIR)$(PREFIX)/include" "$(DESTDIR)$(PREFIX)/lib/pkgconfig"
	@install -m 644 include/palhavento.h "$(DESTDIR)$(PREFIX)/include"
	@install -m 644 $(ARCHIVE) "$(DESTDIR)$(PREFIX)/lib/libpalhavento.a"
	@gcc -shared -Wl,-soname,$(SONAME) -Wl,--whole-archive $(ARCHIVE) -Wl,--no-whole-archive \
		-o "$(DESTDIR)$(PREFIX)/lib/libpalhavento.so.$(VERSION)"
	@ln -sf libpalhavento.so.$(VERSION) "$(DESTDIR)$(PREFIX)/lib/$(SONAME)"
	@ln -sf $(SONAME) "$(DESTDIR)$(PREFIX)/lib/libpalhavento.so"
	@sed 's|@PREFIX@|$(PREFIX)|; s|@VERSION@|$(VERSION)|' include/palhavento.pc.in \
		> "$(DESTDIR)$(PREFIX)/lib/pkgconfig/palhavento.pc"

# The example's notebook, run by the real Jupyter, whose Debian packages this installs, and rendered to build/vintages.html.
notebook:
	@examples/render.sh

# The benchmark. BEFORE is an earlier commit to compare with; its library is built once, proved, and kept in build/before. A commit
# that an older Rattle proved cannot be built any more: for one of those, BEFORE names a library's file.
bench: library
	@BEFORE="$(BEFORE)" ROUNDS="$(ROUNDS)" VERSIONS="$(VERSIONS)" bench/run.sh

clean:
	rm -rf target build crates/*/out python/palhavento/libpalhavento.so python/palhavento/*.abi3.so
