# The commands of the repository. `rt` is Rattle's; cargo, C and C++ compilers, valgrind and pkg-config serve the tests,
# and cargo the benchmarks.
ARCHIVE = target/staticlib/libfloelinnet.a
PROGRAM = target/bin/print_table
SHELL = /bin/bash
.SHELLFLAGS = -euo pipefail -c
RUN =
CARGO = cargo

# The archive and the programs of rt are x86-64 code. On an Arm machine all that uses the archive is compiled for x86-64
# too, by Debian's compilers, and run by its emulator. cargo and the tests (tests/src/tools.rs) take both from the
# environment. Without G_SLICE a child that a program with threads starts can hang in this emulator (QEMU's issue 285).
ifeq ($(shell uname -m),aarch64)
RUN = qemu-x86_64
CC = x86_64-linux-gnu-gcc
CARGO = /usr/bin/cargo
export RUSTC = /usr/bin/rustc
export RUSTDOC = /usr/bin/rustdoc
export CARGO_BUILD_TARGET = x86_64-unknown-linux-gnu
export CARGO_TARGET_X86_64_UNKNOWN_LINUX_GNU_LINKER = $(CC)
export CARGO_TARGET_X86_64_UNKNOWN_LINUX_GNU_RUNNER = $(RUN)
export FLOELINNET_GCC = $(CC)
export FLOELINNET_GXX = x86_64-linux-gnu-g++
export FLOELINNET_CLANG = clang --target=x86_64-linux-gnu
export FLOELINNET_CLANGXX = clang++ --target=x86_64-linux-gnu
export FLOELINNET_RUN = $(RUN)
export G_SLICE = always-malloc
endif

# A crate, a command of rt in its folder, the file below target/ to which the command's lines go, what it makes in the
# crate's out/, and the copy of that below target/. Where there is no copy yet, one line says what is going on; where the
# command fails, its last lines are shown and the file is named. A copy that is the same stays: cargo builds nothing anew.
define copied
mkdir -p target $(dir $(5))
test -e $(5) || echo '`$(2)` in crates/$(1), some minutes from nothing, log in $(3)' >&2
(cd crates/$(1) && $(2)) > $(3) 2>&1 || { tail -n 20 $(3); echo '`$(2)` failed: the whole log is $(3)'; exit 1; } >&2
cmp -s crates/$(1)/out/$(4) $(5) || cp crates/$(1)/out/$(4) $(5)
endef

# The table of a limits file.
.PHONY: table limits-named
table: limits-named $(PROGRAM)
	@$(RUN) $(PROGRAM) < '$(LIMITS)'

limits-named:
	@test -n '$(LIMITS)' || { echo 'which limits? As in: make table LIMITS=sets/any-hit-1-of-2.limits' >&2; exit 1; }
	@test -f '$(LIMITS)' || { echo 'there is no file $(LIMITS)' >&2; exit 1; }

# The archive for C, which runs on every x86-64 processor: rt's own choice would leave out old ones, and nothing in an
# archive checks that. And the printing program, which is run once as it is built. rt sees itself what is proved already.
.PHONY: $(ARCHIVE) $(PROGRAM)
$(ARCHIVE):
	@$(call copied,floelinnet_c,rt lib --cpu x86-64,target/staticlib.log,libfloelinnet_c.a,$@)
$(PROGRAM):
	@$(call copied,print_table,rt run --cpu x86-64 < /dev/null,target/print_table.log,print_table,$@)

# Everything that must pass. rt ci comes first: it proves every crate, tries the must-fail edits and runs the programs. It
# passes even where edits are bad, which says that they were not tried: here there may be none. The tests from outside then
# use the archive and the program. The last line of rt ci is said again at the end, where nothing has failed.
.PHONY: test
test:
	@log=$$(mktemp); trap 'rm -f $$log' EXIT; \
	rt ci | tee $$log; \
	if grep -q '^rt: ok;.*, [1-9][0-9]* bad' $$log; then echo 'must-fail edits are bad: see BAD EDIT above'; exit 1; fi; \
	$(MAKE) --no-print-directory outside; \
	tail -n 1 $$log

# The tests from outside alone: the archive from C, C++ and Rust, and the printing program.
.PHONY: outside
outside: dist-links table-prints
	$(CARGO) test --release --offline --quiet
	$(CARGO) run --release --offline --quiet --example recorder | diff - examples/recorder.expected
	$(CARGO) run --release --offline --quiet --example visit sets/breath.limits logs/*.log | diff - examples/visit.expected

# What C and C++ programs are built with, in a folder that can be moved elsewhere.
.PHONY: dist
dist: $(ARCHIVE)
	@install -D -m 644 $(ARCHIVE) dist/lib/libfloelinnet.a
	@install -D -m 644 include/floelinnet.h dist/include/floelinnet.h
	@install -D -m 644 floelinnet.pc dist/lib/pkgconfig/floelinnet.pc
	@echo 'dist/ has the archive, the header and a file for pkg-config'

# README's ways in: the examples in C, and the first command, which prints its three lines and no other.
.PHONY: dist-links table-prints
dist-links: dist
	$(CC) examples/operation.c $$(PKG_CONFIG_PATH=dist/lib/pkgconfig pkg-config --cflags --libs floelinnet) -o target/operation
	$(RUN) target/operation | diff - examples/operation.expected
	$(CC) examples/recorder.c $$(PKG_CONFIG_PATH=dist/lib/pkgconfig pkg-config --cflags --libs floelinnet) -o target/recorder
	$(RUN) target/recorder | diff - examples/recorder.expected
	$(CC) examples/visit.c $$(PKG_CONFIG_PATH=dist/lib/pkgconfig pkg-config --cflags --libs floelinnet) -o target/visit
	$(RUN) target/visit sets/breath.limits logs/*.log | diff - examples/visit.expected

table-prints:
	$(MAKE) --no-print-directory table LIMITS=sets/any-hit-1-of-2.limits | diff - <(printf '%s\n' 'states 2' '0 1 0' '1 - 0')

.PHONY: bench
bench: $(ARCHIVE)
	$(CARGO) run --release --offline --quiet --package floelinnet-bench
