# make sample      the sheet of the sample file
# make tools       the command line program, target/host/szelmikra
# make check-host  vectors, archive against plain, command line, what igsheet prints, the list of what has to be believed
# make test        the gate: `rt ci` proves every crate, has every must-fail edit refused and compares every program's output; then all of that
# make install     header, archive, program, pkg-config and CMake files under PREFIX
# make check-install  installs to a temporary folder and builds the example there with pkg-config and CMake
# make bench       times; make stack: stack depth; make example: the C++ example on the sample file
VERSION = 0.1.0
PREFIX ?= /usr/local
SHELL = /bin/bash
.SHELLFLAGS = -eu -o pipefail -c
ARCHIVE ?= target/staticlib/libszelmikra.a
OUT = target/host
CXXFLAGS ?= -O2 -Wall -Wextra -Wpedantic -Wconversion

# The C++ side is compiled while the library is proved, and its tests run side by side.
ifeq ($(MAKELEVEL),0)
MAKEFLAGS += -j2
endif

include host/host.mk

.PHONY: test fmt lib tools sample check-host check-vectors check-random check-large check-cli check-printed check-believed check-install bench stack example install
.DELETE_ON_ERROR:
.DEFAULT_GOAL = tools

TOOL = $(OUT)/szelmikra.o $(patsubst host/%.cpp,$(OUT)/%.o,$(wildcard host/tool/*.cpp))
PLAIN = $(patsubst host/%.cpp,$(OUT)/%.o,$(wildcard host/plain/*.cpp))
TESTS = $(OUT)/tests

tools: $(OUT)/szelmikra

sample: tools
	@$(HOST_RUN) $(OUT)/szelmikra sheet samples/chair.igs

lib: target/staticlib/libszelmikra.a

# What is proved. A crate's out/ is rt's own.
PROVED := crates.txt $(shell find crates -name out -prune -o \( -name '*.rt' -o -name '*.antt' \) -print)

# What the prover prints is kept aside; it is shown if it refuses. What is proved already is not proved again.
target/staticlib/libszelmikra.a: $(PROVED)
	@mkdir -p $(@D)
	@echo 'proving the library, which takes some minutes; target/szelmikra.log tells how far it is' >&2
	@(cd crates/szelmikra_c && rt lib) >target/szelmikra.log 2>&1 || { cat target/szelmikra.log; exit 1; }
	@cp crates/szelmikra_c/out/libszelmikra_c.a $@

$(OUT)/%.o: host/%.cpp host/host.mk Makefile | toolchain
	@mkdir -p $(@D)
	@$(HOST_CXX) -std=c++17 $(CXXFLAGS) -Iinclude -DSZELMIKRA_VERSION='"$(VERSION)"' -MMD -MP -c $< -o $@

$(OUT)/szelmikra: $(TOOL)
$(OUT)/bench: $(OUT)/bench.o $(TESTS)/large.o $(PLAIN)
$(TESTS)/vectors: $(TESTS)/vectors.o $(TESTS)/harness.o $(PLAIN)
MAKERS = $(TESTS)/random_files.o $(TESTS)/soup.o $(TESTS)/damage.o $(TESTS)/large.o
$(TESTS)/differential: $(TESTS)/differential.o $(TESTS)/harness.o $(MAKERS) $(PLAIN)
$(TESTS)/stack: $(TESTS)/stack.o $(TESTS)/large.o $(PLAIN)
PROGRAMS = $(OUT)/szelmikra $(OUT)/bench $(TESTS)/vectors $(TESTS)/differential $(TESTS)/stack
$(PROGRAMS): $(ARCHIVE) | $(CROSS_LIBM)
	@$(HOST_CXX) $(CXXFLAGS) -pthread $(HOST_LINK) -o $@ $(filter %.o,$^) $(ARCHIVE)

check-host: check-large check-random check-vectors check-cli check-printed check-believed

check-vectors: $(TESTS)/vectors
	@$(HOST_RUN) $< crates/vectors/stdin

check-random: $(TESTS)/differential
	@$(HOST_RUN) $<

check-large: $(TESTS)/differential
	@$(HOST_RUN) $< --large

check-cli: $(OUT)/szelmikra
	@host/tests/cli.sh $(HOST_RUN) $<

# `rt ci` leaves it there. The archive first: what both lean on is proved once.
IGSHEET = crates/igsheet/out/igsheet
$(IGSHEET): $(PROVED) | $(ARCHIVE)
	@(cd crates/igsheet && rt run <stdin) >target/igsheet.log 2>&1 || { cat target/igsheet.log; exit 1; }
	@touch $@

check-printed: $(IGSHEET) | toolchain
	@host/tests/printed.sh $(HOST_RUN) $<

check-believed:
	@host/tests/believed.sh

check-install: tools
	@host/tests/install.sh "$(HOST_CXX)" "$(HOST_RUN)" $(MAKE) -s ARCHIVE=$(ARCHIVE)

bench: $(OUT)/bench
	@$(HOST_RUN) $<

stack: $(TESTS)/stack
	@$(HOST_RUN) $<

example: $(ARCHIVE) | toolchain $(CROSS_LIBM)
	@mkdir -p $(OUT)
	@$(HOST_CXX) -std=c++17 $(CXXFLAGS) $(HOST_LINK) -Iinclude -o $(OUT)/example host/example/example.cpp $(ARCHIVE)
	@$(HOST_RUN) $(OUT)/example samples/chair.igs

TO = $(DESTDIR)$(PREFIX)
install: tools
	@install -d $(TO)/bin $(TO)/include $(TO)/lib/pkgconfig $(TO)/lib/cmake/szelmikra
	@install -m 755 $(OUT)/szelmikra $(TO)/bin/
	@install -m 644 include/szelmikra.h $(TO)/include/
	@install -m 644 $(ARCHIVE) $(TO)/lib/libszelmikra.a
	@install -m 644 host/package/szelmikraConfig.cmake $(TO)/lib/cmake/szelmikra/
	@sed 's/@VERSION@/$(VERSION)/' host/package/szelmikraConfigVersion.cmake.in >$(TO)/lib/cmake/szelmikra/szelmikraConfigVersion.cmake
	@sed 's/@VERSION@/$(VERSION)/' host/package/szelmikra.pc.in >$(TO)/lib/pkgconfig/szelmikra.pc

-include $(shell find $(OUT) -name '*.d' 2>/dev/null)

fmt:
	@for crate in crates/*; do (cd $$crate && rt fmt); done

# The archive is made of what was just proved. A must-fail edit that can't be tried fails nothing in `rt ci`, and does here. The verdict stands
# last, and only if all went well.
test:
	@log=$$(mktemp); trap 'rm -f "$$log"' EXIT; rt ci 2>&1 | tee "$$log"; \
	    if grep -Eq '^rt: ok.*, [0-9]+ bad' "$$log"; then echo 'make test: some must-fail edits are bad' >&2; exit 1; fi; \
	    $(MAKE) -s check-host; tail -n 1 "$$log"
