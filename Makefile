# make plan             proves and builds bin/onfi_sim, and plans one read with it; KEEP=yes also keeps each proof in crates/*/out, 12 GB,
#                       so that after a change rt check proves what changed; it takes a third more
# make try              builds bin/onfi_sim-unproved in two minutes, and runs it: SCRIPT=FILE is its input, WORDS=".." its command
#                       line; else it plans the same
# make try-library      builds lib/unproved/libonfi.a and libonfi.so in a minute, which those of make library replace without a change
# make try-test         builds these and the tests unproved, and plays all cases, worked rows, tests, examples and messages, in ten
#                       minutes on four processors; make test proves
# make library          proves and builds lib/libonfi.a and lib/libonfi.so, for C and for Python
#                       TARGET=aarch64: those for 64-bit Arm in lib/aarch64, libonfi.so where Debian's gcc-aarch64-linux-gnu is installed;
#                       the same of make wheel, make install and the next three, below /usr/local/aarch64-linux-gnu where no PREFIX is named
# make wheel            the same library in a wheel for pip, dist/onfi-VERSION-py3-none-PLATFORM.whl
# make install          puts the program with its manual page, the libraries with their header and a pkg-config file, and the pages,
#                       below PREFIX, /usr/local where none is named; LIBDIR, PREFIX/lib where none is named, is where libraries go;
#                       DESTDIR=DIR puts a package together in DIR
# make install-program  the program with its manual page alone
# make install-library  the libraries with their header alone
# make uninstall        removes from PREFIX and LIBDIR what these put there, and shared libraries of other versions
# make object TARGET=P  the library for riscv64, riscv32, armv7, thumbv7em (Cortex-M7), cortex-m33, cortex-r5 or cortex-r8 as
#                       lib/P/libonfi.a: tried, and not proved for
# make test             the whole gate: every proof, test, case and wrong body
# make wrong-bodies     those of all crates; tools/wrong-bodies CRATE tries those of one
# make clean            removes what was built, and keeps what was proved; make clean-proofs removes that too
# make help             prints this

# The crates that a line of crates.txt says a crate stands on.
below = $(filter onfi_%,$(shell sed -n 's/^$(1)\( [^:]*\)\{0,1\}://p' crates.txt))
proved = $(patsubst %,crates/%/out/proved,$(1))
sources_of = $(shell find $(wildcard crates/$(1)/src crates/$(1)/specs crates/$(1)/proofs) -type f)
# What the library for C stands on, and what the program does: all of that but the calls over plain structs.
LIBRARIES := $(sort $(foreach crate,$(call below,onfi_c),$(call below,$(crate)) $(crate)))
PROGRAM := $(sort $(filter-out onfi_calls,$(LIBRARIES)) $(foreach crate,$(call below,onfi_program),$(foreach lower,$(call below,$(crate)) $(crate),$(call below,$(lower)) $(lower))))

# What is built is for x86-64, or for the processor that TARGET names, and stands in folders of its name then.
ifneq ($(filter library wheel install install-library install-program,$(MAKECMDGOALS)),)
$(if $(filter-out aarch64,$(TARGET)),$(error nothing is proved and built for TARGET=$(TARGET): it is aarch64, or left out for x86-64))
endif
below_target := $(TARGET:%=/%)
lib := lib$(below_target)
sim := bin$(below_target)/onfi_sim
dist := dist$(below_target)

# As many crates at a time as there are processors, up to four; a proof takes one to four gigabytes of memory.
LANES ?= $(shell n=$$(nproc); echo $$((n < 4 ? n : 4)))
# A further job of one proof loads the libraries once more: it pays where few stand below.
JOBS ?= 2
jobs_of = $(if $(word 9,$(call below,$(1))),1,$(JOBS))

# Stands in the recipes that call the kit, so that make ends by this line as it comes to one of them, before anything of it is run.
kit = $(if $(shell command -v rt),,$(error no Rattle kit in PATH, see README))

.PHONY: plan try try-library try-test test library wheel install install-program install-library uninstall wrong-bodies clean clean-proofs help

plan:
	@$(if $(wildcard bin/onfi_sim),,$(kit))$(MAKE) --no-print-directory -j$(LANES) TARGET= bin/onfi_sim
	bin/onfi_sim plan < examples/one-read.onfi

# A library is proved once those that it stands on are. KEEP=yes keeps its proofs too, for who changes a crate.
KEEP ?=
define library
crates/$(1)/out/proved: $(call proved,$(call below,$(1))) $(call sources_of,$(1))
	@$$(kit)echo "proving $(1)"
	@tools/prove library $(1) --jobs $(call jobs_of,$(1)) $(if $(KEEP),--keep)
	@touch $$@
endef
$(foreach crate,$(sort $(LIBRARIES) $(PROGRAM)),$(eval $(call library,$(crate))))

$(sim): $(call proved,$(PROGRAM)) $(call sources_of,onfi_program) crates.txt $(if $(TARGET),$(wildcard targets/*.c))
	@$(kit)echo "proving onfi_program$(TARGET:%= for %)"
	@tools/prove program onfi_program $(TARGET:%=--target %)
	@mkdir -p $(@D)
	@cp crates/onfi_program/out$(below_target)/onfi_program $@

# What the library asks of the kit in C: its calls of malloc, realloc and free. The kit has them for x86-64 alone.
KIT := $(shell dirname $$(dirname $$(readlink -f $$(command -v rt || echo rt))))
heap := $(if $(TARGET),targets/heap.c,$(KIT)/c/liblibc_c.a)

library:
	@$(kit)$(MAKE) --no-print-directory -j$(LANES) TARGET=$(TARGET) $(lib)/libonfi.a $(lib)/libonfi.so

$(lib)/libonfi.a: $(call proved,$(LIBRARIES)) $(call sources_of,onfi_c) crates.txt $(if $(TARGET),$(heap))
	@$(kit)echo "proving onfi_c$(TARGET:%= for %)"
	@tools/prove static onfi_c $(TARGET:%=--target %)
	@tools/make-library archive crates/onfi_c/out$(below_target)/libonfi_c.a $(heap) $(lib) $(TARGET)

$(lib)/libonfi.so: $(lib)/libonfi.a
	@tools/make-library shared $(lib) $(TARGET)

wheel: library
	@rm -f $(dist)/*.whl
	@tools/make-wheel $(lib)/libonfi.so $(dist)

PREFIX ?= /usr/local$(TARGET:%=/%-linux-gnu)
export PREFIX LIBDIR DESTDIR TARGET

# A PREFIX or LIBDIR that tools/install wouldn't take is refused before anything is built for it.
ifneq ($(filter install install-program install-library uninstall,$(MAKECMDGOALS)),)
wrong_prefix := $(shell PREFIX='$(subst ','\'',$(PREFIX))' LIBDIR='$(subst ','\'',$(LIBDIR))' tools/install check 2>&1)
$(if $(wrong_prefix),$(error $(wrong_prefix)))
endif

install: install-program install-library

install-program: $(sim)
	@tools/install program $(sim)

install-library: library
	@tools/install library $(lib)

uninstall:
	@tools/install remove

# The program before any proof; its words and its input.
WORDS ?= plan
SCRIPT ?= examples/one-read.onfi

sources = $(shell find $(patsubst %,crates/%/src,$(1)) -type f)
bin/onfi_sim-unproved: crates.txt $(call sources,$(PROGRAM) onfi_program)
	@$(kit)echo "building onfi_sim unproved"
	@tools/try-program $@

bin/onfi_trials-unproved bin/onfi_row_tests-unproved: bin/%-unproved: crates.txt $(call sources,*)
	@$(kit)echo "building $* unproved"
	@tools/try-program $@ $*

bin/%.tests: crates.txt $(call sources,*)
	@$(kit)echo "building the tests of $* unproved"
	@tools/try-program $@ $* --test

lib/unproved/libonfi.a: crates.txt include/onfi.h $(call sources,$(LIBRARIES) onfi_c)
	@$(kit)echo "building the library unproved"
	@tools/try-library $(@D)

try: bin/onfi_sim-unproved
	@echo "unproved: this run says nothing of the proofs"
	bin/onfi_sim-unproved $(WORDS) < "$(SCRIPT)"

try-library: lib/unproved/libonfi.a

try-test:
	@$(kit)tools/try-test --jobs $(LANES)

# For processors that the kit doesn't compile for: of the module that it compiles for x86-64.
.PHONY: object
object:
	@$(kit)$(MAKE) --no-print-directory -j$(LANES) TARGET= lib/libonfi.a
	@tools/keep-module onfi_c crates/onfi_c/out/kept
	@tools/retarget crates/onfi_c/out/kept/module.bc $(or $(TARGET),$(error make object asks for TARGET=riscv64, riscv32, armv7, thumbv7em, cortex-m33, cortex-r5 or cortex-r8)) lib/$(TARGET)

test:
	$(kit)tools/gate

wrong-bodies:
	$(kit)tools/wrong-bodies

clean:
	rm -rf bin lib dist

clean-proofs: clean
	rm -rf crates/*/out

help:
	@sed -n '/^$$/q; s/^# //p' Makefile
