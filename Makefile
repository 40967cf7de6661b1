# Builds, checks and installs the libraries for C, their header, and the programs utf8_repair and utf8_check.
#
#   make                        Proves and builds build/libencoding_text.a, the shared library, build/utf8_repair and
#                               build/utf8_check.
#                               Each library holds a build for x86-64-v2 and one for x86-64-v3 (with AVX2), and selects
#                               one at load time. The toolchain's output is in build/logs. Then builds the same for 64-bit
#                               ARM in build/aarch64, with the tools aarch64-linux-gnu-gcc and so on, if they are there;
#                               CROSS names others by what their names begin with. With CI=true they have to be there.
#   make CPU=x86-64-v3          Builds only for these processors; likewise CPU=x86-64-v2, CPU=x86-64 and CPU=aarch64.
#   make check                  Calls each function of each build from C and C++, also with sanitizers and under
#                               valgrind. Runs the examples with what `make install` puts into an empty folder.
#   make check-aarch64          Does the same for the build for ARM, with qemu-aarch64.
#   make install PREFIX=/usr    Installs the last build: libraries, header, files for pkg-config and CMake, programs,
#                               manual pages, terms. LIBDIR, INCLUDEDIR and DESTDIR change the folders. RELOCATABLE=1
#                               lets the file for pkg-config name folders relative to its own.
#   make uninstall PREFIX=/usr  Removes all of it.
#   make release                Builds for both architectures, and writes the packages of both to build/release. Needs what
#                               release/setup installs. Refuses a tree that has no version of its own yet (release/ready).
#   make pack                   Only packs what is built, in any tree, without the toolchain.
#   make doc                    Writes HTML pages of the header and of the Rust crate to build/doc. Needs no build.
ASKED := $(CPU)
CPU ?= both
CPUS = both x86-64 x86-64-v2 x86-64-v3 aarch64
CROSS ?= aarch64-linux-gnu-
PREFIX ?= /usr/local
LIBDIR ?= $(PREFIX)/lib
INCLUDEDIR ?= $(PREFIX)/include
DESTDIR ?=
comma = ,
RELOCATABLE ?=
CC ?= cc
CXX ?= c++
OBJCOPY ?= objcopy
STRICT = -Wall -Wextra -Werror -pedantic -Ic/include
SANITIZE = -g -fsanitize=address,undefined -fno-sanitize-recover=all
VERSION := $(shell awk '$$2 ~ /_VERSION_(MAJOR|MINOR|PATCH)$$/ {printf "%s%s", dot, $$3; dot = "."}' c/include/encoding_text.h)
SHARED = libencoding_text.so.$(firstword $(subst ., ,$(VERSION)))
export CC CXX LD AR OBJCOPY CROSS SHARED VERSION

ifneq ($(words $(CPU)) $(words $(filter $(CPUS),$(CPU))),1 1)
$(error CPU=$(CPU) is none of these: $(CPUS))
endif

PROGRAMS = utf8_repair utf8_check
CRATES = encoding_definitions encoding_kernels encoding_text encoding_runs encoding_streams encoding_c utf8_check_library $(PROGRAMS)
FOLDERS = $(foreach name,$(CRATES),$(foreach part,src specs proofs,$(wildcard crates/$(name)/$(part))))
SOURCES := $(shell find $(FOLDERS) -name '*.rt' -o -name '*.antt')
BUILT = libencoding_text.a $(SHARED) $(PROGRAMS)

# The long steps, in order. The first one proves all that the others depend on.
ifeq ($(CPU),both)
STEPS = x86-64-v2/library x86-64-v3/library $(PROGRAMS:%=x86-64-v2/%) $(if $(has_cross),aarch64/library $(PROGRAMS:%=aarch64/%))
else
STEPS = $(CPU)/library $(PROGRAMS:%=$(CPU)/%)
endif
progress = tools/progress '$(STEPS)'

# need(a command, what to do): fails with a message if the command is missing
need = $(if $(shell command -v $(firstword $(1)) 2> /dev/null),,$(error $(firstword $(1)) is not there: $(2)))
need_rt = $(call need,rt,put the toolchain's folder bin on the PATH)
# The toolchain's C code that calls the system.
calls_system = $(or $(wildcard $(dir $(realpath $(shell command -v rt)))../c/lib*.a),$(error the toolchain has no c/lib*.a))
need_cc = $(call need,$(CC),install a C compiler (tools/setup does on Debian) or name yours by CC=)
need_binutils = $(foreach tool,$(LD) $(OBJCOPY) $(AR),$(call need,$(tool),install binutils (tools/setup does on Debian)))
has_cross = $(shell command -v $(CROSS)gcc 2> /dev/null)
need_cross = $(foreach tool,gcc ld ar,$(call need,$(CROSS)$(tool),install the tools for ARM64 (tools/setup does on Debian) or name yours by CROSS=))

all: tools $(BUILT:%=build/%) build/libencoding_text.so $(if $(filter both,$(CPU)),aarch64)

# Checked first, since the proofs take long.
tools:
	$(if $(filter aarch64,$(CPU)),$(need_cross),$(need_cc)$(need_binutils))

cross:
	$(need_cross)

# After the builds for x86-64, since the toolchain's own output of one build overwrites the other's.
ifneq ($(has_cross),)
aarch64: $(BUILT:%=build/aarch64/%)
else
aarch64:
	$(if $(filter true,$(CI)),$(need_cross))
	@echo 'the build for ARM64: left out, $(CROSS)gcc is missing (tools/setup installs it)'
endif

cxx:
	$(call need,$(CXX),install a C++ compiler (tools/setup does on Debian) or name yours by CXX=)

# The files directly in build/ are for one CPU, whose name is in build/cpu.
$(BUILT:%=build/%): build/%: build/$(CPU)/% build/cpu
	cp $< $@

build/cpu: FORCE | $(BUILT:%=build/$(CPU)/%)
	@echo '$(CPU)' | cmp -s - $@ || echo '$(CPU)' > $@

build/libencoding_text.so: | build/$(SHARED)
	ln -sf $(SHARED) $@

# One job, since the functions for C are many and small: each process would read all that they depend on.
library = cd crates/encoding_runs && rt lib && cd ../encoding_streams && rt lib && cd ../encoding_c && rt lib --jobs 1
FREESTANDING = -O2 -Wall -Wextra -fPIC -ffreestanding -fcf-protection=none -fno-asynchronous-unwind-tables -Ic/include
PROGRAM_C = -std=c99 -D_POSIX_C_SOURCE=200809L -O2 -Wall -Wextra -fPIC

# What the toolchain makes, before layout.o and the system's calls are linked to it. All after that depends on Makefile too, and
# takes seconds, so that a change of Makefile proves nothing again.
KEPT = libencoding_c.a $(foreach name,$(PROGRAMS),$(name).proved $(name).proved.o)
.SECONDARY: $(foreach cpu,$(filter-out both,$(CPUS)),$(KEPT:%=build/$(cpu)/%))

# proved(the CPU, words for rt): proves and builds the toolchain's static library. All CPUs share the proofs, so each but the
# first is only compiled.
define proved
	@mkdir -p $(@D)
	release/origin > $(@D)/origin
	@$(progress) $(1)/library '5 to 11 min, 1 behind another' sh -c '$(library) $(2)'
	cp crates/encoding_c/out/libencoding_c.a $@
endef

# archive(the compiler, the archiver, objcopy): makes the static library. With objcopy, each function begins at a multiple of 64
# bytes: on x86-64 a jump that crosses one of 32 can be slow, so a function's speed would depend on the length of those before it.
define archive
	$(1) $(FREESTANDING) -c -o $(@D)/layout.o c/layout.c
	cp $< $@
	$(if $(3),$(3) -D --set-section-alignment '.text.*=64' $@)
	$(2) rsD $@ $(@D)/layout.o
endef

build/x86%/libencoding_c.a: $(SOURCES)
	$(need_rt)$(need_cc)$(need_binutils)
	$(call proved,x86$*,--cpu=x86$*)

build/x86%/libencoding_text.a: build/x86%/libencoding_c.a c/layout.c c/include/encoding_text.h Makefile
	$(need_cc)$(need_binutils)
	$(call archive,$(CC),$(AR),$(OBJCOPY))

build/aarch64/libencoding_c.a: $(SOURCES)
	$(need_rt)$(need_cross)
	$(call proved,aarch64,--target aarch64-unknown-linux-gnu)

build/aarch64/libencoding_text.a: build/aarch64/libencoding_c.a c/layout.c c/include/encoding_text.h Makefile
	$(need_cross)
	$(call archive,$(CROSS)gcc,$(CROSS)ar)

# program(its name): proves and links it. NAME.o has all of the program except the C library, for other links.
define program
build/x86%/$(1).proved build/x86%/$(1).proved.o: $(SOURCES)
	$$(need_rt)$$(need_binutils)
	@mkdir -p $$(@D)
	@$$(progress) x86$$*/$(1) '1 min' sh -c 'cd crates/$(1) && rt run --cpu=x86$$* < /dev/null'
	cp crates/$(1)/out/$(1) $$(@D)/$(1).proved
	cp crates/$(1)/out/$(1).o $$(@D)/$(1).proved.o

build/x86%/$(1): build/x86%/$(1).proved build/x86%/$(1).proved.o Makefile
	$$(need_rt)$$(need_binutils)
	$$(LD) -r -o $$@.o $$@.proved.o $$(calls_system)
	cp $$@.proved $$@

build/aarch64/$(1).proved.o: $(SOURCES) c/object
	$$(need_rt)$$(need_cross)
	@mkdir -p $$(@D)
	@$$(progress) aarch64/$(1) '1 min' c/object $(1) aarch64-unknown-linux-gnu $$@

build/aarch64/$(1): build/aarch64/$(1).proved.o c/system.c Makefile
	$$(need_cross)
	$$(CROSS)gcc $$(PROGRAM_C) -c -o $$@.system.o c/system.c
	$$(CROSS)ld -r -o $$@.o $$@.proved.o $$@.system.o
	$$(CROSS)gcc -static-pie -o $$@ $$@.o

# Pipes and disks limit the programs' speed before the processor does, so one build is enough.
build/both/$(1): build/x86-64-v2/$(1)
	@mkdir -p $$(@D)
	cp $$< $$@

endef
$(foreach name,$(PROGRAMS),$(eval $(call program,$(name))))

build/both/libencoding_text.a: build/x86-64-v2/libencoding_text.a build/x86-64-v3/libencoding_text.a build/names c/choose.c c/join Makefile
	$(need_cc)$(need_binutils)
	@mkdir -p $(@D)
	c/join build/names build/x86-64-v2/libencoding_text.a build/x86-64-v3/libencoding_text.a $@

# The functions that the header declares.
build/names: c/include/encoding_text.h Makefile
	$(need_cc)
	@mkdir -p $(@D)
	$(CC) -E -P $< | grep -o '\bencoding_text_[a-z0-9_]*(' | tr -d '(' | LC_ALL=C sort > $@

build/exports: build/names c/symbols.txt c/exports Makefile
	c/exports $< > $@

# shared(the compiler): links the shared library
define shared
	$(1) -shared $(LDFLAGS) -Wl,-soname,$(SHARED) -Wl,--version-script=build/exports -Wl,-z,defs,-z,now,-z,noexecstack \
	    -o $@ -Wl,--whole-archive $< -Wl,--no-whole-archive
endef

build/aarch64/$(SHARED): build/aarch64/libencoding_text.a build/exports Makefile
	$(need_cross)
	$(call shared,$(CROSS)gcc)

build/%/$(SHARED): build/%/libencoding_text.a build/exports Makefile
	$(need_cc)
	$(call shared,$(CC))

check: cxx all
	STRICT='$(STRICT)' SANITIZE='$(SANITIZE)' tests/$(if $(filter aarch64,$(CPU)),arm,c)/run

check-aarch64: all
	STRICT='$(STRICT)' SANITIZE='$(SANITIZE)' tests/arm/run

install uninstall:
	$(if $(ASKED),$(if $(filter $(ASKED),$(shell cat build/cpu 2> /dev/null)),,$(error build/ isn't built for $(ASKED): run make CPU=$(ASKED) first)))
	@PREFIX='$(PREFIX)' LIBDIR='$(LIBDIR)' INCLUDEDIR='$(INCLUDEDIR)' DESTDIR='$(DESTDIR)' RELOCATABLE='$(RELOCATABLE)' c/install $@

release: ready cross all
	@release/pack release

ready:
	@release/ready

pack:
	@release/pack

doc:
	@tools/doc

clean:
	rm -rf build

FORCE:

.DELETE_ON_ERROR:
.NOTPARALLEL:
.PHONY: all aarch64 tools cross cxx check check-aarch64 install uninstall release ready pack doc clean FORCE
