# The archive is for x86-64. On other machines the programs are built by a cross compiler and run by an emulator; this file is the
# only place that knows. `toolchain` installs what is missing (Debian and Ubuntu); what that says is shown if it fails.
#
# Elsewhere the programs are linked statically. The libm.a of Debian 12's cross package is a script that names files of another folder;
# a copy of it without the folders finds them where they are. The emulator is told of the libraries for programs that are linked by others
# (the example of `make check-install`).
ifeq ($(shell uname -m),x86_64)
HOST_CXX ?= g++
HOST_RUN ?=
HOST_LINK ?=
HOST_NEEDS = $(HOST_CXX):g++
else
CROSS_ROOT ?= /usr/x86_64-linux-gnu
HOST_CXX ?= x86_64-linux-gnu-g++
HOST_RUN ?= qemu-x86_64 -L $(CROSS_ROOT)
CROSS_LIBM = $(OUT)/cross/libm.a
HOST_LINK ?= -static -L$(dir $(CROSS_LIBM))
HOST_NEEDS = $(HOST_CXX):g++-x86-64-linux-gnu qemu-x86_64:qemu-user

$(CROSS_LIBM): | toolchain
	@mkdir -p $(@D)
	@if head -c 16 $(CROSS_ROOT)/lib/libm.a | grep -q 'GNU ld script'; \
	    then sed 's,/[^ ]*/,,g' $(CROSS_ROOT)/lib/libm.a >$@; else cp $(CROSS_ROOT)/lib/libm.a $@; fi
endif

.PHONY: toolchain
toolchain:
	@for need in $(HOST_NEEDS); do \
	    command -v "$${need%%:*}" >/dev/null && continue; \
	    log=$$(mktemp); \
	    { apt-get update -q && apt-get install -y -q "$${need#*:}"; } >"$$log" 2>&1 || { cat "$$log" >&2; exit 1; }; \
	    rm -f "$$log"; \
	done
