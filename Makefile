# `make help` lists the targets. All except `prove` and `dist` use dist/ and work without the Rattle toolchain.
VERSION := $(shell cat VERSION)
# without what a version has that is not released
NUMBERS := $(firstword $(subst ~, ,$(VERSION)))
# the machine of the C compiler, or without one of the system: under a kernel of 64 bits both may have 32
HOST    := $(shell machine=$$($(CC) -dumpmachine 2>/dev/null) && echo "$${machine%%-*}" || \
	{ test "$$(getconf LONG_BIT 2>/dev/null)" != 32 || echo "32-bit-"; uname -m; } | tr -d '\n')
ARCH    ?= $(HOST)
FROM    ?= dist/$(ARCH)-linux
PREFIX  ?= /usr/local
BINDIR  ?= $(PREFIX)/bin
LIBDIR  ?= $(PREFIX)/lib
LIBEXEC ?= $(PREFIX)/libexec/um
INCLUDE ?= $(PREFIX)/include
SHARE   ?= $(PREFIX)/share
# the directory below PREFIX in which python3 looks for modules, if any
PYTHON  ?= $(shell python3 -c 'import sys; p = "$(PREFIX)/lib"; f = [f for f in sys.path if f.startswith(p) and f.endswith("-packages")]; \
	print(f[0] if f else p + "/python%d.%d/site-packages" % sys.version_info[:2])' 2>/dev/null)
D       := $(DESTDIR)
HEADERS := $(wildcard bindings/c/*.h bindings/c/*.hpp)
# the C compiler for ARCH, if there is one
ARCHCC  := $(shell command -v $(if $(filter $(ARCH),$(HOST)),$(CC),$(ARCH)-linux-gnu-gcc) 2>/dev/null)
# for libum_osmo.so, which is built here
CFLAGS  ?= -O2 -fstack-protector-strong
CPPFLAGS ?= -U_FORTIFY_SOURCE -D_FORTIFY_SOURCE=2
PRELOAD := out/$(ARCH)-linux/libum_osmo.so
# the folder of Python.h, if there is one, for the module's loops in C
PYHEADERS := $(shell python3 -c 'import os, sysconfig; p = sysconfig.get_paths()["include"]; \
	print(p if os.path.exists(p + "/Python.h") else "")' 2>/dev/null)
MODULE  := $(wildcard bindings/python/um/*.py bindings/python/um/*.pyi bindings/python/um/py.typed)
# the relative path from LIBDIR to PREFIX, for the relocatable CMake files
UP      := $(shell echo '$(LIBDIR)' | sed 's|^$(PREFIX)/||; s|[^/][^/]*|..|g')
FILL    := sed -e 's|@PREFIX@|$(PREFIX)|; s|@LIBDIR@|$(LIBDIR)|; s|@INCLUDE@|$(INCLUDE)|; s|@VERSION@|$(VERSION)|' \
	-e 's|@NUMBERS@|$(NUMBERS)|; s|@UP@|$(UP)|'

help:
	@sed -n 's/^## //p' Makefile

## make check      tests the program and the library of dist/ in a few minutes; names tests whose tool is missing. CHECK="script end": these
check:
	@checks/run quick $(CHECK)

## make build      builds the library and the program from dist/ir with clang, for this machine; CC, TARGET, LEVEL, CFLAGS, LDFLAGS and
##                 SANITIZE as packaging/build says; into dist/ARCH-linux for a machine that dist/ does not have, otherwise into
##                 out/ARCH-linux
build:
	$(if $(filter-out default,$(origin CC)),CC="$(CC)") packaging/build

## make prove      proves everything and runs every check; needs the Rattle toolchain (CONTRIBUTING has the time)
prove:
	@command -v rt >/dev/null || { echo "make prove: no rt on the PATH; it is part of the Rattle toolchain, which is not public" >&2; exit 1; }
	.ci/run

## make docs       writes the pages of all public calls and of all definitions to out/docs; needs python3
docs:
	tools/index --all out/docs

## make dist       builds dist/ from the proved sources; needs the Rattle toolchain and wasm-opt 131
dist:
	tools/release

## make crate      packs the Rust crate um-gsm with the libraries of dist/, below bindings/rust/target/package
crate:
	@for lib in dist/*/libum.a dist/*/um_static.lib; do install -D -m 644 $$lib bindings/rust/lib/$${lib#dist/} || exit 1; done
	@trap 'rm -rf bindings/rust/lib' EXIT; echo "cargo package --allow-dirty"; (cd bindings/rust && cargo package --allow-dirty)

## make preload    builds libum_osmo.so, libosmocoding's control channel calls by um for programs already built, in out/ARCH-linux
preload:
	@test -n "$(ARCHCC)" || { echo "make preload: no C compiler for $(ARCH) here" >&2; exit 1; }
	mkdir -p $(dir $(PRELOAD))
	$(ARCHCC) $(CPPFLAGS) $(CFLAGS) -std=c11 -s -Wall -Wextra -fPIC -shared -Ibindings/c -Wl,-soname,libum_osmo.so -Wl,-z,relro,-z,now \
	  -Wl,--version-script=bindings/c/libum_osmo.map $(LDFLAGS) bindings/c/libum_osmo.c $(FROM)/libum.a -Wl,--no-as-needed -ldl -o $(PRELOAD)

## make program    on a Mac: links the program from dist/ARCH-macos/um.o and packaging/outside.c, which ./um then starts
program:
	@test -f dist/$(ARCH)-macos/um.o || { echo "make program: no dist/$(ARCH)-macos/um.o; it is for macOS on x86_64 and arm64" >&2; exit 1; }
	mkdir -p crates/um/out
	$(CC) -O2 -o crates/um/out/um dist/$(ARCH)-macos/um.o packaging/outside.c

## make install    installs below PREFIX (/usr/local), LIBDIR (PREFIX/lib) and DESTDIR: program, manual page, libraries, headers,
##                 pkg-config, CMake, Python module, completion. FROM is the directory of the built files (dist/ARCH-linux)
install:
	@test -f $(FROM)/libum.so.0 || \
	  { echo "make install: no $(FROM)/libum.so.0; dist/ has x86_64-linux and aarch64-linux, and FROM selects another directory" >&2; exit 1; }
	install -d "$(D)$(INCLUDE)" "$(D)$(LIBDIR)/pkgconfig" "$(D)$(LIBDIR)/cmake/um"
	install -m 644 $(HEADERS) "$(D)$(INCLUDE)/"
	install -m 644 $(FROM)/libum.a "$(D)$(LIBDIR)/libum.a"
	install -m 644 $(FROM)/libum.so.0 "$(D)$(LIBDIR)/libum.so.$(NUMBERS)"
	ln -sf libum.so.$(NUMBERS) "$(D)$(LIBDIR)/libum.so.0"
	ln -sf libum.so.0 "$(D)$(LIBDIR)/libum.so"
ifneq ($(ARCHCC),)
	@object=$$(mktemp) && $(MAKE) preload PRELOAD=$$object && install -m 644 $$object "$(D)$(LIBDIR)/libum_osmo.so"; status=$$?; \
	  rm -f $$object; exit $$status
else
	@echo "make install: no C compiler for $(ARCH), so libum_osmo.so is not built and not installed"
endif
	$(FILL) packaging/um.pc.in | install -m 644 /dev/stdin "$(D)$(LIBDIR)/pkgconfig/um.pc"
	$(FILL) packaging/umConfig.cmake.in | install -m 644 /dev/stdin "$(D)$(LIBDIR)/cmake/um/umConfig.cmake"
	$(FILL) packaging/umConfigVersion.cmake.in | install -m 644 /dev/stdin "$(D)$(LIBDIR)/cmake/um/umConfigVersion.cmake"
ifneq ($(wildcard $(FROM)/um),)
	install -d "$(D)$(BINDIR)" "$(D)$(LIBEXEC)" "$(D)$(SHARE)/man/man1" "$(D)$(SHARE)/bash-completion/completions"
	install -m 755 um "$(D)$(BINDIR)/um"
	install -m 755 $(FROM)/um "$(D)$(LIBEXEC)/um"
	install -m 644 tools/refused.awk "$(D)$(LIBEXEC)/refused.awk"
	install -m 644 docs/um.1 "$(D)$(SHARE)/man/man1/um.1"
	install -m 644 packaging/um.bash "$(D)$(SHARE)/bash-completion/completions/um"
else
	@echo "make install: $(FROM) has no program, so only the libraries are installed"
endif
ifneq ($(and $(PYTHON),$(MODULE)),)
	install -d "$(D)$(PYTHON)/um"
	install -m 644 $(MODULE) "$(D)$(PYTHON)/um/"
	ln -srf "$(D)$(LIBDIR)/libum.so.0" "$(D)$(PYTHON)/um/libum.so.0"
	install -d "$(D)$(BINDIR)"
	install -m 755 packaging/um-decode "$(D)$(BINDIR)/um-decode"
	@object=$$(mktemp) && if [ -n "$(and $(ARCHCC),$(PYHEADERS))" ] && $(ARCHCC) $(CPPFLAGS) $(CFLAGS) -g0 -s -fPIC -shared -Ibindings/c \
	  -I$(PYHEADERS) -Wl,-z,relro,-z,now $(LDFLAGS) bindings/python/um/_loops.c -o $$object 2>/dev/null; \
	then install -m 644 $$object "$(D)$(PYTHON)/um/_loops.abi3.so"; \
	else echo "make install: no Python.h for $(ARCH), so the module loops in Python"; fi; \
	rm -f $$object
endif
ifeq ($(D),)
	@PATH=$$PATH:/usr/sbin:/sbin; ldconfig 2>/dev/null; ldconfig -p 2>/dev/null | grep -qF ' $(LIBDIR)/libum.so.0' || \
	  echo "make install: programs do not find $(LIBDIR)/libum.so.0 yet: run ldconfig as root, or set LD_LIBRARY_PATH=$(LIBDIR)"
endif

## make uninstall  removes what make install installed, with the same PREFIX, LIBDIR and DESTDIR
uninstall:
	rm -f "$(D)$(BINDIR)/um" "$(D)$(BINDIR)/um-decode" "$(D)$(LIBEXEC)/um" "$(D)$(LIBEXEC)/refused.awk" \
	  "$(D)$(SHARE)/man/man1/um.1" "$(D)$(SHARE)/bash-completion/completions/um" \
	  $(foreach header,$(notdir $(HEADERS)),"$(D)$(INCLUDE)/$(header)") "$(D)$(LIBDIR)/libum.a" "$(D)$(LIBDIR)/libum.so" \
	  "$(D)$(LIBDIR)/libum.so.0" "$(D)$(LIBDIR)/libum.so.$(NUMBERS)" "$(D)$(LIBDIR)/libum_osmo.so" "$(D)$(LIBDIR)/pkgconfig/um.pc"
	rm -rf "$(D)$(LIBDIR)/cmake/um" $(if $(PYTHON),"$(D)$(PYTHON)/um")
	-rmdir "$(D)$(LIBEXEC)" 2>/dev/null

## make packages   builds Debian packages with debhelper in out/packages/amd64 and out/packages/arm64, and the source archive in
##                 out/packages
packages:
	packaging/packages out/packages

.PHONY: build crate docs help check program prove dist preload install uninstall packages
