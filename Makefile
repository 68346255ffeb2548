# Builds what other languages link, of the text of the proved crate sshkey_c, and the programs of helpers/:
#
#     out/librafendilo.a  out/librafendilo.so  out/librafendilo.so.2  out/rafendilo.pc
#     out/librafendilo-verify.a  out/sshkey-check  out/sshkey-principals  out/sshkey-authorized-keys
#
# and with `make go`, which takes Go (Debian: golang-go), the example in Go: out/check-go;
# with `make rust`, which takes Rust (Debian: cargo), the one in Rust: out/check-rust; and with
# `make dist` packages, which need no toolchain: out/dist.
#
# Any C compiler for Linux on x86-64 or aarch64 does: the text stands in the tree, as bindings/library
# last wrote it. The helpers take OpenSSL's libcrypto (Debian: libssl-dev), and `make lib` is without
# them. `make check` asks the library's calls, and holds their answers against
# ssh-keygen. `make install PREFIX=/usr/local` copies headers, libraries, files for pkg-config that
# go with them where they are moved, and the helpers with their manual pages and completions; `make
# uninstall` removes them.
# docs/LIBRARY.md is the page to read.

# make divides names at blanks
ifneq ($(words $(MAKEFILE_LIST) $(CURDIR)),2)
$(error this folder has a blank in its name, and make builds in no such folder)
endif
ROOT := $(abspath $(dir $(lastword $(MAKEFILE_LIST))))
OUT := $(ROOT)/out
PREFIX := /usr/local
LIBDIR := $(PREFIX)/lib

VERSION := $(shell cat $(ROOT)/VERSION)
# of the header, whose # would begin a comment here
ABI := $(shell sed -n 's/^.define RAF_ABI //p' $(ROOT)/include/rafendilo.h)
# the name by which the loader asks for the library
SONAME := librafendilo.so.$(ABI)
FILL := sed -e 's|@version@|$(VERSION)|'

CC := cc
CFLAGS := -O2
# the processor that is compiled for, as Go calls it
PROCESSOR := $(patsubst aarch64-%,arm64,$(patsubst x86_64-%,amd64,$(shell $(CC) -dumpmachine)))
# the text of the crate for it, which stands where Go reads it; an archive does as well
TEXT := $(ROOT)/bindings/go/rafendilo/rafendilo_linux_$(PROCESSOR).S
# the flag, where the compiler takes it
TAKEN = $(shell $(CC) -Werror $(1) -E -x c /dev/null >/dev/null 2>&1 && echo $(1))
# sshd starts the helpers with what a client sent; some compilers define the last themselves
HARDENED := -fstack-protector-strong $(call TAKEN,-fstack-clash-protection) \
	$(call TAKEN,-fcf-protection) \
	-U_FORTIFY_SOURCE -D_FORTIFY_SOURCE=2 -fPIE
# nothing that is linked later can be written
READONLY := -Wl,-z,relro,-z,now
WARNED := -std=c11 -D_POSIX_C_SOURCE=200809L -Wall -Wextra -pedantic -I$(ROOT)/include
CRYPTO := -lcrypto
HEADERS := $(ROOT)/include/rafendilo.h $(wildcard $(ROOT)/helpers/*.h)
PROGRAMS := $(OUT)/sshkey-check $(OUT)/sshkey-principals $(OUT)/sshkey-authorized-keys
# what they are linked with, each with what it takes of it
PARTS := $(addprefix $(OUT)/,program.o login.o login-log.o memory.o check-words.o check-lines.o check-login.o check-keys.o check-option.o \
	check-signatures.o report.o \
	show.o unread.o text.o certificate.o granted.o sshsig.o reading.o sha1.o verdict.o verify.o)
# what programs in C take of them
VERIFY := reading sha1 sshsig verdict verify
PAGES := $(notdir $(wildcard $(ROOT)/helpers/*.[18]))

vpath %.c $(ROOT)/helpers $(ROOT)/bindings/go/rafendilo

lib: $(OUT)/librafendilo.a $(OUT)/librafendilo.so $(OUT)/$(SONAME) $(OUT)/rafendilo.pc
all: lib $(OUT)/librafendilo-verify.a $(PROGRAMS)

# where it is of other sources than stand here, that is said, and no more; a package has none
$(ROOT)/bindings/go/rafendilo/rafendilo_linux_$(PROCESSOR).S: always
ifneq ($(wildcard $(ROOT)/crates.txt),)
	@! command -v python3 >/dev/null || $(ROOT)/bindings/library --is-current || true
endif
	@test -f $@ || { echo "there is no library for this processor: $@" >&2; exit 1; }

# of another processor all is compiled anew
$(OUT)/processor: always
	@mkdir -p $(OUT)
	@echo $(PROCESSOR) | cmp -s - $@ || echo $(PROCESSOR) >$@

$(OUT)/library.o: $(TEXT) $(OUT)/processor
	$(if $(filter %.a,$<),$(LD) -r --whole-archive,$(CC) -c) -o $@ $<

# malloc and its like, as the crate asks for them
$(OUT)/heap.o: HARDENED += -fPIC

$(OUT)/librafendilo.a: $(OUT)/library.o $(OUT)/heap.o
	rm -f $@
	$(AR) rcs $@ $^

$(OUT)/librafendilo.so: $(OUT)/librafendilo.a $(ROOT)/bindings/rafendilo.map
	$(CC) $(CFLAGS) -shared -o $@ $(LDFLAGS) $(READONLY) -Wl,-soname,$(SONAME) \
		-Wl,--version-script=$(ROOT)/bindings/rafendilo.map -Wl,--no-undefined \
		-Wl,--whole-archive $(OUT)/librafendilo.a -Wl,--no-whole-archive

$(OUT)/$(SONAME): $(OUT)/librafendilo.so
	ln -sf librafendilo.so $@

# where header and libraries are: here, or where they are installed
$(OUT)/rafendilo.pc: $(ROOT)/bindings/rafendilo.pc.in $(ROOT)/VERSION
	@mkdir -p $(OUT)
	$(FILL) -e 's|@include@|$(ROOT)/include|' -e 's|@lib@|$${pcfiledir}|' $< >$@

$(OUT)/%.o: %.c $(HEADERS) $(OUT)/processor
	$(CC) $(WARNED) $(CFLAGS) $(HARDENED) -c -o $@ $<

# a program's own library may take them
$(VERIFY:%=$(OUT)/%.o): HARDENED += -fPIC

$(OUT)/librafendilo-verify.a: $(VERIFY:%=$(OUT)/%.o)
$(OUT)/parts.a: $(PARTS)
$(OUT)/librafendilo-verify.a $(OUT)/parts.a:
	rm -f $@
	$(AR) rcs $@ $^

# it verifies nothing
$(OUT)/sshkey-authorized-keys: CRYPTO :=

$(PROGRAMS): $(OUT)/%: $(OUT)/%.o $(OUT)/parts.a $(OUT)/librafendilo.a
	$(CC) $(CFLAGS) -pie $(LDFLAGS) $(READONLY) -o $@ $^ $(CRYPTO)

# both packages read the text themselves
go: $(TEXT)
	@mkdir -p $(OUT)
	cd $(ROOT)/examples/go && go build -o $(OUT)/check-go .

# the program takes the verifier of the package
rust: $(TEXT)
	cd $(ROOT)/bindings/rust && CARGO_TARGET_DIR=$(OUT)/rust \
		cargo build --offline --locked --release --features libcrypto --example check
	cp $(OUT)/rust/release/examples/check $(OUT)/check-rust

# the packages, which need no toolchain
dist: $(TEXT)
	$(ROOT)/bindings/dist $(OUT)/dist

check: lib
	$(ROOT)/checks/foreign --calls

INCLUDE := $(DESTDIR)$(PREFIX)/include
LIB := $(DESTDIR)$(LIBDIR)
# the prefix, from where rafendilo.pc is installed if that is below it
UP := $(subst $() ,/,$(patsubst %,..,$(subst /, ,$(LIBDIR:$(PREFIX)/%=%)/pkgconfig)))
FROM_LIB := $(if $(filter $(PREFIX)/%,$(LIBDIR)),$${pcfiledir}/$(UP),$(PREFIX))
PACKAGES := rafendilo.pc rafendilo-verify.pc
BIN := $(DESTDIR)$(PREFIX)/bin
MAN := $(DESTDIR)$(PREFIX)/share/man
# where shells look for completions below the prefix; Debian's zsh looks elsewhere
BASH_COMPLETIONS := $(PREFIX)/share/bash-completion/completions
ZSH_COMPLETIONS := $(PREFIX)/share/zsh/site-functions
COMPLETIONS := $(DESTDIR)$(BASH_COMPLETIONS)/sshkey-check $(DESTDIR)$(ZSH_COMPLETIONS)/_sshkey-check
# what fetches revoked keys, and when: systemd looks for units below its prefix, and starts none
UNITS := sshkey-revoked.service sshkey-revoked.timer
SYSTEMD := $(DESTDIR)$(PREFIX)/lib/systemd/system
# where the manual page is installed: sshkey-check.1 in man1
INSTALLED = $(MAN)/man$(patsubst .%,%,$(suffix $(1)))/$(1)

install: all
	install -d $(INCLUDE) $(LIB)/pkgconfig $(BIN) $(MAN)/man1 $(MAN)/man8
	install -m 644 $(ROOT)/include/rafendilo.h $(ROOT)/include/rafendilo_0_2.h $(INCLUDE)
	install -m 644 $(OUT)/librafendilo.a $(LIB)
	install -m 755 $(OUT)/librafendilo.so $(LIB)/librafendilo.so.$(VERSION)
	ln -sf librafendilo.so.$(VERSION) $(LIB)/$(SONAME)
	ln -sf $(SONAME) $(LIB)/librafendilo.so
	install -d $(INCLUDE)/rafendilo
	install -m 644 $(VERIFY:%=$(ROOT)/helpers/%.h) $(INCLUDE)/rafendilo
	install -m 644 $(OUT)/librafendilo-verify.a $(LIB)
	$(foreach it,$(PACKAGES),$(FILL) -e 's|@include@|$(FROM_LIB)/include|' \
		-e 's|@lib@|$${pcfiledir}/..|' $(ROOT)/bindings/$(it).in >$(LIB)/pkgconfig/$(it) && \
		chmod 644 $(LIB)/pkgconfig/$(it) &&) true
	install -m 755 $(PROGRAMS) $(ROOT)/helpers/sshkey-revoked $(BIN)
	install -d $(SYSTEMD)
	$(foreach it,$(UNITS),sed 's|/usr/local/bin/|$(abspath $(PREFIX))/bin/|' $(ROOT)/helpers/$(it) \
		>$(SYSTEMD)/$(it) && chmod 644 $(SYSTEMD)/$(it) &&) true
	$(foreach it,$(PAGES),sed 's|/usr/local/bin|$(abspath $(PREFIX))/bin|' $(ROOT)/helpers/$(it) \
		>$(call INSTALLED,$(it)) && chmod 644 $(call INSTALLED,$(it)) &&) true
	install -D -m 644 $(ROOT)/helpers/sshkey-check.bash $(DESTDIR)$(BASH_COMPLETIONS)/sshkey-check
	install -D -m 644 $(ROOT)/helpers/_sshkey-check $(DESTDIR)$(ZSH_COMPLETIONS)/_sshkey-check
	@echo "sshd has to run sshkey-principals and sshkey-authorized-keys as a user that nothing else"
	@echo "runs as, not as nobody: any process of the same user can answer sshd in their place."
	@echo "    useradd -r -M -s /usr/sbin/nologin sshkey"

uninstall:
	rm -f $(INCLUDE)/rafendilo.h $(INCLUDE)/rafendilo_0_2.h $(VERIFY:%=$(INCLUDE)/rafendilo/%.h) $(LIB)/librafendilo.a \
		$(LIB)/librafendilo-verify.a $(PACKAGES:%=$(LIB)/pkgconfig/%) $(LIB)/librafendilo.so $(LIB)/$(SONAME) $(LIB)/librafendilo.so.$(VERSION) \
		$(addprefix $(BIN)/,$(notdir $(PROGRAMS)) sshkey-revoked) $(UNITS:%=$(SYSTEMD)/%) $(COMPLETIONS) $(foreach it,$(PAGES),$(call INSTALLED,$(it)))
	[ ! -d $(INCLUDE)/rafendilo ] || rmdir --ignore-fail-on-non-empty $(INCLUDE)/rafendilo

clean:
	rm -rf $(OUT)

.DEFAULT_GOAL := all
.PHONY: all lib always check go rust dist install uninstall clean
.DELETE_ON_ERROR:
.SECONDARY:
