# Builds and installs what other programs use: the header, the static library as
# libhovmekhar.a, its pkg-config file, and the tool hov. For x86-64 Linux, the only
# target that the library is compiled for.
#
#     make
#     make install PREFIX=/usr/local DESTDIR=
#
# `make install-library` leaves out hov, which needs cargo.

PREFIX ?= /usr/local
DESTDIR ?=

INCLUDE = $(DESTDIR)$(PREFIX)/include
LIB = $(DESTDIR)$(PREFIX)/lib
BIN = $(DESTDIR)$(PREFIX)/bin

# What `rt lib` writes is named after the crate.
ARCHIVE = crates/abi/out/libabi.a
HOV = rust/target/release/hov
VERSION = $(shell sed -n 's/^.define HOV_VERSION "\(.*\)"/\1/p' include/hovmekhar.h)

.PHONY: all install install-library install-hov

all: $(ARCHIVE) $(HOV)

crates/abi/out/libabi.a: crates.txt $(wildcard crates/*/src/*.rt)
	cd crates/abi && rt lib --cpu x86-64

rust/target/release/hov: $(ARCHIVE) $(wildcard rust/Cargo.* $(foreach crate,cli hovmekhar,rust/$(crate)/src/*.* rust/$(crate)/src/*/*.rs))
	cargo build --release --locked --offline --manifest-path rust/Cargo.toml -p cli
	touch $@

install: install-library install-hov

install-library: $(ARCHIVE)
	install -d $(INCLUDE) $(LIB)/pkgconfig
	install -m 644 include/hovmekhar.h $(INCLUDE)/hovmekhar.h
	install -m 644 $(ARCHIVE) $(LIB)/libhovmekhar.a
	sed -e 's|@PREFIX@|$(PREFIX)|' -e 's|@VERSION@|$(VERSION)|' hovmekhar.pc.in > $(LIB)/pkgconfig/hovmekhar.pc

install-hov: $(HOV)
	install -d $(BIN)
	install -m 755 $(HOV) $(BIN)/hov
