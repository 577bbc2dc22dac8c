# Builds and installs the library for C and Rust programs.
#
#   make                          target/lib/libnimskerf.a and libnimskerf.so
#   make target/bin/desk          the exam desk
#   make install PREFIX=/usr/local [DESTDIR=..]
#   make check                    the tests outside the proofs (tests/check)
#
# CAPI    a libcapi.a that is there already; by default `rt lib` proves crate capi_c and writes one
# CC, AR, CFLAGS, LDFLAGS   as usual

CC ?= cc
AR ?= ar
CFLAGS ?= -O2
PREFIX ?= /usr/local
LIBDIR ?= $(PREFIX)/lib
INCLUDEDIR ?= $(PREFIX)/include
CAPI ?= target/staticlib/libcapi.a

STRICT := -std=c11 -fPIC -Wall -Wextra -Werror -pedantic -Iinclude
VERSION := $(shell sed -n 's/^\#define NIMSKERF_VERSION "\(.*\)"/\1/p' include/nimskerf.h)
# Below 1.0 each minor version may add fields to a struct.
SONAME := libnimskerf.so.$(basename $(VERSION))
SHARED := libnimskerf.so.$(VERSION)
LIB := target/lib
OBJECTS := target/c/nimskerf.o target/c/words.o
HEADERS := include/nimskerf.h include/nimskerf_proved.h
# What libcapi.a is made from: capi_c and the crates under it.
CRATES := capi_c $(shell sed -n 's/^capi_c staticlib://p' crates.txt)
SOURCES := crates.txt $(shell find $(CRATES:%=crates/%) -name out -prune -o \( -name '*.rt' -o -name '*.antt' \) -print)

all: $(LIB)/libnimskerf.a $(LIB)/libnimskerf.so

target/staticlib/libcapi.a: $(SOURCES)
	@mkdir -p $(@D)
	cd crates/capi_c && rt lib
	cp crates/capi_c/out/libcapi_c.a $@

# The exam desk. `rt run` proves and links it, and runs it, here on no input.
DESK := desk $(shell sed -n 's/^desk://p' crates.txt)
target/bin/desk: crates.txt $(shell find $(CRATES:%=crates/%) $(DESK:%=crates/%) -name out -prune -o \( -name '*.rt' -o -name '*.antt' \) -print)
	@mkdir -p $(@D)
	cd crates/desk && rt run </dev/null >/dev/null
	cp crates/desk/out/desk $@

target/c/%.o: c/%.c $(HEADERS)
	@mkdir -p $(@D)
	$(CC) $(STRICT) $(CFLAGS) -c $< -o $@

$(LIB)/libnimskerf.a: $(OBJECTS) $(CAPI)
	@mkdir -p $(@D) target/c/capi
	rm -f $@ target/c/capi/*
	cd target/c/capi && $(AR) x $(abspath $(CAPI))
	$(AR) rcs $@ $(OBJECTS) target/c/capi/*.o

# The proved functions are not shown: a program calls the checked ones.
$(LIB)/$(SHARED): $(OBJECTS) $(CAPI)
	@mkdir -p $(@D)
	$(CC) -shared -Wl,-soname,$(SONAME) -Wl,--exclude-libs,ALL -Wl,-z,defs $(LDFLAGS) -o $@ $(OBJECTS) $(CAPI)

$(LIB)/libnimskerf.so: $(LIB)/$(SHARED)
	ln -sf $(SHARED) $(LIB)/$(SONAME)
	ln -sf $(SONAME) $@

$(LIB)/nimskerf.pc: FORCE
	@mkdir -p $(@D)
	printf '%s\n' 'libdir=$(LIBDIR)' 'includedir=$(INCLUDEDIR)' '' \
	    'Name: nimskerf' 'Description: Plans, replays and marks stack windows' 'Version: $(VERSION)' \
	    'Libs: -L$${libdir} -lnimskerf' 'Cflags: -I$${includedir}' >$@

install: all $(LIB)/nimskerf.pc
	install -d $(DESTDIR)$(LIBDIR)/pkgconfig $(DESTDIR)$(INCLUDEDIR)
	install -m 644 include/nimskerf.h $(DESTDIR)$(INCLUDEDIR)
	install -m 644 $(LIB)/libnimskerf.a $(DESTDIR)$(LIBDIR)
	install -m 755 $(LIB)/$(SHARED) $(DESTDIR)$(LIBDIR)
	ln -sf $(SHARED) $(DESTDIR)$(LIBDIR)/$(SONAME)
	ln -sf $(SONAME) $(DESTDIR)$(LIBDIR)/libnimskerf.so
	install -m 644 $(LIB)/nimskerf.pc $(DESTDIR)$(LIBDIR)/pkgconfig

check:
	tests/check

clean:
	rm -rf target/bin target/c target/lib target/staticlib target/tests

FORCE:

.PHONY: all install check clean FORCE
