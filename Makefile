# make lib      the library for C, in target/lib: libsonquilate.a, sonquilate.h, and sonquilate.pc for pkg-config
# make example  examples/search.c, examples/read.c, examples/reason.c and examples/build.c, built over it by the system's cc and run
# The library is for x86-64, and so is the kit that builds it.
SHELL := bash
.PHONY: lib example

ifneq ($(shell uname -m),x86_64)
$(error the kit of Rattle, which builds the library, is for x86-64, and this machine is $(shell uname -m))
endif

lib: target/lib/libsonquilate.a target/lib/sonquilate.h target/lib/sonquilate.pc

# crates/sonquilate_c has the exports, over the library crates/sonquilate
target/lib/libsonquilate.a: crates.txt $(shell find crates -name out -prune -o -print)
	cd crates/sonquilate_c && rt lib
	mkdir -p target/lib
	host/need objcopy
# each function at the begin of a line of the cache: where a linker happens to put it otherwise, a call takes up to a fifth longer
	objcopy --set-section-alignment '.text.*=64' crates/sonquilate_c/out/libsonquilate_c.a $@

target/lib/%: include/%
	mkdir -p target/lib
	cp $< $@

example: lib
	mkdir -p target/example
	host/need cc pkg-config
	cc -o target/example/search examples/search.c $$(PKG_CONFIG_PATH=target/lib pkg-config --cflags --libs sonquilate)
	cc -o target/example/read examples/read.c $$(PKG_CONFIG_PATH=target/lib pkg-config --cflags --libs sonquilate)
	cc -o target/example/reason examples/reason.c $$(PKG_CONFIG_PATH=target/lib pkg-config --cflags --libs sonquilate)
	cc -o target/example/build examples/build.c $$(PKG_CONFIG_PATH=target/lib pkg-config --cflags --libs sonquilate)
	target/example/read examples/schedule.xml
	target/example/search
	target/example/reason
	target/example/build examples/schedule.xml Chop EET
