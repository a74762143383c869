# Builds the library and what stands around it for C.
#
#   make                     libpeerivolt.a and libpeerivolt.so
#   make install PREFIX=..   archive, shared object, header and pkg-config file
#   make check               the C tests: plain, under sanitizers, and under valgrind where it is there
#   make relay               the example relay, build/peerivolt/opt/relay
#   make bench               the benchmark against a plain C program, and against the Rust and RTKLIB where they are there
#   make bench-worst         looks for the stream that costs most a byte
#   make differential        the runs against the Rust, where its source, cargo and Debian's librust-tinyvec-dev are there
#   make differential-faults plants faults in the plain reference, each of which those runs must notice
#   make lint                clang and cppcheck over the C files, where they are there
#   make clean
#
# RUST_SOURCE names the source of rtcm-rs, which is else looked for in ../shared/docs/src. A named one has to be there.
#
# LIB=ref or LIB=plain puts a stand-in in the place of the library (the plain reference, or the plain C program of the
# benchmark), to try the tests without it. LIB=native is the library itself, compiled for this machine where that is not
# x86-64 (c/native.sh); `make bench`, `make bench-worst` and `make differential` take it there. All three stay in build/ and
# are never installed but below it.

# The version stands in the header. The number in the shared object's name goes up by one whenever a program that was
# built before would not run with it any more: another layout of struct pv_scanner, other parameters of a call.
VERSION := $(shell sed -n 's/^\#define PV_VERSION_TEXT "\(.*\)"/\1/p' include/peerivolt.h)
SONAME := libpeerivolt.so.1
PREFIX ?= /usr/local
RT ?= rt
LIB ?= peerivolt

# The archive is for x86-64. On another machine what is linked with it is built by Debian's cross compiler
# (gcc-x86-64-linux-gnu, g++-x86-64-linux-gnu) and run by an emulator, in which neither the address sanitizer nor valgrind
# works; a tenth of the random calls is made there. Without the two, the tests run against the plain reference alone; the
# address sanitizer then looks for no leaks, which takes seconds of each program on Arm, and valgrind does.
ifneq ($(shell uname -m),x86_64)
EMULATOR := $(shell c/emulator.sh)
export ASAN_OPTIONS := detect_leaks=0
ifeq ($(LIB),peerivolt)
FOREIGN := yes
CC := x86_64-linux-gnu-gcc
CXX := x86_64-linux-gnu-g++
CAN_RUN := $(and $(EMULATOR),$(shell command -v $(CC)))
endif
endif
many = $(if $(FOREIGN),$(2),$(1))
comma := ,
hash := \#

# NAME becomes a script that has the emulator run NAME.x86-64, for the rules that link a program.
emulated = $(if $(FOREIGN),mv $(1) $(1).x86-64 && printf '$(hash)!/bin/sh\nexec %s "%s" "$$@"\n' '$(EMULATOR)' '$(abspath $(1)).x86-64' >$(1) && chmod +x $(1))

STD := -std=c11
WARN := -Wall -Wextra -Wpedantic -Wshadow -Werror
COMPILE := $(STD) $(WARN) -Iinclude -g -MMD -MP
SANITIZE := -fsanitize=$(if $(FOREIGN),,address$(comma))undefined -fno-sanitize-recover=all -fno-omit-frame-pointer

B := build/$(LIB)

# The recordings, and the recorded answers of the Rust.
RECORDING_NAMES := rtcm3-1.bin rtcm3-1.1059.tsv rtcm3-3.bin rtcm3.bndm.bin rtcm3.bin ublox-f9p-rtcm.bin testglo.rtcm3
RECORDING_DIRS ?= c/data
RECORDINGS := $(foreach name,$(RECORDING_NAMES),$(firstword $(wildcard $(addsuffix /$(name),$(RECORDING_DIRS)))))
recording = $(firstword $(filter %/$(1),$(RECORDINGS)))
ANSWERS := c/data/answers.hex

RATTLE_FILES := crates.txt $(shell find crates \( -name must-fail -o -name out \) -prune -o -type f \( -name '*.rt' -o -name '*.antt' \) -print)

.PHONY: all install check relay bench bench-run bench-worst differential differential-faults lint clean
.PHONY: check-papers check-header check-opt check-san check-valgrind check-cpp check-exports check-relay check-install check-programs

all: libpeerivolt.a libpeerivolt.so

# ---- The library.

libpeerivolt.a: $(RATTLE_FILES)
	cd crates/peerivolt && $(RT) lib
	cp crates/peerivolt/out/libpeerivolt.a $@

# The whole archive as a shared object that exports the names of the header and nothing else.
SHARE := -shared -Wl,-soname,$(SONAME) -Wl,--version-script=c/peerivolt.map -Wl,-z,defs

$(SONAME): libpeerivolt.a c/peerivolt.map
	$(CC) $(LDFLAGS) $(SHARE) -Wl,--whole-archive $< -Wl,--no-whole-archive -o $@

libpeerivolt.so: $(SONAME)
	ln -sf $(SONAME) $@

ifeq ($(LIB),peerivolt)
ARCHIVE := libpeerivolt.a
SAN_ARCHIVE := libpeerivolt.a
SHARED := $(SONAME)
else
ARCHIVE := $(B)/libpeerivolt.a
SAN_ARCHIVE := $(if $(filter native,$(LIB)),$(ARCHIVE),$(B)/san/libpeerivolt.a)
SHARED := $(B)/$(SONAME)
endif

# ---- Stand-ins.

STAND_IN := stand_in reference plain plain_table
STAND_IN_FLAG := $(if $(filter plain,$(LIB)),-DSTAND_IN_PLAIN)

ifeq ($(LIB),native)
build/native/libpeerivolt.a: $(RATTLE_FILES) c/native.sh
	c/native.sh
else
build/$(LIB)/libpeerivolt.a: $(STAND_IN:%=$(B)/pic/%.o)
	rm -f $@ && $(AR) rcs $@ $^
endif

build/$(LIB)/san/libpeerivolt.a: $(STAND_IN:%=$(B)/san/%.o)
	rm -f $@ && $(AR) rcs $@ $^

build/$(LIB)/$(SONAME): $(B)/libpeerivolt.a c/peerivolt.map
	$(CC) $(LDFLAGS) $(SHARE) -Wl,--whole-archive $< -Wl,--no-whole-archive -o $@

# ---- Objects: opt is what runs, san has the sanitizers, pic goes into a stand-in.

$(B)/opt/%.o: c/%.c Makefile
	@mkdir -p $(@D)
	$(CC) $(COMPILE) -O2 $(CFLAGS) $(STAND_IN_FLAG) -c $< -o $@

$(B)/opt/%_table.o: c/%.c Makefile
	@mkdir -p $(@D)
	$(CC) $(COMPILE) -O2 $(CFLAGS) -DPLAIN_TABLE -c $< -o $@

$(B)/opt/%_linked.o: c/%.c Makefile
	@mkdir -p $(@D)
	$(CC) $(COMPILE) -O2 $(CFLAGS) -DWITH_RUST -Idifferential/rtcm/c -c $< -o $@

$(B)/san/%.o: c/%.c Makefile
	@mkdir -p $(@D)
	$(CC) $(COMPILE) -O1 $(SANITIZE) $(CFLAGS) $(STAND_IN_FLAG) -c $< -o $@

$(B)/san/%_table.o: c/%.c Makefile
	@mkdir -p $(@D)
	$(CC) $(COMPILE) -O1 $(SANITIZE) $(CFLAGS) -DPLAIN_TABLE -c $< -o $@

$(B)/pic/%.o: c/%.c Makefile
	@mkdir -p $(@D)
	$(CC) $(COMPILE) -O2 -fPIC $(CFLAGS) $(STAND_IN_FLAG) -c $< -o $@

$(B)/pic/%_table.o: c/%.c Makefile
	@mkdir -p $(@D)
	$(CC) $(COMPILE) -O2 -fPIC $(CFLAGS) -DPLAIN_TABLE -c $< -o $@

.SECONDARY:
-include $(wildcard $(B)/*/*.d)

# ---- Programs.

TESTS := test_calls test_messages test_1001 test_random test_hostile test_feed_all test_recordings test_answers
PROGRAMS := $(TESTS) relay
HELPERS := crumbs expected

$(PROGRAMS:%=$(B)/opt/%): $(B)/opt/%: $(B)/opt/%.o $(B)/opt/reference.o $(ARCHIVE)
	$(CC) $(LDFLAGS) $^ -o $@
	@$(call emulated,$@)

$(PROGRAMS:%=$(B)/san/%): $(B)/san/%: $(B)/san/%.o $(B)/san/reference.o $(SAN_ARCHIVE)
	$(CC) $(SANITIZE) $(LDFLAGS) $^ -o $@
	@$(call emulated,$@)

$(B)/opt/test_calls_shared: $(B)/opt/test_calls.o $(SHARED)
	$(CC) $(LDFLAGS) $^ -Wl,-rpath,$(abspath $(dir $(SHARED))) -o $@
	@$(call emulated,$@)

# The benchmark, alone and with the Rust and RTKLIB, whose archives RUST_ARCHIVE and RTKLIB_ARCHIVE name.
BENCH := $(B)/opt/bench$(if $(RUST_ARCHIVE),_rust)$(if $(RTKLIB_ARCHIVE),_rtklib)
BENCH_OBJECTS := $(patsubst %,$(B)/opt/%.o,bench bench_rows bench_memory plain plain_table \
    bench_rust$(if $(RUST_ARCHIVE),_linked) bench_rtklib$(if $(RTKLIB_ARCHIVE),_linked))

$(B)/opt/bench_rtklib_linked.o: c/bench_rtklib.c Makefile
	@mkdir -p $(@D)
	$(CC) $(STD) -O2 $(CFLAGS) -Iinclude -DWITH_RTKLIB -isystem $(dir $(RTKLIB_ARCHIVE))src -D_GNU_SOURCE -MMD -MP -c $< -o $@

$(BENCH): $(BENCH_OBJECTS) $(ARCHIVE) $(RUST_ARCHIVE) $(RTKLIB_ARCHIVE)
	$(CC) $(LDFLAGS) -Wl,--gc-sections $^ -lpthread -ldl -lm -o $@

$(HELPERS:%=$(B)/opt/%): $(B)/opt/%: $(B)/opt/%.o $(B)/opt/reference.o
	$(CC) $(LDFLAGS) $^ -o $@
	@$(call emulated,$@)

$(HELPERS:%=$(B)/san/%): $(B)/san/%: $(B)/san/%.o $(B)/san/reference.o
	$(CC) $(SANITIZE) $(LDFLAGS) $^ -o $@
	@$(call emulated,$@)

$(B)/opt/test_header: c/test_header.cpp include/peerivolt.h $(ARCHIVE)
	@mkdir -p $(@D)
	$(CXX) -std=c++11 $(WARN) -O2 -Iinclude $(CXXFLAGS) $< $(ARCHIVE) -o $@
	@$(call emulated,$@)

relay: $(B)/opt/relay

# ---- Checks.

ifeq ($(FOREIGN)$(CAN_RUN),yes)
check: check-papers check-programs libpeerivolt.a
	$(MAKE) --no-print-directory check LIB=ref
	@echo "make check: passed, but for the archive, which is for x86-64: SKIPPED, since this machine lacks $(CC) or an emulator"
else
check: check-papers check-header check-opt check-san check-cpp check-exports check-relay check-install check-programs check-valgrind
	@echo "make check: passed ($(LIB)$(if $(FOREIGN),$(comma) by an emulator))"
endif

# The pages: every rule has a row that says what meets it.
check-papers:
	c/test_papers.sh

# The header by itself, in every language and by every compiler that is there.
check-header:
	@mkdir -p $(B)
	@echo '#include "peerivolt.h"' >$(B)/alone.c
	@for compiler in $(CC) gcc clang; do \
	    command -v $$compiler >/dev/null || continue; \
	    for std in c11 c17; do \
	        $$compiler -std=$$std -Wall -Wextra -Wpedantic -Wconversion -Werror -Iinclude -fsyntax-only $(B)/alone.c || exit 1; \
	    done; \
	done
	@for compiler in $(CXX) g++ clang++; do \
	    command -v $$compiler >/dev/null || continue; \
	    for std in c++11 c++17 c++20; do \
	        $$compiler -x c++ -std=$$std -Wall -Wextra -Wpedantic -Wconversion -Werror -Iinclude -fsyntax-only $(B)/alone.c || exit 1; \
	    done; \
	done
	@echo "header: clean"

check-opt: $(TESTS:%=$(B)/opt/%) $(B)/opt/test_calls_shared
	$(B)/opt/test_calls
	$(B)/opt/test_calls_shared
	$(B)/opt/test_messages $(call many,40000,4000)
	$(B)/opt/test_1001 $(call many,40000 every,4000)
	$(B)/opt/test_random $(call many,120000,12000)
	$(B)/opt/test_hostile $(call many,40,4)
	$(B)/opt/test_feed_all $(call many,100,10) $(RECORDINGS)
	$(B)/opt/test_recordings $(RECORDINGS)
	$(B)/opt/test_answers $(ANSWERS)

check-san: $(TESTS:%=$(B)/san/%)
	$(B)/san/test_calls
	$(B)/san/test_messages $(call many,5000,500)
	$(B)/san/test_1001 $(call many,10000,1000)
	$(B)/san/test_random $(call many,40000,4000)
	$(B)/san/test_hostile $(call many,4,1)
	$(B)/san/test_feed_all $(call many,50,5) $(RECORDINGS)
	$(B)/san/test_recordings $(RECORDINGS)
	$(B)/san/test_answers $(ANSWERS)

check-valgrind: $(TESTS:%=$(B)/opt/%)
	@if [ -n '$(FOREIGN)' ]; then \
	    echo "valgrind: skipped, since an emulator runs the programs"; \
	elif command -v valgrind >/dev/null; then \
	    run() { echo "valgrind $$*"; valgrind -q --error-exitcode=1 --leak-check=full --errors-for-leak-kinds=definite "$$@"; }; \
	    run $(B)/opt/test_calls && run $(B)/opt/test_messages 100 && run $(B)/opt/test_1001 500 && run $(B)/opt/test_random 2000 && run $(B)/opt/test_feed_all 1 && run $(B)/opt/test_recordings $(RECORDINGS) && \
	    run $(B)/opt/test_answers $(ANSWERS); \
	else \
	    echo "valgrind: skipped, since it is not here"; \
	fi

check-cpp:
	@if command -v $(CXX) >/dev/null; then \
	    $(MAKE) --no-print-directory $(B)/opt/test_header && $(B)/opt/test_header; \
	else \
	    echo "C++: skipped, since no C++ compiler is here"; \
	fi

check-exports: $(SHARED) $(ARCHIVE)
	c/test_exports.sh include/peerivolt.h $(SHARED) $(if $(filter peerivolt,$(LIB)),$(ARCHIVE))

check-relay: $(foreach name,relay $(HELPERS),$(B)/opt/$(name) $(B)/san/$(name))
	c/test_relay.sh $(B)/opt $(call recording,ublox-f9p-rtcm.bin) $(call recording,rtcm3-3.bin)
	c/test_relay.sh $(B)/san $(call recording,rtcm3-3.bin)

# What is installed goes away again: `rt ci` refuses a checkout that has a link in one of its folders.
check-install: $(ARCHIVE) $(SHARED)
	@$(MAKE) --no-print-directory install LIB=$(LIB) DESTDIR= PREFIX=$(abspath $(B))/prefix >/dev/null
	CC='$(CC)' EMULATOR='$(if $(FOREIGN),$(EMULATOR))' SONAME=$(SONAME) VERSION=$(VERSION) c/test_install.sh $(abspath $(B))/prefix c/example.c $(call recording,rtcm3-3.bin) 200
	@rm -r $(B)/prefix

# The programs of crates/, where `rt run` or the gate has built them, put side by side. Those too are for x86-64.
BIN := build/bin

check-programs:
	@rm -rf $(BIN) && mkdir -p $(BIN)
	@for program in rtcm_scan rtcm_biases rtcm_observations rtcm_why rtcm_compare rtcm_salvage; do \
	    built=crates/$$program/out/$$program; \
	    if [ ! -x $$built ]; then missing=1; \
	    elif [ -z '$(EMULATOR)' ]; then cp $$built $(BIN)/$$program; \
	    else printf '#!/bin/sh\nexec %s "%s" "$$@"\n' '$(EMULATOR)' "$(CURDIR)/$$built" >$(BIN)/$$program && chmod +x $(BIN)/$$program; \
	    fi; \
	done; \
	if [ -z "$$missing" ]; then \
	    c/test_programs.sh $(CURDIR)/$(BIN) $(CURDIR)/c/data $(VERSION) $(CURDIR)/crates; \
	else \
	    echo "programs: skipped, since neither rt run nor the gate has built them here"; \
	fi

# ---- Installing.

install: $(ARCHIVE) $(SHARED)
	@case '$(LIB):$(PREFIX)' in \
	    peerivolt:* | *:$(CURDIR)/build/*) ;; \
	    *) echo "install: $(LIB) is a stand-in, and is installed below build/ only" >&2; exit 1 ;; \
	esac
	@mkdir -p $(DESTDIR)$(PREFIX)/lib/pkgconfig $(DESTDIR)$(PREFIX)/include
	install -m 644 include/peerivolt.h $(DESTDIR)$(PREFIX)/include/peerivolt.h
	install -m 644 $(ARCHIVE) $(DESTDIR)$(PREFIX)/lib/libpeerivolt.a
	install -m 755 $(SHARED) $(DESTDIR)$(PREFIX)/lib/$(SONAME)
	ln -sf $(SONAME) $(DESTDIR)$(PREFIX)/lib/libpeerivolt.so
	sed 's|@PREFIX@|$(PREFIX)|; s|@VERSION@|$(VERSION)|' c/peerivolt.pc.in >$(DESTDIR)$(PREFIX)/lib/pkgconfig/peerivolt.pc

# ---- Other runs.

ifdef FOREIGN
bench bench-worst differential:
	@echo "The archive is for x86-64. What follows is of the same module, compiled for $$(uname -m)."
	@$(MAKE) --no-print-directory $@ LIB=native
else
# The archives of the Rust and of RTKLIB are built where they can be; else run.sh and rtklib.sh say why not, and the
# column stays empty.
bench: $(ARCHIVE)
	@rust=$$(RTCM_RS_SOURCE="$(RUST_SOURCE)" differential/run.sh rust-archive) || rust="bench: the Rust could not be built"; \
	rtklib=$$(c/rtklib.sh | tail -n 1); \
	case "$$rust" in *.a) ;; *) echo "$$rust"; rust= ;; esac; \
	case "$$rtklib" in *.a) ;; *) echo "$$rtklib"; rtklib= ;; esac; \
	$(MAKE) --no-print-directory bench-run RUST_ARCHIVE="$$rust" RTKLIB_ARCHIVE="$$rtklib"

bench-run: $(BENCH)
	$(BENCH)
	@size $(ARCHIVE) | awk 'NR > 1 { code += $$1; rest += $$2 + $$3 } END { printf "size of the library: %d bytes of code and constants, %d of variables\n", code, rest }'

$(B)/opt/bench_worst: $(B)/opt/bench_worst.o $(ARCHIVE)
	$(CC) $(LDFLAGS) $^ -o $@
	@$(call emulated,$@)

bench-worst: $(B)/opt/bench_worst
	$< 400

differential: $(ARCHIVE)
	RTCM_RS_SOURCE="$(RUST_SOURCE)" PEERIVOLT_ARCHIVE="$(CURDIR)/$(ARCHIVE)" differential/run.sh
endif

differential-faults:
	RTCM_RS_SOURCE="$(RUST_SOURCE)" differential/faults.sh

lint:
	@if command -v clang >/dev/null; then \
	    for file in c/*.c; do clang $(STD) $(WARN) -Wconversion -Iinclude -fsyntax-only $$file || exit 1; done; \
	    echo "clang: clean"; \
	else echo "clang: skipped, since it is not here"; fi
	@if command -v cppcheck >/dev/null; then \
	    cppcheck -q --std=c11 --enable=warning,portability,performance --inline-suppr --error-exitcode=1 -Iinclude c/*.c && \
	    echo "cppcheck: clean"; \
	else echo "cppcheck: skipped, since it is not here"; fi

clean:
	rm -rf build libpeerivolt.a libpeerivolt.so libpeerivolt.so.*
