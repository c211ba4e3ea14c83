# The commands of the project. `make` or `make help` lists them.
.DEFAULT_GOAL := help
.PHONY: help run example test test-emulated lib tool install clean setup always

VERSION := $(shell sed -n 's/^.define LUO_VERSION "\(.*\)"/\1/p' include/luohtemik.h)
PREFIX ?= /usr/local
comma := ,
CFLAGS ?= -O2 -g
CFLAGS_ALL := -std=c11 -Wall -Wextra -Wpedantic -Wconversion -Iinclude $(CFLAGS)
RATTLE := $(shell find crates -name out -prune -o '(' -name '*.rt' -o -name '*.antt' ')' -print) crates.txt
TOOL := $(wildcard tool/*.c)

# The library is x86-64 on every machine. On another processor C is cross-compiled (CC), linked with LINK and run under an emulator
# (RUN), as tests/setup finds them; EMULATED=1 does so on x86-64 too. They are asked for where they are used: setup may install them.
ifeq ($(origin CC),default)
CC = $(shell EMULATED=$(EMULATED) tests/setup cc)
endif
ifeq ($(origin RUN),undefined)
RUN = $(shell EMULATED=$(EMULATED) tests/setup emulator)
endif
LINK := $(shell EMULATED=$(EMULATED) tests/setup link)

help: ## what there is
	@awk -F ':.*## ' '/^[a-z-]+:.*## / { printf "  make %-13s %s\n", $$1, $$2 }' $(MAKEFILE_LIST)

run: build/luohtemik ## the main job: build the tool and show what it says of a thermistor's class
	build/luohtemik check examples/Thermistor.class
	build/luohtemik show examples/Thermistor.class
	build/luohtemik lookup examples/Thermistor.class 20
	build/luohtemik dependants examples/Thermistor.class 10

example: build/constants ## a loader in C takes a table of constants: examples/constants.c on examples/Curve.class
	$(RUN) build/constants examples/Curve.class

test: ## all tests, from nothing; the last line is 'N passed, 0 failed', and only then has all passed
	@tests/all

test-emulated: lib ## the C tests, the tool's and a short comparison as on another processor: cross-compiled, under an emulator
	@tests/emulated

lib: build/libluohtemik.a build/luohtemik.pc ## the proved library for C: build/libluohtemik.a, include/luohtemik.h, build/luohtemik.pc

tool: build/luohtemik ## the tool: build/luohtemik

setup:
	@tests/setup run

build/libluohtemik.a: $(RATTLE) | setup
	@tests/library

# written anew each time, since PREFIX may be another
build/luohtemik.pc: always
	@mkdir -p build
	@printf '%s\n' 'prefix=$(PREFIX)' 'Name: luohtemik' 'Description: Java class files, read by proved calls' 'Version: $(VERSION)' 'Cflags: -I$${prefix}/include' 'Libs: -L$${prefix}/lib -lluohtemik' >$@

# what C is compiled and run with; written anew where that is another
build/host: always | setup
	@mkdir -p build
	@echo '$(CC) $(LINK) $(RUN)' | cmp -s - $@ || echo '$(CC) $(LINK) $(RUN)' >$@

ifeq ($(LINK),)
PROGRAM := build/luohtemik
else
PROGRAM := build/luohtemik.x86-64
build/luohtemik: tool/emulated $(PROGRAM) build/host
	@sed 's,@RUN@,$(RUN),' tool/emulated >$@
	@chmod +x $@
endif

$(PROGRAM): $(TOOL) tool/tool.h include/luohtemik.h include/luohtemik_tables.h build/libluohtemik.a build/host
	@$(CC) $(CFLAGS_ALL) $(TOOL) build/libluohtemik.a $(LINK) -o $@

build/entry_points: tests/c/entry_points.c include/luohtemik.h build/libluohtemik.a build/host
	@$(CC) $(CFLAGS_ALL) -Wno-conversion $< build/libluohtemik.a $(LINK) -o $@

build/entry_points_sanitized: tests/c/entry_points.c include/luohtemik.h build/libluohtemik.a build/host
	@$(CC) $(CFLAGS_ALL) -Wno-conversion -fsanitize=address,undefined -fno-sanitize-recover=all $< build/libluohtemik.a -o $@

build/guards: tests/c/guards.c tests/c/area.h include/luohtemik.h build/libluohtemik.a build/host
	@$(CC) $(CFLAGS_ALL) -D_DEFAULT_SOURCE $< build/libluohtemik.a $(LINK) -o $@

build/constants: examples/constants.c include/luohtemik.h include/luohtemik_tables.h build/libluohtemik.a build/host
	@$(CC) $(CFLAGS_ALL) $< build/libluohtemik.a $(LINK) -o $@

build/native build/stack: build/%: tests/c/%.c include/luohtemik.h include/luohtemik_tables.h build/libluohtemik.a build/host
	@$(CC) $(CFLAGS_ALL) -Wno-conversion $< build/libluohtemik.a $(LINK) -o $@

build/pages build/pages_sanitized: tests/c/pages.c include/luohtemik.h include/luohtemik_tables.h build/libluohtemik.a build/host
	@$(CC) $(CFLAGS_ALL) $(if $(findstring sanitized,$@),-fsanitize=address$(comma)undefined -fno-sanitize-recover=all) $< build/libluohtemik.a $(LINK) -o $@

# the tool once more, for tests/tool/run under sanitizers
build/luohtemik_sanitized: $(TOOL) tool/tool.h include/luohtemik.h include/luohtemik_tables.h build/libluohtemik.a build/host
	@$(CC) $(CFLAGS_ALL) -fsanitize=address,undefined -fno-sanitize-recover=all $(TOOL) build/libluohtemik.a -o $@

install: lib tool ## the library, header, tool and man page below PREFIX (default /usr/local)
	install -D -m 644 include/luohtemik.h $(DESTDIR)$(PREFIX)/include/luohtemik.h
	install -D -m 644 include/luohtemik_tables.h $(DESTDIR)$(PREFIX)/include/luohtemik_tables.h
	install -D -m 644 build/libluohtemik.a $(DESTDIR)$(PREFIX)/lib/libluohtemik.a
	install -D -m 644 build/luohtemik.pc $(DESTDIR)$(PREFIX)/lib/pkgconfig/luohtemik.pc
	install -D -m 755 build/luohtemik $(DESTDIR)$(PREFIX)/bin/luohtemik
	$(if $(LINK),install -D -m 755 $(PROGRAM) $(DESTDIR)$(PREFIX)/lib/luohtemik/luohtemik.x86-64)
	install -D -m 644 tool/luohtemik.1 $(DESTDIR)$(PREFIX)/share/man/man1/luohtemik.1

clean: ## remove what was built and what checks kept
	rm -rf build crates/*/out

-include compare/compare.mk

# ---- for whoever changes a rule: CONTRIBUTING.md
.PHONY: edits times
edits: ## every must-fail edit of CRATES (all, unless named), in a copy. Unless CRATES are named also contracts that say less
	@tests/edits $(CRATES)
	@test -n "$(CRATES)" || tests/tied

times: ## the seconds of the last `make test`: when each crate was proved, the edits
	@tests/times
