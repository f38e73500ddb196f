# `make help` prints the targets. Paths here are relative, and scripts are called by their interpreters: the folder's
# name may have spaces, and no file needs an execute bit.
SHELL := bash
.SHELLFLAGS := -eu -o pipefail -c
.SUFFIXES:
MAKEFLAGS += --no-builtin-rules --no-print-directory
# What a target calls takes all processors itself.
.NOTPARALLEL:

# The logic of the toolchain that everything here was proved with. Any kit of this logic serves: 13b and 13f were tried.
LOGIC := dac8208d650f15bf
NEEDED := a Rattle toolchain of the logic $(LOGIC) is needed, such as kit 13b or 13f
KIT_CHECK := yes

VERSION := $(shell sed -n 's/^const VERSION.*"\(.*\)";/\1/p' crates/fohlazu/src/args.rt)
PROGRAMS := fohlazu mmcs
# Scripts of share/ that are installed beside the programs.
SCRIPTS := fohlazu-daily fohlazu-follow fohlazu-open fohlazu-sign
LIBRARY_FOR_C := libfohlazu.a libfohlazu.so
FILES := $(PROGRAMS) $(LIBRARY_FOR_C)
CPUS := x86-64-v2 x86-64-v3
QUICK := $(PROGRAMS:%=build/quick/%)
# What answers the cases of tests/fuzz.py, tests/memory, tests/peers and tests/rust/compare.py.
CASES := test_merkle test_log test_rust test_memory
LIBRARIES := build/libraries.tar.zst

# This processor: x86-64-v3 where each has what that adds to x86-64-v2. Linux calls lzcnt by the name abm.
CPU := $(shell cat /proc/cpuinfo 2>/dev/null | awk ' \
  BEGIN { n = split("avx avx2 bmi1 bmi2 f16c fma abm movbe", flags) } \
  /^flags/ { seen = 1; for (i = 1; i <= n; i++) if (!index($$0 " ", " " flags[i] " ")) lacks = 1 } \
  END { print seen && !lacks ? "x86-64-v3" : "x86-64-v2" }')
$(if $(filter $(CPU),$(CPUS)),,$(error CPU may be x86-64-v2 or x86-64-v3))

PREFIX := /usr/local
TO = $(DESTDIR)$(PREFIX)
# Where the programs come from that are installed: build, build/quick, or build/CPU.
FROM := build
INSTALLED := $(PROGRAMS:%=bin/%) $(SCRIPTS:%=bin/%) $(PROGRAMS:%=share/man/man1/%.1)
INSTALLED += $(PROGRAMS:%=share/bash-completion/completions/%) $(PROGRAMS:%=share/zsh/site-functions/_%)
INSTALLED_LIBRARY := $(LIBRARY_FOR_C:%=lib/%) lib/pkgconfig/fohlazu.pc include/fohlazu.h
LIBRARY := $(foreach folder,$(filter-out build/quick,$(FROM)),$(LIBRARY_FOR_C:%=$(folder)/%))

# What crates are built from, with those that they stand on: a folder is newer where a file went.
sources_of = crates.txt $(shell find $(patsubst %,crates/%,$(shell sh tools/crates.sh $(1))) \
  -name out -prune -o $(2) -print)
CODE := -regex 'crates/[^/]*/src.*'
ALL := -regex 'crates/[^/]*/\(src\|specs\|proofs\).*'

# Says in one line what is wrong with the toolchain.
define kit
@if ! kit="$$(rt version 2> /dev/null)"; then \
  echo '$(NEEDED): its command rt is not on the PATH' >&2; exit 3; \
elif [ '$(KIT_CHECK)' != no ] && [ "$${kit##*logic }" != $(LOGIC) ]; then \
  echo "$(NEEDED), and this is $$kit: KIT_CHECK=no builds all the same" >&2; exit 3; \
fi
endef

# Each is put in its place whole, so that none is deleted where make stops.
.PRECIOUS: $(QUICK) $(FILES:%=build/%) $(addprefix build/x86-64-%/,$(FILES)) $(LIBRARIES)

# What is run as if no make ran it: else a make in it would say where it is.
ALONE := env -u MAKEFLAGS -u MFLAGS -u MAKELEVEL

.PHONY: all quick libraries dist check check-quick toolchain documents install uninstall bench clean help FORCE
all: $(FILES:%=build/%)
	@:
quick: $(QUICK)
	@:
libraries: $(LIBRARIES)
	@:
dist: $(LIBRARIES) $(foreach cpu,$(CPUS),$(FILES:%=build/$(cpu)/%))
	@$(ALONE) bash tools/build.sh dist $(VERSION) $(LOGIC)

$(QUICK) &: tools/quick.sh $(call sources_of,$(PROGRAMS),$(CODE))
	$(kit)
	@bash tools/quick.sh build/quick $(PROGRAMS)

$(addprefix build/x86-64-%/,$(PROGRAMS)): tools/build.sh $(call sources_of,$(PROGRAMS),$(ALL))
	$(kit)
	@bash tools/build.sh programs x86-64-$*

$(addprefix build/x86-64-%/,$(LIBRARY_FOR_C)): tools/build.sh $(call sources_of,fohlazu_c,$(ALL))
	$(kit)
	@bash tools/build.sh library x86-64-$*

$(FILES:%=build/%): build/%: build/$(CPU)/% build/cpu
	@cp $< build/partial && mv -f build/partial $@

$(LIBRARIES): tools/build.sh share/rattle-with $(call sources_of,callers,$(ALL))
	$(kit)
	@bash tools/build.sh libraries

# It changes where the processor is another.
build/cpu: FORCE
	@mkdir -p build
	@[ "$$(cat $@ 2> /dev/null)" = $(CPU) ] || echo $(CPU) > $@

toolchain:
	$(kit)

documents:
	@python3 tools/audit
	@python3 tools/columns.py
	@python3 tools/strength.py --check
	@python3 tools/documents.py
	@python3 tools/package.py
	@python3 tools/refusals
	@python3 tools/rows.py
	@python3 tools/scripts.py
	@python3 tools/erase --check
	@python3 tests/erase

check-quick: toolchain documents quick
	@$(ALONE) python3 tests/check_quick.py

check: toolchain documents
	@$(ALONE) bash tests/gate.sh

install: $(PROGRAMS:%=$(FROM)/%) $(LIBRARY)
	@for name in $(PROGRAMS); do \
	  install -D "$(FROM)/$$name" "$(TO)/bin/$$name"; \
	  install -Dm 644 "share/$$name.bash" "$(TO)/share/bash-completion/completions/$$name"; \
	  install -Dm 644 "share/$$name.zsh" "$(TO)/share/zsh/site-functions/_$$name"; \
	  install -Dm 644 <(sed 's/@VERSION@/$(VERSION)/' "share/$$name.1") "$(TO)/share/man/man1/$$name.1"; \
	done
	@install -t "$(TO)/bin" $(SCRIPTS:%=share/%)
ifdef LIBRARY
	@install -Dm 644 -t "$(TO)/lib" $(LIBRARY)
	@install -Dm 644 -t "$(TO)/include" include/fohlazu.h
	@install -Dm 644 <(sed 's/@VERSION@/$(VERSION)/' share/fohlazu.pc) "$(TO)/lib/pkgconfig/fohlazu.pc"
endif
	@printf '%s\n' $(patsubst %,"$(TO)/%",$(INSTALLED) $(if $(LIBRARY),$(INSTALLED_LIBRARY)))

uninstall:
	@cd "$(TO)" && rm -f $(INSTALLED) $(INSTALLED_LIBRARY)

# `make bench PARTS='short openings'` measures these parts alone.
bench: toolchain
	@python3 bench/run.py $(PARTS)

clean:
	@rm -rf build bench/out

# How a program of cases is built is in its out/make.log.
.SECONDEXPANSION:
$(CASES:%=build/quick/%): build/quick/%: tools/quick.sh $$(call sources_of,$$*,$$(CODE))
	$(kit)
	@bash tools/quick.sh build/quick $*
$(CASES:%=build/%): build/%: $$(call sources_of,$$*,$$(ALL))
	$(kit)
	@mkdir -p build crates/$*/out && (cd crates/$* && $(ALONE) rt run) < /dev/null > crates/$*/out/make.log 2>&1 || \
	  { echo 'crates/$*/out/make.log says why $* is not built' >&2; exit 1; }
	@cp crates/$*/out/$* build/partial && mv -f build/partial $@

help:
	@sed -n 's/^#: \{0,1\}//p' Makefile

#: make              the programs and the libraries for C, proved, for this processor, in build/: one to two hours of
#:                   processor time the first time. CPU=x86-64-v2 or CPU=x86-64-v3 names another processor.
#:                   `make build/libfohlazu.a` proves the library for C alone, in half an hour
#: make quick        the programs with no proof, in build/quick/: two to five minutes
#: make check-quick  what can be tried with no proof: documents, tests, stored runs, random cases, commands, the Cargo
#:                   package; 20 minutes
#: make check        the gate: documents, the Cargo package, then proofs, tests, stored runs and the edits that must be
#:                   refused, then commands of the proved programs, and their answers with each request for memory
#:                   refused. It takes some 150 processor minutes, and needs a C compiler
#: make libraries    the proved libraries, with rattle-with: a crate over them is checked in a minute
#: make dist         archives of the programs and of the libraries, if cargo is installed also the package for Cargo,
#:                   with their checksums, in build/dist/
#: make documents    compares docs/ with the sources, and checks the form of shell scripts, by shellcheck if it is
#:                   installed: seconds. `python3 tools/audit write` and `python3 tools/strength.py` write what of docs/
#:                   is generated
#: make install      the programs, scripts, manual pages, completions and the libraries for C, below $DESTDIR$PREFIX;
#:                   PREFIX is /usr/local if it is not given. FROM=build/quick installs what has no proof
#: make uninstall    removes what was installed there
#: make bench        the benchmark; PARTS names parts of it (docs/PERFORMANCE.md)
#: make clean        removes build/. What was proved stays in crates/*/out, and is not proved again
#:
#: KIT_CHECK=no builds with a toolchain of another logic than the one that the Makefile names.
