# make try:     builds thpsplit without proofs and runs the first script (SCRIPT=file: another)
# make run:     proves thpsplit and every library below it, several at a time (prove.py), builds it, and runs the first script
# make checker: the same for thpcheck, which checks journals of any length; make drawer: for thpdraw, which draws them
# make deps:    installs by apt-get what building and testing need beside the Rattle toolchain (packages.txt; root); KINDS=vm: for
#               make linux-vm
# make install: proves and installs the programs, the tools for the running kernel (thpreplay, thprecord, thpvm, thpwhatif),
#               manual pages and completions, below PREFIX (default /usr/local; DESTDIR as usual); SYSTEMD=1 also installs
#               thpwhatif.service and thpwhatif.timer. make uninstall removes them all
# make deb:     Debian packages of these and of the library for C, in DEBS (default: out); needs dpkg-dev and debhelper
# make dist:    proves and builds the release into DEBS: archives of programs, debug information and sources, and their hashes; each
#               archive has a file PROOF. make reproduce: the same with the packages, twice, compared byte for byte
#               ARCH=arm64 makes dist and deb for aarch64, without the tools for the running kernel (needs
#               gcc-aarch64-linux-gnu); make cross-test tests what that built (needs qemu-user-static; CASES=n)
# make dist-test: the archive, and packages, of DEBS in a clean Debian 12 by debootstrap (root, network; status 77 if one is missing)
# make test:    every check: proofs from scratch, the must-fail edits in crates/NAME/must-fail, tests, stored runs, examples,
#               documents; ends in 'N passed, M failed'. A check whose tool is missing is named and not counted; STRICT=1
#               counts it as failed
# make outside: examples and documents only; with PROGRAM=path that program's statuses and outputs, large inputs, and wrong
#               programs, which the tests must detect; SEED=s selects other random journals
# make fuzz:    random scripts, journals and words: the program against a second implementation of the model in Python;
#               CASES=n SEED=s; ends in a table of what was covered
# make memory:  makes each allocation and each start of a thread fail in turn (needs a C compiler)
# make c:       proves, builds and tests the library for C and Rust (docs/C.md); with PROGRAM=path also on CASES random
#               scripts against that program
# make edits:   all must-fail edits, in tests/edits and in crates/NAME/must-fail. The prover must refuse each at a clause; ends
#               in a count of each kind. CRATES=names: only of these crates
# make believe: counts the definitions and lines below the contracts that docs/PROVED.md names
# make linux:   random scripts on the running kernel and on the program: CASES=n SEED=s PROGRAM=path (needs root; status 77
#               if this machine can compare nothing)
# make linux-vm: the same on Debian's kernels in virtual machines, a recording and known differences (needs qemu-system-x86; without
#               KVM at most 40 minutes)
# make linux-programs: recordings of about 140 programs of Debian under memory pressure (root; about 30 minutes; linux/tests/programs/debian.txt
#               names their packages)
# make root-tests: attacks on the tools that run as root, and what these leave after any end (needs root; about 10 minutes)
# make bench:   times on large scripts, beside plain Rust, and of single calls (docs/PERFORMANCE.md has the figures)
# make help:    these lines
# README.md, "Commands", has the time that each takes.
PREFIX ?= /usr/local
PROGRAM = crates/thpsplit/out/thpsplit
CHECKER = crates/thpcheck/out/thpcheck
DRAWER = crates/thpdraw/out/thpdraw
ARCHIVE = crates/thp_c/out/libthp_c.a
SCRIPT = examples/first.script
DEBS ?= out
CASES ?= 2000
SEED ?= 1

.PHONY: help deps try run checker drawer install put put-tools uninstall deb dist reproduce dist-test cross-test test outside toolchain fuzz memory c edits believe linux linux-vm linux-programs root-tests bench

help:
	@sed -n '/^[^#]/q; s/^# //p' Makefile

KINDS ?= build package test
deps:
	apt-get -qq update
	DEBIAN_FRONTEND=noninteractive apt-get -qq install -y --no-install-recommends $(foreach kind,$(KINDS),$$(sed -n 's/^$(kind) //p' packages.txt))

# reports if the installed toolchain is not the one that everything was proved with
toolchain:
	@python3 tests/toolchain.py

try: toolchain
	@cd crates/thpsplit && rt try < ../../$(SCRIPT)

run: toolchain
	@python3 prove.py thpsplit run < $(SCRIPT)

# the second program, for journals of any length: proves it, builds it, and runs it on an example
checker: toolchain
	@python3 prove.py thpcheck run < examples/two_workers.journal

# the third one, which draws such journals: proves it, builds it, and prints the table of an example
drawer: toolchain
	@python3 prove.py thpdraw run -- --table < examples/two_workers.journal

# what is installed: the path below the prefix, and the file
INSTALLED = bin/thpsplit=$(PROGRAM) share/man/man1/thpsplit.1=docs/thpsplit.1 share/man/man5/thpsplit.5=docs/thpsplit.5 \
	share/bash-completion/completions/thpsplit=completions/thpsplit.bash \
	share/zsh/site-functions/_thpsplit=completions/_thpsplit \
	share/fish/vendor_completions.d/thpsplit.fish=completions/thpsplit.fish \
	bin/thpcheck=$(CHECKER) share/man/man1/thpcheck.1=docs/thpcheck.1 \
	share/bash-completion/completions/thpcheck=completions/thpcheck.bash \
	share/zsh/site-functions/_thpcheck=completions/_thpcheck \
	share/fish/vendor_completions.d/thpcheck.fish=completions/thpcheck.fish \
	bin/thpdraw=$(DRAWER) share/man/man1/thpdraw.1=docs/thpdraw.1 \
	share/bash-completion/completions/thpdraw=completions/thpdraw.bash \
	share/zsh/site-functions/_thpdraw=completions/_thpdraw \
	share/fish/vendor_completions.d/thpdraw.fish=completions/thpdraw.fish

install: run checker drawer $(ARCHIVE) put put-tools

# installs the files as they are
put:
	@for pair in $(INSTALLED); do \
		case $$pair in bin/*) mode=755 ;; *) mode=644 ;; esac; \
		install -D -m $$mode "$${pair#*=}" "$(DESTDIR)$(PREFIX)/$${pair%%=*}" && \
		echo "$(DESTDIR)$(PREFIX)/$${pair%%=*}" || exit 1; \
	done

# installs the tools for the running kernel with their helpers, those over libthp if its archive is built
TOOLS = thpreplay thprecord thpvm thpwhatif
put-tools:
	@lacking="$$($(MAKE) --no-print-directory -s -C linux lacking CC="$(CC)")"; \
	if test -z "$$lacking"; then \
		{ test ! -e $(ARCHIVE) || $(MAKE) --no-print-directory -s -C c; } && \
		$(MAKE) --no-print-directory -s -C linux install PREFIX="$(PREFIX)" DESTDIR="$(abspath $(DESTDIR))" && \
		for tool in $(TOOLS); do echo "$(abspath $(DESTDIR))$(PREFIX)/bin/$$tool"; done; \
	else echo "$(TOOLS) aren't installed: no $$lacking (Debian packages)"; fi

uninstall:
	@for pair in $(INSTALLED); do rm -f "$(DESTDIR)$(PREFIX)/$${pair%%=*}"; done
	@$(MAKE) --no-print-directory -s -C linux uninstall PREFIX="$(PREFIX)" DESTDIR="$(abspath $(DESTDIR))"

# what a release has the programs and the library of, for Debian's architecture ARCH
ARCH ?= amd64
ifeq ($(ARCH),arm64)
RELEASED = $(foreach name,thpsplit thpcheck thpdraw,crates/$(name)/out/aarch64/$(name)) crates/thp_c/out/aarch64/libthp_c.a
released: toolchain
	@python3 release/aarch64.py && python3 prove.py verdicts aarch64
else
RELEASED = $(PROGRAM) $(CHECKER) $(DRAWER) $(ARCHIVE)
released: toolchain
	@python3 prove.py is-released || { $(MAKE) --no-print-directory run checker drawer $(ARCHIVE) && python3 prove.py verdicts; }
endif
.PHONY: released

deb: released
	@python3 debian/build.py --arch $(ARCH) $(RELEASED) $(DEBS)

dist: released
	@python3 release/dist.py --arch $(ARCH) $(RELEASED) $(DEBS)

cross-test:
	@THOROUGH=1 CASES=$(CASES) SEED=$(SEED) python3 tests/run.py -p test_emulated.py

reproduce: released
	@python3 release/reproduce.py $(PROGRAM) $(CHECKER) $(DRAWER) $(ARCHIVE) $(DEBS)

dist-test:
	@RELEASE=$(DEBS) python3 tests/run.py -p test_clean_root.py

test: toolchain
	@python3 tests/gate.py

# PROGRAM on the command line names any program; without it `rt try` builds the code as it is
GIVEN = $(if $(filter command% environment%,$(origin PROGRAM)),$(PROGRAM))

outside:
	@for name in docs surface installed release lint; do python3 tests/run.py -p test_$$name.py || test $$? = 77 || exit 1; done
	@$(if $(GIVEN),for name in examples rows outside wrong_programs spoilt large workers; do THPSPLIT=$(GIVEN) python3 tests/run.py -p test_$$name.py || exit 1; done,TRY=1 python3 tests/run.py -p test_examples.py -k Examples || test $$? = 77)
	@$(if $(wildcard $(CHECKER)),THPCHECK=$(CHECKER) python3 tests/run.py -p test_checker.py)
	@$(if $(GIVEN)$(wildcard $(CHECKER)),THPSPLIT=$(GIVEN) THPCHECK=$(wildcard $(CHECKER)) python3 tests/run.py -p test_streams.py || test $$? = 77)
	@$(if $(and $(GIVEN),$(wildcard $(CHECKER))),SEED=$(SEED) THPCHECK=$(CHECKER) THPSPLIT=$(GIVEN) python3 tests/run.py -p test_repeats.py)
	@$(if $(wildcard $(DRAWER)),for name in drawer tables; do SEED=$(SEED) THPDRAW=$(DRAWER) python3 tests/run.py -p test_$$name.py || exit 1; done)
	@$(if $(and $(GIVEN),$(wildcard $(CHECKER)),$(wildcard $(DRAWER)),$(wildcard $(ARCHIVE))),THPSPLIT=$(GIVEN) THPCHECK=$(CHECKER) THPDRAW=$(DRAWER) LIBTHP_C=$(ARCHIVE) python3 tests/run.py -p test_package.py || test $$? = 77)

fuzz: run
	@python3 tests/fuzz.py $(PROGRAM) $(if $(wildcard $(CHECKER)),--checker $(CHECKER)) --cases $(CASES) --seed $(SEED)
	@$(if $(wildcard $(CHECKER)),CASES=10000 SEED=$(SEED) THPCHECK=$(CHECKER) THPSPLIT=$(PROGRAM) python3 tests/run.py -p test_repeats.py)

memory: run
	@cd crates/tests_spoilt && rt test
	@GROWTHS=memory:: THPSPLIT=$(PROGRAM) python3 tests/run.py -p test_memory.py

$(ARCHIVE):
	@python3 prove.py thp_c lib

# always run: `rt lib` knows what has changed
.PHONY: $(ARCHIVE)

c: toolchain $(ARCHIVE)
	@LIBTHP_C=$(ARCHIVE) $(if $(GIVEN),THPSPLIT=$(GIVEN) CASES=$(CASES) SEED=$(SEED)) python3 tests/run.py -p test_library.py
	@for name in wrong_boundary injected_bugs; do THOROUGH=1 LIBTHP_C=$(ARCHIVE) python3 tests/run.py -p test_$$name.py || exit 1; done

edits:
	@bash tests/edits/run $(CRATES)

believe:
	@python3 tests/believe.py

linux:
	@python3 -m linux.replay --program $(PROGRAM) --random $(CASES) --seed $(SEED) --quiet

linux-vm:
	@python3 tests/run.py linux/tests -p vm_trials.py

linux-programs:
	@python3 tests/run.py linux/tests -p program_trials.py

root-tests:
	@for script in $(notdir $(wildcard linux/tests/root_*.py)); do echo "== $$script"; python3 tests/run.py linux/tests -v -p $$script || test $$? = 77 || failed=1; done; test -z "$$failed"

bench:
	@bash bench/run
