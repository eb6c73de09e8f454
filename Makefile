# Everything that README.md names: `make help` lists it. All that is made lies below target/, and in crates/*/out, where rt keeps its work.

prefix = /usr/local
libdir = $(prefix)/lib
includedir = $(prefix)/include
pkgconfigdir = $(libdir)/pkgconfig

CC = gcc
CXX = g++
CARGO = cargo
RUSTC = rustc
INSTALL = install

SHELL = /bin/bash
# messages that the tests look for are in English, and `cd` goes where it says
export LC_ALL = C.UTF-8
unexport CDPATH
.SHELLFLAGS = -e -o pipefail -c
.DEFAULT_GOAL = help

# The library that tests, examples and the installation link. Another one is taken as it is.
LIB = target/libzukemoriha.a
# where the C programs and the Rust crates are built
out = target/c
# the same programs on a library that can make mistakes
faults = target/faulty
linked = $(out)/lib/libzukemoriha.a
# what the tests by diff look at; tests/altered.sh gives them altered copies
header = include/zukemoriha.h
code = $(linked)
stored = examples
pages = .
placed = $(out)/prefix
pc = zukemoriha.pc.in

exports = export_remainder export_remquo export_steps export_scaling export_fold export_facts export_stems
# the line program, where rt leaves it
lines = crates/remainder_lines/out/remainder_lines
programs = host untouched nans chains fold half fprem libm ldexp stems stem_writer modes
sanitized = sanitized-stems sanitized-stem_writer
version = $(shell sed -n 's/^\#define ZK_VERSION "\(.*\)"/\1/p' include/zukemoriha.h)
warnings = -Wall -Wextra -pedantic
cflags = -std=c99 -O2 $(warnings) -Iinclude
# what is compared or measured is the C library's function, not what the compiler makes of its name
unbuilt = $(foreach n,fmod remainder remquo ldexp frexp,-fno-builtin-$(n) -fno-builtin-$(n)f -fno-builtin-$(n)l)
sanitize = -g -fsanitize=address,undefined -fno-sanitize-recover=all
parallel = $(MAKE) --no-print-directory -j$$(nproc) --output-sync=target
headers = tests/calls.h tests/operands.h tests/halves.h tests/stems.h include/zukemoriha.h
exported = sed -n 's/^[a-z0-9_]* \(zk_[a-z0-9_]*\)(.*/\1/p' $(header)
# Run in rust/: nothing comes from a registry, and the caller's flags are left out. The crate looks for the archive from its own folder.
unset = MAKEFLAGS MFLAGS CARGO_MAKEFLAGS RUSTFLAGS CARGO_ENCODED_RUSTFLAGS CARGO_BUILD_RUSTFLAGS CARGO_BUILD_TARGET \
    CARGO_TARGET_X86_64_UNKNOWN_LINUX_GNU_RUNNER CARGO_TARGET_X86_64_UNKNOWN_LINUX_GNU_RUSTFLAGS
cargo = env $(addprefix -u ,$(unset)) CARGO_TARGET_DIR=../$(out)/rust ZUKEMORIHA_LIB_DIR=../../$(out)/lib $(CARGO)

# ---- what README.md names

.PHONY: help run test check tests check-long check-faults bench figures times archive install uninstall clean

help: ## this list
	@sed -n 's/^\([a-z-]*\):.*## \(.*\)/  make \1\t\2/p' $(firstword $(MAKEFILE_LIST)) | expand -t 22

run: ## prove and build the line program, and run it on its sample (minutes)
	$(build-lines)
	$(lines) < examples/lines.in | tee target/lines.out
	@diff examples/lines.out target/lines.out

# rt ci is the gate of the proofs; the tests are run on an archive that is made after it; its verdict is held back until they have passed too
test: tools ## the gate: every proof, every edit that must be refused, every test; ends in 'N passed, 0 failed'
	rt ci | sh tests/held.sh target || { cat target/verdict; exit 1; }
	rm -f target/libzukemoriha.a
	$(parallel) tests
	@cat target/verdict

check: tools ## what has changed is proved, then the tests (minutes)
	rt all check
	$(parallel) tests
	@echo 'every crate proved, every test passed'

tests: header machine documents examples install-check rust $(addprefix test-,$(programs)) test-sanitized controls altered ## the tests alone, on the archive of what is proved

check-long: peers long-half $(addprefix long-,chains fprem libm ldexp stems stem_writer libm-musl ldexp-musl mpfr) ## ten million cases a format, musl, MPFR, all pairs of binary16 (an hour; cases=N seed=N for others)

check-faults: $(addprefix $(faults)/,$(programs)) ## the tests on a library with one fault at a time: each has to be noticed
	sh tests/faults.sh $(faults) '$(subst $(out)/,$(faults)/,$(cargo))'

bench: bench-calls bench-lines ## times, ratios and instructions of calls, in Markdown, then the line program (four minutes)

figures: $(out)/bench | meters ## draw docs/figures anew: the time of one call against the gap (two minutes)
	mkdir -p docs/figures
	sh bench/figures.sh $(out)/bench $(out) $(newest) docs/figures

times: ## when each crate was proved in the last `make test`, and its edits
	@test -f target/ci.log || { echo 'there are no times yet: run make test first'; exit 1; }
	@awk -f tests/times.awk target/ci.log

archive: target/libzukemoriha.a ## prove and build the library that a host links, target/libzukemoriha.a

install: $(LIB) ## to prefix (/usr/local), libdir, includedir, below DESTDIR
	$(INSTALL) -d $(DESTDIR)$(libdir) $(DESTDIR)$(pkgconfigdir) $(DESTDIR)$(includedir)
	$(INSTALL) -m 644 $(LIB) $(DESTDIR)$(libdir)/libzukemoriha.a
	$(INSTALL) -m 644 include/zukemoriha.h $(DESTDIR)$(includedir)/zukemoriha.h
	sed 's|@prefix@|$(abspath $(prefix))|; s|@libdir@|$(abspath $(libdir))|; s|@includedir@|$(abspath $(includedir))|; s|@version@|$(version)|' \
	    $(pc) > $(DESTDIR)$(pkgconfigdir)/zukemoriha.pc
	chmod 644 $(DESTDIR)$(pkgconfigdir)/zukemoriha.pc

uninstall: ## what install has put there
	rm -f $(DESTDIR)$(libdir)/libzukemoriha.a $(DESTDIR)$(includedir)/zukemoriha.h $(DESTDIR)$(pkgconfigdir)/zukemoriha.pc

clean: ## remove all that is made
	rm -rf target rust/target crates/*/out

# ---- what the commands need beyond the kit: Debian's packages, where something is missing

.PHONY: joiner tools peers meters

# $(call need,COMMANDS,PACKAGES)
need = @missing=$$(for name in $(1); do command -v $$name > /dev/null || echo $$name; done); \
	[ -z "$$missing" ] || { echo missing: $$missing; apt-get update && apt-get install -y $(2); }

joiner:
	$(call need,ar,binutils)

tools: joiner
	$(call need,$(CC) $(CXX) pkg-config $(CARGO) $(RUSTC),gcc g++ libc6-dev pkg-config cargo rustc)

peers:
	$(call need,musl-gcc $(if $(wildcard /usr/include/mpfr.h),,mpfr.h),musl-tools libmpfr-dev)

meters:
	$(call need,valgrind gnuplot $(if $(wildcard $(musl)),,musl) $(if $(wildcard /usr/include/*/sleef.h),,sleef.h),valgrind gnuplot-nox musl-dev libsleef-dev)

# ---- the archive

# rt proves what has changed, and compiles each crate of exports as a static library; ar joins their objects
target/libzukemoriha.a: $(shell find crates -path '*/out' -prune -o \( -name '*.rt' -o -name '*.antt' \) -print) crates.txt | joiner
	for crate in $(exports); do (cd crates/$$crate && rt lib); done
	mkdir -p $(@D)
	rm -f $@
	{ echo create $@; $(foreach crate,$(exports),echo addlib crates/$(crate)/out/lib$(crate).a;) echo save; echo end; } | ar -M

# rt proves and builds the line program, and runs it, here on nothing
build-lines = (cd crates/remainder_lines && rt run < /dev/null); mkdir -p target

# what the tests are linked with: a copy, so that another library is a newer file, whatever its date
$(linked): $(LIB) always | $(out)
	@cmp -s $(LIB) $@ || { mkdir -p $(@D); cp $(LIB) $@; }

$(out): | tools
	mkdir -p $@

.PHONY: always

always:

# ---- tests from outside

.PHONY: header machine documents examples install-check rust test-sanitized $(addprefix test-,$(programs))

# it compiles, and names what the archive exports, no more and no less
header: $(linked)
	echo '#include "$(notdir $(header))"' | $(CC) -std=c99 $(warnings) -Werror -I$(dir $(header)) -fsyntax-only -x c -
	echo '#include "$(notdir $(header))"' | $(CXX) $(warnings) -Werror -I$(dir $(header)) -fsyntax-only -x c++ -
	nm -g --defined-only $(linked) | awk 'NF == 3 { print $$3 }' | sort | diff <($(exported) | sort) -

# it is whole, and computes in integers
machine: $(linked)
	sh tests/machine.sh $(code)

$(out)/%: examples/%.c include/zukemoriha.h $(linked)
	$(CC) $(cflags) $< $(linked) -o $@

examples: $(out)/fold_angle $(out)/step80 $(out)/stem_file
	$(out)/fold_angle | diff $(stored)/fold_angle.out -
	$(out)/step80 | diff $(stored)/step80.out -
	$(out)/stem_file | diff $(stored)/stem_file.out -

here = prefix=$(placed) libdir=$(placed)/lib includedir=$(placed)/include pkgconfigdir=$(placed)/lib/pkgconfig DESTDIR=

install-check: $(linked)
	$(MAKE) --no-print-directory install $(here) LIB=$(LIB)
	export PKG_CONFIG_PATH=$(placed)/lib/pkgconfig; \
	$(CC) -std=c99 $(warnings) examples/fold_angle.c $$(pkg-config --cflags --libs zukemoriha) -o $(out)/installed
	$(out)/installed | diff $(stored)/fold_angle.out -
	$(MAKE) --no-print-directory uninstall $(here)
	! find $(placed) -type f | grep .

# the tests run the line program; rt builds it again if it has changed, and nothing else here calls rt once there is an archive
rust: $(linked)
	$(build-lines)
	cd rust && $(cargo) test --release --offline --locked --no-fail-fast --features zukemoriha/std
	cd rust && RUSTDOCFLAGS='-D warnings' $(cargo) doc --no-deps --offline --quiet

# what the documents name is there, and what a host calls has no requires
documents:
	sh tests/documents.sh $(pages)

# objects, linked here with the archive and below with the faults
link = $(if $(filter host,$*),$(CXX),$(CC))

$(addprefix $(out)/,$(addsuffix .o,$(filter-out host,$(programs)))): $(out)/%.o: tests/%.c $(headers) | $(out)
	$(CC) $(cflags) $(unbuilt) -Itests -c $< -o $@

$(out)/host.o: tests/host.cc include/zukemoriha.h | $(out)
	$(CXX) -O2 $(warnings) -Iinclude -c $< -o $@

$(addprefix $(out)/,$(programs)): $(out)/%: $(out)/%.o $(linked)
	$(link) $< $(linked) -lm -o $@

$(addprefix test-,$(programs)): test-%: $(out)/%
	$<

# under the compiler's sanitizers, which Debian's gcc brings (tests/stems.h says what they see)
$(addprefix $(out)/,$(addsuffix .o,$(sanitized))): $(out)/sanitized-%.o: tests/%.c $(headers) | $(out)
	$(CC) $(cflags) $(unbuilt) -Itests $(sanitize) -c $< -o $@

$(addprefix $(out)/,$(sanitized)): $(out)/%: $(out)/%.o tests/sanitized.sh $(linked)
	$(CC) $(sanitize) $< $(linked) -lm -o $@-program
	$(INSTALL) tests/sanitized.sh $@

test-sanitized: $(addprefix $(out)/,$(sanitized))
	$(out)/sanitized-stems 200000
	$(out)/sanitized-stem_writer 20000

# ---- the long part

.PHONY: long-half $(addprefix long-,chains fprem libm ldexp stems stem_writer libm-musl ldexp-musl mpfr)

cases = 10000000
seed = 2
bits =

# a second C library: the same programs, linked with it
$(out)/%-musl: tests/%.c $(headers) $(linked) | peers
	musl-gcc -static $(cflags) $(unbuilt) -Itests $< $(linked) -lm -o $@

$(out)/mpfr: tests/mpfr.c $(headers) $(linked) | peers
	$(CC) $(cflags) -Itests $< $(linked) -lmpfr -lgmp -o $@

# musl's remquo and remquof give so many bits of the quotient, where C promises three
long-libm-musl: bits = 31

$(addprefix long-,chains fprem libm ldexp stems stem_writer libm-musl ldexp-musl mpfr): long-%: $(out)/%
	$< $(cases) $(seed) $(bits)

# all pairs of binary16: against whole-number division, and against the second implementation
long-half: $(out)/half
	$(out)/half 1
	cd rust && $(cargo) run --release --offline --locked --bin half

# ---- faults: the exports renamed, and functions of the same names before them that make one mistake

.PHONY: controls altered

$(faults)/lib/libzukemoriha.a: tests/faults.c include/zukemoriha.h $(linked)
	mkdir -p $(@D)
	$(exported) | sed 's/.*/& real_&/' > $(faults)/names
	objcopy --redefine-syms=$(faults)/names $(linked) $@
	$(CC) $(cflags) -c tests/faults.c -o $(faults)/faults.o
	ar r $@ $(faults)/faults.o

$(addprefix $(faults)/,$(programs)): $(faults)/%: $(out)/%.o $(faults)/lib/libzukemoriha.a
	$(link) $< $(faults)/lib/libzukemoriha.a -lm -o $@

$(addprefix $(faults)/,$(sanitized)): $(faults)/%: $(out)/%.o tests/sanitized.sh $(faults)/lib/libzukemoriha.a
	$(CC) $(sanitize) $< $(faults)/lib/libzukemoriha.a -lm -o $@-program
	$(INSTALL) tests/sanitized.sh $@

# libm on a C library whose remainder is its fmod
$(faults)/disputed: $(out)/libm.o $(faults)/lib/libzukemoriha.a
	objcopy --redefine-sym remainder=fmod $< $@.o
	$(CC) $@.o $(faults)/lib/libzukemoriha.a -lm -o $@

controls: $(addprefix $(faults)/,$(programs) $(sanitized) disputed)
	sh tests/controls.sh $(faults) $(programs) $(sanitized)

# the tests by diff on altered copies, once they have passed on what there is
altered: header machine documents examples install-check
	MAKE='$(MAKE) --no-print-directory' sh tests/altered.sh $(out)/altered

# ---- measurements

.PHONY: bench-calls bench-lines

musl = /usr/lib/x86_64-linux-musl/libc.a
musl_names = $(foreach n,fmod remainder,$(n) $(n)f $(n)l)
musl_members = $(addsuffix .lo,$(musl_names) remquo remquof)
newest = target/newest-libc

# an object and not a whole Rust archive: that one brings a fmod of its own, which would be linked in the C library's place
$(out)/shift.o: bench/shift.rs | $(out)
	$(RUSTC) -O -C panic=abort --crate-type staticlib --emit obj $< -o $@

# here that fmod is the peer: it is joined to the one function that calls it, and hidden
$(out)/percent.o: bench/percent.rs | $(out)
	$(RUSTC) -O -C panic=abort --crate-type staticlib $< -o $(out)/libpercent.a
	ld -r -u rust_percent $(out)/libpercent.a -o $(out)/percent-open.o
	objcopy --keep-global-symbol=rust_percent $(out)/percent-open.o $@

# musl's functions, under names that the C library does not have
$(out)/musl.o: Makefile | $(out) meters
	cd $(out) && ar x $(musl) $(musl_members) && ld -r $(musl_members) -o musl-open.o
	objcopy $(foreach n,$(musl_names),--redefine-sym $(n)=musl_$(n) --keep-global-symbol=musl_$(n)) $(out)/musl-open.o $@

$(out)/sleef4.o: lanes = -mavx -DLANES=4
$(out)/sleef8.o: lanes = -mavx512f -DLANES=8
$(out)/sleef4.o $(out)/sleef8.o: bench/sleef.c | $(out) meters
	$(CC) $(cflags) $(lanes) -c $< -o $@

peer_objects = $(addprefix $(out)/,shift.o percent.o musl.o sleef4.o sleef8.o)

bench_sources = $(addprefix bench/,bench.c harness.c operands.c peers.c doubles.c x87.c floats.c scaling.c)

$(out)/bench: $(bench_sources) bench/harness.h bench/peers.h bench/tables.h include/zukemoriha.h $(peer_objects) $(linked)
	$(CC) $(cflags) $(bench_sources) $(peer_objects) $(linked) -lsleef -ldl -o $@

bench-calls: $(out)/bench | meters
	@sed -n 's/^model name[^:]*: //p' /proc/cpuinfo | sed -n 1p; $(CC) --version | sed -n 1p; $(RUSTC) --version
	@dpkg-query -W -f '$${Package} $${Version}\n' musl-dev libsleef-dev
	sh bench/tables.sh $(out)/bench $(out) $(newest)

bench-lines: | $(out)
	$(build-lines)
	$(CC) -std=c99 -O2 $(warnings) bench/lines.c -lm -o $(out)/lines
	sh bench/lines.sh $(out)/lines $(lines)
