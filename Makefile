# `make` alone lists the targets: what stands behind ## on a rule's line, here and in files that are included.
.PHONY: help demo test each checks vectors kit needs cross lib bench dock c-host rust-host host host-test c-test rust-test script bench-test help-test differ-test \
	live-test same hybrids targets soak measure

help:
	@awk 'function show(name) { printf "  make %-14s %s\n", name, line[name] } \
		/^[a-z][a-z0-9-]*:.*## / { name = substr($$0, 1, index($$0, ":") - 1); line[name] = substr($$0, index($$0, "## ") + 3); order[++count] = name } \
		END { print "For a newcomer:"; show("demo"); show("test"); print "\nFor work on it and with it:"; \
			for (i = 1; i <= count; i++) if (order[i] !~ /^(demo|test)$$/) show(order[i]) }' $(MAKEFILE_LIST)

WARN = -Wall -Wextra -Werror -pedantic -O2 -Iinclude
CARGO = cargo --offline --quiet
export CARGO_TARGET_DIR := $(CURDIR)/build/cargo
WITH_SMALL = CASTULFRISA_VARIANT=small CARGO_TARGET_DIR=$(CURDIR)/build/cargo-small
RUST = build/cargo/release
RUST_SMALL = build/cargo-small/release
LIB = build/libcastulfrisa.a
SMALL = build/libcastulfrisa-small.a
TARGETS := $(filter-out x86-64,$(shell sh host/clang.sh targets))
SEED = 20261115

# What is missing is said ahead of the proof, and once: a make within this one is told so by ASKED.
demo: ## prove and build the library, and let a host on OpenSSL meet a real sshd and ssh (VERBOSE=1: step by step)
	@sh tests/needs.sh kit host
	@$(MAKE) --no-print-directory ASKED=yes dock bench
	@python3 tests/live/demo.py --dock build/dock --bench build/bench --steps build/demo.txt $(if $(VERBOSE),--verbose)

# The gate. Its last line is that of rt ci, printed where all else passed too.
test: ## the gate: every proof, every edit that must be refused, then the compiled library (from nothing an hour; what a run passed is kept)
	@sh tests/gate.sh

# What the gate asks of what was proved. Packages behind the other machines' archives: it packs those that it finds whole.
checks: host-test targets help-test package-test ## all that the gate does behind the proofs

# What the programs read and what they must print, held to the captures, to published digests and keys, and to an account of the specification of its own;
# the exports, to the functions that they call; the pictures, to the tables of the code; and what cites the specification, to its rules.
vectors: ## what programs print, what is exported, the pictures, and the specification's numbers
	python3 tests/expect_views.py --check
	python3 tests/expect_in_place.py --check
	python3 tests/expect_sha2.py --check
	python3 tests/expect_keys.py --check
	python3 tests/exports.py --check
	python3 docs/draw.py --check
	python3 tests/cited.py

# As the gate does, behind an `rt ci` whose words are in build/ci.log.
each: kit ## each wrong program of an edit by itself, by a trial more of the edit (eight minutes, and again only what something moved)
	python3 tests/refused.py --each

# Whether there is a kit, and which.
kit:
	@$(if $(ASKED),,sh tests/needs.sh kit)

# The static library, for speed and for size: proved first (some minutes from nothing), and left alone where nothing that it is made
# of changed. TARGET names another machine to build it for, one of TARGETS or several; those archives go into build/TARGET/.
lib: kit ## the static library in build/, proved first; with TARGET=aarch64 for that machine too
	@sh host/lib.sh $(sort x86-64 $(TARGET))

# lib alone knows whether they changed, and leaves them as old as they are where they did not
$(LIB) $(SMALL): lib
	@:

# Whether the library for speed is byte for byte what rt makes by itself, for every x86-64 as here. It proves what rt has not, and builds it.
same: lib ## whether the library is byte for byte what rt makes by itself
	@cd crates/boundary_c && rt lib --cpu x86-64 > ../../build/same.log 2>&1 || { tail -n 20 ../../build/same.log; exit 1; }
	cmp crates/boundary_c/out/libboundary_c.a $(LIB)

# Debian's packages, installed where what they have is missing: what a host on OpenSSL and its tests need, and what makes and runs programs for other
# machines. Cross behind the others: apt-get runs once at a time.
needs: ## install what is missing of Debian's packages for the hosts and their tests
	@$(if $(ASKED),,sh tests/needs.sh host)
cross: needs ## the same for programs of other machines: cross compilers and qemu
	@$(if $(ASKED),,sh tests/needs.sh cross)

# The C programs, plain and under the sanitizers, and with the library for size. What the stack is left with depends on the level of
# optimization, and on whether memcpy and memset are looked up ahead or at their first call.
SAN = -fsanitize=address,undefined -fno-sanitize-recover=all -g
HEADER = tests/header_test.c tests/header_steps.c tests/header_32.c
DOCK = $(wildcard host/dock/*.c)
LAZY = -Wl,-z,lazy -DCASTULFRISA_STACK=8192
# dock with keys that are wrong, for the live test alone
WRAPPED = castulfrisa_derive castulfrisa_take_secret castulfrisa_verdict castulfrisa_sign

C_PLAIN = $(addprefix build/host/,header_c header_cc stack_0 stack_2 stack_lazy example header_san example_san bench_san dock_san dock_wrong)
C_SMALL = $(addprefix build/host/,header_small stack_small_0 stack_small_2 stack_small_lazy example_small bench_small)
ON_OPENSSL = build/dock $(filter %/example %/example_san %/example_small %/dock_san %/dock_wrong,$(C_PLAIN) $(C_SMALL))
C_SOURCES = $(filter %.c,$^) $(filter %.a,$^)

bench: build/bench ## a program that answers scripts of calls
	@:
dock: needs build/dock ## a host on OpenSSL: an SSH client and server that exchange keys
	@:
c-host: needs build/bench build/dock $(C_PLAIN) $(C_SMALL)

build/bench build/dock $(C_PLAIN): $(LIB)
$(C_SMALL): $(SMALL)
build/bench build/dock $(C_PLAIN) $(C_SMALL): include/castulfrisa.h Makefile | build/host
$(C_PLAIN) $(C_SMALL): $(wildcard tests/*.h)
$(ON_OPENSSL): | needs
build/host:
	@mkdir -p $@

build/bench: host/bench.c
	gcc -std=c11 $(WARN) $(C_SOURCES) -o $@
build/host/bench_san build/host/bench_small: host/bench.c
	gcc -std=c11 $(WARN) $(SAN) $(C_SOURCES) -o $@
build/dock build/host/dock_san build/host/dock_wrong: $(DOCK) host/dock/dock.h
build/dock:
	gcc -std=c11 $(WARN) $(C_SOURCES) -lcrypto -o $@
build/host/dock_san:
	gcc -std=c11 $(WARN) $(SAN) $(C_SOURCES) -lcrypto -o $@
build/host/dock_wrong: tests/live/wrong_keys.c
	gcc -std=c11 $(WARN) $(C_SOURCES) $(WRAPPED:%=-Wl,--wrap=%) -lcrypto -o $@
build/host/header_c build/host/header_cc build/host/header_san build/host/header_small: $(HEADER)
build/host/header_c build/host/header_small:
	gcc -std=c11 $(WARN) $(C_SOURCES) -o $@
build/host/header_cc:
	g++ -std=c++17 $(WARN) -x c++ $(filter %.c,$^) -x none $(filter %.a,$^) -o $@
build/host/header_san:
	gcc -std=c11 $(WARN) $(SAN) $(C_SOURCES) -o $@
build/host/stack_0 build/host/stack_small_0: tests/stack_test.c
	gcc -std=c11 $(WARN) -O0 -Wl,-z,now $(C_SOURCES) -o $@
build/host/stack_2 build/host/stack_small_2: tests/stack_test.c
	gcc -std=c11 $(WARN) -Wl,-z,now $(C_SOURCES) -o $@
build/host/stack_lazy build/host/stack_small_lazy: tests/stack_test.c
	gcc -std=c11 $(WARN) $(LAZY) $(C_SOURCES) -o $@
build/host/example build/host/example_small: host/example.c
	gcc -std=c99 $(WARN) $(C_SOURCES) -lcrypto -o $@
build/host/example_san: host/example.c
	gcc -std=c99 $(WARN) $(SAN) $(C_SOURCES) -lcrypto -o $@

# The Rust side, and what of it compares, with the library for size.
rust-host: lib ## the Rust wrapper, the plain implementation and what compares them
	cd host && $(CARGO) build --release && $(CARGO) build --release --examples
	cd host && $(WITH_SMALL) $(CARGO) build --release -p differ

host: c-host rust-host ## every program that the tests call

# The compiled library: its header, its hosts, and every answer against the plain implementation of the specification.
host-test: c-test rust-test bench-test differ-test live-test ## the compiled library: header, hosts, and every answer against plain Rust

# The header also for 32 bits; and a result that is ignored must be refused: for that alone, and of each of the header's entries.
c-test: c-host ## the header, the stack and the example, in C and C++, also under the sanitizers
	build/host/header_c && build/host/header_cc && build/host/header_san && build/host/header_small
	gcc -std=c11 $(WARN) -m32 -ffreestanding -fsyntax-only tests/header_32.c
	gcc -std=c11 $(WARN) -Wno-unused-result -c tests/ignored.c -o build/host/ignored.o
	! gcc -std=c11 $(WARN) -c tests/ignored.c -o build/host/ignored.o 2> build/host/ignored
	test $$(grep -c 'Werror=unused-result' build/host/ignored) = $$(grep -c '^    castulfrisa_.*(' tests/ignored.c)
	test $$(grep -c '^CASTULFRISA_MUST_USE' include/castulfrisa.h) = $$(grep -c '^    castulfrisa_.*(' tests/ignored.c)
	build/host/stack_0 && build/host/stack_2 && build/host/stack_lazy
	build/host/stack_small_0 && build/host/stack_small_2 && build/host/stack_small_lazy
	build/host/example && build/host/example_san && build/host/example_small

rust-test: rust-host ## the Rust wrapper, plain Rust's own tests, every captured exchange
	cd host && $(CARGO) test && $(CARGO) test --release -p castulfrisa --tests
	$(RUST)/examples/exchange
	$(RUST)/captures tests/captures
	$(RUST_SMALL)/captures tests/captures

# A script of calls, and plain Rust's answers.
script: rust-host
	@mkdir -p build/host
	$(RUST)/script $(SEED) 3000 2000 2000 > build/host/script
	$(RUST)/plain_bench < build/host/script > build/host/answers

bench-test: c-host script ## worked examples, published keys, captures and 59,000 random calls through the bench
	python3 tests/bench_test.py build/bench
	python3 tests/bench_test.py build/host/bench_small
	python3 tests/worked_test.py build/bench
	python3 tests/worked_test.py build/host/bench_small
	for bench in build/bench build/host/bench_san build/host/bench_small; do \
		$$bench < build/host/script > build/host/ours && cmp build/host/ours build/host/answers || exit 1; done
	@echo "bench: $$(wc -l < build/host/answers) answers as the plain implementation gives them, for speed and for size, also under the sanitizers"

# Every test says how it is called.
help-test: host ## whether every test says how it is called
	python3 tests/help_test.py

differ-test: rust-host ## the library against plain Rust, by random calls
	$(RUST)/differ --seed $(SEED)
	$(RUST_SMALL)/differ --seed $(SEED) --lists 100000 --rounds 30000 --hashes 30000

live-test: c-host ## dock against OpenSSH and hostile peers
	python3 tests/live/live.py --dock build/dock --dock-asan build/host/dock_san --dock-wrong build/host/dock_wrong

# Methods 7 to 9 live, on demand: Debian 12's libcrypto has no ML-KEM, so trixie's is fetched from Debian's archive, with its OpenSSH and PuTTY, and libssh
# of forky, and unpacked into build/; nothing is installed. What is made with their libraries runs with their C library too.
HYBRIDS = build/hybrids
MULTIARCH = $(shell gcc -print-multiarch)
NEWER = -Wl,--allow-shlib-undefined
hybrids: needs lib ## methods 7 to 9 live, with newer programs of Debian's, fetched and unpacked into build/
	@sh tests/suite.sh trixie $(HYBRIDS)/trixie openssh-server openssh-client putty-tools libssl-dev
	@sh tests/suite.sh forky $(HYBRIDS)/forky libssh-dev
	gcc -std=c11 $(WARN) -isystem $(HYBRIDS)/trixie/usr/include -isystem $(HYBRIDS)/trixie/usr/include/$(MULTIARCH) $(DOCK) $(LIB) \
		$(HYBRIDS)/trixie/usr/lib/$(MULTIARCH)/libcrypto.so $(NEWER) -o $(HYBRIDS)/dock
	gcc -std=c11 $(WARN) -idirafter $(HYBRIDS)/forky/usr/include tests/live/libssh_peer.c $(HYBRIDS)/forky/usr/lib/$(MULTIARCH)/libssh.so $(NEWER) \
		-o $(HYBRIDS)/libssh_peer
	python3 tests/live/hybrids.py --dock $(HYBRIDS)/dock --suite $(HYBRIDS)/trixie --libssh $(HYBRIDS)/forky --peer $(HYBRIDS)/libssh_peer

# The library for other machines, under qemu: header, stack, the script, the specification's examples and the captures, and what it costs there.
targets: cross script ## the library for other machines, under qemu
	@sh host/lib.sh $(TARGETS)
	python3 tests/targets.py build/host/script build/host/answers

# Longer runs: exchanges with a real sshd, and many in one connection with sshd and ssh; and the library against the plain implementation, with another
# seed each time.
soak: host ## longer runs with sshd and ssh, and against plain Rust
	python3 tests/live/soak.py --dock build/dock --count 2000 --later 2000
	$(RUST)/differ --seed $$(date +%s) --lists 20000000 --rounds 4000000 --hashes 4000000 --progress
	$(RUST_SMALL)/differ --seed $$(date +%s) --lists 2000000 --rounds 400000 --hashes 400000 --progress

# docs/MEASUREMENTS.md has what this printed. Archives for other machines count where they were made.
measure: rust-host ## print the figures of docs/MEASUREMENTS.md
	@sh host/lib.sh x86-64 $(patsubst build/%/libcastulfrisa.a,%,$(wildcard build/*/libcastulfrisa.a))
	python3 tests/measure.py $(RUST)/timing $(RUST_SMALL)/timing

include packaging/package.mk
