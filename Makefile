# What the gate runs beside `rt ci`: the tests of the host's side, over the library that tools/c-library leaves, and the tools' own steps.
#
#     make -k -j2 check           what the gate runs of them: c cpp rust python java examples
#     make -k c                   the C: its headers, README's program, and tests/NAME.c with the flags of each NAME.FLAGS of TESTS
#     make device.asan            one of them
#     make -k tsan                those of threads under ThreadSanitizer
#     make fuzz SECONDS=600       altered files of heaps, by libFuzzer
#     make -k KILLS=100 kills     the examples, each killed so often by `kill -9` (8)
#     make LIBS=FOLDER ..         over the library of another folder
#
# Each target is a step, run by tools/step: it prints `passed: NAME`, or what went wrong and `FAILED: NAME`, or `LEFT OUT:` and what isn't there.
# What a step makes lies in out/host/NAME. How fast the machine is decides nothing; what hasn't ended in MINUTES hangs, and has failed.
C := bindings/c
export LIBS ?= $(CURDIR)/crates/zelamiku/out/host
# The shared object, with its number.
SO = $(notdir $(realpath $(LIBS)/libzelamiku.so))
export OUT ?= $(CURDIR)/out/host
export KILLS ?= 8
export MINUTES ?= 30
export ZELAMIKU_LIBS := $(LIBS)
export PYTHONPATH := $(CURDIR)/bindings/python
export PYTHONDONTWRITEBYTECODE := 1
export CARGO_TARGET_DIR ?= $(OUT)/target

# Each test of C with the flags by which the gate tries it.
TESTS := altered.plain file.plain lives.plain pool.plain refused_calls.plain stale.plain threads.plain wrong_calls.asan \
    revert.asan revert.tsan event.asan event.tsan places.asan places.tsan device.asan device.tsan journal.asan
THREADED := threads.tsan revert.tsan event.tsan places.tsan device.tsan
FLAGS.plain := -O2
FLAGS.asan := -O2 -g -fsanitize=address,undefined
FLAGS.tsan := -O1 -g -fsanitize=thread
FLAGS.cov := -O0 -g -w --coverage -fprofile-update=atomic -Wl,--wrap=_exit,--wrap=__gcov_fork $(OUT)/exits.c
# Tests that haven't the scheduler's C in them; and words that a program is given behind its folder.
ALONE := wrong_calls places device sizes
WORDS.revert.tsan := threads
WORDS.device.tsan := threads
WORDS.places.tsan := 3
COVERED := $(patsubst %,%.cov,$(sort $(basename $(TESTS))) sizes)
STEPS := headers readme_c shared sizes objects names server classes readme_cpp readme_rust cargo unittest leases lanes lease_kills readme_python pip jar java_tests readme_java referee \
    referee_faults order_kills kills nbd \
    pages words library search power

.ONESHELL:
.SILENT:
.PHONY: gate host check c cpp rust python java examples tsan cov fuzz $(TESTS) $(THREADED) $(COVERED) $(STEPS)
SHELL := tools/step
.SHELLFLAGS = $@

gate: pages words library
host: check search power
check: c cpp rust python java examples
c: headers readme_c shared sizes objects names $(TESTS)
cpp: classes readme_cpp
rust: readme_rust cargo
python: unittest leases lanes lease_kills readme_python pip
java: jar java_tests readme_java referee referee_faults order_kills
examples: kills server nbd
tsan: $(THREADED)
cov: $(COVERED)

$(sort $(TESTS) $(THREADED) $(COVERED)):
	needs cc
	own=$(if $(filter $(firstword $(subst ., ,$@)),$(ALONE)),$(C)/zelamiku_threads.c)
	cc -std=gnu11 -Wall -Wextra -Werror $(FLAGS$(suffix $@)) $(C)/tests/$(firstword $(subst ., ,$@)).c $$own -I $(C) $(LIBS)/libzelamiku.a -pthread -o $$work/program
	$$work/program $$work/in $(WORDS.$@)

# Each header by itself.
headers:
	needs cc
	needs c++
	for header in $(C)/*.h; do
	    for language in c-c99 c-c11 c++-c++11 c++-c++20; do
	        printf '#ifndef _GNU_SOURCE\n#define _GNU_SOURCE\n#endif\n#include "%s"\nint main(void) { zelamiku_heap h = {0}; return h.number != 0; }\n' "$$PWD/$$header" |
	            c++ "-std=$${language#*-}" -Wall -Wextra -Werror -fsyntax-only -x "$${language%%-*}" -
	    done
	done

# README's programs, as they are typed: each makes the heap, then opens it, and goes on where nothing is left to transfer.
readme_c:
	needs cc
	readme c >$$work/readme.c
	cc -O2 -Wall -Wextra -Werror $$work/readme.c -I $(C) $(LIBS)/libzelamiku.a -pthread -o $$work/program
	twelve_times $$work/program
	[ "$$(cat $$work/told)" = "$$balances" ]

readme_cpp:
	readme cpp >$$work/readme.cpp
	for cpp in g++ clang++; do
	    has $$cpp || continue
	    $$cpp -std=c++17 -O2 $(CPPFLAGS) $$work/readme.cpp -I $(C) $(LIBS)/libzelamiku.a -pthread -o $$work/program
	    twelve_times $$work/program
	    [ "$$(cat $$work/told)" = "$$balances" ]
	done
CPPFLAGS := -Wall -Wextra -Wpedantic -Wshadow -Wconversion -Werror

# It prints nothing; the program in C, which has the same heap, tells the balances.
readme_rust: readme_c
	needs cargo
	mkdir -p $$work/src
	readme rust >$$work/src/main.rs
	grep -q 'session.durable' $$work/src/main.rs
	printf '[package]\nname = "readme"\nversion = "0.1.0"\nedition = "2021"\n[dependencies]\nzelamiku = { path = "%s/bindings/rust" }\n[workspace]\n' "$$PWD" >$$work/Cargo.toml
	(cd $$work && cargo build --offline --quiet)
	twelve_times $(CARGO_TARGET_DIR)/debug/readme
	[ "$$(cd $$work/in && $(OUT)/readme_c/program)" = "0 100" ]

readme_python:
	needs_python
	readme python >$$work/readme.py
	grep -q 'heap.durable()' $$work/readme.py
	for balances in "90, 110" "80, 120" "70, 130" "60, 140" "50, 150" "40, 160" "30, 170" "20, 180" "10, 190" "0, 200" "0, 200" "0, 200"; do
	    (cd $$work/in && python3 ../readme.py && python3 -c "
	import zelamiku
	class Account(zelamiku.Object):
	    balance = zelamiku.Field(first=100)
	with zelamiku.open('accounts.heap', alice=Account, bob=Account, lanes=8) as heap, heap.synchronized(heap.alice, heap.bob):
	    found = [heap.alice.balance, heap.bob.balance]
	    assert found == [$$balances], found")
	done

# A program that is linked with the shared object, which shows the calls of zelamiku.h alone.
shared:
	needs cc
	ln -sf $(LIBS)/$(SO) $$work/$(SO)
	readme c >$$work/readme.c
	cc $$work/readme.c -I $(C) -L $$work -Wl,-rpath,$$work -l:$(SO) -o $$work/program
	twelve_times $$work/program
	[ "$$(cat $$work/told)" = "$$balances" ]
	nm -D --defined-only $$work/$(SO) | awk '{ print $$3 }' | sort >$$work/shown
	sed -n 's/^ \*.*//; /static inline/d; /^typedef/d; s/^[A-Za-z_].*[ *]\(zelamiku_[a-z_]*\)(.*/\1/p' $(C)/zelamiku.h | sort | cmp - $$work/shown

# A second copy of the library in a process, and forks: linked with the shared object, and with the archive.
objects:
	needs cc
	cp $(LIBS)/$(SO) $$work/
	cp $(LIBS)/$(SO) $$work/copy.so
	for linked in "-L $$work -Wl,-rpath,$$work -l:$(SO)" "-rdynamic $(LIBS)/libzelamiku.a"; do
	    cc -std=gnu11 -O2 -Wall -Wextra -Werror $(C)/tests/objects.c -I $(C) $$linked -pthread -ldl -o $$work/program
	    rm -rf $$work/in
	    mkdir $$work/in
	    $$work/program $$work/in $$work/copy.so
	done

# A program that is built with a header of fewer members runs over this library, and one of more members does: tests/sizes.c has the rules. The
# header of tomorrow has a member more at the end of each struct that knows its size.
sizes:
	needs cc
	cp $(C)/*.h $$work
	sed -i 's/^} zelamiku_\(plan\|report\|stats\|device\|dropped\|failure\|progress\);$$/    uint64_t later;\n&/; /^ZELAMIKU_HAS_SIZE/d' $$work/zelamiku.h
	for library in $(C) $$work; do
	    cc -std=gnu11 -O1 -g -w -fsanitize=address,undefined -I $$library -iquote $$library -c -o $$work/scheduler.o $(C)/zelamiku_threads.c
	    for program in $(C) $$work; do
	        later=$$([ $$program = $(C) ] || echo -DLATER)
	        knows=$$([ $$library = $(C) ] || echo -DLIBRARY_KNOWS_LATER)
	        cc -std=gnu11 -O1 -g -fsanitize=address,undefined -Wall -Wextra -Werror $$later $$knows -iquote $$program -I $$program $(C)/tests/sizes.c $$work/scheduler.o \
	            $(LIBS)/libzelamiku.a -pthread -o $$work/program
	        rm -rf $$work/in
	        mkdir $$work/in
	        $$work/program $$work/in
	    done
	done

# What a power cut leaves of a heap's name: it says what it needs.
names:
	needs cc
	cc -std=gnu11 -O2 -Wall -Wextra -Werror $(C)/tests/names.c -I $(C) $(LIBS)/libzelamiku.a -pthread -o $$work/program
	$(C)/tests/names.sh $$work/program

# zelamiku.hpp by each compiler, and with the sanitizers, by which the scheduler is compiled too.
classes:
	for cpp in g++ clang++; do
	    has $$cpp || continue
	    for flags in "-O2" "-O2 -std=c++20" "-O1 -g -fsanitize=address,undefined" "-O1 -g -fsanitize=thread"; do
	        own=
	        case "$$flags" in *sanitize*)
	            # Clang's runtime of these may be missing (Debian: libclang-rt-14-dev).
	            echo 'int main() {}' | $$cpp $$flags -x c++ - -o $$work/probe || { echo "LEFT OUT: $$cpp has no $${flags##*-f}"; continue; }
	            own=$$work/scheduler.o
	            $$cpp -x c -std=gnu11 -w $$flags -I $(C) -c $(C)/zelamiku_threads.c -o $$own
	        esac
	        $$cpp -std=c++17 $$flags $(CPPFLAGS) $(C)/tests/classes.cpp $$own -I $(C) $(LIBS)/libzelamiku.a -pthread -o $$work/program
	        rm -rf $$work/in
	        mkdir $$work/in
	        $$work/program $$work/in
	    done
	done

cargo:
	needs cargo
	cd bindings/rust
	cargo test --offline --quiet

unittest leases: TESTS_OF.unittest := bindings/python/tests
unittest leases: TESTS_OF.leases := examples/python/leases
unittest leases:
	needs_python
	python3 -W error::ResourceWarning -m unittest discover --verbose -s $(TESTS_OF.$@)

lanes:
	needs_python
	tools/tests lanes

lease_kills:
	needs_python
	tools/tests --tries $(KILLS) -k Leases examples

# The package has the same bytes each time.
jar:
	needs_jdk
	bindings/java/package $$work/in
	bindings/java/package $$work/again
	cmp $$work/in/zelamiku.jar $$work/again/zelamiku.jar

JAR = $(OUT)/jar/in/zelamiku.jar
JAVAC = javac -Werror -Xlint:all,-serial,-this-escape,-try -cp $(JAR) -d $$work/classes
JAVA = java --enable-native-access=ALL-UNNAMED -Dzelamiku.library=$(LIBS)/libzelamiku.so.1 -cp $(JAR):$$work/classes

# With one carrier: a virtual thread that pinned it would stop all others.
java_tests: jar
	needs_jdk
	$(JAVAC) bindings/java/tests/Tests.java
	$(JAVA) -Djdk.virtualThreadScheduler.parallelism=1 -Djdk.virtualThreadScheduler.maxPoolSize=1 Tests $$work/in

# The library lies beside the jar.
readme_java: jar
	needs_jdk
	mkdir $$work/beside
	cp $(JAR) $(LIBS)/libzelamiku.so.1 $$work/beside
	readme java >$$work/Transfer.java
	javac -cp $(JAR) -d $$work/classes $$work/Transfer.java
	transfer() { java --enable-native-access=ALL-UNNAMED -cp "$$work/beside/zelamiku.jar:$$work/classes" Transfer; }
	twelve_times transfer
	[ "$$(cat $$work/told)" = "90 110 80 120 70 130 60 140 50 150 40 160 30 170 20 180 10 190 0 200 0 200 0 200 " ]

# HotSpot's monitors beside a heap's, for so many steps.
REFEREE ?= 20000
referee: jar
	needs_jdk 24
	$(JAVAC) bindings/java/tests/Referee.java
	heapctl=crates/heapctl/out/heapctl
	[ -x $$heapctl ] || { echo "LEFT OUT: no $$heapctl: it didn't play the referee's scripts"; heapctl=; }
	$(JAVA) Referee $$work/in 1 $(REFEREE) $$heapctl

# What the referee must see, each within a minute on an idle machine: a notify that wakes two, an exit that keeps a count, a wait that keeps the monitor, and one that
# returns without a notification. They are planted in a copy of the scheduler's C.
referee_faults: jar
	needs_jdk 24
	needs cc
	core=crates/zelamiku/out/libzelamiku.a
	[ -f $$core ] || { echo "LEFT OUT: no $$core: no faults were planted for the referee"; exit 77; }
	$(JAVAC) bindings/java/tests/Referee.java
	while read -r fault edit; do
	    tree=$$work/$$fault
	    mkdir -p $$tree/bindings $$tree/tools $$tree/crates/zelamiku/out $$tree/in
	    cp -R $(C) $$tree/bindings/
	    cp tools/c-library tools/usage $$tree/tools/
	    cp $$core $$tree/crates/zelamiku/out/
	    sed -i "$$edit" $$tree/bindings/c/src/thread.c
	    if cmp $(C)/src/thread.c $$tree/bindings/c/src/thread.c; then echo "$$fault wasn't planted"; exit 1; fi
	    $$tree/tools/c-library --join
	    status=0
	    timeout 300 java -Dpatience=5 --enable-native-access=ALL-UNNAMED -Dzelamiku.library=$$tree/crates/zelamiku/out/host/libzelamiku.so.1 \
	        -cp $(JAR):$$work/classes Referee $$tree/in 1 1000000 >$$tree/told || status=$$?
	    if [ $$status -ne 1 ] || ! grep '^DIFFERS' $$tree/told; then echo "$$fault wasn't seen: status $$status"; exit 1; fi
	done <bindings/java/tests/faults

order_kills: jar
	needs_jdk
	$(JAVAC) bindings/java/tests/OrdersKilled.java examples/java/orders/Orders.java
	java -cp $$work/classes OrdersKilled $(KILLS) $$work/in/orders.heap $(JAVA) Orders

# What the examples' kills, and their syncs that fail or hang, are judged by stands in tests/test_examples.py.
kills:
	needs_python
	tools/tests --tries $(KILLS) -k Killed -k Syncs examples

# The wheel has the library, and the same bytes each time. By pip, without the network: then the package needs nothing else.
pip: readme_python
	needs_python
	python3 -c 'import ensurepip' || { echo "LEFT OUT: no ensurepip (Debian: python3-venv): an installation by pip wasn't tried"; exit 77; }
	python3 bindings/python/packing.py $$work/wheels
	python3 bindings/python/packing.py $$work/again
	cmp $$work/wheels/*.whl $$work/again/*.whl
	python3 -m venv $$work/venv
	unset ZELAMIKU_LIBS PYTHONPATH
	for package in bindings/python $$work/wheels/*.whl; do
	    ZELAMIKU_LIBS=$(LIBS) $$work/venv/bin/pip install --quiet --no-index --force-reinstall "$$package"
	    (cd $$work/in && ../venv/bin/python $(OUT)/readme_python/readme.py && ../venv/bin/python -c 'import zelamiku.library; print(zelamiku.library.library().path)') >$$work/path
	    grep "^$$work/venv/.*/zelamiku/$(SO)$$" $$work/path
	done

server:
	needs_python
	examples/c/counters_server/test.py --few --seed 1 --kills $(KILLS)

# Two lives of a counter on one export.
nbd:
	needs cc
	needs nbdkit
	printf '#include <libnbd.h>\n' | cc -E -x c - >$$work/probe || { echo "LEFT OUT: no libnbd (Debian: libnbd-dev)"; exit 77; }
	cc -std=gnu11 -O2 -Wall -Wextra -Werror examples/c/nbd.c -I $(C) $(LIBS)/libzelamiku.a -lnbd -pthread -o $$work/nbd
	nbdkit -U - memory 4M --run "'$$work/nbd' \$$unixsocket 100 && '$$work/nbd' \$$unixsocket 50" >$$work/told
	[ "$$(tr '\n' ' ' <$$work/told)" = "100 150 " ]

# Files of heaps that libFuzzer alters, from those in bindings/c/fuzz/corpus on, for SECONDS (0: these alone). An input that fails stays in
# out/host/fuzz. KEEP=1 keeps the fewest that reach all that was reached.
fuzz:
	needs clang
	corpus=$(CURDIR)/$(C)/fuzz/corpus
	export ZELAMIKU_FUZZ_FOLDER=$$(mktemp -d /dev/shm/zelamiku-XXXXXX)
	trap 'rm -rf "$$ZELAMIKU_FUZZ_FOLDER"' EXIT
	clang -std=gnu11 -O1 -g -fsanitize=fuzzer,address -fno-sanitize-recover=all -Wall -Wextra -Werror -Wno-static-in-inline -DFUZZED -I $(C) $(C)/tests/altered.c $(LIBS)/libzelamiku.a -pthread -o $$work/opened
	mkdir -p $$work/new $$work/kept
	$$work/opened $(if $(SECONDS),-max_total_time=$(SECONDS) -timeout=20 -max_len=160,-runs=0) -artifact_prefix=$$work/ $$work/new $$corpus
	[ -z "$(KEEP)" ] || { $$work/opened -merge=1 $$work/kept $$work/new $$corpus && rm -rf $$corpus && mv $$work/kept $$corpus; }

# The gate's own. What a step may take is many times what it takes.
pages:
	needs_python
	tools/pages --check

words:
	needs_python
	tools/tests --seed 1 faults judges machine other_files salvage two_at_once words

library:
	tools/c-library

search:
	needs cc
	needs_python
	tools/search

power:
	needs_python
	tools/power-cuts --few --seconds 1500

words library power: export MINUTES := 45
kills lanes lease_kills: export SEED ?= 1
