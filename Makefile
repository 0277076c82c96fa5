# make demo: the counter on document 01's example. make test: the proofs, and every test.
# make bench: the library against plain C. make plot: a picture of what it measured.
SHELL = bash
.SHELLFLAGS = -o pipefail -ec
.PHONY: demo test host-tests expected till constants compare soak programs requests inspection references
.PHONY: history sheet inspect bench plot
.PHONY: target/staticlib/libtill.a target/bin/counter target/bin/sheet target/bin/edges

demo: target/bin/counter
	@$< < crates/counter/stdin

test:
	@host/test.sh

# What is tested outside Rattle, on the library and the programs that are proved.
host-tests: expected till constants compare requests references programs inspection

# The cases that the test program reads and what it must print, worked out from the paper by a program of its own; and those of the
# closing sheet, which it is run on here.
expected: target/host/edges target/bin/edges
	target/host/edges cases | cmp - crates/edges/stdin
	target/host/edges answers | cmp - crates/edges/stdout
	target/host/edges sheet cases | target/bin/edges | cmp - <(target/host/edges sheet answers)

target/host/edges: host/edges/main.rs $(wildcard host/edges/*.rs)
	@mkdir -p target/host
	rustc --edition 2021 -O -o $@ $<

# The C interface: the examples against their stored outputs, and a test of every function, with guards around its buffers; and what the
# archive needs from outside.
till: target/host/till target/host/sheet target/host/till-test
	target/host/till | cmp - examples/till.txt
	target/host/sheet | cmp - examples/sheet.txt
	target/host/till-test
	host/till/needs.sh target/staticlib/libtill.a

# The header's constants and texts are those of the source, one by one, and comments have the answers of the definitions.
constants:
	host/till/constants.sh crates/formats/src/refusal.rt
	host/till/answers.sh

C = $(CC) -std=c11 -Wall -Wextra -pedantic -Werror -Iinclude
GUARDS = -g -fsanitize=address,undefined -fno-sanitize-recover=all

target/host/till target/host/sheet: target/host/%: examples/%.c include/music_counter.h target/staticlib/libtill.a
	@mkdir -p target/host
	$(C) -O2 -o $@ $< target/staticlib/libtill.a

target/host/till-test: host/till/test.c include/music_counter.h target/staticlib/libtill.a
	@mkdir -p target/host
	$(C) $(GUARDS) -o $@ $< target/staticlib/libtill.a

# The library against an implementation of the rules of its own, audio and picture: calls and requests by seed, all bytes after each.
compare: target/host/compare
	target/host/compare calls 7000000 1

# The same for as long as wanted, with new seeds: make soak SECONDS=600 SEED=1
SECONDS = 60
SEED = 1
soak: target/host/compare
	target/host/compare seconds $(SECONDS) $(SEED)

target/host/compare: $(wildcard host/compare/*.rs) target/staticlib/libtill.a
	@mkdir -p target/host
	rustc --edition 2021 -O -o $@ host/compare/main.rs -C link-arg=target/staticlib/libtill.a

# The programs, on requests written by hand, and on the example history against its stored answers and its stored sheet.
programs: target/bin/counter target/bin/sheet target/host/requests
	host/counter/test.sh target/bin/counter
	host/sheet/test.sh target/bin/sheet
	$(ANSWERED) | cmp - examples/history-answers.txt
	$(CLOSED) | cmp - examples/history-sheet.txt

# The example history: each of its lines with the counter's answer beside it.
history: target/bin/counter target/host/requests
	@$(ANSWERED)

# The closing sheet of requests that leave titles here, away, lent and gone.
sheet: target/bin/sheet
	@$< < crates/sheet/stdin

HISTORY = examples/history.txt
ANSWERED = target/host/requests bytes $(HISTORY) | target/bin/counter | target/host/requests beside $(HISTORY) -
CLOSED = target/host/requests bytes $(HISTORY) | target/bin/sheet

# Readable lines to request bytes and back: both ways, and every message.
requests: target/host/requests
	host/requests/test.sh $<

target/host/requests: host/requests/main.rs $(wildcard host/requests/*.rs) include/music_counter.h
	@mkdir -p target/host
	rustc --edition 2021 -O -o $@ $<

# The card and the ledger of which `make sheet` prints the sheet.
inspect: target/host/buffers target/host/inspect
	@$(INSPECTED)

BUFFERS = $(addprefix target/host/, titles rules ledger)
INSPECTED = target/host/buffers $(BUFFERS) < crates/sheet/stdin && target/host/inspect $(BUFFERS)

# The tools that write ledger and card to files and show what stands there: as they are used, and with sanitizers.
inspection: target/host/requests target/host/inspect target/host/buffers target/guarded/inspect target/guarded/buffers
	host/inspect/test.sh target/host/inspect target/host/buffers
	host/inspect/test.sh target/guarded/inspect target/guarded/buffers
	{ $(INSPECTED); } | cmp - examples/inspected.txt

target/host/inspect target/guarded/inspect: $(addprefix host/inspect/, inspect.c heads.c tables.c faults.c files.c)
target/host/buffers target/guarded/buffers: $(addprefix host/inspect/, buffers.c files.c)
target/host/inspect target/host/buffers: BUILT = -O2
target/guarded/inspect target/guarded/buffers: BUILT = $(GUARDS)

target/host/inspect target/host/buffers target/guarded/inspect target/guarded/buffers: $(wildcard host/inspect/*.h)
target/host/inspect target/host/buffers target/guarded/inspect target/guarded/buffers: include/music_counter.h target/staticlib/libtill.a
	@mkdir -p $(@D)
	$(C) $(BUILT) -o $@ $(filter %.c,$^) target/staticlib/libtill.a

# What the documents refer to is in the source. After an edit, host/docs/check.sh --update sets their line numbers anew.
references:
	host/docs/check.sh
	host/docs/test.sh

# Proving and building takes a few minutes, once.
target/staticlib/libtill.a:
	@host/build.sh till

target/bin/counter target/bin/sheet target/bin/edges:
	@host/build.sh $(@F)

# How fast the library is beside the same operations in plain C. The library is for any x86-64, and so is the plain C.
bench: target/bench/bench
	$< target/bench/results.tsv

BENCH = host/bench/bench.c host/bench/scenes.c host/bench/check.c host/bench/plain.c

# The scans of the plain C are loops of a few instructions. Unaligned, they take half or twice the time with any change
# elsewhere in the program, by where they come to lie.
ALIGNED = -falign-loops=32 -falign-jumps=32

target/bench/bench: $(BENCH) host/bench/scenes.h host/bench/plain.h include/music_counter.h target/staticlib/libtill.a
	@mkdir -p target/bench
	gcc -std=c11 -Wall -Wextra -pedantic -Werror -Iinclude -O3 $(ALIGNED) -o $@ $(BENCH) target/staticlib/libtill.a

plot:
	host/bench/plot.py target/bench/results.tsv docs/benchmark.svg
