# The comparison with the Rust. See oracle/README.md.
#   LISTED    folder of the listed files of zarrs 0.23.14 (src--src--...rs.txt); their text is read here and not committed
#   ARCHIVE   the archive under test
#   SEED, REQUESTS   of `make compare` and `make teeth`
#   ONLY      of `make teeth` and `make fuzz-teeth` the mistakes with this in their name; of `make bench` some rows, below
#   MADE      folder for what `make record` and `make vectors` make anew
LISTED ?= ../shared/docs/src
ARCHIVE ?= build/libdurpaxeta.a
SEED ?= 1
REQUESTS ?= 2250000
ONLY ?=
MADE ?= oracle/data

O := build/oracle
RUSTC := rustc --edition 2024

$(O)/.rust: oracle/rust/build.sh $(shell find oracle/rust -name '*.rs') $(wildcard $(LISTED)/*.txt)
	@sh oracle/rust/build.sh $(LISTED) $(O)
	@touch $@

$(O)/libjudge.rlib: oracle/judge/lib.rs
	@mkdir -p $(O)
	@$(RUSTC) -O --crate-type rlib --crate-name judge --out-dir $(O) $<

# The judge under the archive's names: ARCHIVE=build/oracle/libjudge.a compares the judge itself.
$(O)/libjudge.a: oracle/judge/c.rs oracle/judge/lib.rs
	@mkdir -p $(O)
	@$(RUSTC) -O -C panic=abort --crate-type staticlib --crate-name judge_c -o $@ $<

$(O)/libagain.a: oracle/again/again.c oracle/again/again.h include/durpaxeta.h
	@mkdir -p $(O)
	@gcc -std=c11 -O3 -Wall -Wextra -Werror -Iinclude -c -o $(O)/again.o $<
	@ar rcs $@ $(O)/again.o

$(O)/driver: $(wildcard oracle/driver/*.rs) oracle/data/arrangements.txt $(O)/libjudge.rlib $(O)/libagain.a $(O)/.rust
	@$(RUSTC) -O -L $(O) --extern judge=$(O)/libjudge.rlib $(foreach b,standin_debug standin_release listed_debug listed_release,--extern $(b)=$(O)/lib$(b).rlib) -o $@ oracle/driver/main.rs

# The archive as a shared object, so that one driver takes any archive.
OBJECT := $(O)/$(notdir $(ARCHIVE:.a=.so))
$(OBJECT): $(ARCHIVE)
	@mkdir -p $(O)
	@gcc -shared -o $@ -Wl,--whole-archive $(ARCHIVE) -Wl,--no-whole-archive -lgcc_s -lc

.PHONY: compare
compare: $(O)/driver $(OBJECT)
	@$(O)/driver lines $(OBJECT) oracle/data/lines.txt oracle/data/differences.txt oracle/data/answers.txt oracle/data/vectors.txt
	@$(O)/driver compare $(OBJECT) $(SEED) $(REQUESTS)

$(O)/teeth_run: oracle/teeth/main.rs
	@mkdir -p $(O)
	@$(RUSTC) -O -o $@ $<

.PHONY: teeth
teeth: $(O)/driver $(O)/teeth_run
	@$(O)/teeth_run $(O) $(SEED) $(REQUESTS) "$(ONLY)"

# A fuzzer over the archive's own code: what decode accepts, encode writes again as the same bytes.
#   SECONDS   how long it runs
#   OPT       how far the code is optimized that it runs over
SECONDS ?= 600
OPT ?= -O3
.PHONY: fuzz
fuzz: build/libdurpaxeta.a
	@OPT=$(OPT) oracle/fuzz/build.sh build/fuzz/fuzz
	@oracle/fuzz/run.sh build/fuzz/fuzz $(SECONDS)

# Does it see mistakes that are put in on purpose?
.PHONY: fuzz-teeth
fuzz-teeth:
	@oracle/fuzz/teeth.sh 120 "$(ONLY)"

# The rows of docs/DIFFERENCES.md, put to the judge and to each build of the Rust.
.PHONY: differences
differences: $(O)/driver
	@$(O)/driver ask < oracle/data/differences.txt

# The recorded answers, made anew. With the same seed the file does not change.
.PHONY: record
record: $(O)/driver
	@$(O)/driver record 1 > $(O)/answers.txt
	@mv $(O)/answers.txt $(MADE)/answers.txt
	@wc -lc $(MADE)/answers.txt

# The published vectors, made anew with the Debian package python3-numcodecs; and the archive's interleaved form, read by it.
.PHONY: vectors
vectors: $(OBJECT)
	@mkdir -p $(O)
	@/usr/bin/python3 oracle/data/vectors.py > $(O)/vectors.txt
	@mv $(O)/vectors.txt $(MADE)/vectors.txt
	@wc -lc $(MADE)/vectors.txt
	@/usr/bin/python3 oracle/data/readers.py $(OBJECT)

$(O)/bench: $(wildcard bench/*.rs) oracle/driver/archive.rs oracle/driver/rng.rs $(O)/.rust
	@$(RUSTC) -C opt-level=3 -L $(O) --extern standin_release=$(O)/libstandin_release.rlib -o $@ bench/main.rs

# ROUNDS  of which the best counts; where it is 1 no row is tried again. Every row with its times goes to build/oracle/bench.txt.
# ONLY    interleaved: the rows of the interleaved form alone; generate: those of loads; table: those of working tables; guest: those of guests;
#         arrangement: those of arrangements; live: those of live tables; long: one cell of 4 GiB, which the other rows leave out.
ROUNDS ?= 25
.PHONY: bench
bench: $(O)/bench $(OBJECT)
	@$(O)/bench $(OBJECT) $(ROUNDS) $(O)/bench.txt $(ONLY)
