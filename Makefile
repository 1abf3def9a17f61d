# Mastclover. README.md says what each target is for.
.PHONY: test check fmt build run lib example compare fuzz bench stack clean FORCE

test:
	@bash tools/test

# Proves what has changed, and what uses it.
check:
	@mkdir -p build
	@python3 tools/prove.py build/check.log . rt all check

# Brings every crate into the formatter's layout. What rt notes of the words of must-fail edits is not shown.
fmt:
	@mkdir -p build
	@for each in crates/*; do \
	  (cd "$$each" && rt fmt) >build/fmt.log 2>&1; status=$$?; \
	  grep -v 'has a line that is not read' build/fmt.log; [ $$status -eq 0 ] || exit $$status; \
	done

# The programs: a session, from the proved crate mast_session, runs of guarded sections, and state files.
build: build/mast-session build/mast-sections build/mast-state

build/mast-session: FORCE
	@python3 tools/program.py mast_session $@

# The sessions of examples/, or the one that SESSION names, each line with its answer.
run: build/mast-session
ifdef SESSION
	@python3 tools/show_session.py build/mast-session "$(SESSION)"
else
	@python3 tools/show_session.py build/mast-session examples/worked.session examples/day.session examples/equals.session examples/places.session examples/inheritance.session
endif

# The program that runs guarded sections from a text, from the proved crate mast_sections.
build/mast-sections: FORCE
	@python3 tools/program.py mast_sections $@

# The runs of examples/, or the one that FILE names.
.PHONY: sections
sections: build/mast-sections
ifdef FILE
	@build/mast-sections "$(FILE)"
else
	@bash tools/show_sections
endif

# The program that saves, shows and resumes state files, from the proved crate mast_state.
build/mast-state: FORCE
	@python3 tools/program.py mast_state $@

# A tag's morning saved, shown, and resumed in the evening.
.PHONY: state
state: build/mast-state
	@bash tools/show_state

# The static library for C, from the proved crates of OBJECTS; with TARGET=name, for a processor of tools/targets/table.txt.
ifeq ($(origin TARGET),command line)
lib:
	@bash tools/targets/build "$(TARGET)"
else
lib: build/libmastclover.a
endif

# An object for the calls, one each for mast_run, the state file and the ITRON calls, so that a program links what it uses.
OBJECTS := capi capi_run capi_state capi_itron
build/libmastclover.a: FORCE
	@mkdir -p build/members
	@bash tools/archive $(OBJECTS)
	@cd build/members && rm -f * && for each in $(OBJECTS); do ar x ../archives/lib$$each.a; done && bash ../../tools/align *.o && ar rcsD all.a *.o
	@cmp -s build/members/all.a $@ || cp build/members/all.a $@

FORCE:

# The C programs to start from, run: first.c, then tag.c, and scanner.c for the ITRON calls.
EXAMPLES := first tag scanner
example: lib $(EXAMPLES:%=build/%)
	@echo "examples/first.c" && build/first && echo && echo "examples/tag.c" && build/tag && echo && echo "examples/scanner.c" && build/scanner

$(EXAMPLES:%=build/%): build/%: examples/%.c include/mastclover.h include/mastclover_itron.h build/libmastclover.a
	@$(CC) -std=c99 -Wall -Wextra -pedantic -Werror -O2 -Iinclude $< build/libmastclover.a -o $@

# The independent implementation, linked with the library.
compare: lib
	@cd compare && MAST_LIB_DIR=../build cargo build --release --quiet --features library

SECONDS ?= 60
SEED ?= 1
RUNS ?= 100000
FILES ?= 100
ROUNDS ?= 1000
fuzz: compare
	compare/target/release/compare --seconds $(SECONDS) --seed $(SEED)
	compare/target/release/compare_runs $(RUNS) $(SEED)
	compare/target/release/compare_state $(FILES) $(SEED)
	compare/target/release/compare_itron $(ROUNDS) $(SEED)

# The static library over task records that a caller keeps itself, from the proved crate records_c, and such a caller.
.PHONY: records
records: build/libmastrecords.a
	@cd compare && MAST_LIB_DIR=../build cargo build --release --quiet --features records --bin compare_records
	compare/target/release/compare_records $(SEED)

build/libmastrecords.a: FORCE
	@mkdir -p build
	@bash tools/archive records_c
	@cmp -s build/archives/librecords_c.a $@ || cp build/archives/librecords_c.a $@

bench: compare build/mast-session
	compare/target/release/bench
	@$(CC) -std=gnu99 -Wall -Wextra -O2 -Iinclude tools/bench_agreement.c build/libmastclover.a -o build/bench_agreement
	python3 tools/bench_session.py
	@$(CC) -std=gnu99 -Wall -Wextra -O2 -Iinclude tools/bench_itron.c build/libmastclover.a -o build/bench_itron && build/bench_itron

# The most stack that each C function takes, measured.
stack: lib
	@$(CC) -std=gnu99 -Wall -Wextra -O2 -Wl,-z,now -Iinclude tools/stack.c build/libmastclover.a -o build/stack
	@build/stack

# The libraries for other processors: code, what they need and the stack they take; and their runs under emulators.
.PHONY: targets test-targets
targets:
	@bash tools/targets/all

CALLS ?= 1000000
test-targets:
	@MAST_EMULATORS=required bash tools/targets/test $(CALLS) $(SEED)

clean:
	rm -rf build compare/target crates/*/out
