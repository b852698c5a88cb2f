# make try    runs a first script without any proof
# make run    proves bwlog and all below it, crates side by side, builds it, and runs the same script
# make test   the gate: the pages against the tests and the sources, every proof, the wrong bodies, the tests, the programs (from nothing, but for what this machine has
#             passed); then the program that it built over the cases of tests/program/cases, over drawn scripts beside a map, over 500 hostile cases, under the
#             clients of clients/, over the commands of docs/FIRST.md and OPERATE.md, over a million updates of a thousand keys, in logs that get full, and timed at several sizes; and the tests of refused memory with each allocation refused in turn, and the program with each fifth, by a shim that cc makes
# make lib    proves bw_reading and all below it, and makes out/libhechdoram_read.a and .so of it, for other languages, beside the client in C
# make install PREFIX=/usr/local puts there what was made: the program with its manual page and completion, headers, libraries, files for pkg-config;
#             make uninstall removes them. Nothing is proved by either
# make check  proves what a change touches, with its tests, in minutes: the crates that changed since the last commit (or SINCE=COMMIT), and those above
#             only if a clause or a definition changed
# make wrong  tries the wrong bodies outside the gate, in a copy of what is committed; SINCE=COMMIT takes those of crates that changed since then
# make memory proves the tests of refused memory, and runs them and the program that make run built with each allocation refused in turn
# make bench  times the store at a million keys, each subject in a process of its own, at other sizes and beside other stores, draws docs/speed.svg of
#             that, and then times it over files (docs/MEASURED.md)
# make peers  times other stores under the same load: LMDB and LevelDB, by their C libraries (liblmdb-dev, libleveldb-dev) and rustc; also with
#             keys that share 24 bytes, values of 8 and 500, batches of 1 and 4,096, and readers beside
# make crash  kills the program that make run built in mid-run, and looks at what its folder holds; then puts 10,000 folders together as a loss of
#             power could leave them, from what a run asked of the system by a shim that cc makes, and looks at each;
#             and does both to runs of calls on tables, whose folders hold the tables after some whole call
# make fuzz   asks the program that make run built with hostile segments, scripts and folders; FUZZ="--cases 100000 --seed 7" says how many and which

PROGRAM = crates/bwlog
PREFIX = /usr/local
BENCH = --keys 1000000
# One check a processor, each at one job: two jobs for one check cost a tenth more time of the processors.
JOBS = $(shell n=$$(nproc); echo $$((n < 4 ? n : 4)))
# The scripts that ask the built program, the longest first. They run side by side; fuzz.py, instructions.py and growth.py ask for times or counts, and run by themselves.
SCRIPTS = clients rescue sums failing tables_crash follow steady drawn cases tables people memory full beside pages moments events terminal waits
people_words = crates/bwlog/out/bwlog 100000
tables_crash_words = 100 5
SUBJECTS = pages cleaning core cold alone beside late one one-beside many many-beside

.PHONY: run try lib install uninstall test check wrong memory bench peers crash fuzz ask-refuse $(SCRIPTS:%=ask-%)

run:
	@python3 tools/prove.py bwlog
	@mkdir -p $(PROGRAM)/out && head -n 4 $(PROGRAM)/stdin | tee $(PROGRAM)/out/first && cd $(PROGRAM) && rt run -- replay < out/first

try:
	@echo "(nothing is proved by this run)" && cd $(PROGRAM) && mkdir -p out && head -n 4 stdin > out/first && rt try -- replay < out/first

lib:
	@python3 tools/prove.py bw_reading
	@cd crates/bw_reading && rt lib
	@python3 tools/lib.py

install:
	@python3 tools/lib.py install $(PREFIX)

uninstall:
	@python3 tools/lib.py uninstall $(PREFIX)

test:
	python3 tools/same.py
	python3 tools/specs.py --check
	python3 tools/surface.py
	python3 tools/pictures.py --check
	RT_JOBS=$(JOBS) python3 tools/shown.py rt ci
	python3 tools/manual.py --check
	@$(MAKE) --no-print-directory --keep-going --output-sync=target --jobs $(JOBS) ask-refuse $(SCRIPTS:%=ask-%)
	python3 tests/program/fuzz.py --cases 500
	python3 tests/program/instructions.py
	python3 tests/program/growth.py

$(SCRIPTS:%=ask-%): ask-%:
	python3 tests/program/$*.py $($*_words)

ask-refuse:
	python3 tools/refuse.py --every 5

check:
	@python3 tools/check.py $(SINCE)

wrong:
	python3 tools/wrong.py $(if $(SINCE),--since $(SINCE))

memory:
	python3 tools/surface.py
	for crate in memory_tests without_tests log_tests drive_tests folder_tests; do (cd crates/$$crate && rt test) || exit 1; done
	python3 tools/refuse.py

bench:
	@python3 tools/bench.py $(BENCH) $(SUBJECTS)

peers:
	@folder=$$(mktemp -d /dev/shm/peers.XXXXXX) && trap "rm -rf $$folder" EXIT && \
	rustc --edition 2021 -O -o $$folder/peers tools/peers.rs && $$folder/peers $$folder/all 1000000 && \
	for more in "--shared 24" "--value 8" "--value 500" "--batch 1" "--batch 4096" "--readers 1" "--readers 2" "--readers 4"; do \
	  rm -rf $$folder/more && $$folder/peers $$folder/more 200000 $$more || exit 1; \
	done

crash:
	python3 tests/program/crash.py
	python3 tests/program/power.py
	python3 tests/program/tables_crash.py

fuzz:
	python3 tests/program/fuzz.py $(FUZZ)
