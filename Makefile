# The crates whose tests try what no words reach.
TESTS = $(patsubst crates/%/,%,$(wildcard crates/*_tests/))

.PHONY: demo build cases quick $(TESTS) bench walk served library examples requests soak loaded races faults edge typed sizes look pictures planted contracts test

example = run data/example.plan data/ash.script data/beech.script data/cedar.script

# Builds without proofs and works the example line of three boxes, in about a minute.
demo:
	cd crates/box_main && rt try -- $(example)

# Proves the program and what it stands on, works the example line, and leaves the program as
# crates/box_main/out/box_main.
build:
	cd crates/box_main && rt run -- $(example)

# Works the worked cases and rows without proofs, in about three minutes, and tells each that differs. The largest texts
# take minutes in a build that tests each step, so the files named *_limits are left to `make test`.
cases:
	cd crates/worked_cases && find data -type f ! -name '*_limits' -printf '--data\0%p=%p\0' \
		| xargs -0 -x -s 1000000 sh -c 'rt try "$$@" -- data' rt

# What a newcomer runs first: the worked cases and rows and all tests, without proofs. It works as many at once as there
# are processors, and takes three to seven minutes on four.
quick:
	$(MAKE) --no-print-directory --keep-going --output-sync -j$$(nproc) cases $(TESTS)

# The tests of one crate, without proofs.
$(TESTS):
	cd crates/$@ && rt try --test --seconds 580

# Times the program that `make build` leaves on large inputs, which are made first, beside any other program of the same
# commands: make bench BESIDE="PROGRAM..". It takes some minutes, and wants a quiet machine; it makes the load of its
# second table itself.
bench:
	python3 bench/times.py $(BESIDE) crates/box_main/out/box_main

# Times `signalbox states` on a made frame of 40 levers beside the same walk in plain Rust, which rustc compiles.
walk:
	python3 bench/walk.py crates/signalbox/out/signalbox

# Times `signalbox serve` through a pipe.
served:
	python3 bench/serve.py crates/signalbox/out/signalbox

# Proves the library for C, and leaves libmenglazou.a, libmenglazou.so and menglazou.h in out/.
library:
	sh library/make.sh

# Works the guide's line by `signalbox serve`, and by the library that `make library` leaves, from a program in C, in
# C++, in Rust and in Python.
examples:
	sh examples/run.sh crates/signalbox/out/signalbox out

# Asks `signalbox serve`, and the library that `make library` leaves, for MINUTES for what they may do and for what they
# may not.
requests:
	gcc -Wall -Wextra -O1 -g -Iout -o out/door hostile/door.c out/libmenglazou.a
	python3 hostile/requests.py crates/signalbox/out/signalbox $(MINUTES) out/door

# Seven that try the programs that `make build`, and `rt run` in crates/signalbox, leave: it works made lines for
# MINUTES, with bad signalmen; large lines beside busy processes; lines that `signalbox` rehearsed; each allocation is
# refused in turn; bad files, outputs and words; a box worked in a pseudo-terminal; the greatest texts. Each stops with
# status 0 where it found nothing.
MINUTES = 10

soak:
	python3 hostile/soak.py crates/box_main/out/box_main $(MINUTES)

loaded:
	python3 hostile/loaded.py crates/box_main/out/box_main

races:
	python3 hostile/races.py crates/box_main/out/box_main crates/signalbox/out/signalbox

faults:
	python3 hostile/faults.py crates/box_main/out/box_main $(wildcard crates/desk_tests/out/desk_tests_tests)

edge:
	python3 hostile/edge.py crates/box_main/out/box_main

typed:
	python3 hostile/typed.py crates/signalbox/out/signalbox

sizes:
	python3 hostile/sizes.py crates/box_main/out/box_main

# Draws pictures with the same `signalbox` and opens each in a browser and in rsvg-convert, which it installs where they
# are missing; leaves PNGs of what they show, and tells where they are.
look:
	python3 hostile/look.py crates/signalbox/out/signalbox

people = crates/worked_cases/data/people

# Draws the pictures of the documents anew.
pictures:
	crates/signalbox/out/signalbox frame $(people)/frame_of_oak/valley.plan Oak > docs/pictures/oak_frame.svg
	crates/signalbox/out/signalbox graph $(people)/graph_guide_line/valley.plan $(people)/graph_guide_line/day.journal \
		> docs/pictures/valley_graph.svg
	cd $(people)/picture_guide_line_in_the_middle && $(CURDIR)/crates/signalbox/out/signalbox picture valley.plan day.journal 22 \
		> $(CURDIR)/docs/pictures/valley_line.svg

# Tries the wrong bodies of hostile/planted.txt, which the contracts must refuse, on a copy. It needs the libraries,
# and some half a minute of a processor for each edit.
planted:
	python3 hostile/planted.py

# Lists each contract of a public function, and each definition, that differs from those of an earlier commit.
SINCE = 21dd880

contracts:
	python3 hostile/contracts.py $(SINCE)

# The gate: every proof, the must-fail edits, the tests, and the program as two compilers make it.
test:
	@echo "make test proves all crates and their tests, tries the must-fail edits, and runs the tests and the programs."
	@echo "From nothing that took 31 to 104 minutes on four processors, and takes longer on two; here: $$(nproc)."
	@echo "Some kits keep what an earlier run here passed. The last line is 'N passed, M failed'. Without proofs: make quick"
	rt ci
