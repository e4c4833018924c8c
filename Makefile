# make test: everything that is claimed, from nothing. The last line is the verdict, 'N passed, 0 failed'.
.PHONY: test lib c_example fuzz wrong bench count

test:
	@sh tests/run.sh

# make lib: the library that people link and its header, in dist/. What it stands on is proved first.
lib:
	@. tools/kit.sh && build_library

# make c_example: builds the example in C against dist/, runs it and compares what it writes.
c_example: lib
	@sh tests/c_example.sh

# make fuzz N=100000 SEED=1: the product and the second program on new cases, up to the first difference.
N = 100000
SEED = 1
fuzz:
	@sh tools/fuzz.sh $(N) $(SEED)

# make wrong EDITS="moves panels/rule_6_the_only_way_above": edits that must be refused are wrong answers: each is run on the stored cases without proof. A crate
# stands for all of its edits; without EDITS they are those of the list by which a closing goes.
EDITS =
wrong:
	@sh tools/wrong.sh $(EDITS)

# make bench: how long openings, closings, searches and the text calls take beside plain C versions of the same methods, the first three beside sweeps too, and that
# all answer the same; and how the costs of closings and searches grow with the number of boards.
bench: lib
	@sh bench/run.sh

# make count: how many instructions the calls take, which no load of the machine changes.
count: lib
	@sh bench/count.sh
