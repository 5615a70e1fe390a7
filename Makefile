# make run: the bench host on every example, or on DECKS="mine.deck ..", with MARKING=1621 for a CP1621B. make test: the gate.
# A deck is run with the memory beside it, mine.memory of mine.deck, if there is one.
# make trace: the same, attempt by attempt; FROM=N TO=M: only attempts N to M.
# make vectors, make requirements, make listing: write vectors/, docs/REQUIREMENTS.md and docs/LISTING.md anew.
# make bench: engine against interpreter, runs with a memory against runs without, and a line of the assembler and the lister in short and long texts.
# make soak: decks without a memory over and over for a night, or DECKS="mine.deck .." HOURS=8 or RUNS=COUNT, JOBS=COUNT, LOG=FILE: docs/SOAK.md.
# make fuzz: the fuzzer for ten minutes, or for FOR=SECONDS.
# make definitions: each change of code and definition alike, and docs/DEFINITIONS.md anew; it takes 45 minutes. ONLY="WORD ..": some of them.
.PHONY: run trace test vectors requirements listing bench soak fuzz definitions

run:
	@host/run $(DECKS)

trace:
	@host/run --trace $(DECKS)

test:
	@.ci/run

vectors:
	@tests/vectors/write vectors

requirements:
	@tests/requirements/write docs/REQUIREMENTS.md

listing:
	@tests/listing_page/write docs/LISTING.md

bench:
	@tests/compare/bench
	@tests/listing/bench

soak:
	@tests/compare/soak $(DECKS)

fuzz:
	@tests/fuzz/run $(or $(FOR),600) $$(date +%s)

definitions:
	@tests/definitions/write docs/DEFINITIONS.md $(ONLY)
