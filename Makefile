# The short commands. `make` alone prints those for users; docs/CONTRIBUTING.md has the others.

.PHONY: help build check demo install uninstall dist test store-times contracts program-test install-test docs-test compile-test torture bench clean

help:
	@echo 'citymerge: merges, filters and makes streams of 3D city features (CityJSONSeq)'
	@echo
	@echo '  make build   prove the program and build it: build/citymerge'
	@echo '  make check   prove what has changed, in all crates; in one with CRATE=city_json, and of that'
	@echo '               one function or module with ONLY=reading::read'
	@echo '  make demo    build it, run it on the tiles in examples/ and show what came out'
	@echo '  make install put the program, citymerge-many, manual pages, completions and documents below PREFIX'
	@echo '               (/usr/local); make uninstall takes them away'
	@echo '  make dist    an archive and a Debian package of the program, in build/dist'
	@echo '  make test    all that has to hold: the documents, what must not compile, the gate (every proof from nothing, the edits'
	@echo '               that must fail, the tests), and the program that it built; takes long'
	@echo '  make torture the program held against a model of it on 100,000 random inputs, and where each of its calls is'
	@echo '               refused in turn (TORTURE="--seed=7" draws others)'
	@echo '  make bench   how fast it is, beside jq, and how much memory it takes (BENCH="--help" lists the options)'
	@echo '  make clean   remove what was built and what the proofs kept'
	@echo
	@echo 'Needed: the Rattle kit, its command rt on PATH, which itself needs python3. For make test and make torture also cc,'
	@echo 'for make bench jq and valgrind.'

# Flags for rt, as in: make build RTFLAGS='--jobs 1'
RTFLAGS =

build:
	@tools/build.sh $(RTFLAGS)

# All crates, or the crate CRATE, or in it the function or module ONLY and what it calls.
check:
	@tools/need.sh rt
	@$(if $(CRATE),cd crates/$(CRATE) && rt check $(if $(ONLY),--only $(ONLY)),rt all check) $(RTFLAGS)

demo: build
	@tools/demo.sh

program-test: build
	@tools/program_test.sh build/citymerge

install-test: build
	@tools/install_test.sh
	@python3 tools/many_tiles_test.py build/citymerge
	@python3 tools/commands_test.py build/citymerge
	@tools/dist_test.sh

# The public contracts of all crates, or of the crate CRATE.
contracts:
	@tools/need.sh python3
	@tools/contracts.py $(CRATE)

docs-test:
	@tools/need.sh python3
	@python3 tools/docs_test.py

compile-test:
	@tools/need.sh rt python3
	@python3 tools/must_not_compile.py

# Wrong runs of the program are kept in build/torture.
torture: build
	@tools/need.sh python3 cc
	@tools/growths.sh
	@python3 tools/torture/torture.py $(TORTURE) build/citymerge

# The documents, what must not compile, the gate, and the program that the gate built, at its edges.
test:
	@tools/gate.sh

# What the last `make test` took, where it began from nothing, becomes what tools/gate.tsv says.
store-times:
	@tools/need.sh python3
	@python3 tools/times.py store build/gate.tsv tools/gate.tsv

# PREFIX is where the programs, their manual pages, completions and documents go.
PREFIX = /usr/local

install: build
	@tools/install.sh install '$(PREFIX)'

uninstall:
	@tools/install.sh uninstall '$(PREFIX)'

# What users download who have no kit: the same bytes from each clone of a release.
dist: build
	@tools/dist.sh

bench: build
	@tools/need.sh python3
	@python3 bench/bench.py --program build/citymerge $(BENCH)

clean:
	@rm -rf build crates/*/out
