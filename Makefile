PREFIX = /usr/local
PROGRAM = crates/tftp_audit/out/tftp_audit
TRANSFERS = crates/tftp_transfers/out/tftp_transfers
TOOLS = crates/tests_tools/out/tests_tools
MATCH = crates/tftp_match/out/tftp_match

.PHONY: build build-for-any ready test test-here check-scripts check-programs plants tables doc bench fuzz
.PHONY: install uninstall dist deb

# Proves the three programs and builds them for the processor at hand, each where its sources are not those that it was
# built of, or where it was built for others. TFTP_AUDIT_CPU=any builds them for any processor, as build-for-any does,
# and TFTP_AUDIT_CPU=x86-64-v3 for those with AVX2.
build build-for-any:
	@./tftp-audit --build
	@./tftp-transfers --build
	@./tftp-match --build

build-for-any: export TFTP_AUDIT_CPU = any

# The same where a call would build: not where the gate has built for any processor.
ready:
	@./tftp-audit --ready
	@./tftp-transfers --ready
	@./tftp-match --ready

# The gate: rt ci, which is every proof from nothing, the must-fail edits, the tests and the programs' stored runs; then
# the scripts; and then the programs that it built, for any processor, with failing reads, writes and growths, on larger
# captures and on recorded transfers. What fails stops nothing of the rest.
test:
	@./tftp-audit --gate
	@$(MAKE) --no-print-directory -k check-scripts check-programs

# The tests that need no built program, side by side: of the launchers, the packages, the wrong bodies and the pages; and
# what mypy and ruff say of the Python, where they are installed. `python3 -m tests tests.test_links` tries one module.
check-scripts:
	@python3 -m tests --scripts

# Those that need the built programs, which must be there.
check-programs:
	@python3 -m tests --programs --required

# That, and then the programs that are built for the processor at hand, where that is another build: what they stand on is
# proved once more for it, which takes as long as the gate.
test-here: test
	@sh tests/here.sh

# Every wrong body, those that the gate tries too: the prover must refuse each. `python3 tools/plants NAME..` tries those
# of some crates, or some edits.
plants:
	python3 -m tests tests.test_plants
	python3 tools/plants

# Writes the tables of the rules in the pages and in the plugin of Wireshark, and their names on the pages.
tables:
	@python3 tools/tables

# Writes the pages of docs/contracts/ from the clauses and the comments of the sources; they are not kept with these.
doc:
	@python3 tools/contracts

# How fast the program and its libraries are, beside wc -l, a plain copy and the hex crate alone on the same bytes.
bench: build
	@cd crates/tests_tools && rt run -- copy </dev/null >/dev/null
	sh bench/run.sh $(PROGRAM) $(TOOLS) $(TRANSFERS) $(MATCH)

# Simulated ends and networks, and changes of what passed, tried on the built program; and recordings of lawful ends, divided
# into transfers, of which none may be blamed: make fuzz N=1000000 SEED=1, and one recording for each hundred cases. For each
# twenty a capture of more than 65,535 blocks is changed where its numbers begin again. For each
# case two recordings of worlds of lawful ends with trouble of every kind, one in twenty of them as a file, and sessions with
# one breach, of which most must be told without a doubt: a table tells how many. For each
# twenty a transfer is recorded between its ends, and changes of it, and what is said compared with a slow reference; for each
# ten both ends of a transfer are matched, whole, cut and changed; and for each ten a recording is changed, and what is read
# of it compared with what a slow reader finds, and another one by tftp-transfers in 2 GB, which must end in time.
N = 10000
JOBS = 2
fuzz: ready
	python3 tests/fuzz.py --cases $(N) --jobs $(JOBS) $(if $(SEED),--seed $(SEED)) $(PROGRAM)
	python3 tests/rounds.py --cases $$(($(N) / 20 + 1)) $(if $(SEED),--seed $(SEED)) $(PROGRAM)
	python3 tests/attribution.py --cases $$(($(N) / 100 + 1)) $(if $(SEED),--seed $(SEED)) --transfers $(TRANSFERS) $(PROGRAM)
	python3 tests/worlds.py --recordings $$((2 * $(N))) --files $$(($(N) / 10 + 1)) --sessions $$(($(N) / 50 + 1)) --jobs $(JOBS) $(if $(SEED),--seed $(SEED)) $(TRANSFERS)
	python3 tests/between.py --cases $$(($(N) / 20 + 1)) $(if $(SEED),--seed $(SEED)) $(TRANSFERS)
	python3 tests/both.py --cases $$(($(N) / 10 + 1)) $(if $(SEED),--seed $(SEED)) $(MATCH)
	@cd crates/tests_tools && rt run -- </dev/null >/dev/null || test $$? -eq 2
	python3 tests/datagrams.py --cases 0 --changes $$(($(N) / 10 + 1)) $(if $(SEED),--seed $(SEED)) $(TOOLS)
	python3 tests/mutated.py --recordings $$(($(N) / 10 + 1)) --jobs $(JOBS) $(if $(SEED),--seed $(SEED)) $(TRANSFERS)

# The programs in bin; the scripts beside their modules in lib, with links in bin; the manual pages, the pages for
# readers, the examples and what shells complete; in share the plugin of Wireshark and the schemas of JSON. The programs
# are those that a call would run, so for the processor at hand where make build, or nothing, has built them, and for any
# after the gate; where other machines run them too, make build-for-any comes first.
install: ready doc
	@sh tools/install.sh install "$(DESTDIR)$(PREFIX)"

# Takes away what install put there, by the list that it left, and nothing else.
uninstall:
	@sh tools/install.sh uninstall "$(DESTDIR)$(PREFIX)"

# dist/tftp-audit-VERSION.tar.gz, with all that install puts, the sum of each file, and a file PROVED; the same bytes
# from the same commit and the same programs. Packages are for any processor, and their programs have no symbols. A program
# that was changed since it was built with its proofs is refused, before one is built and after.
dist deb:
	@python3 tools/package check
	@$(MAKE) --no-print-directory build-for-any doc
	@python3 tools/package $(KIND_$@)

# A tar for any Linux, and a package of Debian of the same.
KIND_dist = tar
KIND_deb = deb
