# afsbackup: builds, runs and tests over the Rattle toolchain, whose command rt is on the PATH.
PROGRAM := crates/backup_cli/out/backup_cli
# A volume as OpenAFS's `vos dump` writes it, and where it lies in a folder.
SAMPLE := examples/user.a.dump
IMAGE := cell/fs1/vicepa/user.a.vol
# The crates that the program's two topmost ones stand on, from the lowest up, and all that it is made from.
BELOW := $(shell awk -F: '/^backup_program:/ { exit } /^[a-z]/ { print $$1 }' crates.txt)
SOURCES := $(foreach crate,$(BELOW) backup_program backup_cli,$(wildcard crates/$(crate)/src crates/$(crate)/specs))
# How many processes prove a crate.
JOBS := $(shell n=$$(nproc); echo $$((n < 4 ? n : 4)))

.PHONY: all demo show prove test try bench edge-tests

# Proves and builds the program as ./afsbackup.
all: afsbackup

# Runs the sources UNPROVED: examine on a volume of OpenAFS, a rehearsal of three volumes, and a script that dumps the volume to a blank
# tape, removes it, and restores it.
demo:
	@echo "Built from the sources UNPROVED, within minutes, to show what the program tells. 'make' proves and builds ./afsbackup."
	@rm -rf out/cases && mkdir -p out/cases && : > out/blank && echo "slots:0-0 0" > out/tapeconfig
	@cp $(SAMPLE) out/cases/1-examine && echo examine > out/cases/1-examine.args
	@: > out/cases/2-rehearse && printf 'rehearse\n3\n' > out/cases/2-rehearse.args
	@cp examples/first.script out/cases/3-restore && echo run > out/cases/3-restore.args
	@cd crates/backup_cli && rt try --cases ../../out/cases --data tapeconfig=../../out/tapeconfig --data media/slot0=../../out/blank \
		--data $(IMAGE)=../../$(SAMPLE)
	@echo "Nothing of this was proved: 'make' proves and builds ./afsbackup."

# Puts a volume of OpenAFS into a folder of its own, dumps it fully and, changed, by an increment, loses journal and volume, gets both
# back from the tapes, and shows what the restored volume holds, which is what it held before.
show: afsbackup
	@rm -rf out/show && mkdir -p out/show/media out/show/$(dir $(IMAGE)) && touch out/show/media/slot0 out/show/media/slot1
	@echo "slots:0-1 0" > out/show/tapeconfig && cp $(SAMPLE) out/show/$(IMAGE)
	@cat examples/setup.script examples/dump.script && cd out/show && cat ../../examples/setup.script ../../examples/dump.script | ../../afsbackup run
	@./afsbackup examine < out/show/$(IMAGE) | tail -n +2 > out/show/before
	@echo "The journal and the volume are lost." && rm out/show/media/journal out/show/cell/fs1/vicepa/*.vol
	@cat examples/restore.script && cd out/show && ../../afsbackup run < ../../examples/restore.script
	@./afsbackup examine < out/show/$(IMAGE) | tee out/show/restored | tail -n +2 > out/show/after
	@cat out/show/restored && cmp out/show/before out/show/after && echo "The volume is as it was."

# Leaves the proved program as ./afsbackup: as rt ci left it, where no source is newer, and else proved here: each crate that it stands
# on, from the lowest up, by several processes, and the two topmost, which load all proofs below, by one. With less than 16 GB of memory
# give make JOBS=1.
afsbackup: $(wildcard crates/*/src/*.rt crates/*/specs/*.antt) crates.txt
	@test -f $(PROGRAM) && test -z "$$(find $(SOURCES) crates.txt -newer $(PROGRAM) -print -quit)" || $(MAKE) --no-print-directory prove
	cp $(PROGRAM) afsbackup

prove:
	for crate in $(BELOW); do (cd crates/$$crate && rt lib --jobs $(JOBS)) || exit 1; done
	cd crates/backup_program && rt lib --jobs 1
	cd crates/backup_cli && rt run --jobs 1 -- examine < ../../$(SAMPLE)

# The merge gate: every proof, every edit that must fail, every test and the program.
test:
	rt ci

# Runs examine on the sample unproved, for whoever edits.
try:
	cd crates/backup_cli && rt try -- examine < ../../$(SAMPLE)

# Times examine on a stream of 256 MiB beside cat, lines of a script beside the writes and syncs of their commits, reading and writing a
# stream, a tape and whole dumps and restores beside cp, dumps in a group beside the same ones apart, scans beside cat, look-ups over 100
# and over 100,000 dumps, and a saved database beside cp. They need some 8 GB in the folder that TMPDIR names.
bench: afsbackup
	bench/examine.sh ./afsbackup
	bench/run.sh ./afsbackup
	cd crates/bench_tools && rt run -- probe < stdin > /dev/null && rm -r media cell
	bench/stream.sh crates/bench_tools/out/bench_tools
	bench/tape.sh crates/bench_tools/out/bench_tools
	bench/dump.sh ./afsbackup
	bench/restore.sh ./afsbackup
	bench/together.sh ./afsbackup
	bench/scan.sh ./afsbackup
	bench/lookups.sh ./afsbackup
	bench/save.sh ./afsbackup

# Tests the files in a real folder by a small program: closed standard streams, refused opens, kills, what is on the disk when
# a line is told, and images of volumes against a model. Then the program itself: scripts after one another, closed and full outputs,
# refused opens, a full device, lost journals, groups, saved databases, 440 kills, each told reply's change in the journal, less memory
# than a script needs, in steps of a page, and groups of dumps whose journal is at its limit.
edge-tests: afsbackup
	cd crates/bench_tools && rt run -- probe < stdin > /dev/null && rm -r media cell
	bench/edge/tests.py crates/bench_tools/out/bench_tools
	bench/edge/program.py ./afsbackup
	bench/edge/memory.py ./afsbackup
	bench/edge/full.py ./afsbackup

# ---- documents, installation and the bridge to a real cell

.PHONY: docs docs-check checks readme-check install interop
PREFIX ?= /usr/local
DOCS := $(DESTDIR)$(PREFIX)/share/doc/afsbackup

# Makes docs/CRATES.md and docs/DEFINITIONS.md anew, from crates.txt, the heads of crates and the comments at calls and definitions.
docs:
	docs/make_crates.py > docs/CRATES.md.new && mv docs/CRATES.md.new docs/CRATES.md
	docs/make_definitions.py > docs/DEFINITIONS.md.new && mv docs/DEFINITIONS.md.new docs/DEFINITIONS.md

# Stale documents, long lines and cells, README's rows, names that nothing has, links that lead nowhere.
docs-check:
	docs/check.py

# What is checked without a proof: the documents, and the manual page where mandoc is there.
checks: docs-check
	@if ! command -v mandoc > /dev/null; then echo "mandoc isn't there: the manual page isn't checked"; \
	elif mandoc -T lint man/afsbackup.8 2> /dev/null | grep -v "referenced manual not found"; then exit 1; \
	else echo "the manual page has no faults"; fi

# Runs the commands of README as a newcomer would, in an empty folder.
readme-check: afsbackup
	bench/edge/readme.py ./afsbackup

# Puts the program, its manual page, the documents for its users and the examples, with their two scripts, in their places.
install: afsbackup
	install -d $(DESTDIR)$(PREFIX)/sbin $(DESTDIR)$(PREFIX)/share/man/man8 $(DOCS)/examples
	install -m 755 afsbackup $(DESTDIR)$(PREFIX)/sbin/afsbackup
	install -m 644 man/afsbackup.8 $(DESTDIR)$(PREFIX)/share/man/man8/afsbackup.8
	install -m 644 README.md CHANGES.md LICENSE docs/COMMANDS.md docs/CELL.md docs/FORMATS.md $(DOCS)
	install -m 644 examples/*.script examples/*.dump $(DOCS)/examples
	install -m 755 examples/*.sh $(DOCS)/examples

# Takes volumes of a real OpenAFS cell to tapes and back, where its packages are there; says which are wanting where not.
interop: afsbackup
	bench/edge/openafs.py ./afsbackup
