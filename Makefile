# `make run` plays the sample deck, by a build that is not proved and stays in bin/unproved, and `make try IN=examples/edu WORDS='show edu.dbd'` any command; `make` proves hd and leaves it at bin/hd; `make test`
# is the gate, with all that tests play over the proved program and that the documents and the programs of other languages show, and `make edits OF=NAME` tries more edits
# of a crate than the gate does. `make examples` plays what the documents, the manual page and examples show, and compares, and so the words of
# FORMATS and how hd is called; `make program-test` plays hd over many cases of words, files and standard input; `make install-test` installs it into folders of its own; `make serve-test` plays frames of `hd serve`, and `make commits-test` programs that commit, take back and are killed; `make calls-test`
# compares worked lists and random decks with a plain list of rows, and `make rows-test` what goes out as rows and tables with what comes back; `make files-test` tries that nothing loses a file, and `make crash-test` that a crash leaves the last commit; `make definitions` lists each word of
# the specs; `make bench` measures hd, and SQLite beside it; `make dli` makes hdrun, which runs programs that call DL/I, and
# `make dli-test` tries it; `make install` puts the program, its manual pages and what shells complete below PREFIX, `make install-dli` what programs
# want, hd.py where Python looks for modules, and `make uninstall` takes them away.
.PHONY: all run try test program-test install-test serve-test commits-test calls-test salvage-test rows-test files-test crash-test edits examples definitions bench dli dli-test has-room install uninstall install-dli clean

SHELL = /bin/bash

# no half of a file stays where what writes it fails
.DELETE_ON_ERROR:

all: bin/hd

# the crates of the program; the others are of tests
CRATES = $(filter-out %_tests hd_sample,$(shell sed -n 's/^\([a-z_0-9]*\):.*/\1/p' crates.txt))
SOURCES = $(foreach crate,$(CRATES),$(shell find crates/$(crate) -type f -not -path '*/out/*'))

bin/hd: crates.txt $(SOURCES)
	mkdir -p bin
	python3 make/prove.py bin/hd

# hd before any proof; what a proof alone needs does not make it anew
bin/unproved/hd: crates.txt $(filter %.rt,$(SOURCES)) make/unproved.py
	@echo 'Building hd without a proof, which takes two minutes and more on a busy machine.' >&2
	@mkdir -p bin/unproved
	@python3 make/unproved.py $@

UNPROVED = @echo 'This build is not proved: it is run before any proof. `make` proves hd, and says how long that takes.' >&2

run: bin/unproved/hd
	$(UNPROVED)
	@bin/unproved/hd <crates/hd/stdin

# any command: WORDS are the words behind hd, as a shell reads them, and names of files in them are those of the folder IN, or else of the one in which make is called
IN ?= $(or $(PWD),.)

try: bin/unproved/hd
	$(UNPROVED)
	@cd '$(IN)' && '$(CURDIR)/bin/unproved/hd' $(WORDS)

# how many proofs the gate makes side by side: one a processor, and one for each 4 GB of memory
LANES = $(shell awk -v cores=$$(nproc) '/MemAvailable/ { fit = int($$2 / 4000000); print (fit < 1) ? 1 : (fit < cores) ? fit : cores }' /proc/meminfo)

# what ends a command, or fails beneath it, loses no file: real files, kills, a small disk, calls of the system that fail
files-test: bin/hd
	python3 tests/files_test.py bin

# a crash at any moment leaves the last commit: traces of runs that are cut, with writes lost and torn, and kills. IMAGES and KILLS say how many
crash-test: bin/hd
	python3 tests/crash_test.py bin --images $(or $(IMAGES),2000) --kills $(or $(KILLS),200)

# what hd salvage keeps of damaged volumes. CASES says of how many: 10000 take an hour
salvage-test: bin/hd
	python3 tests/salvage_test.py bin/hd --cases $(or $(CASES),300)

# databases of random fields, keys and bytes that go out as rows and as tables, and come back. CASES says how many
rows-test: bin/hd
	python3 tests/rows_test.py bin/hd --cases $(or $(CASES),300)

# what hd prints and leaves, and its statuses, for the cases of tests/cases
program-test: bin/hd
	python3 tests/program_test.py bin/hd

# what make install and install-dli leave, and uninstall takes away
install-test: bin/hd $(if $(shell command -v $(CC)),bin/hdrun)
	python3 tests/install_test.py bin

# frames of calls, and of what is no call, to hd serve
serve-test: bin/hd
	python3 tests/serve_test.py bin/hd

# programs that commit, take back, end and are killed, beside a plain list of rows. GAMES says how many
commits-test: bin/hd
	python3 tests/commits_test.py bin/hd $(GAMES)

# worked lists and random decks, each line of which a plain list of rows answers too
calls-test: bin/hd
	python3 tests/calls_test.py bin/hd

# with COBOL and C on the machine, the gate tries their programs too
DLI_TEST = $(if $(and $(shell command -v cobc),$(shell command -v $(CC))),dli-test)

# the program that the gate has proved plays the documents and the programs of other languages, before rt's last line ends all
test:
	mkdir -p bin
	TIMEFORMAT='%R s, and %U s of processors' && set -o pipefail && time RT_JOBS=$(LANES) rt ci | tee bin/gate.log
	python3 make/stamp.py crates/hd/out/hd bin/hd
	$(MAKE) --no-print-directory -o bin/hd program-test install-test serve-test commits-test calls-test salvage-test rows-test examples $(DLI_TEST)
	@$(if $(DLI_TEST),,echo 'No program in COBOL or C was tried: this machine has no cobc, or no C compiler.' >&2)
	@tail -n 1 bin/gate.log

# the edits of must-fail and those of more-edits of the crate OF, or of all crates, in a copy
edits:
	copy=$$(mktemp -d) && trap "rm -rf $$copy" EXIT && git ls-files -z | xargs -0 cp --parents -t $$copy && cd $$copy && \
	for more in crates/*/more-edits; do mkdir -p $$more/../must-fail && mv $$more/*.edit $$more/../must-fail; done && rt must-fail $(OF)

examples: bin/hd
	python3 docs/definitions.py --check
	python3 examples/words.py
	python3 examples/usage.py
	python3 examples/check.py docs/USING.md examples/edu + README.md + docs/hd.1 docs/OPERATING.md examples/edu docs/IMS.md examples/parts examples/*/README.md examples/hospital/DAMAGED.md

# each word of the specs with its sentence and its file
definitions:
	mkdir -p bin
	python3 docs/definitions.py >bin/definitions.md

bench: bin/hd
	python3 bench/bench.py

DLI = $(addprefix dli/,server.c database.c call.c ahead.c io_pcb.c entries.c trace.c hdrun.c)

# programs in COBOL and C call what hdrun exports
bin/hdrun: $(DLI) dli/dli.h dli/include/ims.h
	mkdir -p bin
	$(CC) -std=gnu11 -Wall -Wextra -O2 -rdynamic -o $@ $(DLI) -ldl

dli: bin/hdrun

dli-test: bin/hd bin/hdrun
	python3 dli/test.py bin
	empty=$$(mktemp -d) && trap "rmdir $$empty" EXIT && python3 examples/check.py docs/PROGRAMS.md $$empty

PREFIX ?= /usr/local
PYTHON ?= python3
BIN = $(DESTDIR)$(PREFIX)/bin
MAN = $(DESTDIR)$(PREFIX)/share/man
INCLUDE = $(DESTDIR)$(PREFIX)/include
# where bash and zsh look for what they complete behind hd
BASH_COMPLETION = $(DESTDIR)$(PREFIX)/share/bash-completion/completions
ZSH_COMPLETION = $(DESTDIR)$(PREFIX)/share/zsh/site-functions
# the folder in which Python looks for modules; where PREFIX is given, one below it
MODULES = $(PYTHON) make/modules.py $(if $(filter file,$(origin PREFIX)),,'$(PREFIX)')

bin/hd-formats.5: docs/manual.py docs/FORMATS.md
	mkdir -p bin
	python3 docs/manual.py docs/FORMATS.md >$@

bin/hd.bash bin/hd.zsh: bin/hd.%: bin/hd make/completion.py make/commands.py
	python3 make/completion.py $* bin/hd >$@

# whether another program has hd's place, as hexdump of the package bsdextrautils has it in /usr/bin; FORCE=1 takes the place of any
IS_OTHER = [ -e $(BIN)/hd ] && ! $(BIN)/hd --version </dev/null 2>&1 | grep -q '^hd [0-9]'

has-room:
	@if [ "$(FORCE)" != 1 ] && $(IS_OTHER); then echo '$(BIN)/hd is another program, and stays: give another PREFIX, or FORCE=1 to replace it' >&2; exit 1; fi

install: has-room bin/hd bin/hd-formats.5 bin/hd.bash bin/hd.zsh
	install -D -m 755 bin/hd $(BIN)/hd
	install -D -m 644 docs/hd.1 $(MAN)/man1/hd.1
	install -D -m 644 bin/hd-formats.5 $(MAN)/man5/hd-formats.5
	install -D -m 644 bin/hd.bash $(BASH_COMPLETION)/hd
	install -D -m 644 bin/hd.zsh $(ZSH_COMPLETION)/_hd
	@if [ -z "$(DESTDIR)" ] && ! [ "$$(command -v hd)" -ef $(BIN)/hd ]; then echo 'PATH finds another hd, or none, before this one: $(BIN)' >&2; fi

uninstall:
	if ! { $(IS_OTHER); }; then rm -f $(BIN)/hd $(BASH_COMPLETION)/hd $(ZSH_COMPLETION)/_hd; fi
	rm -f $(MAN)/man1/hd.1 $(MAN)/man5/hd-formats.5
	rm -f $(BIN)/hdrun $(MAN)/man1/hdrun.1 $(INCLUDE)/ims.h
	place="$(DESTDIR)$$($(MODULES))" && rm -f "$$place"/hd.py "$$place"/__pycache__/hd.*.pyc

# what programs in COBOL, C and Python want, beside hd; the last line is told where Python does not look for modules there
install-dli: bin/hdrun
	install -D -m 755 bin/hdrun $(BIN)/hdrun
	install -D -m 644 dli/hdrun.1 $(MAN)/man1/hdrun.1
	install -D -m 644 dli/include/ims.h $(INCLUDE)/ims.h
	place="$(DESTDIR)$$($(MODULES))" && install -D -m 644 dli/hd.py "$$place/hd.py"
	@place="$$($(MODULES))" && if [ -z "$(DESTDIR)" ] && ! (cd / && $(PYTHON) -c 'import sys; sys.exit(sys.argv[1] not in sys.path)' "$$place"); then \
	echo "Python does not look for hd.py there by itself: PYTHONPATH=$$place" >&2; fi

clean:
	rm -rf bin crates/*/out
