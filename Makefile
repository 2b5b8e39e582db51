# The first comment of a target is what `make` alone prints of it.

NEEDS_TOOLCHAIN = @python3 tools/unproved.py

# Lists these commands.
.PHONY: help
help:
	@awk '/^# / { text = text "\n    " substr($$0, 3) } /^\.PHONY: / { print "make " $$2 text "\n" } !/^#/ { text = "" }' $(MAKEFILE_LIST)

# Serves the example's site on localhost and prints how to ask it, by the program that `make build` left or by one without proofs.
# Ctrl-C ends it.
# make run SETTINGS=my.toml checks your own folder, and serves it if it is sound.
.PHONY: run
run:
	@tools/run_example.py $(SETTINGS)

# Prints what is wrong with settings and their folder, by a program like that of `make run`: make check SETTINGS=my.toml
.PHONY: check
check:
	@tools/run_example.py --check $(SETTINGS)

# Replays a script of a crawl by a program like that of `make run`, and prints the answers.
# make replay SCRIPT=examples/first_crawl.script
.PHONY: replay
replay:
	@tools/run_example.py --replay $(or $(SCRIPT),examples/first_crawl.script)

# Proves the program and everything that it uses, and leaves it in crates/hole/out/hole.
.PHONY: build
build:
	$(NEEDS_TOOLCHAIN)
	cd crates/hole && rt run -- --version

# All that has to pass: the proofs, then the wrong bodies, then the tests of the program, the scripts and the documents. What was
# proved or judged before and still stands is kept; the tests always run. RT_JOBS is how many crates are proved at once, each by one
# job, since a second one would load the libraries again.
.PHONY: test
test:
	$(NEEDS_TOOLCHAIN)
	RT_JOBS=$${RT_JOBS:-$$(nproc)} rt ci
	tools/wrong_bodies.py
	tests/run_all.py

# What needs no proof, in minutes: scripts, links, and most tests of the program, built without its proofs if need be. Some tests
# measure times, and may fail on a busy machine.
.PHONY: quick
quick:
	$(NEEDS_TOOLCHAIN)
	tests/run_all.py --quick

# Compares the program with the plain models of tests/, on scripts, folders and request lines that are drawn anew each time.
# If there is no proved program, it begins with an hour of proofs.
.PHONY: fuzz
fuzz: crates/hole/out/hole
	tests/replays.py --scripts 10000 --seed "$$(date)"
	tests/requests.py --lines 10000 --seed "$$(date)"

# The wrong bodies of one crate, for work on it: make wrong-bodies CRATE=gopher_item
.PHONY: wrong-bodies
wrong-bodies:
	$(NEEDS_TOOLCHAIN)
	tools/wrong_bodies.py --reasons $(CRATE)

# Prints what to read to believe a promise: its clauses and the definitions that they reach. make audit PROMISE=search
# make audit CRATE=gopher_item prints the contracts of a crate; make audit alone lists the promises.
.PHONY: audit
audit:
	@tools/audit.py $(if $(CRATE),--crate $(CRATE)) $(PROMISE)

# Prints what each source file holds. make files CRATE=gopher_item
.PHONY: files
files:
	@tools/list_files.py $(CRATE)

# Writes what comes from the sources: README's counts, the picture of the crates, and the list of the wrong bodies.
.PHONY: documents
documents:
	tools/numbers_of_code.py --write
	tools/draw.py
	tools/edits.py > tools/wrong_bodies.txt

# Lets each installed Gopher client ask a server of the example's site for a menu, a text, a search and an image.
# If there is no proved program, it begins with an hour of proofs.
.PHONY: clients
clients: crates/hole/out/hole
	tests/clients.py

# Asks the proved program for an hour beside the crawl of a hostile host: each reply has to be right, and its memory has to stay.
# If there is no proved program, it begins with an hour of proofs.
.PHONY: soak
soak: crates/hole/out/hole
	tests/soak.py

# Seconds and megabytes a second, on scripts and files that bench/ makes, and the tables of docs/TIMINGS.md that follow.
# make bench OUTPUT=FILE keeps what it printed; bench/table.py --write FILE then puts the tables into the document.
.PHONY: bench
bench:
	$(NEEDS_TOOLCHAIN)
	bench/run.sh $(OUTPUT)

PREFIX = /usr/local
DESTDIR =
PROGRAM = crates/hole/out/hole
SHARED = $(DESTDIR)$(PREFIX)/share
INSTALLED_DOCUMENTS = packaging/README.md docs/OPERATING.md docs/SPECIFICATION.md CHANGELOG.md
INSTALLED_EXAMPLES = $(shell find examples -type f)
UNITS = $(DESTDIR)$(PREFIX)/lib/systemd/system
UNIT_EXAMPLES = hole.path hole-restart.service hole.socket hole.logrotate
WITH_PREFIX = sed 's|/usr/local/bin/|$(PREFIX)/bin/|g'
MANUAL = man1/hole.1 man1/gophermap_to_menu.1 man5/hole.toml.5
WITH_VERSION = sed "/^\.TH /s/\"hole\"/\"$$($(PROGRAM) --version)\"/"

# Installs the program that `make build` left, its pages of the manual, its documents and examples, its unit for systemd and its
# completion for bash, under PREFIX, below DESTDIR if that is given. Nothing is built.
.PHONY: install
install:
	@test -x $(PROGRAM) || { echo "There is no $(PROGRAM): 'make build' proves and builds it." >&2; exit 1; }
	install -D -m 755 $(PROGRAM) $(DESTDIR)$(PREFIX)/bin/hole
	install -D -m 755 tools/gophermap_to_menu.py $(DESTDIR)$(PREFIX)/bin/gophermap_to_menu
	install -d $(SHARED)/man/man1 $(SHARED)/man/man5
	for page in $(MANUAL); do \
	    $(WITH_VERSION) man/$${page#*/} > $(SHARED)/man/$$page && chmod 644 $(SHARED)/man/$$page || exit 1; \
	done
	install -D -m 644 -t $(SHARED)/doc/hole $(INSTALLED_DOCUMENTS)
	install -D -m 644 packaging/completion.bash $(SHARED)/bash-completion/completions/hole
	for file in $(INSTALLED_EXAMPLES); do install -D -m 644 $$file $(SHARED)/doc/hole/$$file || exit 1; done
	install -d $(UNITS)
	for file in $(UNIT_EXAMPLES); do \
	    $(WITH_PREFIX) packaging/$$file > $(SHARED)/doc/hole/examples/$$file \
	        && chmod 644 $(SHARED)/doc/hole/examples/$$file || exit 1; \
	done
	$(WITH_PREFIX) packaging/hole.service > $(UNITS)/hole.service
	chmod 644 $(UNITS)/hole.service

# Removes what `make install` with the same PREFIX and DESTDIR installed, and nothing else: no settings, no site.
.PHONY: uninstall
uninstall:
	rm -f $(DESTDIR)$(PREFIX)/bin/hole $(DESTDIR)$(PREFIX)/bin/gophermap_to_menu
	rm -f $(addprefix $(SHARED)/man/,$(MANUAL))
	rm -f $(SHARED)/bash-completion/completions/hole
	rm -rf $(SHARED)/doc/hole
	rm -f $(DESTDIR)$(PREFIX)/lib/systemd/system/hole.service

crates/hole/out/hole:
	$(NEEDS_TOOLCHAIN)
	cd crates/hole && rt run -- replay < stdin > /dev/null

include packaging/dist.mk
