# The targets of this repository; make help lists them. Each says first what it needs and does not find.
.DEFAULT_GOAL := run

.PHONY: help run test prove gate release dist dist-test install uninstall rows rows-needs rows-python browser browser-test browser-short page page-test needs bench named-bodies wrong-bodies

program = crates/sel4sim/out/sel4sim
calls = crates/test_calls/out/test_calls
setups = tests/worked
answers = tests/answers
plain = bench/check_plain/out/target/release/check_plain
given = crates/sel4sim/stdin
stored = $(setups)/examples/send_then_receive.toml
# So many set-ups have all their orders made one by one.
orders = 100
# So many set-ups and policies are drawn at random by each row that is of policies.
drawn = 500
# Of so many set-ups drawn at random a draft is asked for, and cut.
drafted = 60
# The crates whose named wrong bodies CI tries: those that are proved soonest.
named = cap_core mem_core cspace_core kernel_delete

# lists the targets
help:
	@awk '/^# / { said = substr($$0, 3) } /^[a-z-]+:/ { if (said) printf "make %-13s %s\n", substr($$1, 1, index($$1, ":") - 1), said; said = "" } /^$$/ { said = "" }' Makefile

# compiles the program without its proofs and runs the stored set-up, or FILE=my.toml; DO=why .. for another command
run:
	@test -z "$$FILE" || test -e "$$FILE" || { echo "make run: there is no file $$FILE" >&2; exit 3; }
	@python3 tools/unproved.py $(if $(FILE),$(or $(DO),check) "$$FILE",$(DO) < $(given))

# every test, by programs compiled without their proofs
test:
	@python3 tools/tests.py

# proves what the program stands on, builds it, and runs the stored set-up; goes on after an interrupt
prove:
	@python3 tools/prove.py < $(given)

# every proof from nothing, wrong bodies that must be refused, all tests and programs
gate:
	@python3 tools/gate.py

# tags this commit as the version of CHANGELOG.md's top section, if the program, the man page and the page are of that version
release:
	@python3 tools/release.py

# packs the proved program into dist/: an archive with examples, pages, man page and completions, a Debian package, and the module for WebAssembly
dist:
	@python3 tools/archive.py dist

# tries what make dist packs, also where there is no toolchain
dist-test:
	python3 tools/archive_test.py

# installs the proved program below PREFIX (/usr/local) and DESTDIR
install:
	@python3 tools/archive.py install

# removes what make install put there, by the same PREFIX and DESTDIR
uninstall:
	@python3 tools/archive.py uninstall

rows-needs:
	@python3 tests/needs.py

# tests the proved program from outside (tests/*.py), with all that this needs
rows: rows-needs prove
	python3 tools/prove.py test_calls
	@$(MAKE) --no-print-directory rows-python
	python3 tests/browser_page.py web/site/sel4sim.html
	python3 tests/schema.py $(program) web/page/test/setups tests
	python3 tests/commands.py --each $(program) $(calls)

# those of these tests that need nothing but Python and the program
rows-python:
	@python3 tests/needs.py $(program)
	python3 tools/test_build.py
	python3 tools/pages_test.py
	python3 tools/release_test.py
	python3 tools/pages.py --check $(program)
	python3 tests/exercises.py $(program) $(setups) $(answers)/goals
	python3 tests/answers.py --pairs $(calls) $(program) $(setups) $(answers)
	python3 tests/cases.py $(program) $(calls) tests/cases/*.toml
	python3 tests/set_ups.py $(program) tests/set_ups
	python3 tests/kernel_cases.py $(program) $(calls) tests/kernel_cases
	python3 tests/command_lines.py $(program)
	python3 tests/several_files.py $(program) $(setups)
	python3 tests/marks.py $(program) $(setups)
	python3 tests/beside_check.py $(program) $(setups)
	python3 tests/names.py audits $(program) $(answers)/audits $(answers)/parts $(answers)/trees
	python3 tests/names.py reports $(program) $(setups)/examples $(setups)/capabilities $(setups)/why_lookups $(answers)/explorations $(answers)/trees
	python3 tests/parts.py $(program) $(answers)/parts 5
	python3 tests/random_policies.py $(program) 1 $(drawn) $(answers)/parts
	python3 tests/random_takes.py $(program) 1 $(drawn)
	python3 tests/random_places.py $(program) 1 $(drawn)
	python3 tests/random_lists.py $(program) 1 $(drawn)
	python3 tests/drafts.py $(program) 1 $(drafted) $(answers)/policies $(answers)/parts
	python3 tests/hows.py $(program) $(answers)/hows $(answers)/parts $(answers)/policies
	python3 tests/revokes.py $(program) $(answers)/audits $(setups)
	python3 tests/explore.py $(program) $(answers)/explorations
	python3 tests/orders_one_by_one.py $(program) $(orders)
	python3 tests/groups_of_clients.py $(program) 60
	python3 tests/new_set_ups.py $(program)
	python3 tests/messages.py $(program)
	python3 tests/imports.py $(program) tests/layouts 1 300
	python3 tests/use_address_again.py $(program) $(calls) 1000
	python3 tests/commands.py $(program) $(calls)
	python3 tests/hostile_texts.py $(program) $(setups) $(stored)
	python3 tests/run_clients.py $(program) $(setups)/examples/three_clients.toml 100
	python3 tests/run_clients.py $(program) tests/four_clients.toml 100
	python3 tests/run_clients.py --first 2 $(program) $(answers)/explorations/badge_names_the_sender.toml 100
	python3 tests/run_clients.py --first 5 $(program) tests/four_clients.toml 20
	python3 tests/run_clients.py --first 1000 $(program) tests/four_clients.toml 5
	python3 tests/run_clients.py --first 5 $(program) tests/three_of_four_calls.toml 5
	python3 tests/unmet_by_threads.py $(program)
	python3 tests/problem_matcher.py $(program)
	python3 tests/documents.py $(dir $(program)) README.md CONTRIBUTING.md CHANGELOG.md docs/*.md

# makes web/site/sel4sim.html, the program as one page for any browser
browser: prove
	@python3 web/browser/build.py

# tries that page in chromium and firefox; pictures=FOLDER keeps pictures of it
browser-test: prove
	python3 web/browser/test/browser_test.py $(program) $(setups) $(if $(pictures),--pictures $(pictures))

# tries how the page behaves, of its sources as they are, in chromium alone; says so where there is none
browser-short:
	@python3 web/browser/test/short_test.py

# makes a page of the run of each example, in web/page/out/
page: prove
	web/page/pages.sh $(program) $(setups)/examples web/page/out

# steps through these pages in chromium; traces=FOLDER: of other traces
page-test: $(if $(traces),,prove)
	python3 web/page/test/page_test.py $(if $(traces),--traces $(traces),$(program) $(setups)/examples)

needs:
	bench/needs.sh

# measures the program beside plain Rust and SPIN (docs/performance.md); PARTS="commands spin": these alone, to try them
bench: needs prove
	cd bench/check_plain && CARGO_TARGET_DIR=out/target cargo build --release --quiet
	python3 bench/same_reports.py $(plain) $(setups)
	python3 bench/growth.py $(program) $(plain) $(PARTS)
	$(if $(PARTS),,python3 bench/draw.py)

# tries the wrong bodies of the kernel's parts in tools/named-bodies.txt, over what the gate proved
named-bodies:
	@python3 tools/wrong_bodies.py --named --jobs $(or $(JOBS),$(shell nproc)) $(named)

# tries every wrong body; CRATE=NAME: those of one crate, JOBS=N: N crates side by side
wrong-bodies:
	python3 tools/wrong_bodies.py --jobs $(or $(JOBS),1) $(CRATE)
