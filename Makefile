# The commands of this repository. `make help` lists them.

SHELL := /bin/bash
.DEFAULT_GOAL := help
.PHONY: help run test try bench library pictures

PROGRAM := crates/pathindex_main
COUNTER := crates/example_count
LIBRARY := crates/pathindex_c
PICTURES := crates/pathindex_dot
# the part of the kit through which its heap calls the C library
HEAP = $(dir $(realpath $(shell command -v rt)))../c/liblibc_c.a
# How many crates `make run` starts at a time: far more than there are cores, since most of them wait for a crate below. Each proof takes up
# to 2 GB, and about six run at once.
JOBS ?= 14
NEEDS_RT = command -v rt >/dev/null || { echo "make $@: the command rt of the Rattle kit isn't on the path" >&2; exit 1; }

# Runs the program on a script and, if one is named, a graph file; it is compiled, and nothing is proved.
unproved = cd $(PROGRAM) && rt try --data s='$(abspath $(1))' $(if $(2),--data g='$(abspath $(2))') -- s $(if $(2),--graph g)

help:
	@echo 'make run               run examples/foaf.script at once, and then prove and build the program'
	@echo 'make test              the gate: each proof, each edit that must be refused, each test, program and example'
	@echo 'make try SCRIPT=FILE   run a script without proving anything, for a first look; GRAPH=FILE names a graph file'
	@echo 'make library           prove and build bin/libpathindex.a and bin/libpathindex.so, for C, C++ and Python'
	@echo 'make pictures          prove and build bin/pathindex_dot, which draws graphs and indexes for Graphviz'
	@echo 'make bench             measure bin/pathindex on generated scripts and graph files, beside C++ and serdi'

run:
	@$(NEEDS_RT)
	@mkdir -p bin
	@echo 'The graph examples/foaf.nt:'
	@sed 's/^/    /' examples/foaf.nt
	@echo 'The script examples/foaf.script:'
	@sed 's/^/    /' examples/foaf.script
	@echo 'What the program writes, from a build that nothing has proved yet (in about a minute):'
	@$(call unproved,examples/foaf.script,examples/foaf.nt) >$(abspath bin/unproved.out) 2>$(abspath bin/run.log) \
		|| { status=$$?; cat $(abspath bin/run.log bin/unproved.out); exit $$status; }
	@sed 's/^/    /' bin/unproved.out
	@echo 'Proving and building bin/pathindex. The first time takes about an hour on four cores; bin/run.log lists the crates that are proved.'
	@(cd $(PROGRAM) && rt all check --jobs $(JOBS)) >bin/run.log 2>&1 || { status=$$?; cat bin/run.log; exit $$status; }
	@cd $(PROGRAM) && rt run -- ../../examples/foaf.script --graph ../../examples/foaf.nt >../../bin/foaf.out 2>>../../bin/run.log \
		|| { status=$$?; cat ../../bin/run.log ../../bin/foaf.out; exit $$status; }
	@cp $(PROGRAM)/out/pathindex_main bin/pathindex
	@diff bin/unproved.out bin/foaf.out || { echo 'make run: the proved program writes something else, as the lines above show' >&2; exit 1; }
	@echo 'bin/pathindex is proved and built, and writes the same.'

test:
	@$(NEEDS_RT)
	rt ci
	tools/compare_examples.sh $(PROGRAM)/out/pathindex_main
	tools/test_pictures.sh $(PICTURES)/out/pathindex_dot
	@mkdir -p bin
	@if command -v cc >/dev/null && command -v ld >/dev/null && command -v objcopy >/dev/null; then \
		tools/build_archive.sh $(LIBRARY)/out/libpathindex_c.a && tools/build_library.sh $(LIBRARY)/out/libpathindex_c.a $(HEAP) bin \
			&& tools/test_library.sh $(PROGRAM)/out/pathindex_main; \
	else echo "make test: the library isn't tested, since cc, ld or objcopy is missing; apt-get install gcc binutils brings them"; fi

library:
	@$(NEEDS_RT)
	@command -v cc >/dev/null || { echo "make library: cc isn't on the path; apt-get install gcc brings it" >&2; exit 1; }
	@mkdir -p bin
	@echo 'Proving and building the library. The first time takes about an hour on four cores; bin/library.log lists the crates that are proved.'
	@(cd $(LIBRARY) && rt all check --jobs $(JOBS) && rt lib) >bin/library.log 2>&1 || { status=$$?; cat bin/library.log; exit $$status; }
	tools/build_library.sh $(LIBRARY)/out/libpathindex_c.a $(HEAP) bin
	@echo 'bin/libpathindex.a and bin/libpathindex.so are built; include/pathindex.h and python/pathindex.py use them.'

pictures:
	@$(NEEDS_RT)
	@mkdir -p bin
	@echo 'Proving and building bin/pathindex_dot. The first time takes about an hour on four cores; bin/pictures.log lists the crates that are proved.'
	@(cd $(PICTURES) && rt all check --jobs $(JOBS)) >bin/pictures.log 2>&1 || { status=$$?; cat bin/pictures.log; exit $$status; }
	@cd $(PICTURES) && rt run -- ../../examples/foaf.nt >../../bin/foaf.dot 2>>../../bin/pictures.log \
		|| { status=$$?; cat ../../bin/pictures.log ../../bin/foaf.dot; exit $$status; }
	@cp $(PICTURES)/out/pathindex_dot bin/pathindex_dot
	@echo 'bin/pathindex_dot is proved and built; bin/foaf.dot is A(1) of examples/foaf.nt.'

try:
	@$(NEEDS_RT)
	@test -n '$(SCRIPT)' || { echo 'make try: name a script, as in make try SCRIPT=examples/first.script' >&2; exit 1; }
	@test -f '$(SCRIPT)' || { echo 'make try: there is no file $(SCRIPT)' >&2; exit 1; }
	@test -z '$(GRAPH)' || test -f '$(GRAPH)' || { echo 'make try: there is no file $(GRAPH)' >&2; exit 1; }
	@echo 'A first look: the program is compiled, and nothing is proved.'
	@$(call unproved,$(SCRIPT),$(GRAPH))

bench:
	@command -v python3 >/dev/null || { echo "make bench: python3 isn't on the path" >&2; exit 1; }
	@test -x bin/pathindex || { echo 'make bench: bin/pathindex is missing; make run builds it' >&2; exit 1; }
	@python3 tools/bench_beside.py
	@python3 tools/bench.py
	@python3 tools/bench_indexes.py
	@python3 tools/bench_updates.py
	@python3 tools/bench_groups.py
	@python3 tools/bench_edits.py
	@python3 tools/bench_walks.py
	@python3 tools/bench_files.py
	@if test -f bin/libpathindex.a; then python3 tools/bench_library.py; else echo 'make bench: bin/libpathindex.a is missing, so the library is not measured; make library builds it'; fi
	@command -v serdi >/dev/null || { echo "make bench: serdi isn't on the path, so example_count has nothing to stand beside; apt-get install serdi brings it" >&2; exit 1; }
	@test -x $(COUNTER)/out/example_count || { echo 'make bench: example_count is missing; make test builds it' >&2; exit 1; }
	@python3 tools/bench_triples.py
	@python3 tools/bench_load.py
