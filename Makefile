# Lists what can be made.
help:
	@awk '/^# / { text = substr($$0, 3) } /^[a-z]+:/ { sub(/:.*/, ""); printf "make %-10s%s\n", $$0, text }' Makefile

# The program, proved and built: crates/dmc_cli/out/dmc_cli, which ./dmclock runs.
program:
	scripts/build

# Every test: the gate, and then the parts that are built upon what it proved. INSTALL=1 installs packages that are missing.
test:
	scripts/test

# Every proof from nothing, a share of the mutations, the tests of the crates and the programs.
gate:
	scripts/gate

# Every mutation, or those of one crate: make mutations CRATE=dmc_book. All of them take two to three hours of one processor.
mutations:
	scripts/try_mutations $(CRATE)

# Proves what changed in a crate, in seconds: make check CRATE=dmc_pull, or one function of it, by ONLY=queue::PullQueue::early.
check:
	cd crates/$(CRATE) && rt check $(if $(ONLY),--only $(CRATE)::$(ONLY))

# Runs a crate's tests with no proof, in a minute or two: make quick CRATE=dmc_tests_base, or one of them, by TEST=five_commands.
quick:
	cd crates/$(CRATE) && rt try --test $(if $(TEST),-- $(TEST))

# The program on one example, by a build that is not proved. It takes about a minute.
demo:
	@echo "an unproved build, for a first look; make program builds the proved one" >&2
	@cat examples/two_clients.script
	@echo "--- the replies:"
	@cd crates/dmc_cli && rt try -- script < ../../examples/two_clients.script

# The program on each example, beside what is stored of it.
examples:
	scripts/examples

# Servers in threads for a million events: whether each replays, and whether memory grows. bench/soak.sh EVENTS takes more.
soak:
	bench/soak.sh 1000000
	bench/soak.sh 1000000 example_shards

# Every crate's tests with each allocation refused in turn. It proves nothing.
refusals:
	scripts/refusals

# The library for C, C++ and Rust, c/out/libdmclock.a and libdmclock.so.0.2: builds it and runs the examples and tests in C and C++.
c:
	c/build

# Installs program, libraries, headers and manual pages, and builds what is missing: make install [PREFIX=/usr/local] [LIBDIR=lib] [DESTDIR=]
install:
	packages/tree out/tree
	packages/install.sh install out/tree

# Takes away what an install put there.
uninstall:
	packages/install.sh uninstall

# The archive for machines without the toolchain, and its checksum, in out/.
dist:
	packages/dist

# The archive into release/, from a clean clone in which make test passed. Commit what it changes there.
release:
	packages/release

# What a new user does with the archive of release/, without the toolchain. INSTALL=1 installs packages that are missing.
try:
	@packages/released > /dev/null
	packages/needs try
	packages/try "$$(packages/released)"

# Tests of the archive: what a new user does with it, the linters, instructions from C++ and Rust. INSTALL=1 installs what is missing.
packages:
	packages/needs
	packages/dist
	packages/try out/dmclock-$$(cat VERSION)-x86_64-linux.tar.xz
	packages/lint
	packages/count

# The filter for nbdkit, nbd/out/nbdkit-dmclock-filter.so: builds it and runs its tests. INSTALL=1 installs packages that are missing.
nbd:
	nbd/packages
	nbd/build
	nbd/tests

# The module for nginx, nginx/out/ngx_http_dmclock_module.so: builds it and runs its tests. INSTALL=1 installs packages that are missing.
nginx:
	nginx/packages
	nginx/build
	nginx/tests

# The planner, out/dmclock-planner.html, a page that shows what rates will do: builds and tests it. INSTALL=1 installs Chromium.
planner:
	planner/packages
	planner/build
	planner/tests

# What three clients were granted over time, drawn as docs/grants.svg. It needs gnuplot. scripts/picture draws any script.
picture:
	scripts/picture examples/three_clients.script > docs/grants.svg

.PHONY: help program test gate mutations check quick demo examples soak refusals c install uninstall dist release try packages nbd nginx planner picture
