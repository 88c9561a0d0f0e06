# make test: the gate. Length of lines, then rt ci: every listed crate's layout, its proofs from nothing, its must-fail
# edits, of which none may be bad, and the programs; then the archives of the host library, and the Rust packages over
# them: their layout and lints, where cargo has fmt and clippy, and their tests; then the examples in C, every sample
# through ringrun as both compilers build it, and rt ci's own closing line as the very last line, which is printed only
# if all of that passed.
#
# make check: the loop while editing. Length of lines, and what has changed since it was last proved; no edits and no
# Rust. CRATES names crates, and what they lean on is proved with them.
#
# make run: builds ringrun, proved, and runs it on a sample, or on the file that IN names.
#
# make archives: proves and makes the two archives that a program in Rust or C links, in target/staticlib.
#
# make bench: the proved library and plain Rust, timed side by side on this machine (docs/PERFORMANCE.md).
#
# make count: the instructions of an event and of a call on either side, by callgrind; it needs valgrind.
#
# rt ci's lines are shown as they come, each once the next one is there, so that the closing line can wait until the
# end. They and rt ci's exit status, which a pipe would lose, are kept outside the repository. rt ci leaves ringrun in
# its crate's out/, and no archive: rt lib makes those. RING_HOST_DIR would have the packages link archives from
# elsewhere, so it is unset. Ignored tests are run too.

SHELL := /bin/sh
IN = samples/entry-01.in
CRATES =
RINGRUN = crates/ringrun/out/ringrun
ARCHIVES = mkdir -p target/staticlib; \
	for name in ring_host ring_tools; do \
		(cd "crates/$${name}_c" && rt lib); \
		cp "crates/$${name}_c/out/lib$${name}_c.a" "target/staticlib/lib$$name.a"; \
	done
.PHONY: test check run archives bench count

test:
	@set -eu; \
	unset RING_HOST_DIR; \
	kept=$$(mktemp -d); \
	trap 'rm -rf "$$kept"' EXIT; \
	.ci/lines; \
	{ rt ci 2>&1 </dev/null || echo $$? >"$$kept/failed"; } | tee "$$kept/log" | sed -u '$$d'; \
	closing=$$(tail -n 1 "$$kept/log"); \
	if [ -e "$$kept/failed" ]; then \
		echo "$$closing"; \
		echo "rt ci: exit status $$(cat "$$kept/failed")"; \
		exit 1; \
	fi; \
	echo "$$closing" | grep -Eq '^[1-9][0-9]* passed, 0 failed$$' || { echo "$$closing"; exit 1; }; \
	grep '^rt: ok;' "$$kept/log" >"$$kept/ok" || { echo "$$closing"; echo 'rt ci: no line rt: ok'; exit 1; }; \
	! grep -Eq ', [1-9][0-9]* bad' "$$kept/ok" || { echo "$$closing"; echo 'rt ci: bad must-fail edits'; exit 1; }; \
	$(ARCHIVES); \
	(cd host; \
	if cargo fmt --version >/dev/null 2>&1; then cargo fmt --check; fi; \
	if cargo clippy --version >/dev/null 2>&1; then \
		cargo clippy --workspace --all-targets --offline --quiet -- -D warnings; \
	fi; \
	cargo test --release --offline --quiet --workspace -- --include-ignored); \
	examples/check; \
	samples/check $(RINGRUN); \
	[ ! -x $(RINGRUN).by-rattle ] || samples/check $(RINGRUN).by-rattle; \
	echo "$$closing"

check:
	@.ci/lines
	@set -e; \
	if [ -z '$(CRATES)' ]; then rt all check; fi; \
	for name in $(CRATES); do (cd "crates/$$name" && rt check); done

run:
	@test -r '$(IN)' || { echo 'make run: cannot read $(IN)' >&2; exit 2; }
	@test ! -d '$(IN)' || { echo 'make run: $(IN) is a directory' >&2; exit 2; }
	@(cd crates/ringrun && exec rt run) <'$(IN)'

archives:
	@set -e; $(ARCHIVES)

bench: archives
	@set -eu; \
	unset RING_HOST_DIR; \
	cd host; \
	cargo bench --offline -p compare

count: archives
	@set -eu; \
	unset RING_HOST_DIR; \
	host/compare/benches/count
