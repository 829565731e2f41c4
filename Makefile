# The checks beside the proofs; docs/CONTRIBUTING.md says when to run which. The gate is .ci/run.

# what takes seconds, and fails before a proof begins
lint:
	tools/unused
	tools/names
	tools/edits
	tools/layout

# lint, the tools' tests, and the archive: proved, and compared with the reference
check: lint tools
	$(MAKE) -C bench check

tools:
	python3 -B -m unittest discover -s tools/tests

speed versions differential machines inlined needs branchless:
	$(MAKE) -C bench $@

.PHONY: lint check tools speed versions differential machines inlined needs branchless
