SHELL := bash
.SHELLFLAGS := -o pipefail -c
.PHONY: run test page bench compare soak clean

# Proves and builds the program and the page, and lists the readings of three example records, and what the program says of a misspelt
# grammar (examples/README.md). Each crate is told when it is proved, to a file or a pipe as well.
run:
	@rt all check | awk '/^== / { crate = $$2 } /^logic=proved/ { print crate " proved"; fflush() } /error|not proved|no proof/'
	@cd crates/lister && rt run 2>&1 | sed -n '/error/p'
	@tools/page target/page
	tools/run lister examples/stop.grammar examples/two-stops.events
	tools/run lister examples/chain.grammar examples/four.events
	tools/run lister examples/quiet.grammar examples/none.events
	tools/run lister examples/misspelt.grammar examples/two-stops.events
	@printf '\nThe same to look at, a file for any browser, offline: open\n%s\n' "$(CURDIR)/target/page/chrysovend.html"

# Every check there is; ends with 'N passed, M failed', and with status 0 exactly when all passed.
test:
	@tools/test

# The inspector's page, one file.
page:
	@tools/page target/page
	@echo target/page/chrysovend.html

clean:
	rm -rf target crates/*/out

# Measures the services beside the same loops in plain Rust, on this machine's processor.
bench:
	@tools/bench

# Compares the services with the second implementation in random cases: 20,000, as `make test` does, or a million. And the listings.
compare:
	@tools/compare 20000
	@tools/compare-listing

soak:
	@tools/compare --seed $$(date +%s) 1000000
