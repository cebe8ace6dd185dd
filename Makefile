.PHONY: demo build test edits pictures

# Shows a takeover: script, then text. It runs the program without proving it; what the kit says goes to build/demo.log.
demo:
	@mkdir -p build
	@cat examples/takeover.script
	@echo
	@cd crates/calypso && rt try -- run < ../../examples/takeover.script 2> ../../build/demo.log
	@echo
	@echo "This run was not proved (build/demo.log). 'make build' proves the program and leaves it as build/calypso;"
	@echo "'make test' is the merge gate: every proof, wrong body, test and program. README.md has their times."

# Proves the program and all that it stands on, builds it, and leaves it as build/calypso, where the gate lets it be.
build:
	@mkdir -p build
	cd crates/calypso && rt run -- run < ../../examples/first.script > ../../build/first.text 2> ../../build/build.log
	cp crates/calypso/out/calypso build/calypso

# The merge gate.
test:
	bash .ci/run

# Makes the picture of each text in docs/pictures anew, next to it.
pictures:
	@for text in docs/pictures/*.text; do tools/ladder "$$text" > "$${text%.text}.svg" || exit 1; done

# The wrong bodies of the dearest crates, which the gate leaves out: the check has to refuse each.
edits:
	bash .ci/edits
