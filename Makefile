# make run: questions about the shipped lock.   make test: the whole gate.
.PHONY: run test

BUILD = crates/planner/out
run:
	@mkdir -p $(BUILD) && (cd crates/planner && rt run) </dev/null >$(BUILD)/build.log 2>&1 || { tail -20 $(BUILD)/build.log; exit 1; }
	@cd examples && printf 'load lock.model\nreward 1\nchance 0 0 1\n' | ../$(BUILD)/planner

test:
	.ci/run
