# make run: prove and build the entry program, and run it.
# make test: the gate; its last line is 'N passed, 0 failed'.
.PHONY: run test

run:
	@mkdir -p target; cd crates/funds; rt run 2> ../../target/run.log || { cat ../../target/run.log >&2; exit 1; }

test:
	@tools/gate.sh
