# run: prove, build and run the program on a short pass.  compare: on the same packets as two receivers delivered them.  test: the
# whole gate.
.PHONY: run compare test

run:
	cd crates/recover && rt run -- data/pass.txt

compare:
	cd crates/recover && rt run -- data/primary.txt data/backup.txt

test:
	bash .ci/run
