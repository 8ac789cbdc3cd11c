PROGRAM = crates/oocsql/out/oocsql

.PHONY: program demo test bench rows

# Proves and builds the program, and all that it stands on where that isn't built yet: the first time it takes an hour or two.
program:
	@test -x $(PROGRAM) || echo "proving and building the program: the first time this takes an hour or two"
	@rm -f $(PROGRAM)
	cd crates/oocsql && rt run -- --check ../../demo/best.sql > /dev/null
	@test -x $(PROGRAM)

demo: program
	cd demo && ../$(PROGRAM) best.sql

test:
	rt ci

# Proves and builds the program that is timed over rows on pages.
rows:
	test -x crates/row_figures/out/row_figures || (cd crates/row_figures && rt run > /dev/null)

bench: program rows
	bench/run.sh
	bench/rows.sh
