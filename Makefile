# make               proves and builds the programs, and renders a school's day to target/day.wav
# make test          all that the gate runs
# make differential  the long comparison with the Rust original
# make drift         how far the float pitch drifts, measured on the running programs (docs/PITCH.md)
# make edits         every must-fail edit, those of the gate and the others
# make pictures      docs/pictures, and the tables of docs/LENGTHS.md and docs/PLANNING.md, made anew from the program's answers
# make hosts         the static libraries, tested from C and from Rust; the program that makes banks from lists
# make mutants       the mutation run (docs/MUTANTS.md)
# make bench         the comparison with it in speed (docs/SPEED.md); it takes minutes and belongs to no gate

.PHONY: main test differential drift hosts mutants bench edits pictures oracle-tests record

main:
	tools/prove
	tools/example

test:
	tools/gate

differential:
	tools/prove replay
	tools/differential long target/bin/replay present

drift:
	tools/prove replay
	tools/drift target/bin/replay

hosts:
	tools/hosts

bench:
	tools/bench

edits:
	tools/prove
	tools/edits

mutants:
	tools/prove
	tools/mutants

pictures:
	tools/prove replay
	tools/pictures
	tools/bells
	tools/planning

oracle-tests:
	cargo test --release --offline --locked --quiet --manifest-path oracle/Cargo.toml --target-dir oracle/target

# The list of the oracle's answers that `rt ci` replays with no Rust at hand.
record:
	tools/record crates/replay present
