.PHONY: run sheet test examples

# Builds the program and runs it.
run:
	@cd crates/tiemsker && rt run 2>/dev/null

# Builds the program that reads a sheet and runs it on a sheet of three slots.
sheet:
	@cd crates/tiemsker_sheet && rt run >/dev/null 2>&1
	@crates/tiemsker_sheet/out/tiemsker_sheet < examples/three_squares.sheet

# Tries the refused programs, proves everything, tries the must-fail edits, and runs the programs and tests.
test:
	@bash refused/run.sh
	@bash tools/gate.sh

# Builds the programs and compares what they print on every example.
examples:
	@cd crates/tiemsker_sheet && rt run >/dev/null 2>&1
	@cd crates/journal && rt run >/dev/null 2>&1
	@sh examples/run.sh
