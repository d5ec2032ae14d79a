.PHONY: check long lists

# The gate.
check:
	.ci/run

# What takes too long for the gate: the square root of all 2^32 patterns, and ten million steps beside the Rust, without and with areas, under kind 11,
# and on the 64-bit clock.
long:
	tests/sqrt/run.sh all
	tests/entries/run.sh 10000000 20261117
	tests/areas/run.sh 10000000 20261119
	tests/raised/run.sh 10000000 20261121
	tests/wide/run.sh 10000000 20261123

# The fixed lists of the Rust's answers, made anew (needs the Rust's source: oracle/run.sh says where).
lists:
	oracle/run.sh lists tests/replay/leaves
	oracle/run.sh flights tests/replay/flights
	oracle/run.sh frame_rows tests/replay/frames
	oracle/run.sh calls tests/replay/calls
	oracle/run.sh kept_streams tests/replay/streams "$$(oracle/run.sh --path decide)"
