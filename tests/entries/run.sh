#!/usr/bin/env bash
# The port's C entries beside the Rust, on the same bytes: number, five buffers and the bytes around them.
#   run.sh                  200,000 steps of each of two seeds, since some faults show late or in one alone; and the driver itself on
#                           entries with a fault, each of which it has to see (tests/planted has faults of the Rust)
#   run.sh STEPS [SEED]     that many steps
# Exit status 0: nothing differs.
set -u
. "$(dirname "${BASH_SOURCE[0]}")/../common.sh"
cd "$top" || exit 1
build=$top/build/entries
mkdir -p "$build"

if ! grep -qE '^failsafe( staticlib)?:' crates.txt; then
    echo "skipped: crates.txt does not list the crate failsafe"
    exit 0
fi

if [ $# -eq 0 ]; then
    oracle/run.sh --test frames >"$build/said" 2>&1
    need $? "$build/said"
    echo "the Rust's own entries follow document 01's table of refusals"
    sees_faults entries 1 2 3 4 5 6 7 8 9
fi

staticlib
beside=$(oracle/run.sh --path entries 2>"$build/said")
need $? "$build/said"
if [ $# -gt 0 ]; then
    "$beside" "$@"
else
    "$beside" 200000 3 && "$beside" 200000 4
fi
