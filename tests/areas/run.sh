#!/usr/bin/env bash
# Keep-out areas: the port's failsafe_step_areas, failsafe_add_area and failsafe_remove_area beside document 02's L3 in plain Rust, on the
# same bytes: number, every buffer and the bytes around them. (tests/decide has `decide` with areas.)
#   run.sh                  1,000,000 steps, and the driver itself on entries with a fault, each of which it has to see
#   run.sh STEPS [SEED]     that many steps
# Exit status 0: nothing differs.
set -u
. "$(dirname "${BASH_SOURCE[0]}")/../common.sh"
cd "$top" || exit 1
build=$top/build/areas
mkdir -p "$build"

[ $# -gt 0 ] || sees_faults areas 10 11 12 13 14 15 16 17
staticlib
beside=$(oracle/run.sh --path areas 2>"$build/said")
need $? "$build/said"
"$beside" "$@"
