#!/usr/bin/env bash
# A clock that doesn't wrap: the port's steps with states of kind 10 and telemetry of kind 9 beside the Rust's own source with its instants
# widened to 64 bits (oracle/run.sh makes it), on the same bytes: number, every buffer and the bytes around them; failsafe_fresh_wide,
# failsafe_widen and each of its refusals; and flights on both clocks beside each other, with the same calls declined. `decide` and
# failsafe_merge take kind 3 alone.
#   run.sh                  100,000 steps of each of two seeds, and the driver itself on entries with a fault, each of which it has to see
#   run.sh STEPS [SEED]     that many steps
# Exit status 0: nothing differs, and all that is to be met was met.
set -u
. "$(dirname "${BASH_SOURCE[0]}")/../common.sh"
cd "$top" || exit 1
build=$top/build/wide
mkdir -p "$build"

# `decide` starts with a state of kind 5 or 12: telemetry of kind 9 is never due there, nor is a state of kind 10.
decide_declines() {
    local kind
    if ! tools/make.sh decide >"$build/check.out" 2>&1; then
        cat "$build/check.out"
        exit 1
    fi
    for kind in 1 11; do
        echo '{"telemetry": [{"now_ms": 5}, {"kind": 9, "now_ms": 4294967301}, {"now_ms": 6}]}' | tools/frames.py pack - "$build/wide.frames" --kind $kind
        target/bin/decide <"$build/wide.frames" | tools/frames.py show >"$build/wide.txt"
        if [ "$(wc -l <"$build/wide.txt")" -ne 2 ] || [ "$(tail -n 1 "$build/wide.txt")" != "Refusal 2: not the kind that is due" ]; then
            echo "decide does not refuse kind 9 under kind $kind:"
            cat "$build/wide.txt"
            exit 1
        fi
    done
    echo "decide refuses kind 9 under kinds 1 and 11"
}

[ $# -gt 0 ] || sees_faults wide $(seq 50 87)
staticlib
beside=$(oracle/run.sh --path wide 2>"$build/said")
need $? "$build/said"
if [ $# -gt 0 ]; then
    "$beside" "$@"
    exit
fi
"$beside" 100000 7 && "$beside" 100000 20261122 || exit 1
decide_declines
