#!/usr/bin/env bash
# The port's `failsafe_merge` beside document 02's rule in plain Rust, on the same bytes; then the same pairs of frames
# through `tools/frames.py merge`.
#   run.sh                    400 flights of 50 steps, and the driver itself on rules with a fault, each of which it has to see
#   run.sh FLIGHTS [SEED]     that many flights
# Exit status 0: nothing differs.
set -u
. "$(dirname "${BASH_SOURCE[0]}")/../common.sh"
cd "$top" || exit 1
build=$top/build/merge
mkdir -p "$build"

staticlib
beside=$(oracle/run.sh --path merges 2>"$build/said")
need $? "$build/said"
"$beside" "$@" || exit 1

if [ $# -eq 0 ]; then
    for fault in 1 2 3 4 5 6 7 8; do
        if CUTHRANSI_FAULT=$fault "$beside" 20 >"$build/fault$fault" || ! grep -q '^differs' "$build/fault$fault"; then
            echo "the driver did not see fault $fault of oracle/merges/src/model.rs"
            exit 1
        fi
    done
    echo "the driver sees eight faults that were put into the rule"
    "$beside" --write "$build" || exit 1
    tools/frames.py merge "$build/first" "$build/second" "$build/office" || exit 1
    cmp "$build/office" "$build/merged" || exit 1
    echo "tools/frames.py merges the same pairs into the same frames"
    bad() { # SECOND MESSAGE
        echo '{"telemetry": [{"now_ms": 1}]}' >"$build/one.json"
        echo "$1" >"$build/two.json"
        if tools/frames.py merge "$build/one.json" "$build/two.json" >/dev/null 2>"$build/err" || ! grep -qF -- "$2" "$build/err"; then
            echo "tools/frames.py merge of $1: it says $(cat "$build/err") and not: $2"
            exit 1
        fi
    }
    bad '{"telemetry": [{"now_ms": 2}]}' "telemetry[0].now_ms: the two radios' differ (refusal 38)"
    bad '{"telemetry": []}' 'has 1 telemetries'
    bad '{"telemetry": [{}]}' 'telemetry[0].now_ms: a whole number'
fi
