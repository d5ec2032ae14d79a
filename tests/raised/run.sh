#!/usr/bin/env bash
# Requests that flicker: the port's steps under a configuration of kind 11 beside document 02's L11 in plain Rust over the Rust's own
# timers, on the same bytes: number, every buffer and the bytes around them; failsafe_fresh_raised, failsafe_check and failsafe_merge
# under kind 11; and `decide` on streams of kind 11 beside the reference's.
#   run.sh                  100,000 steps of each of two seeds, and the driver itself on entries with a fault, each of which it has to see
#   run.sh STEPS [SEED]     that many steps
# Exit status 0: nothing differs.
set -u
. "$(dirname "${BASH_SOURCE[0]}")/../common.sh"
cd "$top" || exit 1
build=$top/build/raised
mkdir -p "$build"

# `decide` writes for each stream what the reference does; in at least a third of them kind 1 would write something else.
same_streams() {
    local rust stream name others=0
    rust=$(oracle/run.sh --path decide_raised 2>"$build/said")
    need $? "$build/said"
    if ! tools/make.sh decide >"$build/check.out" 2>&1; then
        cat "$build/check.out"
        exit 1
    fi
    rm -rf "$build/streams"
    mkdir -p "$build/streams"
    "$beside" --write "$build/streams" 90 || exit 1
    for stream in "$build"/streams/*.frames; do
        name=${stream%.frames}
        "$rust" <"$stream" >"$name.rust" && target/bin/decide <"$stream" >"$name.port"
        cmp "$name.rust" "$name.port" || exit 1
        { head -c 2 "$stream" && printf '\1' && tail -c +4 "$stream"; } | "$rust" >"$name.kind_1"
        cmp -s "$name.kind_1" "$name.rust" || others=$((others + 1))
    done
    if [ "$others" -lt 30 ]; then
        echo "under kind 1 only $others streams of 90 are answered otherwise"
        exit 1
    fi
    echo "90 streams of kind 11, $(cat "$build"/streams/*.port | wc -c) bytes written alike; $others of them are others under kind 1"
}

[ $# -gt 0 ] || sees_faults raised $(seq 20 47)
staticlib
beside=$(oracle/run.sh --path raised 2>"$build/said")
need $? "$build/said"
if [ $# -gt 0 ]; then
    "$beside" "$@"
    exit
fi
"$beside" 100000 11 && "$beside" 100000 20261120 || exit 1
same_streams
