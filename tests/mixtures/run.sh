#!/usr/bin/env bash
# Document 02, L13: the counts of the 200 mixtures by the Rust's own functions are those that the program `mixtures` prints;
# and the counts that document 02 expects come from a clock fault that is taken for a recovery that has not lasted.
set -u
. "$(dirname "${BASH_SOURCE[0]}")/../common.sh"
cd "$top" || exit 1
build=$top/build/mixtures
mkdir -p "$build"

oracle/run.sh mixtures >"$build/rust" 2>"$build/said"
need $? "$build/said"
oracle/run.sh mixtures expected >"$build/expected" 2>"$build/said"
need $? "$build/said"
if ! tools/make.sh mixtures >"$build/check.out" 2>&1; then
    cat "$build/check.out"
    exit 1
fi
target/bin/mixtures >"$build/port" || exit 1
cmp "$build/port" crates/mixtures/stdout && cmp "$build/rust" crates/mixtures/stdout || exit 1
cmp "$build/expected" tests/mixtures/expected || exit 1
echo "$(tr '\n' ',' <"$build/port") by the port and the Rust; expected: $(head -n 5 "$build/expected" | tr '\n' ',')"
