#!/usr/bin/env bash
# Document 02, L6: the program `trials`, the entry failsafe_trial and a reckoning from the document's words make the same frames,
# and those kept; bad arguments write no frame; and `decide` answers such a load as the Rust does.
#   run.sh [STEPS [SEED]]
# Exit status 0: nothing differs.
set -u
. "$(dirname "${BASH_SOURCE[0]}")/../common.sh"
cd "$top" || exit 1
build=$top/build/trials
mkdir -p "$build"
steps=${1:-100000} seed=${2:-20261116}

fail() {
    echo "FAILED: $1"
    exit 1
}

need_gcc
if ! tools/make.sh trials decide >"$build/check.out" 2>&1; then
    cat "$build/check.out"
    exit 1
fi
staticlib
gcc -std=c11 -O2 -Wall -Wextra -Werror -pedantic -Iinclude -o "$build/entry" tests/trials/entry.c target/staticlib/libfailsafe.a

# Kept: seed 1 in crates/trials/stdout, and the largest seed here.
target/bin/trials 1 20 | cmp - crates/trials/stdout || fail "seed 1"
target/bin/trials 4294967295 20 | cmp - tests/trials/seed-4294967295.frames || fail "seed 4294967295"

# A block has 618 frames.
for pair in "0 0" "0 1" "1 617" "2 618" "3 619" "4294967295 1237" "$seed 3000"; do
    read -r s n <<<"$pair"
    target/bin/trials "$s" "$n" >"$build/program" || fail "trials $pair"
    tests/trials/reckon.py "$s" "$n" | cmp - "$build/program" || fail "reckon.py $pair"
    "$build/entry" "$s" "$n" | cmp - "$build/program" || fail "the entry, $pair"
    [ "${PIPESTATUS[0]}" -eq 0 ] || fail "the entry's refusals"
done

# Bad arguments.
while read -r line; do
    eval "target/bin/trials $line" >"$build/out" 2>"$build/err" || fail "trials $line ended badly"
    [ ! -s "$build/out" ] || fail "trials $line wrote frames"
    grep -q '^usage: trials SEED COUNT' "$build/err" || fail "trials $line did not say what is wrong"
done <<'END'

1
1 2 3
1 x
-1 5
+1 5
'' 5
1 ''
4294967296 5
1 4294967296
'1 ' 5
1.0 5
111111111111111111111111111111111 5
END
echo "program, entry and reckoning make the same frames; bad arguments make none"

# A flight of the default configuration and fence.
rest="the load beside the Rust"
rust=$(oracle/run.sh --path decide 2>"$build/said")
need $? "$build/said"
target/bin/trials "$seed" "$steps" >"$build/load"
head -c $((246 + 45)) samples/flight.frames | cat - "$build/load" >"$build/input"
target/bin/decide <"$build/input" >"$build/port" || fail "decide"
"$rust" <"$build/input" >"$build/rust" || fail "the Rust"
cmp "$build/port" "$build/rust" || exit 1
tests/trials/tally.py "$build/load" "$build/port" || exit 1
