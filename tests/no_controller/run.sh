#!/usr/bin/env bash
# Aircraft without a hand controller: pairs of flights with rc_required false that differ in rc_ok alone, through the step entries and through
# `decide`. Outputs are compared byte for byte, states but for the RC clear timer. Where rc_required is true, or where rc_ok's own byte declines
# a call of one flight alone, the driver has to see a difference.
#   run.sh [FLIGHTS [SEED]]    that many pairs of 200 calls each
# Exit status 0: nothing differs.
set -u
. "$(dirname "${BASH_SOURCE[0]}")/../common.sh"
cd "$top" || exit 1
build=$top/build/no_controller
mkdir -p "$build"
flights=${1:-5000} seed=${2:-20261117}

staticlib
gcc -std=c11 -O2 -Wall -Wextra -Werror -pedantic -Iinclude -o "$build/pairs" tests/no_controller/pairs.c target/staticlib/libfailsafe.a || exit 1
"$build/pairs" "$flights" "$seed" || exit 1

for how in required apart; do
    if "$build/pairs" 20 "$seed" $how >"$build/$how" || grep -q ' 0 outputs differ$' "$build/$how"; then
        echo "the driver did not see that flights differ: $how"
        cat "$build/$how"
        exit 1
    fi
done
echo "flights under rc_required true differ ($(sed -nE 's/.*; ([0-9]+ outputs) differ$/\1/p' "$build/required")), and so do those with calls declined in one alone ($(sed -nE 's/.*; ([0-9]+ outputs) differ$/\1/p' "$build/apart"))"

# The same through `decide`, which ends at the first frame that is declined: without such calls.
if ! tools/make.sh decide >"$build/check.out" 2>&1; then
    cat "$build/check.out"
    exit 1
fi
streams=$build/streams
rm -rf "$streams"
mkdir -p "$streams"
pairs=40
"$build/pairs" $pairs "$seed" write "$streams" >"$build/written" || exit 1
for ((i = 0; i < pairs; i++)); do
    for which in first second; do
        target/bin/decide <"$streams/$i.$which" >"$streams/$i.$which.out" || exit 1
    done
    if cmp -s "$streams/$i.first" "$streams/$i.second"; then
        echo "the streams of pair $i are the same"
        exit 1
    fi
    cmp "$streams/$i.first.out" "$streams/$i.second.out" || exit 1
    if [ "$(wc -c <"$streams/$i.first.out")" -ne $((200 * 95)) ]; then
        echo "decide does not answer every telemetry of pair $i"
        exit 1
    fi
done
# rc_required, byte 9 of the configuration, at 1 in both streams of the first pair
for which in first second; do
    { head -c 9 "$streams/0.$which" && printf '\1' && tail -c +11 "$streams/0.$which"; } | target/bin/decide >"$streams/required.$which.out" || exit 1
done
if cmp -s "$streams/required.first.out" "$streams/required.second.out"; then
    echo "decide answers alike where rc_required is true"
    exit 1
fi
echo "decide: $(cat "$build/written"), the same Decisions byte for byte; with rc_required true they differ"
