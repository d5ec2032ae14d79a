#!/usr/bin/env bash
# `failsafe_inside` beside the Rust's `contains`, and the number of sides read beside a look at every side: every answer, refusals,
# and what is left of the output. Then examples/map.c on a small map, and the picture that tools/frames.py draws of it.
#   run.sh [POINTS [SEED]]
# Exit status 0: nothing differs.
set -u
. "$(dirname "${BASH_SOURCE[0]}")/../common.sh"
cd "$top" || exit 1
build=$top/build/inside
mkdir -p "$build"

need_gcc
staticlib
gcc -std=c11 -O2 -Wall -Wextra -Werror -pedantic -Iinclude -o "$build/map" examples/map.c target/staticlib/libfailsafe.a || exit 1
tools/frames.py points samples/points.txt "$build/points" || exit 1
head -c 291 samples/flight.frames | tail -c 45 >"$build/fence"
"$build/map" "$build/fence" "$build/points" >"$build/answers" || exit 1
cmp "$build/answers" <(printf '\1\4\1\4\0\1\0\2\0\3\0\4\1\4') || exit 1
tools/frames.py map samples/flight.json samples/points.txt "$build/answers" "$build/map.svg" || exit 1
[ "$(grep -c '<circle' "$build/map.svg")" -eq 11 ] || { echo "the map has other points" && exit 1; }
if "$build/map" "$build/fence" "$build/fence" >"$build/none" 2>"$build/said" || ! grep -q 'refused: 3' "$build/said"; then
    echo "points of 45 bytes are not refused"
    exit 1
fi

rest="the points beside the Rust"
beside=$(oracle/run.sh --path inside 2>"$build/said")
need $? "$build/said"
"$beside" "$@"
