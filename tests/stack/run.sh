#!/usr/bin/env bash
# The stack that a call of each step entry, and of the edits of areas, takes on the sample flight: no more than include/failsafe.h says.
set -u
. "$(dirname "${BASH_SOURCE[0]}")/../common.sh"
cd "$top" || exit 1
build=$top/build/stack
mkdir -p "$build"

need_gcc
staticlib
# -z now: no name is looked up, on this stack, within a call.
gcc -Wl,-z,now -std=c11 -O2 -Wall -Wextra -Werror -pedantic -Iinclude -o "$build/stack" tests/stack/stack.c target/staticlib/libfailsafe.a || exit 1
"$build/stack" <samples/flight.frames | tee "$build/taken"
[ "${PIPESTATUS[0]}" -eq 0 ] || { echo "a call was refused" && exit 1; }
while IFS= read -r line; do
    taken=${line% bytes}
    taken=${taken##* }
    entry=${line% "$taken" bytes}
    told=$(sed -nE "s/^ \*   $entry +([0-9]+) bytes\$/\1/p" include/failsafe.h)
    if [ -z "$told" ] || [ "$taken" -gt "$told" ]; then
        echo "include/failsafe.h says ${told:-nothing} of $entry, which takes $taken bytes"
        exit 1
    fi
done <"$build/taken"
