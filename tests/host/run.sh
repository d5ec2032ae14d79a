#!/usr/bin/env bash
# The C example: compiled with warnings as errors, linked with the static library, and what it prints compared with
# examples/host.out. Then calls with slices of no bytes (empty.c), and what the header says of boot (boot.c). The library needs from outside what include/failsafe.h says, and has no
# globals that can be written.
set -eu
. "$(dirname "${BASH_SOURCE[0]}")/../common.sh"
cd "$top"
build=$top/build/host
mkdir -p "$build"
need_gcc
staticlib
for source in examples/host.c tests/host/empty.c tests/host/boot.c; do
    gcc -std=c11 -O2 -Wall -Wextra -Werror -pedantic -Iinclude -o "$build/$(basename "$source" .c)" "$source" target/staticlib/libfailsafe.a
done
"$build/host" >"$build/host.out"
cmp "$build/host.out" examples/host.out
"$build/empty" <samples/flight.frames
"$build/boot"
library=target/staticlib/libfailsafe.a
needs_from_outside failsafe 'memcpy memset'
if [ "$(size "$library" | awk 'NR > 1 { sum += $2 + $3 } END { print sum }')" != 0 ]; then
    echo "the library has globals that can be written: $(size "$library")"
    exit 1
fi
echo "host: $(wc -l <"$build/host.out") lines, all as kept; empty slices are refused; boot is as the header says"
