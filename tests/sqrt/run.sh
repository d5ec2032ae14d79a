#!/usr/bin/env bash
# The square root beside the machine's own, as compiled for C.
#   run.sh        a sample of the patterns, with every exponent and both signs
#   run.sh all    all 2^32 patterns
# Needs rt and gcc on x86-64. Exit status 0: nothing differs.
set -eu

. "$(dirname "${BASH_SOURCE[0]}")/../common.sh"
cd "$top"
build=$top/build/sqrt
mkdir -p "$build"
need_gcc

if ! tools/make.sh float32_c >"$build/staticlib.out" 2>&1; then
    cat "$build/staticlib.out"
    exit 1
fi
gcc -O2 -fno-math-errno -Wall -Wextra -Werror -o "$build/sqrt_test" tests/sqrt/sqrt_test.c target/staticlib/libfloat32_c.a
"$build/sqrt_test" "$@"
