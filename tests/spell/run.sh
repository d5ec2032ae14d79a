#!/usr/bin/env bash
# failsafe_spell_fence beside document 02's L12 in plain Rust: all rotations and both directions of fences, with −0 for 0 here and there, ties in least
# north, fences that are 39 by 16 and by 17, damaged frames and short outputs.
#   run.sh [FENCES [SEED]]
# Exit status 0: nothing differs.
set -u
. "$(dirname "${BASH_SOURCE[0]}")/../common.sh"
cd "$top" || exit 1
build=$top/build/spell
mkdir -p "$build"

staticlib
beside=$(oracle/run.sh --path spellings 2>"$build/said")
need $? "$build/said"
"$beside" "$@"
