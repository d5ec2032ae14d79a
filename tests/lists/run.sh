#!/usr/bin/env bash
# The fixed list of the Rust's answers, made anew from the Rust's source, is the one that is kept.
set -u
. "$(dirname "${BASH_SOURCE[0]}")/../common.sh"

kept_list lists leaves
echo "$(tail -n 1 "$top/build/lists/said"), all as kept"
