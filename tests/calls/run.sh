#!/usr/bin/env bash
# The fixed list of calls of the entries, made anew with the plain Rust entries, is the one that is kept, and has every refusal.
set -u
. "$(dirname "${BASH_SOURCE[0]}")/../common.sh"

kept_list calls calls
echo "$(tail -n 1 "$top/build/calls/said"), all as kept"
