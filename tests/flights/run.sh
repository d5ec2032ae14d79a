#!/usr/bin/env bash
# The fixed list of the Rust's flights, made anew from the Rust's source, is the one that is kept, and passes
# through everything that it has to.
set -u
. "$(dirname "${BASH_SOURCE[0]}")/../common.sh"

kept_list flights flights
grep -E '^(action|reason|request|step down|latch|link stage):' "$top/build/flights/said"
echo "$(tail -n 1 "$top/build/flights/said"), all as kept"
