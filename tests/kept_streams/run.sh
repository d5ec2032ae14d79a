#!/usr/bin/env bash
# The fixed list of streams, made anew with the Rust program of the same job as `decide`, is the one that is kept.
set -u
. "$(dirname "${BASH_SOURCE[0]}")/../common.sh"
build=$top/build/kept_streams
mkdir -p "$build"

rust=$("$top/oracle/run.sh" --path decide 2>"$build/said")
need $? "$build/said"
kept_list kept_streams streams "$rust"
echo "$(tail -n 1 "$build/said"), all as kept"
