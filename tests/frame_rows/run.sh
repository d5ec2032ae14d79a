#!/usr/bin/env bash
# The fixed list of frames, made anew with the frames over the Rust's types, is the one that is kept, and has every refusal
# several times.
set -u
. "$(dirname "${BASH_SOURCE[0]}")/../common.sh"

kept_list frame_rows frames
echo "$(tail -n 1 "$top/build/frame_rows/said"), all as kept"
