#!/usr/bin/env bash
# The first thing to run: shows the Decisions of the sample flight as they are kept, at once; then proves and builds `decide` with all that it
# stands on, a line for each crate; then shows the sample's Decisions from the built program, which have to be the same.
set -eu -o pipefail
cd "$(dirname "${BASH_SOURCE[0]}")/.."

need() { # COMMAND WHAT
    if ! command -v "$1" >/dev/null; then
        echo "first.sh: $1 is not here: $2 (README.md, 'What is needed')" >&2
        exit 1
    fi
}

need python3 "it runs tools/frames.py"
echo "The sample flight, as it is kept (samples/decisions.frames):"
tools/frames.py show samples/decisions.frames --input samples/flight.json
echo
need rt "it is the command of the Rattle kit, which proves and builds"
echo "Now decide is proved and built, a line for each crate. From nothing it takes some minutes."
began=$SECONDS
if [ -z "${TMPDIR:-}" ] && [ -w /dev/shm ] && [ "$(df --output=avail /dev/shm | tail -n 1)" -gt 4000000 ]; then
    export TMPDIR=/dev/shm # the prover's temporary files, in memory
fi
mkdir -p build
if ! tools/make.sh decide 2>&1 | tee build/first.log | { grep --line-buffered -E '^(rt: |library |crate )' || true; }; then
    echo "first.sh: something is not proved: build/first.log says what" >&2
    exit 1
fi
echo "proved and built in $((SECONDS - began)) s"
echo
echo "The sample flight, by the program that was built (target/bin/decide):"
tools/frames.py pack samples/flight.json | target/bin/decide >build/first.frames
tools/frames.py show build/first.frames --input samples/flight.json
cmp build/first.frames samples/decisions.frames
echo
echo "Both are the same. samples/flight.svg is a picture of it; README.md goes on from here."
