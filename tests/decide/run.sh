#!/usr/bin/env bash
# The program `decide` beside the Rust behind the same frames, on the same streams: good, damaged, cut off, fed in
# odd pieces, with a frame of 65,537 bytes; a flight of 5000 steps from a file, in many reads, and to an output that is
# full; and document 01's 95 bytes.
#   run.sh [STREAMS [SEED]]
# Exit status 0: nothing differs.
set -u
. "$(dirname "${BASH_SOURCE[0]}")/../common.sh"
cd "$top" || exit 1
build=$top/build/decide
mkdir -p "$build"

if ! grep -q '^decide:' crates.txt; then
    echo "skipped: crates.txt does not list the crate decide"
    exit 0
fi
rust=$(oracle/run.sh --path decide 2>"$build/said") && streams=$(oracle/run.sh --path streams 2>"$build/said")
need $? "$build/said"
if ! tools/make.sh decide >"$build/check.out" 2>&1; then
    cat "$build/check.out"
    exit 1
fi
# The driver itself, on a program that only copies.
if "$streams" "$(command -v cat)" "$rust" 1 >"$build/copies"; then
    echo "the driver did not see that cat is not decide"
    exit 1
fi
# And on the Rust with faults put in (oracle/decide): the long flight shows each of them.
for fault in 1 2 3 4; do
    printf '#!/bin/sh\nCUTHRANSI_FAULT=%s exec "%s"\n' "$fault" "$rust" >"$build/fault$fault"
    chmod +x "$build/fault$fault"
    case $fault in
    1) seen='a file fed whole: the Rust wrote 475000 bytes' ;;
    2) seen='a file fed whole: [0-9]* writes' ;;
    3) seen='it does not end, though its output is full' ;;
    4) seen='in many reads: the Rust wrote' ;;
    esac
    if "$streams" "$build/fault$fault" "$rust" 1 >"$build/said$fault" || ! grep -q "$seen" "$build/said$fault"; then
        echo "the driver did not see fault $fault of oracle/decide/src/main.rs"
        exit 1
    fi
done
echo "the driver sees 4 faults that were put into the Rust's own program"
# With a word on its command line it says in one line what it reads, and reads nothing.
if target/bin/decide word <samples/flight.frames >"$build/words" 2>"$build/told" && [ ! -s "$build/words" ] &&
    [ "$(wc -l <"$build/told")" -eq 1 ] && grep -q 'standard input' "$build/told"; then
    echo "given a word, it says what it reads"
else
    echo "given a word, it does not say what it reads"
    exit 1
fi
"$streams" target/bin/decide "$rust" "$@"
