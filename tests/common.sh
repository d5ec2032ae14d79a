# Sourced by the tests that need the Rust or the static library. `top` is the repository's folder; a test sets `build`, the folder of what it makes.
top=$(cd "$(dirname "${BASH_SOURCE[0]}")/.." && pwd)

# Ends the test where STATUS says that something is not here, or went wrong; SAID is the file with the reason. A test that has run a
# part by then sets `rest`, what it leaves out.
need() { # STATUS SAID
    if [ "$1" -eq 77 ]; then
        if [ -n "${rest:-}" ]; then
            echo "left out: $rest ($(cat "$2"))"
        else
            echo "skipped: $(cat "$2")"
        fi
        exit 0
    elif [ "$1" -ne 0 ]; then
        cat "$2"
        exit "$1"
    fi
}

# Ends the test where there is no C compiler.
need_gcc() {
    if ! command -v gcc >/dev/null 2>&1; then
        echo "no C compiler (gcc) is here" >"$build/said"
        need 77 "$build/said"
    fi
}

# Makes the fixed list of the oracle's PROGRAM anew: it has to be the one that tests/replay/LIST keeps. What the program said
# is then in build/PROGRAM/said.
kept_list() { # PROGRAM LIST [ARGUMENT ..]
    local program=$1 list=$2 made=$top/build/$1 part
    shift 2
    mkdir -p "$made"
    "$top/oracle/run.sh" "$program" "$made" "$@" >"$made/said" 2>&1
    need $? "$made/said"
    for part in rows answers; do
        cmp "$made/$part" "$top/tests/replay/$list/$part" || exit 1
    done
}

# Proves and writes the static library, for a test or the oracle to link; the gate does so once, before its tests.
staticlib() {
    if [ -z "${CUTHRANSI_LIBRARY_MADE:-}" ] && ! "$top/tools/make.sh" failsafe >"$build/staticlib.out" 2>&1; then
        cat "$build/staticlib.out"
        exit 1
    fi
    CUTHRANSI_STATICLIB=$top/target/staticlib
    export CUTHRANSI_STATICLIB
}

# From outside the static library NAME needs these FUNCTIONS, in the order of the alphabet, and nothing else.
needs_from_outside() { # NAME FUNCTIONS
    local listed found
    listed=$(nm -u "$top/target/staticlib/lib$1.a") || exit 1
    found=$(awk '$1 == "U" { print $2 }' <<<"$listed" | sort -u | tr '\n' ' ')
    if [ "${found% }" != "$2" ]; then
        echo "lib$1.a is to need '$2' from outside; it needs '${found% }'"
        exit 1
    fi
}

# The oracle's PROGRAM sees each of these faults of the plain Rust entries, which are put in the port's place.
sees_faults() { # PROGRAM FAULT ..
    local program=$1 standin fault
    shift
    standin=$(oracle/run.sh --features standin --path "$program" 2>"$build/said")
    need $? "$build/said"
    for fault in "$@"; do
        if CUTHRANSI_FAULT=$fault "$standin" 20000 >"$build/fault$fault" || ! grep -q '^differs' "$build/fault$fault"; then
            echo "the driver did not see fault $fault of oracle/port/src/standin.rs"
            exit 1
        fi
    done
    echo "the driver sees $# faults that were put into the Rust's own entries"
}
