#!/usr/bin/env bash
# Single faults, planted one at a time in a copy of the Rust (faults.txt): the runs beside the port have to see each. Before that: the
# copy is not the Rust that oracle/rust.sha256 names, and oracle/run.sh has to say so and name the files.
#   run.sh [STEPS [SEED ..]]
# Exit status 0: each fault is seen by one of the seeds.
set -u
. "$(dirname "${BASH_SOURCE[0]}")/../common.sh"
cd "$top" || exit 1
build=$top/build/planted
steps=${1:-200000}
[ $# -gt 0 ] && shift
[ $# -gt 0 ] || set -- 3 4
rm -rf "$build/src"
mkdir -p "$build"

fail() {
    echo "FAILED: $1"
    exit 1
}

base=$(oracle/run.sh --source 2>"$build/said")
need $? "$build/said"
staticlib
# A workspace of its own, since the judge's build is to stay as it is.
mkdir -p "$build/oracle"
tar -C oracle --exclude=./target -cf - . | tar -C "$build/oracle" -xf - || exit 1
rust=crates/failsafe-core/src
tests/planted/plant.py tests/planted/faults.txt "$base/$rust" "$build/src/$rust" >"$build/faults" || exit 1
export CUTHRANSI_RUST_SRC=$build/src

"$build/oracle/run.sh" --source >/dev/null 2>"$build/said"
[ $? -eq 1 ] || fail "another Rust than the one that is named is taken"
for name in $(sed -n 's/^file: //p' tests/planted/faults.txt | sort -u); do
    grep -qx "$name is another file" "$build/said" || fail "$name is another file, and is not named"
done
echo "another Rust is refused: $(grep -c ' is another file$' "$build/said") files are named"

(cd "$build/src/$rust" && sha256sum ./*.rs | sed 's|\./||') >"$build/oracle/rust.sha256"
beside=$("$build/oracle/run.sh" --path entries 2>"$build/said")
need $? "$build/said"

"$beside" "$steps" "$1" >"$build/none" 2>&1
grep -q ': nothing differs$' "$build/none" || fail "with no fault awake it says: $(tail -n 1 "$build/none")"
missed=0
while read -r number name; do
    seen=
    for seed in "$@"; do
        CUTHRANSI_PLANTED=$number "$beside" "$steps" "$seed" >"$build/fault$number" 2>&1
        if grep -qx differs "$build/fault$number"; then
            seen="seed $seed after $(sed -nE 's/^after ([0-9]+) steps of seed.*/\1/p' "$build/fault$number")"
            break
        fi
    done
    if [ -z "$seen" ]; then
        echo "NOT SEEN: $name"
        missed=$((missed + 1))
    else
        echo "seen: $name ($seen steps)"
    fi
done <"$build/faults"
[ "$missed" -eq 0 ] || fail "$missed of $(wc -l <"$build/faults") faults are not seen"
echo "$(wc -l <"$build/faults") faults planted in a copy of the Rust, each seen"
