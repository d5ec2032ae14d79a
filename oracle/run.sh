#!/usr/bin/env bash
# Builds the Rust from its sources, which stay where they are, and runs a program of this workspace:
#   oracle/run.sh [--profile NAME] [--features NAMES] [--path] PROGRAM [ARGUMENTS]
# With --path it only builds the program, and prints where it is.
#   oracle/run.sh --test PACKAGE
# runs a package's own tests.
#   oracle/run.sh --source
# prints where the Rust's source is, and builds nothing.
# CUTHRANSI_RUST_SRC names the folder that has crates/failsafe-core/src (default: ../shared/docs/src,
# from the top of the repository). Its files are the ten of oracle/rust.sha256: any other is an error.
# Exit status 77: the sources or cargo are not here.
set -eu
top=$(cd "$(dirname "$0")/.." && pwd -P)
here=$top/oracle
base=${CUTHRANSI_RUST_SRC:-$top/../shared/docs/src}
src=$base/crates/failsafe-core/src
if [ ! -f "$src/lib.rs" ]; then
    echo "the Rust's source is not here: no crates/failsafe-core/src/lib.rs in $base (set CUTHRANSI_RUST_SRC)" >&2
    exit 77
fi
if ! command -v cargo >/dev/null 2>&1; then
    echo "cargo is not here" >&2
    exit 77
fi
src=$(cd "$src" && pwd -P)

# The judge is pinned. Prints each file of the Rust that is not the one of the list, or that the list has not.
strangers() {
    local sum name file
    while read -r sum name; do
        if [ ! -f "$src/$name" ]; then
            echo "$name is missing"
        elif [ "$(sha256sum <"$src/$name")" != "$sum  -" ]; then
            echo "$name is another file"
        fi
    done <"$here/rust.sha256"
    for file in "$src"/*; do
        name=$(basename "$file")
        awk -v name="$name" '$2 == name { found = 1 } END { exit !found }' "$here/rust.sha256" || echo "$name is a file too many"
    done
}
found=$(strangers)
if [ -n "$found" ]; then
    echo "the Rust in $base is not the one that oracle/rust.sha256 names:" >&2
    echo "$found" >&2
    exit 1
fi

if [ "${1:-}" = --source ]; then
    cd "$base" && pwd -P
    exit
fi

# Writes standard input to a file, and leaves a file with the same text as it was.
put() {
    mkdir -p "$(dirname "$1")"
    cat >"$1.new"
    if cmp -s "$1.new" "$1"; then rm "$1.new"; else mv "$1.new" "$1"; fi
}

# A manifest for the package NAME whose root is FILE.
manifest() { # NAME FILE
    put "$here/target/$1/Cargo.toml" <<EOF
[package]
name = "$1"
version = "0.0.0"
edition = "2024"
publish = false

[lib]
path = "$2"

[dependencies]
libm = { path = "../../libm" }

[workspace]
EOF
}

# The Rust as it is; and its modules once more, each of them public, for what lib.rs does not hand out.
manifest failsafe-core "$src/lib.rs"
manifest failsafe-modules lib.rs
{
    echo '#![allow(dead_code)]'
    for file in "$src"/*.rs; do
        name=$(basename "$file" .rs)
        [ "$name" = lib ] || printf '#[path = "%s"]\npub mod %s;\n' "$file" "$name"
    done
} | put "$here/target/failsafe-modules/lib.rs"

# A copy with every module, struct and field public: a state frame holds fields that the Rust keeps to
# itself. Who uses it compares its Decisions with those of the Rust as it is.
manifest failsafe-open src/lib.rs
for file in "$src"/*.rs; do
    sed -e 's/^mod /pub mod /' -e 's/^struct /pub struct /' \
        -e '/^pub struct .*{$/,/^}/ s/^    \([a-z_]*:\)/    pub \1/' \
        "$file" | put "$here/target/failsafe-open/src/$(basename "$file")"
done

# The open copy once more with every instant in 64 bits, as document 02's L7 has them: an age is absent only where the stamp is later
# than now, a clock fault is a reading below the last sound one, and durations stay 32-bit. A text that is not found exactly so often
# is an error.
widened() { # FILE [TIMES FROM TO] ..
    local name=$1 text rest times from to found
    text=$(cat "$here/target/failsafe-open/src/$name")
    shift
    while [ $# -gt 0 ]; do
        times=$1 from=$2 to=$3
        shift 3
        rest=$text found=0
        while [[ $rest == *"$from"* ]]; do
            rest=${rest#*"$from"}
            found=$((found + 1))
        done
        if [ "$found" -ne "$times" ]; then
            echo "the Rust in 64 bits: $name has $found times, not $times: $from" >&2
            exit 1
        fi
        text=${text//"$from"/"$to"}
    done
    printf '%s\n' "$text" | put "$here/target/failsafe-wide/src/$name"
}
manifest failsafe-wide src/lib.rs
widened config.rs
widened energy.rs
widened geometry.rs
widened types.rs \
    3 'pub t_ms: u32,' 'pub t_ms: u64,' \
    1 'pub now_ms: u32,' 'pub now_ms: u64,' \
    1 'pub gcs_heartbeat_ms: Option<u32>,' 'pub gcs_heartbeat_ms: Option<u64>,'
widened time.rs \
    1 $'use crate::types::HALF_RANGE_MS;\n\n' '' \
    1 '(now: u32, then: u32) -> Option<u32>' '(now: u64, then: u64) -> Option<u64>' \
    1 $'let diff = now.wrapping_sub(then);\n    if diff >= HALF_RANGE_MS {\n        None\n    } else {\n        Some(diff)\n    }' \
    'now.checked_sub(then)' \
    1 '(now: u32, t_ms: u32, limit_ms: u32)' '(now: u64, t_ms: u64, limit_ms: u32)' \
    1 'age <= limit_ms' 'age <= u64::from(limit_ms)'
widened lib.rs \
    1 'pub last_now: Option<u32>,' 'pub last_now: Option<u64>,' \
    1 'pub epoch_start: u32,' 'pub epoch_start: u64,' \
    1 $'let delta = raw.now_ms.wrapping_sub(last);\n            if delta >= types::HALF_RANGE_MS {' 'if raw.now_ms < last {'
widened triggers.rs \
    1 'pub since_ms: Option<u32>,' 'pub since_ms: Option<u64>,' \
    2 'now: u32, active: bool' 'now: u64, active: bool' \
    1 'a >= hold_ms' 'a >= u64::from(hold_ms)' \
    2 'now_ms: u32,' 'now_ms: u64,' \
    2 'unwrap_or(u32::MAX)' 'unwrap_or(u64::from(u32::MAX))' \
    1 'gcs_age > cfg.gcs_rtl_ms' 'gcs_age > u64::from(cfg.gcs_rtl_ms)' \
    1 'gcs_age > cfg.gcs_hold_ms' 'gcs_age > u64::from(cfg.gcs_hold_ms)' \
    1 'gcs_age > cfg.gcs_warn_ms' 'gcs_age > u64::from(cfg.gcs_warn_ms)' \
    1 'gcs_age <= cfg.gcs_clear_ms' 'gcs_age <= u64::from(cfg.gcs_clear_ms)'
widened disarm.rs \
    1 'pub hold_since_ms: Option<u32>,' 'pub hold_since_ms: Option<u64>,' \
    1 'now_ms: u32,' 'now_ms: u64,' \
    1 'age >= cfg.disarm_hold_ms' 'age >= u64::from(cfg.disarm_hold_ms)'
widened arbiter.rs \
    1 'pub recovery_since_ms: Option<u32>,' 'pub recovery_since_ms: Option<u64>,' \
    1 'now_ms: u32,' 'now_ms: u64,' \
    1 'a >= cfg.recovery_hold_ms' 'a >= u64::from(cfg.recovery_hold_ms)'
widened validate.rs 8 'now_ms: u32,' 'now_ms: u64,'

profile=release features=() path= test=
while :; do
    case $1 in
    --profile) profile=$2 && shift 2 ;;
    --features) features=(--features "$2") && shift 2 ;;
    --path) path=yes && shift ;;
    --test) test=yes && shift ;;
    *) break ;;
    esac
done
program=$1
shift
if [ -n "$test" ]; then
    cd "$here"
    exec cargo test --quiet --offline --package "$program"
fi
(cd "$here" && cargo build --quiet --offline --profile "$profile" --package "$program" "${features[@]}") >&2
binary=$here/target/$profile/$program
if [ -n "$path" ]; then
    echo "$binary"
    exit 0
fi
exec "$binary" "$@"
