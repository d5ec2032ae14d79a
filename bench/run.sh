#!/usr/bin/env bash
# Times the port beside the Rust (docs/RUST.md says how to read it): a map of points, the step entries, steps beside areas, the frames, then `decide` on a stream of
# 200,000 telemetry frames. The Rust is built twice: as cargo's release profile does, and with everything in one unit.
# Needs the Rust's source. Nothing here passes or fails.
set -eu
top=$(cd "$(dirname "${BASH_SOURCE[0]}")/.." && pwd)
cd "$top"
build=$top/build/bench
mkdir -p "$build"

for library in failsafe frames_c; do
    tools/make.sh $library >"$build/staticlib.out" 2>&1 || { cat "$build/staticlib.out" && exit 1; }
done
tools/make.sh decide >"$build/check.out" 2>&1 || { cat "$build/check.out" && exit 1; }
CUTHRANSI_STATICLIB=$top/target/staticlib
export CUTHRANSI_STATICLIB
"$(oracle/run.sh --path streams)" --write "$build/stream" 200000
for profile in plain timed; do
    echo "== the Rust's profile: $profile"
    rust=$(oracle/run.sh --profile "$profile" --path decide)
    "$(oracle/run.sh --profile "$profile" --path inside)" time
    "$(oracle/run.sh --profile "$profile" --path bench)" "$top/target/bin/decide" "$rust" "$build/stream"
done
