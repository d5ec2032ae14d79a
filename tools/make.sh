#!/usr/bin/env bash
# Proves and builds crates of this repository: tools/make.sh NAME ..
# A static library is then target/staticlib/libNAME.a, a program target/bin/NAME. What rt says goes to standard output; the exit status is 0 only
# where each of them was proved and built.
set -u
cd "$(dirname "${BASH_SOURCE[0]}")/.." || exit 1
mkdir -p target/staticlib target/bin
for name in "$@"; do
    if [ -f "crates/$name/src/main.rt" ]; then
        # rt run starts what it built: with no word and no input each of these programs ends at once.
        (cd "crates/$name" && rt run </dev/null 2>&1) && cp "crates/$name/out/$name" target/bin/ || exit 1
    else
        (cd "crates/$name" && rt lib 2>&1) && cp "crates/$name/out/lib$name.a" target/staticlib/ || exit 1
    fi
done
