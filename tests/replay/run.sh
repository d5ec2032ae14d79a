#!/usr/bin/env bash
# The fixed lists of the Rust's answers, replayed over the static libraries and the program `decide` with no Rust at hand:
# docs/LISTS.md. Then the lists once more with a changed row and with rows left out, each of which has to be noticed.
set -u
. "$(dirname "${BASH_SOURCE[0]}")/../common.sh"
cd "$top" || exit 1
build=$top/build/replay
mkdir -p "$build"

# The libraries of what the entries do not hand out; each is proved on the way. From outside leaves_c needs memcpy, the others nothing.
side_libraries() {
    local name
    for name in leaves_c frames_c float32_c; do
        tools/make.sh "$name" >"$build/$name.out" 2>&1 || { cat "$build/$name.out" && exit 1; }
    done
    needs_from_outside leaves_c memcpy
    needs_from_outside frames_c ''
    needs_from_outside float32_c ''
}

# A copy of LIST in build/bad, changed by a command of sed in one part or both.
bad_copy() { # LIST COMMAND PART ..
    local list=$1 command=$2
    shift 2
    rm -rf "$build/bad" && mkdir "$build/bad"
    cp tests/replay/"$list"/{rows,answers} "$build/bad"
    for part in "$@"; do
        sed -i -e "$command" "$build/bad/$part"
    done
}

# The driver ends with status 1, and says why.
must_fail() { # LIST ROWS WHAT SAID
    timeout 120 "$build/replay" "$1" "$build/bad" "$2" >"$build/bad.out"
    if [ $? -ne 1 ] || ! grep -q "$4" "$build/bad.out"; then
        echo "replay did not notice $3 in the list of $1"
        exit 1
    fi
}

# LIST with a digit of an answer changed, without its last row, with one file a row short, and with a row of another form.
notices() { # LIST ROWS
    bad_copy "$1" '100s/.$/&X/; 100s/0X$/1/; 100s/[1-9A-F]X$/0/' answers
    must_fail "$1" "$2" "a changed answer" '^row 100 differs'
    bad_copy "$1" '$d' rows answers
    must_fail "$1" "$2" "a missing row" "there have to be $2 rows"
    bad_copy "$1" '$d' answers
    must_fail "$1" "$2" "a missing answer" "after row $(($2 - 1)) one of the files ends"
    bad_copy "$1" '7s/^0/x/' rows
    must_fail "$1" "$2" "a broken row" 'after row 6 one of the files .* has no row'
}

staticlib
side_libraries
if ! tools/make.sh decide >"$build/check.out" 2>&1; then
    cat "$build/check.out"
    exit 1
fi
gcc -std=c11 -O2 -Wall -Wextra -Werror -pedantic -Iinclude -o "$build/replay" tests/replay/*.c \
    target/staticlib/lib{failsafe,leaves_c,frames_c,float32_c}.a || exit 1
# Each list, and how many rows it has.
while read -r list rows; do
    timeout 120 "$build/replay" "$list" "tests/replay/$list" "$rows" || exit 1
    notices "$list" "$rows"
done <<'LISTS'
leaves 7005
flights 4502
frames 2437
calls 607
streams 105
LISTS
cp tests/replay/streams/{rows,answers} "$build/bad"
CUTHRANSI_DECIDE=$(command -v cat) must_fail streams 105 "a program that only copies" '^row 2 differs'
echo "a changed answer, a missing row, a missing answer and a broken row are noticed in each, and a program that only copies"
