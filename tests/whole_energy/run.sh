#!/usr/bin/env bash
# The whole-number energy of a return: the C entry beside document 02 worked out anew (reckon.py), on boundary and random
# inputs; an answer with a bit changed, which reckon.py has to see; tools/frames.py beside the same reckoning, the worked
# example of docs/ENERGY.md, and what the tool says of bad numbers.
#   run.sh [CASES [SEED]]
set -u
. "$(dirname "${BASH_SOURCE[0]}")/../common.sh"
cd "$top" || exit 1
build=$top/build/whole_energy
mkdir -p "$build"
failed=0

fail() {
    echo "FAILED: $1"
    failed=1
}

need_gcc
staticlib
gcc -std=c11 -D_POSIX_C_SOURCE=199309L -O2 -Wall -Wextra -Werror -pedantic -Iinclude -o "$build/energy_test" tests/whole_energy/energy_test.c target/staticlib/libfailsafe.a || exit 1
tests/whole_energy/reckon.py "$build/energy_test" "$@" || fail "the entry differs"

# An answer with one bit of the first call's total changed is seen.
cat >"$build/wrong" <<'END'
#!/usr/bin/env python3
import subprocess, sys
said = bytearray(subprocess.run([sys.argv[0].replace("wrong", "energy_test")], stdin=sys.stdin, stdout=subprocess.PIPE, check=True).stdout)
said[4 + 64] ^= 1
sys.stdout.buffer.write(said)
END
chmod +x "$build/wrong"
if tests/whole_energy/reckon.py "$build/wrong" 10 >"$build/wrong.out"; then fail "a wrong total is not seen"; fi

tests/whole_energy/reckon.py --tool tools/frames.py 2000 || fail "the tool differs"

# The worked example: the command that the page shows, and all that it prints.
awk '/^    \$ tools\/frames.py energy/ { on = 1; print substr($0, 7) > command; next } on && /^    / { print substr($0, 5); next } { on = 0 }' \
    command="$build/command" docs/ENERGY.md >"$build/example.txt"
[ -s "$build/example.txt" ] || fail "docs/ENERGY.md has no example"
bash "$build/command" | diff - "$build/example.txt" || fail "the worked example comes out otherwise"

# Each: what is changed in the sample, what the message has to say.
tried=0
bad() { # NAME VALUE MESSAGE
    tried=$((tried + 1))
    sed "s/\"$1\": [-0-9]*/\"$1\": $2/" samples/energy.json >"$build/bad.json"
    if tools/frames.py energy "$build/bad.json" >"$build/out" 2>"$build/err"; then
        fail "taken, though it is bad: $1 $2"
    elif ! grep -qF -- "$3" "$build/err"; then
        fail "$1 $2: it says $(cat "$build/err") and not: $3"
    fi
}
bad position_north_mm 10000001 'energy.position_north_mm: 10000001 is outside its limits, -10000000 to 10000000 (refusal 36)'
bad position_altitude_mm -100001 'energy.position_altitude_mm: -100001 is outside its limits, -100000 to 2000000 (refusal 36)'
bad return_altitude_mm -1 'energy.return_altitude_mm: -1 is outside its limits, 0 to 2000000 (refusal 36)'
bad wind_thousandths 10001 'energy.wind_thousandths: 10001 is outside its limits, 0 to 10000 (refusal 36)'
bad speed_cruise_mm_s 0 'energy.speed_cruise_mm_s: a speed of 0 (refusal 37)'
bad power_climb_mw 1.5 'energy.power_climb_mw: a whole number is wanted, not 1.5'
bad power_climb_mw true 'energy.power_climb_mw: a whole number is wanted, not true'
bad power_climb_mw null 'energy.power_climb_mw: null is not a value here; leave out what is absent'
tools/frames.py energy wind=3 2>"$build/err"
[ $? -eq 1 ] && grep -q 'energy.wind: there is no such number' "$build/err" || fail "a name that is none: it says $(cat "$build/err")"

[ "$failed" -eq 0 ] && echo "the worked example, and $((tried + 1)) bad inputs"
exit "$failed"
