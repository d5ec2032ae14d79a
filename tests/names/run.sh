#!/usr/bin/env bash
# The header compiles as C99 and as C++ with warnings as errors; names, numbers, places, orders and defaults that stand in several files are the
# same in all of them (names.py), which has to see each number that was changed.
set -u
. "$(dirname "${BASH_SOURCE[0]}")/../common.sh"
cd "$top" || exit 1
build=$top/build/names
mkdir -p "$build"

# Without a C++ compiler the header is compiled as C alone; the gate does not fail for that, where CI is set either.
cat >"$build/header.c" <<'END'
#include "failsafe.h"
static const uint8_t config[] = FAILSAFE_DEFAULT_CONFIG, fence[] = FAILSAFE_DEFAULT_FENCE;
typedef char config_is_whole[sizeof config == FAILSAFE_CONFIG_BYTES ? 1 : -1];
typedef char fence_is_whole[sizeof fence == FAILSAFE_FENCE_BYTES(4) ? 1 : -1];
typedef char last_slot[FAILSAFE_DECISION_SLOT(FAILSAFE_REASON_ENERGY_RTL_INFEASIBLE) + 3 == FAILSAFE_DECISION_POSITION_VALID ? 1 : -1];
typedef char wide_ends[FAILSAFE_WIDE_TELEMETRY_EKF_OK_VALUE + 1 == FAILSAFE_WIDE_TELEMETRY_BYTES ? 1 : -1];
typedef char last_corner[FAILSAFE_FENCE_EAST(3) + 4 == FAILSAFE_FENCE_BYTES(4) ? 1 : -1];
int main(void) { return config[FAILSAFE_CONFIG_CELL_COUNT] == 4 && fence[FAILSAFE_FENCE_CORNERS] == 4 ? FAILSAFE_REFUSAL_NONE : 1; }
END
if ! command -v gcc >/dev/null 2>&1; then
    echo "left out: the header compiled (no C compiler, gcc, is here)"
else
    gcc -std=c99 -Wall -Wextra -Werror -pedantic -Iinclude -fsyntax-only "$build/header.c" || exit 1
    if gcc -x c++ -E /dev/null >/dev/null 2>&1; then
        gcc -x c++ -std=c++11 -Wall -Wextra -Werror -pedantic -Iinclude -fsyntax-only "$build/header.c" || exit 1
    else
        echo "no C++ compiler is here: the header was compiled as C99 alone"
    fi
fi

# A copy without what rt keeps in out/. `rt ci` refuses sources that no crate has, also below build/: so it goes when the test ends.
trap 'rm -rf "$build/bent"' EXIT
rm -rf "$build/bent"
mkdir -p "$build/bent"
tar -c --exclude="crates/*/out" crates docs examples include tools | tar -x -C "$build/bent"
# A number that is changed in the copy's header, and what names.py has to say of it.
seen() { # FROM TO WHAT
    sed "s/$1/$2/" include/failsafe.h >"$build/bent/include/failsafe.h"
    if cmp -s include/failsafe.h "$build/bent/include/failsafe.h" || tests/names/names.py "$build/bent" >"$build/bent.out" || ! grep -q "^differs: $3" "$build/bent.out"; then
        echo "names.py does not see a number that was changed: $1"
        exit 1
    fi
}
seen 'FAILSAFE_REFUSAL_NEGATIVE_POWER = 24' 'FAILSAFE_REFUSAL_NEGATIVE_POWER = 23' refusals
seen 'FAILSAFE_CONFIG_V_MAX = 242' 'FAILSAFE_CONFIG_V_MAX = 238' 'places of settings'
seen 'FAILSAFE_TELEMETRY_GPS_HDOP_VALUE = 46' 'FAILSAFE_TELEMETRY_GPS_HDOP_VALUE = 45' 'places of telemetry'
seen 'FAILSAFE_WIDE_TELEMETRY_EKF_OK_T_MS = 141' 'FAILSAFE_WIDE_TELEMETRY_EKF_OK_T_MS = 137' 'places of telemetry of kind 9'
seen 'FAILSAFE_DECISION_FENCE_DIST_M = 89' 'FAILSAFE_DECISION_FENCE_DIST_M = 90' 'places of a Decision'
seen '0x33, 0x33, 0x53' '0x33, 0x33, 0x54' "the header's default configuration"
tests/names/names.py "$top"
