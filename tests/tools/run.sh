#!/usr/bin/env bash
# tools/frames.py: packs the sample flight into the kept frames, shows the kept Decisions as the kept text, and says
# what is wrong with bad input; a flight with a keep-out area too, one at a threshold under kinds 1 and 11, and instants of 64 bits. It draws the kept pages, counts the landings of a kept day, writes Decisions as CSV and
# packs a log. Where the crate decide is there, the samples' Decisions are made anew by it.
set -u
top=$(cd "$(dirname "${BASH_SOURCE[0]}")/../.." && pwd)
cd "$top" || exit 1
build=$top/build/tools
mkdir -p "$build"
failed=0

fail() {
    echo "FAILED: $1"
    failed=1
}

tools/frames.py pack samples/flight.json "$build/flight.frames" || fail "the sample does not pack"
cmp "$build/flight.frames" samples/flight.frames || fail "the sample packs into other frames"
tools/frames.py show samples/decisions.frames --input samples/flight.json >"$build/decisions.txt" || fail "the Decisions are not shown"
diff "$build/decisions.txt" samples/decisions.txt || fail "the Decisions are shown otherwise"
tools/frames.py show samples/flight.frames >"$build/flight.txt" || fail "the sample's frames are not shown"
[ "$(wc -l <"$build/flight.txt")" -eq $(($(wc -l <samples/decisions.txt) + 2)) ] || fail "not a line for each frame"
for seen in Warn Hold ReturnToLaunch Land; do
    grep -q " ms $seen " samples/decisions.txt || fail "the sample does not pass through $seen"
done

# A Decision of kind 6: kind 4's frame with a side put in.
{ printf '\136\0\6\0' && head -c 94 samples/decisions.frames | tail -c 90 && printf '\2' && head -c 95 samples/decisions.frames | tail -c 1; } >"$build/side.frames"
echo '{"telemetry": [{"now_ms": 1000}]}' >"$build/one.json"
tools/frames.py show "$build/side.frames" --input "$build/one.json" >"$build/side.txt" || fail "a Decision with its side is not shown"
grep -qF 'side 2 from (-500, 500) to (-500, -500)' "$build/side.txt" || fail "the side is shown otherwise: $(cat "$build/side.txt")"
tools/frames.py show "$build/side.frames" | grep -qF 'side 2' || fail "the side is not shown without a fence"

# The same where an area is nearest.
{ head -c 94 "$build/side.frames" && printf '\376' && tail -c 1 "$build/side.frames"; } >"$build/area_side.frames"
tools/frames.py show "$build/area_side.frames" --input "$build/one.json" | grep -q '  an area$' || fail "a Decision with an area is shown otherwise"

# A crane goes up and comes down: its area, in a frame before the telemetry from which it is held and one before that from which it is not.
tools/frames.py pack samples/crane.json "$build/crane.frames" || fail "the crane does not pack"
tools/frames.py show "$build/crane.frames" >"$build/crane.txt" || fail "the crane's frames are not shown"
[ "$(grep -A 1 '^Areas' "$build/crane.txt" | cut -c 1-76)" = "Areas: 1: 4 corners (180, -40) (180, 40) (240, 40) (240, -40)
Telemetry: now 8000, position (60, 0, -40) velocity (15, 0, 0), gps Fix3D sa
--
Areas: none
Telemetry: now 30000, position (165, 0, -40) velocity (15, 0, 0), gps Fix3D " ] || fail "the crane's area is packed otherwise"
tools/frames.py draw samples/crane.json | grep -qF '<polygon points="279.2,206.4 320.8,206.4 320.8,175.2 279.2,175.2"' || fail "the crane's area is not drawn"
tools/frames.py merge samples/crane.json samples/crane.json | cmp - "$build/crane.frames" || fail "two radios lose the crane"
grep -q ' ms Warn           FenceApproach ' samples/crane.txt && grep -q ' ms ReturnToLaunch FenceBreach ' samples/crane.txt || fail "the crane is no trouble"
tail -n 1 samples/crane.txt | grep -q ' ms Nominal ' || fail "the crane is trouble to the end"
printf '\14\0\7\0\3\1\0\0\0\0\0\0\200\77' | tools/frames.py show | grep -qx 'Area 3: 1 corners (0, 1)' || fail "an area alone is shown otherwise"

# A charge that goes back and forth at a threshold. Under kind 1 its warning comes and goes three times; under kind 11 it comes once, and
# goes when the charge has been above the clear threshold for as long as it has to be.
tools/frames.py pack samples/flicker.json | cmp - samples/flicker.frames || fail "the flicker packs into other frames"
tools/frames.py pack samples/flicker.json "$build/flicker1.frames" --kind 1 || fail "the flicker does not pack as kind 1"
[ "$(cmp -l "$build/flicker1.frames" samples/flicker.frames | tr -s ' ')" = " 3 1 13" ] || fail "kinds 1 and 11 differ in more than their kind"
tools/frames.py pack "$build/one.json" --kind 11 | tools/frames.py show | grep -x 'Config of kind 11: the defaults' >/dev/null || fail "kind 11 is shown otherwise"
warnings() { # TEXT
    awk '{ is = /requests BatteryWarn:Warn$/; if (is && !was) n++; was = is } END { print n }' "$1"
}
[ "$(warnings samples/flicker_kind_1.txt) $(warnings samples/flicker.txt)" = "3 1" ] || fail "the flicker warns otherwise"
# A state of kind 12, fresh but for two of its last bytes.
{ printf '\300\0\14\0' && head -c 183 /dev/zero && printf '\1\0\0\0\1\0\0'; } >"$build/raised.frames"
tools/frames.py show "$build/raised.frames" | grep -q '^State of kind 12: .*, fresh, raised GpsLost BatteryWarn$' || fail "what is raised is shown otherwise"
{ printf '\300\0\14\0' && head -c 190 /dev/zero; } | tools/frames.py show | grep -q ', fresh, raised none$' || fail "a fresh state of kind 12 is shown otherwise"

# Telemetry of kind 9 and a state of kind 10: the instants in eight bytes, all else as in kinds 3 and 5.
wide_of() { # KIND NOW
    echo '{"areas": [{"number": 4, "corners": [[100, 100], [100, 200], [200, 200]], "from_ms": '"$2"'}], "telemetry": [{"kind": '"$1"', "now_ms": '"$2"', "gcs_heartbeat_ms": 7,
        "position": {"pos": [1, 2, -40]}, "gps": {"t_ms": 9, "fix": "Fix3D", "sats": 14}, "battery": {"percent": 80, "voltage_v": {"t_ms": 8, "value": 16}},
        "armed": true, "landed": {"t_ms": 11, "value": "InAir"}, "ekf_ok": {"t_ms": 12, "value": false}}]}'
}
wide_of 3 1000 | tools/frames.py pack - | tail -c 106 >"$build/narrow.frames"
wide_of 9 1000 | tools/frames.py pack - | tail -c 150 >"$build/wide.frames"
wide_of 9 18446744073709551615 | tools/frames.py pack - >"$build/widest.frames"
python3 - "$build" <<'END' || fail "kind 9 is not kind 3 with its instants in eight bytes"
import sys
narrow, wide, widest = (open(f"{sys.argv[1]}/{name}.frames", "rb").read() for name in ("narrow", "wide", "widest"))
assert narrow[:4] == bytes([104, 0, 3, 0]) and wide[:4] == bytes([148, 0, 9, 0])
for place in [4, 9, 38, 51, 60, 69, 78, 83, 89, 95, 101][::-1]:
    narrow = narrow[:place + 4] + bytes(4) + narrow[place + 4:]
assert narrow[4:] == wide[4:]
assert widest[-150:-138] == bytes([148, 0, 9, 0]) + b"\xff" * 8
END
tools/frames.py show "$build/wide.frames" | sed 's/^Telemetry of kind 9/Telemetry/' | diff - <(tools/frames.py show "$build/narrow.frames") || fail "kind 9 is shown otherwise than kind 3"
tools/frames.py show "$build/widest.frames" >"$build/widest.txt" || fail "the largest reading is not shown"
grep -q '^Areas: 4: ' "$build/widest.txt" || fail "an area from a reading of 64 bits on is not held"
grep -q '^Telemetry of kind 9: now 18446744073709551615, position (1, 2, -40) velocity (0, 0, 0), gps Fix3D sats 14 hdop - (18446744073709551606 ms old)' "$build/widest.txt" || fail "the largest reading is shown otherwise: $(tail -n 1 "$build/widest.txt")"
echo '{"telemetry": [{"kind": 9, "now_ms": 4294967296, "gcs_heartbeat_ms": 4294967299}]}' | tools/frames.py pack - | tools/frames.py show | grep -qx 'Telemetry of kind 9: now 4294967296, heartbeat seen (3 ms ahead)' || fail "a stamp ahead is shown otherwise"
{ cat "$build/side.frames" "$build/side.frames"; } >"$build/two.frames"
echo '{"telemetry": [{"kind": 9, "now_ms": 8589934592}, {"kind": 9, "now_ms": 12884901888}]}' >"$build/two.json"
tools/frames.py show "$build/two.frames" --input "$build/two.json" | grep -q '^12884901888 ms ' || fail "a Decision's time on the 64-bit clock is another"
tools/frames.py draw "$build/two.json" --decisions "$build/two.frames" | grep -q '>A flight of 2 steps in ' || fail "a flight on the 64-bit clock is not drawn"
printf 'now_ms,armed,armed.t_ms\n5000000000,1,4999999999\n' >"$build/wide.csv"
tools/frames.py telemetry "$build/wide.csv" --kind 9 | tools/frames.py show | grep -qx 'Telemetry of kind 9: now 5000000000, armed yes (1 ms old)' || fail "a log of kind 9 is packed otherwise"
tools/frames.py telemetry samples/log.csv --kind 9 | tools/frames.py show | sed 's/^Telemetry of kind 9/Telemetry/' | diff - <(tools/frames.py telemetry samples/log.csv | tools/frames.py show) || fail "the log as kind 9 is shown otherwise"
# A fresh state but for gps_lost_set, the recovery's start, last_now and epoch_start.
python3 - "$build/wide_state.frames" <<'END'
import struct, sys
state = bytearray(struct.pack("<HH", 304, 10) + bytes(302))
for place, value in ((43, 2**32), (236, 2**40), (288, 2**63)):
    state[place - 1] = 1
    struct.pack_into("<Q", state, place, value)
struct.pack_into("<Q", state, 296, 2**33)
open(sys.argv[1], "wb").write(state)
END
tools/frames.py show "$build/wide_state.frames" | grep -qx 'State of kind 10: gps_lost_set since 4294967296, link stage 0, shown Nominal for None, recovery since 1099511627776, no stored position, refused samples 0, last_now since 9223372036854775808, epoch_start 8589934592, faults in a row 0, fresh' || fail "a state of kind 10 is shown otherwise: $(tools/frames.py show "$build/wide_state.frames")"

# Document 01's input: the defaults and one all-absent telemetry.
echo '{"telemetry": [{"now_ms": 0}]}' >"$build/absent.json"
tools/frames.py pack "$build/absent.json" "$build/absent.frames" || fail "an all-absent telemetry does not pack"
tail -c 106 "$build/absent.frames" | cmp -s - <(printf '\150\0\3\0' && head -c 102 /dev/zero) || fail "an all-absent telemetry has other bytes"

# A star as kind 8: packed, shown and drawn, its five sides numbered in the order in which they are held.
echo '{"fence": {"kind": 8, "corners": [[300, 0], [-200, -200], [100, 300], [100, -300], [-200, 200]]}}' >"$build/star.json"
tools/frames.py pack "$build/star.json" "$build/star.frames" || fail "a star does not pack"
tools/frames.py show "$build/star.frames" | grep -q '^Fence of kind 8: 5 to 120 m, 5 corners (300, 0) (-200, -200) ' || fail "a star is not shown as kind 8"
tools/frames.py draw "$build/star.json" "$build/star.svg" || fail "a star is not drawn"
tools/frames.py draw - <"$build/star.frames" | cmp - "$build/star.svg" || fail "a star's frames are drawn otherwise than the star"
[ "$(grep -o '>[0-4]<' "$build/star.svg" | tr -d '<>' | tr -d '\n')" = 01234 ] || fail "the sides of a star are not numbered"
# Sent clockwise, it is held reversed: side 0 goes from the last corner to the one before it.
grep -m 1 '<line ' "$build/star.svg" | grep -q 'x1="473.3" y1="473.3" x2="40.0" y2="213.3"' || fail "side 0 of a star is another"
tools/frames.py draw samples/flight.frames | python3 -c 'import sys, xml.etree.ElementTree as x; x.parse(sys.stdin)' || fail "the sample's fence is not drawn"

# A flight on a page: the sample's is kept; one step with nothing read can be drawn too.
tools/frames.py draw samples/flight.json --decisions samples/decisions.frames | cmp - samples/flight.svg || fail "the sample's page is another"
tools/frames.py draw samples/flight.frames "$build/flight.svg" --decisions - <samples/decisions.frames && cmp "$build/flight.svg" samples/flight.svg || fail "the sample's page from frames is another"
python3 - <<'END' || fail "the sample's page does not show what it has to"
import xml.etree.ElementTree as tree
page = tree.parse("samples/flight.svg").getroot()
texts = [one.text for one in page.iter("{http://www.w3.org/2000/svg}text")]
wanted = ["A flight of 76 steps in 76 s", "GcsLinkLost", "EnergyRtlInfeasible", "may disarm", "Nominal", "Warn", "Hold", "ReturnToLaunch", "Land", "200 m", "N", "0", "1", "2", "3"]
missing = [text for text in wanted if text not in texts]
assert not missing, missing
END
head -c 95 samples/decisions.frames >"$build/first.frames"
tools/frames.py draw "$build/one.json" --decisions "$build/first.frames" | python3 -c 'import sys, xml.etree.ElementTree as x; x.parse(sys.stdin)' || fail "a flight of one step is not drawn"

# A file with a fence of 14 corners alone begins with the byte of a brace, and is frames all the same.
python3 - "$build/fence14.json" <<'END'
import json, math, sys
corners = [[round(400 * math.cos(k * math.pi / 7)), round(400 * math.sin(k * math.pi / 7))] for k in range(14)]
json.dump({"fence": {"corners": corners}}, open(sys.argv[1], "w"))
END
tools/frames.py pack "$build/fence14.json" | tail -c +247 >"$build/fence14.frames"
tools/frames.py draw "$build/fence14.frames" | cmp - <(tools/frames.py draw "$build/fence14.json") || fail "a fence of 14 corners alone is not drawn"
# Blanks before the brace are JSON's, a tab too.
{ printf '\t\r\n' && cat "$build/star.json"; } >"$build/tab.json"
tools/frames.py draw "$build/tab.json" | cmp - "$build/star.svg" || fail "a star after a tab is drawn otherwise"

# The landings of a day: a whole flight, one with Land before its first position, a refused one, one that is cut off.
day="samples/decisions.frames samples/day/cut_off.frames samples/day/log.frames samples/day/refused.frames"
head -c 1750 samples/day/log.frames | cmp - samples/day/cut_off.frames || fail "the cut-off flight is another"
{ head -c 3515 samples/day/log.frames && printf '\4\0\377\0\4\0'; } | cmp - samples/day/refused.frames || fail "the refused flight is another"
tools/frames.py count $day | diff - samples/day.txt || fail "the day is counted otherwise"
tools/frames.py count $day --csv | diff - samples/day.csv || fail "the day's CSV is another"
# The same day with every other Decision as kind 6 counts alike.
sided() { # FILE
    python3 - "$1" <<'END'
import sys
stream, at, step = open(sys.argv[1], "rb").read(), 0, 0
while stream[at:at + 3] == b"]\0\4" and at + 95 <= len(stream):
    one, at, step = stream[at:at + 95], at + 95, step + 1
    sys.stdout.buffer.write(b"^\0\6\0" + one[4:94] + b"\0" + one[94:] if step % 2 else one)
sys.stdout.buffer.write(stream[at:])
END
}
for flight in $day; do
    sided "$flight" >"$build/$(basename "$flight")"
done
(cd "$build" && "$top/tools/frames.py" count decisions.frames cut_off.frames log.frames refused.frames) | grep -v flight: | diff - <(grep -v flight: samples/day.txt) ||
    fail "a day with both kinds of Decisions is counted otherwise"
head -c 190 samples/day/log.frames | tools/frames.py count - | tail -n 1 |
    grep -qx 'no position: standard input: no Decision has a valid position; landings 0, before the first position 1' || fail "a flight without a position is not listed"
# Beside a look at every row of the CSV of Decisions, on a flight of both kinds with many landings.
python3 - "$build/many.frames" <<'END'
import random, sys
random.seed(20261117)
one = open("samples/decisions.frames", "rb").read(95)
with open(sys.argv[1], "wb") as file:
    for step in range(3000):
        told = bytes([random.choice([0, 1, 4, 4, 4]), random.randrange(19)]) + one[6:64] + bytes([step > 40 and random.randrange(2)]) + one[65:94]
        file.write(b"^\0\6\0" + told + b"\0" + one[94:] if step % 7 == 3 else one[:4] + told + one[94:])
END
tools/frames.py csv "$build/many.frames" >"$build/many.csv" || fail "a flight of both kinds is no CSV"
awk -F, 'NR > 1 { land = $2 == "Land"
    valid = valid || $24 == "true"
    if (land && !was) { by[$3] = 1; if (valid) { after[$3]++; all++ } else { before[$3]++; early++ } }
    was = land }
    END { for (reason in by) printf "reason,%s,,,,%d,%d,0,0\n", reason, after[reason], before[reason]
          printf "in all,,,,,%d,%d,0,0\n", all, early }' "$build/many.csv" | sort >"$build/many.awk"
tools/frames.py count --csv "$build/many.frames" | grep -E '^(reason|in all),' | sort | diff - "$build/many.awk" || fail "many landings are counted otherwise"
# A day of 340 flights of 10,000 steps counts in seconds; here a tenth of it, of both kinds in one file, which is the slow way.
mkdir -p "$build/day"
for k in $(seq 10 43); do
    cat "$build"/many.frames "$build"/many.frames "$build"/many.frames >"$build/day/$k.frames"
done
began=$SECONDS
tools/frames.py count "$build"/day/*.frames | grep -q '^flights  *34 ' || fail "34 flights are counted otherwise"
[ $((SECONDS - began)) -lt 20 ] || fail "34 flights of 9,000 steps took $((SECONDS - began)) s"

# Every field of every Decision as CSV.
tools/frames.py csv samples/decisions.frames --input samples/flight.json | diff - samples/decisions.csv || fail "the Decisions' CSV is another"
tools/frames.py csv <samples/decisions.frames | diff - <(cut -d , -f 1,3- samples/decisions.csv) || fail "without --input the CSV is another"

# A flight's readings as a log pack into the same frames as from JSON, with stamps and without.
python3 - >"$build/flight.csv" <<'END'
import csv, json, sys
rows = []
for reading in json.load(open("samples/flight.json"))["telemetry"]:
    row = {}
    for name, value in reading.items():
        if name == "position":
            for part in ("pos", "vel"):
                row.update({f"position.{part}.{axis}": x for axis, x in zip(("north", "east", "down"), value.get(part, []))})
            row.update({"position.t_ms": value["t_ms"]} if "t_ms" in value else {})
        elif name in ("gps", "battery"):
            row.update({f"{name}.{part}": x for part, x in value.items()})
        else:
            row[name] = value
    for name in [name for name in row if isinstance(row[name], dict)]:
        stamped = row[name]
        row.update({name: stamped["value"], f"{name}.t_ms": stamped["t_ms"]})
    rows.append({name: json.dumps(x) if isinstance(x, bool) else x for name, x in row.items()})
out = csv.DictWriter(sys.stdout, sorted({name for row in rows for name in row}))
out.writeheader()
out.writerows(rows)
END
tools/frames.py telemetry "$build/flight.csv" | cmp - <(tail -c +292 samples/flight.frames) || fail "a log packs into other frames"
echo '{"telemetry": [{"now_ms": 9, "position": {"t_ms": 1, "pos": [1, 2.5, -3]}, "gps": {"t_ms": 2, "fix": "Fix2D", "hdop": Infinity},
  "battery": {"voltage_v": {"t_ms": 3, "value": NaN}, "remaining_wh": 1e-3}, "armed": {"t_ms": 4, "value": false}, "landed": {"t_ms": 5, "value": "Takeoff"}}, {"now_ms": 10}]}' >"$build/stamps.json"
printf '%s\r\n' 'now_ms, position.t_ms, "position.pos.down",position.pos.east,position.pos.north,gps.t_ms,gps.fix,gps.hdop,battery.voltage_v,battery.voltage_v.t_ms,battery.remaining_wh,armed,armed.t_ms,landed,landed.t_ms' \
    '9,1,-3,2.5,1,2,Fix2D,Infinity,nan,3,0.001,FALSE,4,Takeoff,5' '' '10,,,,,,,,,,,,,,' >"$build/stamps.csv"
tools/frames.py telemetry "$build/stamps.csv" | cmp - <(tools/frames.py pack "$build/stamps.json" | tail -c +292) || fail "a log with stamps packs into other frames"

# show --input and csv end with status 1 where Decisions and telemetries are not as many, or a refusal is among them.
lost() { # COMMAND FILE LINES MESSAGE
    tools/frames.py "$1" "$2" --input samples/flight.json >"$build/out" 2>"$build/err"
    [ $? -eq 1 ] && [ "$(wc -l <"$build/out")" -eq "$3" ] && grep -qxF -- "frames.py: $2: $4" "$build/err" || fail "$1 of $2: it says $(cat "$build/err") and not: $4"
}
head -c 950 samples/decisions.frames >"$build/ten.frames"
{ cat samples/decisions.frames && head -c 95 samples/decisions.frames; } >"$build/more.frames"
{ cat samples/decisions.frames && printf '\4\0\377\0\4\0'; } >"$build/refusal.frames"
lost show "$build/ten.frames" 10 '10 Decisions, and samples/flight.json has 76 telemetries'
lost show "$build/more.frames" 77 '77 Decisions, and samples/flight.json has 76 telemetries'
lost show "$build/refusal.frames" 77 'byte 7220: Refusal 4: a value out of range'
lost csv "$build/ten.frames" 11 '10 Decisions, and samples/flight.json has 76 telemetries'
lost csv "$build/refusal.frames" 77 'byte 7220: Refusal 4: a value out of range'
drawn() { # FILE MESSAGE
    tools/frames.py draw samples/flight.json "$build/page.svg" --decisions "$1" 2>"$build/err"
    [ $? -eq 1 ] && tail -n 1 "$build/page.svg" | grep -qx '</svg>' && grep -qxF -- "frames.py: $1: $2" "$build/err" || fail "draw of $1: it says $(cat "$build/err") and not: $2"
}
drawn "$build/ten.frames" '10 Decisions, and samples/flight.json has 76 telemetries'
drawn "$build/refusal.frames" 'byte 7220: Refusal 4: a value out of range'
for words in "samples/flight.json --decisions samples/flight.frames" "samples/flight.json --decisions samples/log.csv" "samples/decisions.frames --decisions samples/decisions.frames"; do
    tools/frames.py draw $words >"$build/out" 2>"$build/err"
    [ $? -eq 1 ] && [ ! -s "$build/out" ] && grep -q '^frames.py: samples/' "$build/err" || fail "draw $words is no error: $(cat "$build/err")"
done
tools/frames.py csv "$build/refusal.frames" >/dev/null 2>&1
[ $? -eq 1 ] || fail "a refusal is lost in the CSV"
tools/frames.py show "$build/refusal.frames" >/dev/null || fail "without --input a refusal is a line as any other"

# An output that is closed or full.
told() { # MESSAGE STATUS
    [ "$2" -eq 1 ] && [ "$(cat "$build/err")" = "frames.py: standard output: $1" ] || fail "with status $2 it says $(cat "$build/err") and not: $1"
}
for words in "pack samples/flight.json" "show samples/decisions.frames" "csv samples/decisions.frames" "count samples/decisions.frames" \
    "telemetry samples/log.csv" "energy samples/energy.json" "draw samples/flight.json --decisions samples/decisions.frames" --help; do
    tools/frames.py $words >&- 2>"$build/err"
    told 'it is closed' $?
    if [ -c /dev/full ]; then
        tools/frames.py $words >/dev/full 2>"$build/err"
        told 'No space left on device' $?
    fi
done
for k in $(seq 20); do cat samples/decisions.frames; done >"$build/long.frames"
{ tools/frames.py show "$build/long.frames" 2>"$build/err"; echo $? >"$build/status"; } | head -n 1 >/dev/null
told 'it was closed before all was written' "$(cat "$build/status")"
tools/frames.py pack samples/flight.json "$build/closed.frames" >&- || fail "pack into a file needs standard output"
tools/frames.py show <&- 2>"$build/err"
[ $? -eq 1 ] && grep -qx 'frames.py: standard input: it is closed' "$build/err" || fail "a closed input: it says $(cat "$build/err")"
for words in --help -h "count --help" "show -h"; do
    tools/frames.py $words >"$build/help" && grep -q '^  frames.py count ' "$build/help" || fail "$words shows no help"
done

# Each: what is bad, what the message has to say. Each message names the file. They are only put down here; bad.py tries them.
tried=0
rm -rf "$build/bads" && mkdir "$build/bads"
bad() { # COMMAND TEXT MESSAGE
    tried=$((tried + 1))
    printf "$2" >"$build/bads/$tried"
    printf '%s\0' "$1" "$2" "$3" >>"$build/bads/cases"
}
for command in pack show draw points energy count csv telemetry; do
    bad $command '' 'bad: byte 0: it is empty'
done
for command in pack draw points energy telemetry; do
    bad $command '\357\273\277{}' 'bad: byte 0: a byte order mark'
    bad $command '\377\376{\0}\0' 'bad: byte 0: a byte order mark'
done
for command in show count csv; do
    bad $command '\357\273\277{}' 'bad: byte 0: this is text, and frames are wanted'
    bad $command '\t{"telemetry": []}' 'bad: byte 0: this is text, and frames are wanted'
done
bad pack ' \n\t' 'bad: line 1: there is nothing but blanks'
bad draw '\t[]' 'flight: an object is wanted'
bad draw '\t{' 'line 1, column 3'
bad pack 'null' 'flight: null is not a value here'
bad pack '{"fence": null}' 'bad: fence: null is not a value here'
bad pack '{"telemetry": [{"now_ms": 1}, {"now_ms": 1, "gps": null}]}' 'bad: telemetry[1].gps: null is not a value here'
bad pack '{"telemetry": [{"now_ms": 1, "gps": {"fix": "None", "sats": null}}]}' 'bad: telemetry[0].gps.sats: null is not a value here'
bad pack '{"fence": {"corners": [[1, null]]}}' 'bad: fence.corners[0][1]: null is not a value here'
bad pack '{"telemetry": [{"now_ms": 1, "armed": true, "armed": true}]}' 'bad: telemetry[0].armed: it is given twice'
bad pack '{"telemetry": [], "telemetry": []}' 'bad: telemetry: it is given twice'
bad energy '{}' 'bad: energy.position_north_mm: it is missing'
bad energy '{"wind_thousandths": 1, "wind_thousandths": 2}' 'bad: energy.wind_thousandths: it is given twice'
bad points '1 2\n3\n' 'bad: line 2: two numbers are wanted'
bad points '1 1e39\n' 'bad: line 1: a number: 1e+39 is beyond'
bad csv '\2\0\15\0' 'bad: byte 0: Areas, where a Decision is due (refusal 2)'
bad count '\2\0\15\0' 'bad: byte 0: Areas, where a Decision is due (refusal 2)'
bad count '\2\0\11\0' 'bad: byte 0: Telemetry of kind 9, where a Decision is due (refusal 2)'
bad count '\2\0\16\0' 'bad: byte 0: there is no kind 14 (refusal 2)'
bad count '\2\0\4\0' 'bad: byte 0: Decision: a body of 0 bytes is too short (refusal 3)'
bad count '\4\0\377\0\1\0\1' 'bad: byte 6: a frame after the refusal, which ends a flight'
bad count '\135\0\5\0' 'bad: byte 0: the last frame has 2 of 93 bytes (refusal 1)'
bad count '\377\377\4\0\1' 'bad: byte 0: the last frame has 3 of 65535 bytes (refusal 1)'
bad telemetry 'now_ms,gps.fx\n1,2\n' 'bad: line 1: there is no column "gps.fx"; there are now_ms, '
bad telemetry '\tnow_ms\n1\n' 'bad: line 1: there is no column "\tnow_ms"'
bad telemetry '\nnow_ms,armed,now_ms\n' 'bad: line 2: the column now_ms is given twice'
bad telemetry 'armed\ntrue\n' 'bad: line 1: the column now_ms is missing'
bad telemetry 'now_ms\n' 'bad: line 2: there is no row under'
bad telemetry 'now_ms,armed\n1,true\n2\n' 'bad: line 3: 1 cells, and there are 2 columns'
bad telemetry 'now_ms,armed\n1,true\n,true\n' 'bad: line 3: column now_ms: it is empty, and armed is not'
bad telemetry 'now_ms,armed\n1,\n,\n' 'bad: line 3: column now_ms: it is empty'
bad telemetry 'now_ms,armed\n1,yes\n' 'bad: line 2: column armed: true or false is wanted, not "yes"'
bad telemetry 'now_ms\n1.0\n' 'bad: line 2: column now_ms: a whole number from 0 to 4294967295 is wanted, not "1.0"'
bad telemetry 'now_ms\n4294967296\n' 'bad: line 2: column now_ms: a whole number from 0 to 4294967295'
bad telemetry 'now_ms,gps.fix,gps.sats\n1,Fix3D,256\n' 'bad: line 2: column gps.sats: a whole number from 0 to 255'
bad telemetry 'now_ms,gps.sats\n1,14\n' 'bad: line 2: column gps.fix: it is empty, and gps.sats is not'
bad telemetry 'now_ms,gps.fix\n1,Fix4D\n' 'bad: line 2: column gps.fix: "Fix4D" is none of'
bad telemetry 'now_ms,position.pos.north,position.pos.east,position.pos.down\n1,2,,3\n' 'bad: line 2: column position.pos.east: it is empty, and position.pos.north is not'
bad telemetry 'now_ms,battery.percent.t_ms\n1,2\n' 'bad: line 2: column battery.percent: it is empty, and battery.percent.t_ms is not'
bad telemetry 'now_ms,battery.percent\n1,1e39\n' 'bad: line 2: column battery.percent: 1e+39 is beyond'
bad telemetry 'now_ms,battery.percent\n1,1e400\n' 'bad: line 2: column battery.percent: 1e400 is beyond'
bad telemetry 'now_ms,battery.percent\n1,1_0\n' 'bad: line 2: column battery.percent: a number is wanted, not "1_0"'
bad telemetry 'now_ms\n"1\n' 'bad: line 2: unexpected end of data'
# A Decision in the middle with an action that is none; two bad flights of three, each named; a flight twice.
{ head -c 954 samples/decisions.frames && printf '\5' && tail -c +956 samples/decisions.frames; } >"$build/action.frames"
tools/frames.py count "$build/action.frames" samples/decisions.frames "$build/none" samples/../samples/decisions.frames >"$build/out" 2>"$build/err"
[ $? -eq 1 ] && [ ! -s "$build/out" ] || fail "bad flights are counted"
diff "$build/err" - <<END || fail "bad flights are named otherwise"
frames.py: $build/action.frames: byte 950: Decision: byte 0 of the body is 5, above 4 (refusal 4)
frames.py: $build/none: No such file or directory
frames.py: samples/../samples/decisions.frames: it is given twice
frames.py: nothing is counted: 3 of 4 flights can't be read
END
bad pack '{' 'line 1, column 2'
bad pack '[]' 'flight: an object is wanted'
bad pack '{"telemetry": [{}]}' 'telemetry[0].now_ms: a whole number from 0 to 4294967295 is wanted'
bad pack '{"telemetry": [{"now_ms": 4294967296}]}' 'telemetry[0].now_ms: a whole number from 0 to 4294967295 is wanted, not 4294967296'
bad pack '{"telemetry": [{"kind": 9, "now_ms": 18446744073709551616}]}' 'telemetry[0].now_ms: a whole number from 0 to 18446744073709551615 is wanted'
bad pack '{"telemetry": [{"kind": 9, "now_ms": 1, "armed": {"t_ms": -1, "value": true}}]}' 'telemetry[0].armed.t_ms: a whole number from 0 to 18446744073709551615 is wanted, not -1'
bad pack '{"telemetry": [{"kind": 5, "now_ms": 1}]}' 'telemetry[0].kind: 3 or 9 is wanted, not 5'
bad pack '{"telemetry": [{"kind": true, "now_ms": 1}]}' 'telemetry[0].kind: 3 or 9 is wanted, not true'
bad pack '{"areas": [{"number": 1, "corners": [], "from_ms": 4294967296}], "telemetry": [{"now_ms": 1}]}' 'areas[0].from_ms: a whole number from 0 to 4294967295 is wanted'
bad telemetry 'now_ms\n4294967296\n' 'line 2: column now_ms: a whole number from 0 to 4294967295 is wanted'
bad pack '{"telemetry": [{"now_ms": 1, "gps": {"fix": "Fix4D"}}]}' 'telemetry[0].gps.fix: "Fix4D" is none of None, Fix2D, Fix3D'
bad pack '{"telemetry": [{"now_ms": 1, "armed": 1}]}' 'telemetry[0].armed: true or false is wanted'
bad pack '{"telemetry": [{"now_ms": 1, "position": {"pos": [1, 2]}}]}' 'telemetry[0].position.pos: three numbers'
bad pack '{"config": {"v_maxx": 3}}' 'config.v_maxx: there is no such field'
bad pack '{"config": {"v_max": 1e39}}' 'config.v_max: 1e+39 is beyond'
bad pack '{"config": {"v_max": 1e400}}' '1e400 is beyond'
bad pack "{\"config\": {\"v_max\": $(printf '9%.0s' $(seq 400))}}" 'config.v_max: a number of 400 digits is beyond'
bad pack "$(printf '[%.0s' $(seq 100000))" 'nested too deeply'
bad pack '{"config": {"cell_count": 256}}' 'config.cell_count: a whole number from 0 to 255'
bad pack '{"config": {"kind": 5}}' 'config.kind: 1 or 11 is wanted, not 5'
bad pack '{"config": {"kind": "11"}}' 'config.kind: 1 or 11 is wanted, not "11"'
bad pack '{"config": {"kind": true}}' 'config.kind: 1 or 11 is wanted, not true'
bad pack '{"config": {"kind": 11, "v_max": "fast"}}' 'config.v_max: a number is wanted, not "fast"'
bad pack '{"fence": {"corners": [[1, 2], [3]]}}' 'fence.corners[1]: two numbers'
bad pack '{"fence": {"kind": 3}}' 'fence.kind: 2 or 8 is wanted, not 3'
bad pack '{"areas": {}}' 'areas: a list of areas is wanted'
bad pack '{"areas": [{"corners": []}]}' 'areas[0].number: a whole number from 0 to 255 is wanted'
bad pack '{"areas": [{"number": 1}]}' 'areas[0].corners: a list of at most 255 corners is wanted (an area has 3 to 16)'
bad pack '{"areas": [{"number": 1, "corners": [[1]]}]}' 'areas[0].corners[0]: two numbers'
bad pack '{"areas": [{"number": 1, "corners": [], "from_ms": 5, "until_ms": 5}]}' 'areas[0].until_ms: 5 is not after from_ms, 5'
bad pack '{"areas": [{"number": 1, "corners": [], "to_ms": 5}]}' 'areas[0].to_ms: there is no such field'
bad draw '{"fence": {"corners": [[1, 2], [3, 4]]}}' 'a fence of 3 corners or more'
bad draw '{"areas": [{"number": 9, "corners": [[1, 2]]}], "telemetry": [{"now_ms": 0}]}' 'area 9: an area of 3 corners or more'
bad draw '\4\0\377\0\1\0' 'there is no fence'
bad show '\1' 'byte 0: the last frame is cut off (refusal 1)'
bad show '\6\0\4\0' 'byte 0: the last frame has 2 of 6 bytes (refusal 1)'
bad show '\1\0\0' 'byte 0: a length of 1, which is under 2 (refusal 3)'
bad show '\2\0\16\0' 'byte 0: there is no kind 14 (refusal 2)'
bad show '\2\0\11\0' 'byte 0: Telemetry of kind 9: a body of 0 bytes is too short (refusal 3)'
bad show "\150\0\11\0$(printf '\\0%.0s' $(seq 102))" 'byte 0: Telemetry of kind 9: a body of 102 bytes is too short (refusal 3)'
bad show "\224\0\3\0$(printf '\\0%.0s' $(seq 146))" 'byte 0: Telemetry: 44 bytes are left over (refusal 3)'
bad show "\224\0\11\0$(printf '\\0%.0s' $(seq 16))\1$(printf '\\0%.0s' $(seq 129))" 'byte 0: Telemetry of kind 9: the absent value at byte 9 of the body is not zero (refusal 4)'
bad show "\60\1\5\0$(printf '\\0%.0s' $(seq 302))" 'byte 0: State: 120 bytes are left over (refusal 3)'
bad show "\60\1\12\0$(printf '\\0%.0s' $(seq 301))\2" 'byte 0: State of kind 10: the flag at byte 301 of the body is 2 (refusal 4)'
bad show "\300\0\14\0$(printf '\\0%.0s' $(seq 189))\2" 'byte 0: State of kind 12: the flag at byte 189 of the body is 2 (refusal 4)'
bad show "\270\0\14\0$(printf '\\0%.0s' $(seq 182))" 'byte 0: State of kind 12: a body of 182 bytes is too short (refusal 3)'
bad show "\300\0\5\0$(printf '\\0%.0s' $(seq 190))" 'byte 0: State: 8 bytes are left over (refusal 3)'
bad show '\2\0\13\0' 'byte 0: Config of kind 11: a body of 0 bytes is too short (refusal 3)'
bad show '\2\0\7\0' 'byte 0: Area: a body of 0 bytes is too short (refusal 3)'
bad show '\4\0\15\0\0\0' 'byte 0: Areas: 1 bytes are left over (refusal 3)'
bad show '\3\0\15\0\1' 'byte 0: Areas: a body of 1 bytes is too short (refusal 3)'
bad show '\2\0\4\0' 'byte 0: Decision: a body of 0 bytes is too short (refusal 3)'
bad show '\5\0\377\0\1\0\0' 'byte 0: Refusal: 1 bytes are left over (refusal 3)'
tests/tools/bad.py "$build" "$tried" || fail "bad input"
tools/frames.py show "$build/none" >/dev/null 2>"$build/err"
[ $? -eq 1 ] || fail "a file that is not there is no error"
tools/frames.py pack samples/flight.json "$build/none/flight.frames" 2>"$build/err"
[ $? -eq 1 ] && grep -q "none/flight.frames: No such file" "$build/err" || fail "a file that can't be written: it says $(cat "$build/err")"
for words in "" none count "count --csv" "csv --input" "show --input" "draw a --decisions" "draw --decisions a" "show a --input b --input c" "telemetry" "telemetry a --kind" "pack a b c" "pack a --kind" "count --cvs a"; do
    tools/frames.py $words >"$build/out" 2>"$build/err" </dev/null
    [ $? -eq 2 ] && [ ! -s "$build/out" ] && head -n 1 "$build/err" | grep -qxF "frames.py: bad usage: frames.py${words:+ $words}" || fail "bad usage is no error: $words"
done

tools/frames.py pack samples/flicker.json --kind 2 >"$build/out" 2>"$build/err"
[ $? -eq 1 ] && [ ! -s "$build/out" ] && grep -q -- '--kind: 1 or 11 is wanted, not "2"' "$build/err" || fail "kind 2 of a configuration: it says $(cat "$build/err")"
tools/frames.py telemetry samples/log.csv --kind 5 >"$build/out" 2>"$build/err"
[ $? -eq 1 ] && [ ! -s "$build/out" ] && grep -q -- '--kind: 3 or 9 is wanted, not "5"' "$build/err" || fail "kind 5 of a log: it says $(cat "$build/err")"
tools/frames.py merge "$build/two.json" "$build/two.json" >"$build/out" 2>"$build/err"
[ $? -eq 1 ] && [ ! -s "$build/out" ] && grep -q 'byte 291: Telemetry of kind 9, where kind 3 is due (refusal 2)' "$build/err" || fail "two radios of kind 9: it says $(cat "$build/err")"

# The flicker under both kinds.
flicker() { # DECIDE
    "$1" <samples/flicker.frames | tools/frames.py show --input samples/flicker.json | diff - samples/flicker.txt || fail "$1 makes other Decisions of the flicker"
    "$1" <"$build/flicker1.frames" | tools/frames.py show --input samples/flicker.json | diff - samples/flicker_kind_1.txt || fail "$1 makes other Decisions of the flicker under kind 1"
}
crane() { # DECIDE
    "$1" <"$build/crane.frames" | tools/frames.py draw samples/crane.json --decisions - | cmp - samples/crane.svg || fail "the page of the crane by $1 is another"
    "$1" <"$build/crane.frames" | tools/frames.py show --input samples/crane.json | diff - samples/crane.txt || fail "$1 makes other Decisions of the crane"
}
if grep -q '^decide:' crates.txt; then
    tools/make.sh decide >"$build/check.out" 2>&1 || { cat "$build/check.out" && exit 1; }
    target/bin/decide <samples/flight.frames | cmp - samples/decisions.frames || fail "decide makes other Decisions of the sample"
    crane target/bin/decide
    tools/first.sh >"$build/first" || fail "tools/first.sh fails"
    [ "$(grep -cFxf samples/decisions.txt "$build/first")" -eq $((2 * $(wc -l <samples/decisions.txt))) ] || fail "tools/first.sh does not show the sample twice"
    flicker target/bin/decide
    { head -c 291 "$build/absent.frames" && tools/frames.py telemetry samples/log.csv; } >"$build/log.input"
    target/bin/decide <"$build/log.input" | cmp - samples/day/log.frames || fail "decide makes other Decisions of the log"
    [ "$(target/bin/decide <"$build/star.frames" | tools/frames.py show)" = "Refusal 33: NotOnceRound" ] || fail "decide takes a star as kind 8"
fi
# What the Rust makes of the sample. Where it is not here that is left out; an error of its build is one of this test.
rust=$(oracle/run.sh --path decide 2>"$build/said") && streams=$(oracle/run.sh --path streams 2>"$build/said") &&
    raised=$(oracle/run.sh --path decide_raised 2>"$build/said")
status=$?
if [ "$status" -eq 0 ]; then
    "$rust" <samples/flight.frames | cmp - samples/decisions.frames || fail "the Rust makes other Decisions of the sample"
    crane "$rust"
    flicker "$raised"
    "$streams" --write "$build/defaults.frames" 0 >/dev/null
    head -c -106 "$build/absent.frames" | cmp - "$build/defaults.frames" || fail "the defaults packed are not the Rust's"
elif [ "$status" -eq 77 ]; then
    echo "left out: the Rust's Decisions of the sample, and its defaults ($(cat "$build/said"))"
else
    cat "$build/said"
    fail "the Rust can't be built"
fi
[ "$failed" -eq 0 ] && echo "the samples' $(cat samples/decisions.txt samples/crane.txt samples/flicker.txt samples/flicker_kind_1.txt | wc -l) Decisions, a day of 4 flights and $tried bad inputs"
exit "$failed"
