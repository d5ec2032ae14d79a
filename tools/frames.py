#!/usr/bin/env python3
"""Frames of the flight supervisor, as bytes and as text.

  frames.py pack FLIGHT.json [FILE] [--kind KIND]
                                        packs a flight's configuration, fence, areas and telemetry into frames,
                                        as `decide` reads them (FILE: where to; default: standard output;
                                        --kind: 1 or 11, the configuration's kind, whatever the flight says)
  frames.py show [FILE] [--input FILE]  shows frames as text, a line for each (FILE: default standard input;
                                        --input: the frames or the flight that were stepped: the n-th Decision
                                        is then shown with the time of the n-th telemetry, and the side of a
                                        Decision of kind 6 with its two corners; status 1 where there are not as
                                        many Decisions as telemetries, or a refusal is among them;
                                        without --input a refusal is a line as any other)
  frames.py count [--csv] FLIGHT ..     counts the landings of recorded flights by reason, as a table (--csv: as CSV); see below
  frames.py csv [FILE] [--input FILE]   writes Decisions as CSV, a row for each with every field (FILE, --input: as for show;
                                        --input puts in the telemetry's time, now_ms). Any other frame is an error, and a
                                        refusal ends with status 1 after the rows before it
  frames.py telemetry LOG.csv [FILE] [--kind KIND]
                                        packs the rows of a log into telemetry frames; the columns are below (--kind: 3 or
                                        9, the frames' kind; left out: 3)
  frames.py draw INPUT [FILE]           draws the fence of a flight or of frames (INPUT: - for standard input) as SVG,
                                        north up, with the number of each side, in the order in which the fence is held,
                                        and every area that is held at some time, with its number
  frames.py draw INPUT [FILE] --decisions FILE
                                        draws the whole flight on a page: the actions over time, the requests by reason, distance
                                        and energy margin, and the way flown over fence and areas (FILE behind --decisions: what
                                        `decide` answered, - for standard input; status 1 as for show --input)
  frames.py points POINTS.txt [FILE]    packs points, a line of north and east each, into 8 bytes each, for failsafe_inside
  frames.py map INPUT POINTS.txt ANSWERS [FILE]
                                        draws the fence with the points, those inside filled (ANSWERS: what
                                        failsafe_inside wrote; examples/map.c calls it)
  frames.py energy NUMBERS.json         works out the energy of a return in whole numbers, a line for each step, so
  frames.py energy NAME=NUMBER ..       that it can be checked on paper (docs/ENERGY.md). All thirteen are wanted:
     position_north_mm, position_east_mm, home_north_mm, home_east_mm   from -10000000 to 10000000
     position_altitude_mm   from -100000 to 2000000        return_altitude_mm   from 0 to 2000000
     power_climb_mw, power_cruise_mw, power_descent_mw   from 0 to 10000000
     wind_thousandths   from 0 to 10000
     speed_climb_mm_s, speed_cruise_mm_s, speed_descent_mm_s   from 1 to 100000
  frames.py merge FIRST SECOND [FILE]   merges the telemetry of two radios, the n-th of each into one, under the
                                        first's configuration, fence and areas, as `failsafe_merge` does (FIRST, SECOND:
                                        flights or their frames; FILE: where to; default: standard output)

A flight is an object with these members, each of which may be left out:
  "config"     fields of Config that differ from the defaults, as {"recovery_hold_ms": 6000}; and "kind", 1 or 11 (left out: 1).
               Under kind 11 eight requests, once raised, stay until their clear timer has held, and RcLost waits for rc_lost_set_ms
  "fence"      {"kind": 2, "min_alt_m": 5, "max_alt_m": 120, "corners": [[north, east], ...]}; left out: the default
               fence. Kind 8 asks one rule more: going round the sides, the north steps change their sign twice
  "areas"      a list of keep-out areas: {"number": 1, "corners": [[north, east], ...], "from_ms": 5000, "until_ms": 60000};
               held at each reading of the clock from "from_ms" (left out: 0) to below "until_ms" (left out: always).
               Where those held change, a frame of kind 13 with all of them stands before the telemetry
  "telemetry"  a list of readings; each has "now_ms", and what is left out of it is absent. "kind" is 3 or 9 (left out: 3): under kind
               9 "now_ms" and the stamps have 64 bits, up to 18446744073709551615 (`decide` takes kind 3 alone):
     "position"          {"pos": [n, e, d], "vel": [n, e, d]}
     "gps"               {"fix": "None" | "Fix2D" | "Fix3D", "sats": 14, "hdop": 0.9}
     "battery"           {"voltage_v": 16.1, "percent": 80, "remaining_wh": 32}
     "gcs_heartbeat_ms"  the heartbeat's stamp
     "armed", "rc_ok", "ekf_ok"   true or false
     "landed"            "Undefined", "OnGround", "InAir", "Takeoff" or "Landing"
  A stamp is "now_ms" unless "t_ms" says otherwise, within "position" and "gps"; elsewhere a value with a stamp of
  its own is {"t_ms": 900, "value": true}. NaN, Infinity and -Infinity are numbers here. A member without a value is left
  out: null is bad input, and so is a member that is given twice.

Counting landings. A FLIGHT is a file of Decision frames (kind 4 or 6), one file a flight, as `decide` or a host records them.
  A landing is an entry into Land: a step shows Land, and the step before it did not, or there was none.
  It counts under its first reason, that of the step that enters. Where its last reason is another, a row below tells it; one
  that only stood in between is not told.
  A landing stands in one column alone. Before the first position: Land is entered before any Decision of the flight has
  position_valid, as a first step does with nothing read yet. This comes first; else in refused flights: the file ends with a
  refusal (kind 255); else in cut-off flights: the file ends within a frame; else it is a landing of a whole flight.
  The steps are parted alike, and the flights by their end. Each flight that is refused, cut off or without a position is listed.
  A reason without a landing has no row. In the CSV "row" tells what a row is: rows "reason" add up to "in all", and a row
  "last" is a part of its reason's.
  Of a Decision only its head, action, reason and position_valid are read. A file that is empty, given twice or no recorded
  flight is bad input, and then nothing is counted; a refused or cut-off flight is none, and the status stays 0.

The CSV of Decisions has a column for each field of include/failsafe.h, and one for each slot of active: the slot's action,
  empty where there is no request (and "Reason:Action" should the slot hold another reason than its own, which no step writes).
  What is absent is empty, as is side in kind 4; flags are true or false; a float has the digits that give it back.

A log has a line of column names, then a row for each telemetry. now_ms is wanted; the rest may be left out or empty, and is then absent:
  now_ms  position.t_ms  position.pos.north .east .down  position.vel.north .east .down  gps.t_ms  gps.fix  gps.sats  gps.hdop
  battery.voltage_v  battery.percent  battery.remaining_wh  gcs_heartbeat_ms  armed  landed  rc_ok  ekf_ok
  and, for each of these but gcs_heartbeat_ms, its stamp, as armed.t_ms. Values are as in a flight's JSON; 1 and 0 are flags too.
  A stamp is now_ms where it is empty, and a velocity 0 where all three are; other columns are refused.

Text is UTF-8 without a byte order mark, and no input may be empty. Exit status 1: bad input, with what is wrong and where, or an
output that is closed or full. 2: bad usage. --help shows this text.
"""
import codecs
import csv
import errno
import io
import json
import math
import os
import struct
import sys

CONFIG, FENCE, TELEMETRY, DECISION, STATE, DECISION_SIDE, AREA, FENCE_ONCE_ROUND, AREAS, REFUSAL = 1, 2, 3, 4, 5, 6, 7, 8, 13, 255
TELEMETRY_WIDE, STATE_WIDE, CONFIG_RAISED, STATE_RAISED = 9, 10, 11, 12
CONFIGS = (CONFIG, CONFIG_RAISED)
FENCES = (FENCE, FENCE_ONCE_ROUND)
TELEMETRIES = (TELEMETRY, TELEMETRY_WIDE)
WIDE = (TELEMETRY_WIDE, STATE_WIDE)
DECISIONS = (DECISION, DECISION_SIDE)
AREA_SIDE, NO_SIDE = 254, 255
KINDS = {CONFIG: "Config", FENCE: "Fence", FENCE_ONCE_ROUND: "Fence of kind 8", TELEMETRY: "Telemetry", DECISION: "Decision", STATE: "State",
         DECISION_SIDE: "Decision with its side", AREA: "Area", AREAS: "Areas", REFUSAL: "Refusal",
         TELEMETRY_WIDE: "Telemetry of kind 9", STATE_WIDE: "State of kind 10", CONFIG_RAISED: "Config of kind 11", STATE_RAISED: "State of kind 12"}
ACTIONS = ["Nominal", "Warn", "Hold", "ReturnToLaunch", "Land"]
REASONS = ["None", "ClockFault", "InvalidInput", "StaleBattery", "GcsLinkLost", "RcLost", "GpsDegraded", "GpsLost",
           "EkfUnhealthy", "PositionInvalid", "FenceApproach", "FenceBreach", "AltitudeMax", "AltitudeMin", "BatteryWarn",
           "BatteryLow", "BatteryCritical", "EnergyRtlMarginal", "EnergyRtlInfeasible"]
# The requests that stay raised under kind 11, in the order of kind 12's last bytes.
RAISED = ["GpsDegraded", "GpsLost", "EkfUnhealthy", "FenceBreach", "AltitudeMin", "BatteryWarn", "BatteryLow", "EnergyRtlMarginal"]
FIXES = ["None", "Fix2D", "Fix3D"]
LANDED = ["Undefined", "OnGround", "InAir", "Takeoff", "Landing"]
REFUSALS = {
    1: "the frame is cut off", 2: "not the kind that is due", 3: "a wrong length", 4: "a value out of range",
    5: "too little room", 10: "TooFewVertices", 11: "TooManyVertices", 12: "NonFinite", 13: "OutOfEnvelope",
    14: "DuplicateVertex", 15: "CollinearEdge", 16: "NotConvex", 17: "AreaTooSmall", 18: "BadAltitudes",
    20: "HomeOutsideFence", 21: "RtlAltOutsideFence", 22: "NonFiniteParam", 23: "NonPositiveSpeed", 24: "NegativePower",
    25: "BadCellCount", 26: "BadCapacity", 27: "BadThresholdOrder", 28: "DurationOutOfRange",
    30: "a ninth area", 31: "the area's number is 0, held already, out of order or not held", 32: "home is inside the area",
    33: "NotOnceRound", 34: "there is no last reading, or the 64-bit one has another lower half",
    35: "a held instant has no age at the last reading, or one above it", 38: "the two radios' clock readings differ", 39: "the fence in its one form would be declined",
}
# Config in declared order: its name, its type (u8, f32, flag or u32), its default.
CONFIG_FIELDS = [
    ("cell_count", "u8", 4), ("usable_capacity_wh", "f32", 40.0), ("rc_required", "flag", True), ("pos_fresh_ms", "u32", 500),
    ("gps_fresh_ms", "u32", 1000), ("status_fresh_ms", "u32", 1000), ("battery_fresh_ms", "u32", 2000),
    ("recovery_hold_ms", "u32", 5000), ("gcs_warn_ms", "u32", 3000), ("gcs_hold_ms", "u32", 5000), ("gcs_rtl_ms", "u32", 15000),
    ("gcs_clear_ms", "u32", 1500), ("gcs_clear_hold_ms", "u32", 3000), ("rc_lost_set_ms", "u32", 1000),
    ("rc_lost_clear_ms", "u32", 3000), ("gps_degraded_set_ms", "u32", 2000), ("gps_degraded_clear_ms", "u32", 5000),
    ("gps_lost_set_ms", "u32", 1500), ("gps_lost_clear_ms", "u32", 5000), ("ekf_unhealthy_set_ms", "u32", 1000),
    ("ekf_unhealthy_clear_ms", "u32", 5000), ("fence_approach_m", "f32", 10.0), ("fence_approach_clear_m", "f32", 15.0),
    ("fence_breach_set_ms", "u32", 500), ("fence_breach_clear_m", "f32", 5.0), ("fence_breach_clear_ms", "u32", 5000),
    ("alt_max_clear_m", "f32", 5.0), ("alt_max_set_ms", "u32", 500), ("alt_max_clear_hold_ms", "u32", 3000),
    ("alt_min_home_radius_m", "f32", 20.0), ("alt_min_set_ms", "u32", 1000), ("alt_min_clear_m", "f32", 2.0),
    ("alt_min_clear_ms", "u32", 1000), ("stale_battery_clear_ms", "u32", 3000), ("battery_warn_pct", "f32", 30.0),
    ("battery_warn_clear_pct", "f32", 33.0), ("battery_warn_set_ms", "u32", 2000), ("battery_warn_clear_ms", "u32", 5000),
    ("battery_low_pct", "f32", 20.0), ("battery_low_clear_pct", "f32", 23.0), ("battery_low_set_ms", "u32", 2000),
    ("battery_low_clear_ms", "u32", 5000), ("battery_critical_pct", "f32", 10.0), ("battery_critical_v_per_cell", "f32", 3.3),
    ("battery_critical_set_ms", "u32", 3000), ("energy_marginal_wh", "f32", 5.0), ("energy_marginal_clear_wh", "f32", 7.0),
    ("energy_marginal_set_ms", "u32", 2000), ("energy_marginal_clear_ms", "u32", 5000), ("energy_infeasible_set_ms", "u32", 2000),
    ("invalid_input_clear_ms", "u32", 3000), ("disarm_hold_ms", "u32", 2000), ("v_cruise", "f32", 10.0), ("p_cruise", "f32", 350.0),
    ("k_wind", "f32", 1.25), ("v_climb", "f32", 2.0), ("p_climb", "f32", 400.0), ("v_desc", "f32", 1.5), ("p_desc", "f32", 300.0),
    ("h_rtl", "f32", 30.0), ("reserve_wh", "f32", 8.0), ("v_max", "f32", 25.0),
]
# A Decision in declared order: its name, its type. A "?" may be absent.
DECISION_FIELDS = [
    ("action", "action"), ("reason", "reason"), ("requested", "action"), ("active", "slots"), ("position_valid", "flag"),
    ("clock_fault", "flag"), ("energy.rtl_wh", "f32"), ("energy.land_wh", "f32"), ("energy.reserve_wh", "f32"),
    ("energy.remaining_wh", "f32?"), ("energy.margin_wh", "f32?"), ("energy.insufficient_for_landing", "flag"),
    ("fence_dist_m", "f32?"), ("side", "side"), ("disarm_eligible", "flag"),
]
DEFAULT_CORNERS = [[-500, -500], [-500, 500], [500, 500], [500, -500]]
TIMERS_FIRST = ["gcs_clear_timer", "rc_clear_timer", "gps_deg_set", "gps_deg_clear", "gps_lost_set", "gps_lost_clear",
                "ekf_set", "ekf_clear", "fence_breach_set", "fence_breach_clear", "alt_max_set", "alt_max_clear",
                "alt_min_set", "alt_min_clear", "stale_bat_clear", "bat_warn_set", "bat_warn_clear", "bat_low_set",
                "bat_low_clear", "bat_crit_set", "energy_marg_set", "energy_marg_clear", "energy_infeas_set", "invalid_clear"]


class Bad(Exception):
    """Bad input: what is wrong, and where."""


def with_place(where, work):
    """What work answers; where it is bad input, with its place: a file, a byte, a line."""
    try:
        return work()
    except Bad as bad:
        raise Bad(f"{where}: {bad}") from None


def named(path):
    return "standard input" if path == "-" else path


# ---- packing


def members(value, where, known):
    """The members of an object, none but the known ones."""
    if not isinstance(value, dict):
        raise Bad(f"{where}: an object is wanted, not {json.dumps(value)}")
    for name in value:
        if name not in known:
            raise Bad(f"{where}.{name}: there is no such field; there are {', '.join(known)}")
    return value


def u32(value, where, most=0xFFFFFFFF):
    if isinstance(value, bool) or not isinstance(value, int) or not 0 <= value <= most:
        raise Bad(f"{where}: a whole number from 0 to {most} is wanted, not {json.dumps(value)}")
    return value


def pack_u8(value, where):
    return bytes([u32(value, where, 255)])


def pack_u32(value, where):
    return struct.pack("<I", u32(value, where))


def pack_u64(value, where):
    return struct.pack("<Q", u32(value, where, 0xFFFFFFFFFFFFFFFF))


def pack_instant(kind):
    """How an instant of a frame of this kind is packed."""
    return pack_u64 if kind in WIDE else pack_u32


def pack_f32(value, where):
    if isinstance(value, bool) or not isinstance(value, (int, float)):
        raise Bad(f"{where}: a number is wanted, not {json.dumps(value)}")
    if value != value:
        return struct.pack("<I", 0x7FC00000)
    try:
        return struct.pack("<f", float(value))
    except OverflowError:
        shown = value if isinstance(value, float) else f"a number of {len(str(value))} digits"
        raise Bad(f"{where}: {shown} is beyond the largest 32-bit float") from None


def pack_flag(value, where):
    if not isinstance(value, bool):
        raise Bad(f"{where}: true or false is wanted, not {json.dumps(value)}")
    return bytes([value])


def pack_name(names):
    def pack(value, where):
        if value not in names:
            raise Bad(f"{where}: {json.dumps(value)} is none of {', '.join(names)}")
        return bytes([names.index(value)])

    return pack


def option(value, width, pack, where):
    """A byte 0 or 1 and then the value; all zero where it is absent."""
    return bytes(1 + width) if value is None else b"\x01" + pack(value, where)


def pack_vec3(value, where):
    if not isinstance(value, list) or len(value) != 3:
        raise Bad(f"{where}: three numbers [north, east, down] are wanted, not {json.dumps(value)}")
    return b"".join(pack_f32(x, f"{where}[{k}]") for k, x in enumerate(value))


def stamped(pack, now, instant):
    """A value alone has the stamp `now`."""

    def whole(value, where):
        if isinstance(value, dict):
            value = members(value, where, ["t_ms", "value"])
            if "value" not in value:
                raise Bad(f"{where}.value: it is missing")
            return instant(value.get("t_ms", now), f"{where}.t_ms") + pack(value["value"], f"{where}.value")
        return instant(now, where) + pack(value, where)

    return whole


def position(now, instant):
    def pack(value, where):
        value = members(value, where, ["t_ms", "pos", "vel"])
        return (instant(value.get("t_ms", now), f"{where}.t_ms")
                + pack_vec3(value.get("pos"), f"{where}.pos")
                + pack_vec3(value.get("vel", [0, 0, 0]), f"{where}.vel"))

    return pack


def gps(now, instant):
    def pack(value, where):
        value = members(value, where, ["t_ms", "fix", "sats", "hdop"])
        return (instant(value.get("t_ms", now), f"{where}.t_ms")
                + pack_name(FIXES)(value.get("fix"), f"{where}.fix")
                + option(value.get("sats"), 1, pack_u8, f"{where}.sats")
                + option(value.get("hdop"), 4, pack_f32, f"{where}.hdop"))

    return pack


def telemetry_frame(value, where):
    """A reading as a frame of the kind that it says."""
    known = ["kind", "now_ms", "position", "gps", "battery", "gcs_heartbeat_ms", "armed", "landed", "rc_ok", "ekf_ok"]
    value = members(value, where, known)
    kind = value.get("kind", TELEMETRY)
    if isinstance(kind, bool) or kind not in TELEMETRIES:
        raise Bad(f"{where}.kind: 3 or 9 is wanted, not {json.dumps(kind)}")
    return frame(kind, telemetry_body(value, where, pack_instant(kind)))


def telemetry_body(value, where, instant):
    now = value.get("now_ms")
    body = instant(now, f"{where}.now_ms")
    wide, cells = len(body), ["voltage_v", "percent", "remaining_wh"]
    battery = members(value.get("battery", {}), f"{where}.battery", cells)
    body += option(value.get("position"), wide + 24, position(now, instant), f"{where}.position")
    body += option(value.get("gps"), wide + 8, gps(now, instant), f"{where}.gps")
    for name in cells:
        body += option(battery.get(name), wide + 4, stamped(pack_f32, now, instant), f"{where}.battery.{name}")
    body += option(value.get("gcs_heartbeat_ms"), wide, instant, f"{where}.gcs_heartbeat_ms")
    for name, pack in (("armed", pack_flag), ("landed", pack_name(LANDED)), ("rc_ok", pack_flag), ("ekf_ok", pack_flag)):
        body += option(value.get(name), wide + 1, stamped(pack, now, instant), f"{where}.{name}")
    return body


def config_frame(value, kind):
    """A configuration of this kind; where that is None, of the kind that it says."""
    value = members(value, "config", ["kind"] + [name for name, _, _ in CONFIG_FIELDS])
    said = value.get("kind", CONFIG)
    if isinstance(said, bool) or said not in CONFIGS:
        raise Bad(f"config.kind: 1 or 11 is wanted, not {json.dumps(said)}")
    return frame(said if kind is None else kind, config_body(value))


def config_body(value):
    pack = {"u8": pack_u8, "u32": pack_u32, "f32": pack_f32, "flag": pack_flag}
    return b"".join(pack[kind](value.get(name, default), f"config.{name}") for name, kind, default in CONFIG_FIELDS)


def fence_frame(value):
    value = members(value, "fence", ["kind", "min_alt_m", "max_alt_m", "corners"])
    kind = value.get("kind", FENCE)
    if isinstance(kind, bool) or kind not in FENCES:
        raise Bad(f"fence.kind: 2 or 8 is wanted, not {json.dumps(kind)}")
    return frame(kind, fence_body(value))


def fence_body(value):
    count, corners = pack_corners(value.get("corners", DEFAULT_CORNERS), "fence.corners", "a fence")
    return count + pack_f32(value.get("min_alt_m", 5), "fence.min_alt_m") + pack_f32(value.get("max_alt_m", 120), "fence.max_alt_m") + corners


def pack_corners(corners, where, whose):
    """The count's byte, and the corners' bytes."""
    if not isinstance(corners, list) or len(corners) > 255:
        raise Bad(f"{where}: a list of at most 255 corners is wanted ({whose} has 3 to 16)")
    packed = b""
    for k, corner in enumerate(corners):
        if not isinstance(corner, list) or len(corner) != 2:
            raise Bad(f"{where}[{k}]: two numbers [north, east] are wanted, not {json.dumps(corner)}")
        packed += pack_f32(corner[0], f"{where}[{k}][0]") + pack_f32(corner[1], f"{where}[{k}][1]")
    return bytes([len(corners)]), packed


def area_of(value, where, most):
    """An area: from when and until when it is held, and its body. No reading is above `most`."""
    value = members(value, where, ["number", "corners", "from_ms", "until_ms"])
    since = u32(value.get("from_ms", 0), f"{where}.from_ms", most)
    until = u32(value["until_ms"], f"{where}.until_ms", most) if "until_ms" in value else most + 1
    if until <= since:
        raise Bad(f"{where}.until_ms: {until} is not after from_ms, {since}")
    return since, until, pack_u8(value.get("number"), f"{where}.number") + b"".join(pack_corners(value.get("corners"), f"{where}.corners", "an area"))


def areas_frame(bodies):
    """Kind 13, in order of number."""
    if len(bodies) > 255:
        raise Bad("areas: more than 255 are held at a time (8 are accepted)")
    body = bytes([len(bodies)]) + b"".join(sorted(bodies, key=lambda body: body[0]))
    if len(body) > 0xFFFF - 2:
        raise Bad("areas: those held at a time have too many corners for a frame")
    return frame(AREAS, body)


def frame(kind, body):
    return struct.pack("<HH", 2 + len(body), kind) + body


def list_of(flight, name, what):
    values = flight.get(name, [])
    if not isinstance(values, list):
        raise Bad(f"{name}: a list of {what} is wanted")
    return values


def pack_flight(flight, kind=None):
    flight = members(flight, "flight", ["config", "fence", "areas", "telemetry"])
    frames = [config_frame(flight.get("config", {}), kind), fence_frame(flight.get("fence", {}))]
    packed = [telemetry_frame(value, f"telemetry[{k}]") for k, value in enumerate(list_of(flight, "telemetry", "readings"))]
    most = 0xFFFFFFFFFFFFFFFF if any(telemetry[2] in WIDE for telemetry in packed) else 0xFFFFFFFF
    areas = [area_of(value, f"areas[{k}]", most) for k, value in enumerate(list_of(flight, "areas", "areas"))]
    before = []
    for telemetry, value in zip(packed, flight.get("telemetry", [])):
        now = value["now_ms"]
        held_now = [area for since, until, area in areas if since <= now < until]
        if held_now != before:
            frames.append(areas_frame(held_now))
            before = held_now
        frames.append(telemetry)
    return b"".join(frames)


# ---- showing


class Body:
    """Reads the fields of a body one after the other."""

    def __init__(self, kind, bytes_):
        self.kind, self.bytes, self.at = kind, bytes_, 0

    def take(self, n):
        if self.at + n > len(self.bytes):
            raise Bad(f"{KINDS[self.kind]}: a body of {len(self.bytes)} bytes is too short (refusal 3)")
        self.at += n
        return self.bytes[self.at - n:self.at]

    def u8(self):
        return self.take(1)[0]

    def u32(self):
        return struct.unpack("<I", self.take(4))[0]

    def instant(self):
        return struct.unpack("<Q", self.take(8))[0] if self.kind in WIDE else self.u32()

    def instant_bytes(self):
        return 8 if self.kind in WIDE else 4

    def f32(self):
        return struct.unpack("<f", self.take(4))[0]

    def flag(self):
        at, byte = self.at, self.u8()
        if byte > 1:
            raise Bad(f"{KINDS[self.kind]}: the flag at byte {at} of the body is {byte} (refusal 4)")
        return byte == 1

    def name(self, names):
        at, byte = self.at, self.u8()
        if byte >= len(names):
            raise Bad(f"{KINDS[self.kind]}: byte {at} of the body is {byte}, above {len(names) - 1} (refusal 4)")
        return names[byte]

    def option(self, width, read):
        if self.flag():
            return read()
        at = self.at
        if any(self.take(width)):
            raise Bad(f"{KINDS[self.kind]}: the absent value at byte {at} of the body is not zero (refusal 4)")
        return None

    def vec3(self):
        return [self.f32(), self.f32(), self.f32()]

    def end(self):
        if self.at < len(self.bytes):
            raise Bad(f"{KINDS[self.kind]}: {len(self.bytes) - self.at} bytes are left over (refusal 3)")


def number(x, unit=""):
    """A float, short; '-' where it is absent."""
    return "-" if x is None else f"{x:.6g}{unit}"


def numbers(values):
    return "(" + ", ".join(number(x) for x in values) + ")"


def show_config(body):
    read = {"u8": body.u8, "u32": body.u32, "f32": body.f32, "flag": body.flag}
    changed = []
    for name, kind, default in CONFIG_FIELDS:
        value = read[kind]()
        if kind == "f32":
            default = struct.unpack("<f", struct.pack("<f", default))[0]
        if value != default:
            changed.append(f"{name} {number(value) if kind == 'f32' else value}")
    return f"{KINDS[body.kind]}: the defaults" + (", but for " + ", ".join(changed) if changed else "")


def read_fence(body):
    """A fence's lowest and highest altitude, and its corners."""
    count, low, high = body.u8(), body.f32(), body.f32()
    return low, high, [(body.f32(), body.f32()) for _ in range(count)]


def show_fence(body):
    low, high, corners = read_fence(body)
    return f"{KINDS[body.kind]}: {number(low)} to {number(high)} m, {len(corners)} corners {' '.join(map(numbers, corners))}".rstrip()


def read_area(body):
    """An area's number and corners."""
    area, count = body.u8(), body.u8()
    return area, [(body.f32(), body.f32()) for _ in range(count)]


def read_areas(body):
    """The areas of a frame of kind 7 or 13."""
    return [read_area(body) for _ in range(body.u8() if body.kind == AREAS else 1)]


def show_areas(body):
    told = [f"{area}: {len(corners)} corners {' '.join(map(numbers, corners))}".rstrip() for area, corners in read_areas(body)]
    return f"{KINDS[body.kind]}{' ' if body.kind == AREA else ': '}{'; '.join(told) or 'none'}"


def show_telemetry(body):
    now, wide = body.instant(), body.instant_bytes()
    told = [f"{KINDS[body.kind]}: now {now}"]

    def stamped_by(read):
        return lambda: (body.instant(), read())

    def tell(name, reading, text):
        if reading is not None:
            age = now - reading[0] if body.kind in WIDE else (now - reading[0]) & 0xFFFFFFFF
            told.append(f"{name} {text(reading)}" + (f" ({age} ms old)" if age > 0 else f" ({-age} ms ahead)" if age else ""))

    def read_gps():
        return body.instant(), body.name(FIXES), body.option(1, body.u8), body.option(4, body.f32)

    tell("position", body.option(wide + 24, lambda: (body.instant(), body.vec3(), body.vec3())),
         lambda r: f"{numbers(r[1])} velocity {numbers(r[2])}")
    tell("gps", body.option(wide + 8, read_gps), lambda r: f"{r[1]} sats {'-' if r[2] is None else r[2]} hdop {number(r[3])}")
    for name in ["voltage_v", "percent", "remaining_wh"]:
        tell(name, body.option(wide + 4, stamped_by(body.f32)), lambda r: number(r[1]))
    heartbeat = body.option(wide, body.instant)
    tell("heartbeat", None if heartbeat is None else (heartbeat, ""), lambda r: "seen")
    yes = {True: "yes", False: "no"}
    tell("armed", body.option(wide + 1, stamped_by(body.flag)), lambda r: yes[r[1]])
    tell("landed", body.option(wide + 1, stamped_by(lambda: body.name(LANDED))), lambda r: r[1])
    tell("rc_ok", body.option(wide + 1, stamped_by(body.flag)), lambda r: yes[r[1]])
    tell("ekf_ok", body.option(wide + 1, stamped_by(body.flag)), lambda r: yes[r[1]])
    return ", ".join(told)


def show_side(side, corners):
    """The side that gave the distance: its number, and its corners where the fence is known; or that an area did."""
    if side == NO_SIDE:
        return "no side"
    if side == AREA_SIDE:
        return "an area"
    if side < len(corners):
        return f"side {side} from {numbers(corners[side])} to {numbers(corners[(side + 1) % len(corners)])}"
    return f"side {side}"


def read_slot(body):
    """A slot of active: a reason and an action, or None."""
    return body.option(2, lambda: (body.name(REASONS), body.name(ACTIONS)))


def read_decision(body):
    """A Decision's fields by name. Its side is None in kind 4."""
    read = {"action": lambda: body.name(ACTIONS), "reason": lambda: body.name(REASONS), "flag": body.flag, "f32": body.f32,
            "f32?": lambda: body.option(4, body.f32), "slots": lambda: [read_slot(body) for _ in REASONS],
            "side": lambda: body.u8() if body.kind == DECISION_SIDE else None}
    decision = {name: read[kind]() for name, kind in DECISION_FIELDS}
    body.end()
    return decision


def show_decision(decision, time, corners):
    line = f"{time} {decision['action']:14} {decision['reason']:19} requested {decision['requested']:14} "
    line += f"position {'valid' if decision['position_valid'] else 'none':5} "
    line += f"distance {number(decision['fence_dist_m'], ' m'):>11} margin {number(decision['energy.margin_wh'], ' Wh'):>12}"
    notes = [] if decision["side"] is None else [show_side(decision["side"], corners)]
    notes += ["clock fault"] * decision["clock_fault"] + ["too little to land"] * decision["energy.insufficient_for_landing"]
    notes += ["may disarm"] * decision["disarm_eligible"]
    requests = [":".join(slot) for slot in decision["active"] if slot is not None]
    if requests:
        notes.append("requests " + " ".join(requests))
    return (line + ("  " + ", ".join(notes) if notes else "")).rstrip()


def show_state(body):
    told = []
    told += ["battery latch"] * body.flag() + ["energy latch"] * body.flag()

    def timer(name):
        since = body.option(body.instant_bytes(), body.instant)
        if since is not None:
            told.append(f"{name} since {since}")

    for name in TIMERS_FIRST:
        timer(name)
    told += ["invalid input"] * body.flag()
    timer("rc_lost_set")
    told.append(f"link stage {body.u8()}")
    told.append(f"shown {body.name(ACTIONS)} for {body.name(REASONS)}")
    timer("recovery")
    timer("disarm hold")
    stored = body.option(body.instant_bytes() + 24, lambda: (body.instant(), body.vec3(), body.vec3()))
    told.append("no stored position" if stored is None else f"stored position {numbers(stored[1])} at {stored[0]}")
    told.append(f"refused samples {body.u8()}")
    timer("last_now")
    told.append(f"epoch_start {body.instant()}")
    told.append(f"faults in a row {body.u8()}")
    told.append("begun" if body.flag() else "fresh")
    if body.kind == STATE_RAISED:
        told.append("raised " + (" ".join([name for name in RAISED if body.flag()]) or "none"))
    return f"{KINDS[body.kind]}: " + ", ".join(told)


def split(stream, at=0):
    """The frames of a stream, from this place on: place, kind, body."""
    while at < len(stream):
        if at + 2 > len(stream):
            raise Bad(f"byte {at}: the last frame is cut off (refusal 1)")
        length = struct.unpack_from("<H", stream, at)[0]
        if at + 2 + length > len(stream):
            raise Bad(f"byte {at}: the last frame has {len(stream) - at - 2} of {length} bytes (refusal 1)")
        if length < 2:
            raise Bad(f"byte {at}: a length of {length}, which is under 2 (refusal 3)")
        kind = struct.unpack_from("<H", stream, at + 2)[0]
        if kind not in KINDS:
            raise Bad(f"byte {at}: there is no kind {kind} (refusal 2)")
        yield at, kind, stream[at + 4:at + 2 + length]
        at += 2 + length


def read_refusal(body):
    refusal = struct.unpack("<H", body.take(2))[0]
    return f"Refusal {refusal}: {REFUSALS.get(refusal, 'no number of document 01')}"


def show_frame(body):
    """A frame that is no Decision, as a line."""
    shows = {CONFIG: show_config, FENCE: show_fence, FENCE_ONCE_ROUND: show_fence, TELEMETRY: show_telemetry, STATE: show_state,
             AREA: show_areas, AREAS: show_areas, REFUSAL: read_refusal, CONFIG_RAISED: show_config, STATE_RAISED: show_state,
             TELEMETRY_WIDE: show_telemetry, STATE_WIDE: show_state}
    line = shows[body.kind](body)
    body.end()
    return line


def show(stream, times, corners):
    """A line for each frame. A Decision's time is that of its telemetry, its side one of the held corners' sides.
    Answers how many Decisions there are, and the refusals among them with their places."""
    steps, refusals = 0, []
    for at, kind, bytes_ in split(stream):
        body = Body(kind, bytes_)
        if kind in DECISIONS:
            time = f"{times[steps]:>10} ms" if steps < len(times) and times[steps] is not None else f"step {steps:>5}   "
            steps += 1
            line = show_decision(with_place(f"byte {at}", lambda: read_decision(body)), time, corners)
        else:
            line = with_place(f"byte {at}", lambda: show_frame(body))
        if kind == REFUSAL:
            refusals.append(f"byte {at}: {line}")
        say(line)
    return steps, refusals


def compare(steps, refusals, times, stepped):
    """Bad input where Decisions are missing, or too many, or a refusal is among them. `stepped` is the file of the telemetry."""
    told = list(refusals)
    if steps != len(times):
        told.append(f"{steps} Decisions, and {named(stepped)} has {len(times)} telemetries")
    if told:
        raise Bad("; ".join(told))


# ---- Decisions as CSV


def exact(x):
    """A 32-bit float in the fewest digits, from 6, that give it back; NaN and Infinity as in JSON."""
    if not math.isfinite(x):
        return json.dumps(x)
    return next(text for text in (f"{x:.{digits}g}" for digits in (6, 7, 8, 9)) if rounded(float(text)) == x)


def cell(value):
    """A value of a Decision as a cell: empty where it is absent."""
    if value is None:
        return ""
    if isinstance(value, bool):
        return "true" if value else "false"
    return exact(value) if isinstance(value, float) else str(value)


def slot_cell(slot, own):
    """A slot's action; with its reason where that is not the slot's own."""
    return "" if slot is None else slot[1] if slot[0] == own else ":".join(slot)


def decision_columns():
    names = []
    for name, kind in DECISION_FIELDS:
        names += [f"{name}.{reason}" for reason in REASONS] if kind == "slots" else [name]
    return names


def decision_cells(decision):
    cells = []
    for name, kind in DECISION_FIELDS:
        value = decision[name]
        cells += [slot_cell(slot, own) for slot, own in zip(value, REASONS)] if kind == "slots" else [cell(value)]
    return cells


def write_decisions(stream, times):
    """A row for each Decision; `times` is None where no telemetry is beside them. Answers as `show` does."""
    rows = csv.writer(output(), lineterminator="\n")
    rows.writerow(["step"] + ["now_ms"] * (times is not None) + decision_columns())
    steps, refusals = 0, []
    for at, kind, bytes_ in split(stream):
        body = Body(kind, bytes_)
        if kind == REFUSAL:
            refusals.append(f"byte {at}: {with_place(f'byte {at}', lambda: show_frame(body))}")
        elif kind in DECISIONS:
            time = [] if times is None else [cell(times[steps] if steps < len(times) else None)]
            rows.writerow([steps] + time + decision_cells(with_place(f"byte {at}", lambda: read_decision(body))))
            steps += 1
        else:
            raise Bad(f"byte {at}: {KINDS[kind]}, where a Decision is due (refusal 2)")
    return steps, refusals


# ---- a log's rows into telemetry


AXES = ["north", "east", "down"]
STAMPED = ["battery.voltage_v", "battery.percent", "battery.remaining_wh", "armed", "landed", "rc_ok", "ekf_ok"]


def whole_cell(text, digits=10):
    return int(text) if text.isascii() and text.isdigit() and len(text) <= digits else text


def wide_cell(text):
    return whole_cell(text, 20)


def float_cell(text):
    try:
        value = float(text) if text.isascii() and "_" not in text else text
    except ValueError:
        return text
    if isinstance(value, float) and math.isinf(value) and "inf" not in text.lower():
        raise Bad(f"{text} is beyond the largest 32-bit float")
    return value


def flag_cell(text):
    return {"true": True, "1": True, "false": False, "0": False}.get(text.lower(), text)


def log_columns(kind):
    """The columns of a log for this kind: name, where its value stands in a reading, how its text is read, how `pack` packs it."""
    whole, real, flag = (wide_cell if kind in WIDE else whole_cell, pack_instant(kind)), (float_cell, pack_f32), (flag_cell, pack_flag)
    values = {"armed": flag, "rc_ok": flag, "ekf_ok": flag, "landed": (str, pack_name(LANDED))}
    columns = [("now_ms", ["now_ms"], *whole), ("position.t_ms", ["position", "t_ms"], *whole)]
    columns += [(f"position.{name}.{axis}", ["position", name, axis], *real) for name in ("pos", "vel") for axis in AXES]
    columns += [("gps.t_ms", ["gps", "t_ms"], *whole), ("gps.fix", ["gps", "fix"], str, pack_name(FIXES)),
                ("gps.sats", ["gps", "sats"], whole_cell, pack_u8), ("gps.hdop", ["gps", "hdop"], *real)]
    for name in STAMPED:
        columns += [(name, name.split(".") + ["value"], *values.get(name, real)), (f"{name}.t_ms", name.split(".") + ["t_ms"], *whole)]
    return columns + [("gcs_heartbeat_ms", ["gcs_heartbeat_ms"], *whole)]


def needed_with(name):
    """The columns without which a value in this one has no meaning."""
    if name.startswith("position."):
        own = [f"position.vel.{axis}" for axis in AXES] if ".vel." in name else []
        return own + [f"position.pos.{axis}" for axis in AXES]
    if name.startswith("gps."):
        return ["gps.fix"]
    return ["now_ms", name[:-5]] if name.endswith(".t_ms") else ["now_ms"]


def reading_of(cells, columns):
    """A row's cells, by column, as a reading of a flight's JSON."""
    reading = {}
    for name, path, read, pack in columns:
        text = cells.get(name, "")
        if text == "":
            continue
        value = with_place(f"column {name}", lambda: read(text))
        pack(value, f"column {name}")
        for other in needed_with(name):
            if cells.get(other, "") == "":
                raise Bad(f"column {other}: it is empty, and {name} is not")
        at = reading
        for member in path[:-1]:
            at = at.setdefault(member, {})
        at[path[-1]] = value
    for name in ("pos", "vel"):
        if name in reading.get("position", {}):
            reading["position"][name] = list(reading["position"][name].values())
    return reading


def check_columns(header):
    known = [name for name, _, _, _ in log_columns(TELEMETRY)]
    for name in header:
        if name not in known:
            raise Bad(f"there is no column {json.dumps(name)}; there are {', '.join(known)}")
        if header.count(name) > 1:
            raise Bad(f"the column {name} is given twice")
    if "now_ms" not in header:
        raise Bad("the column now_ms is missing")


def log_rows(text):
    """The rows of a CSV, each with the line on which it ends; none for an empty line. Spaces around a cell are left out."""
    rows = csv.reader(io.StringIO(text, newline=""), strict=True, skipinitialspace=True)
    try:
        for row in rows:
            if row:
                yield rows.line_num, [one.strip(" ") for one in row]
    except csv.Error as error:
        raise Bad(f"line {rows.line_num}: {error}") from None


def telemetry_row(cells, columns, kind):
    reading = reading_of(cells, columns)
    if "now_ms" not in reading:
        raise Bad("column now_ms: it is empty")
    return telemetry_frame({"kind": kind, **reading}, "telemetry")


def pack_log(text, kind):
    """Telemetry frames of this kind, one for each row."""
    rows, columns, frames = log_rows(text), log_columns(kind), []
    first, header = next(rows, (1, []))
    with_place(f"line {first}", lambda: check_columns(header))
    for line, row in rows:
        if len(row) != len(header):
            raise Bad(f"line {line}: {len(row)} cells, and there are {len(header)} columns")
        frames.append(with_place(f"line {line}", lambda: telemetry_row(dict(zip(header, row)), columns, kind)))
    if not frames:
        raise Bad(f"line {first + 1}: there is no row under the columns' names")
    return b"".join(frames)


# ---- counting landings

# The bytes of a Decision's frame by its first four; the places of what is counted, the same in both kinds, with the highest value.
STEP_BYTES = {struct.pack("<HH", 93, DECISION): 95, struct.pack("<HH", 94, DECISION_SIDE): 96}
REFUSAL_HEAD, REFUSAL_BYTES = struct.pack("<HH", 4, REFUSAL), 6
COUNTED = [(4, len(ACTIONS) - 1), (5, len(REASONS) - 1), (64, 1)]
LAND_ALONE = bytes(value == ACTIONS.index("Land") for value in range(256))
# The columns of a count: of the table, of the CSV.
LANDING, BEFORE, REFUSED, CUT_OFF = range(4)
COLUMNS = [("landings", "landings"), ("before the first position", "before_first_position"),
           ("in refused flights", "in_refused_flights"), ("in cut-off flights", "in_cut_off_flights")]


def alike(stream):
    """How many Decisions of the first one's kind make up the file, up to less than one more, and the bytes of each. 0 where
    some other frame is between them."""
    width = STEP_BYTES.get(stream[:4])
    if width is None:
        return 0, 1
    count = len(stream) // width
    same = all(stream[at:count * width:width] == stream[at:at + 1] * count for at in range(4))
    return (count, width) if same else (0, 1)


def steps_in(stream):
    """Action, reason and position_valid of each step, a row of bytes each, and where the last Decision ends. A file of one kind
    is read with a stride, which is ten times as fast as frame by frame."""
    count, width = alike(stream)
    at = count * width
    rows = [bytearray(stream[place:at:width]) for place, _ in COUNTED]
    width = STEP_BYTES.get(stream[at:at + 4], 0)
    while width and at + width <= len(stream):
        for row, (place, _) in zip(rows, COUNTED):
            row.append(stream[at + place])
        at += width
        width = STEP_BYTES.get(stream[at:at + 4], 0)
    if any(row.translate(None, bytes(range(most + 1))) for row, (_, most) in zip(rows, COUNTED)):
        refuse_step(stream, 0)
    return rows, at


def refuse_step(stream, at):
    """Says what is wrong with the first frame from here that is no Decision as `show` takes it."""
    for place, kind, bytes_ in split(stream, at):
        if kind not in DECISIONS:
            raise Bad(f"byte {place}: {KINDS[kind]}, where a Decision is due (refusal 2)")
        with_place(f"byte {place}", lambda: read_decision(Body(kind, bytes_)))


def end_of(stream, at):
    """How a flight ends whose last Decision ends here: a column, and what there is to say."""
    rest = stream[at:]
    if not rest:
        return LANDING, ""
    if rest[:4] == REFUSAL_HEAD and len(rest) >= REFUSAL_BYTES:
        if len(rest) > REFUSAL_BYTES:
            raise Bad(f"byte {at + REFUSAL_BYTES}: a frame after the refusal, which ends a flight")
        return REFUSED, read_refusal(Body(REFUSAL, rest[4:]))
    for head, width in [*STEP_BYTES.items(), (REFUSAL_HEAD, REFUSAL_BYTES)]:
        if head.startswith(rest[:4]) and len(rest) < width:
            return CUT_OFF, f"byte {at}: the last frame is cut off after {len(rest)} bytes"
    refuse_step(stream, at)


def landings_in(actions):
    """The landings among the actions: the step that enters Land, and the last one that shows it."""
    lands = actions.translate(LAND_ALONE)
    at = lands.find(1)
    while at >= 0:
        end = lands.find(0, at)
        end = len(lands) if end < 0 else end
        yield at, end - 1
        at = lands.find(1, end)


def count_flight(name, stream):
    """A flight: its name, how it ends, what is said of that, its steps by column, its landings as (first reason, last, column)."""
    (actions, reasons, valid), at = steps_in(stream)
    end, said = end_of(stream, at)
    first = valid.find(1)
    first = len(valid) if first < 0 else first
    steps = [0, first, 0, 0]
    steps[end] += len(valid) - first
    landings = [(reasons[enters], reasons[last], BEFORE if enters < first else end) for enters, last in landings_in(actions)]
    return name, end, said, steps, landings


def count_by_column(columns):
    counts = [0] * len(COLUMNS)
    for column in columns:
        counts[column] += 1
    return counts


def reason_rows(landings):
    """The rows of the reasons, each with those of its last reasons."""
    rows = []
    for reason in sorted({first for first, _, _ in landings}):
        own = [(last, column) for first, last, column in landings if first == reason]
        rows.append(("reason", REASONS[reason], "", "", "", count_by_column(column for _, column in own)))
        for other in sorted({last for last, _ in own} - {reason}):
            counts = count_by_column(column for last, column in own if last == other)
            rows.append(("last", REASONS[reason], REASONS[other], "", "", counts))
    return rows


def listed(flight):
    """The row of a flight that is listed; none of any other."""
    name, end, said, steps, landings = flight
    row = {REFUSED: "refused flight", CUT_OFF: "cut-off flight"}.get(end, "no position" if sum(steps) == steps[BEFORE] else None)
    counts = count_by_column(column for _, _, column in landings)
    return [(row, "", "", name, said or "no Decision has a valid position", counts)] if row else []


def count_rows(flights):
    """The rows of a count: what it is, reason, last reason, flight, what is said of it, the numbers."""
    landings = [landing for _, _, _, _, own in flights for landing in own]
    ends = count_by_column(end for _, end, _, _, _ in flights)
    ends[BEFORE] = ""
    rows = reason_rows(landings)
    rows.append(("in all", "", "", "", "", count_by_column(column for _, _, column in landings)))
    rows.append(("flights", "", "", "", "", ends))
    rows.append(("steps", "", "", "", "", [sum(column) for column in zip(*(steps for _, _, _, steps, _ in flights))]))
    return rows + [row for flight in flights for row in listed(flight)]


def count_table(rows):
    widths = [max(12, len(name)) for name, _ in COLUMNS]
    lines = [" " * 38 + "".join(f"  {name:>{width}}" for (name, _), width in zip(COLUMNS, widths))]
    for row, reason, last, flight, said, counts in rows:
        if flight:
            lines.append(f"{row}: {flight}: {said}; landings {sum(counts) - counts[BEFORE]}, before the first position {counts[BEFORE]}")
        else:
            label = f"  of these, last {last}" if last else reason or row
            lines.append(f"{label:38}" + "".join(f"  {count:>{width}}" for count, width in zip(counts, widths)))
    return "\n".join(lines) + "\n"


def count_csv(rows):
    text = io.StringIO()
    writer = csv.writer(text, lineterminator="\n")
    writer.writerow(["row", "reason", "last_reason", "flight", "said"] + [name for _, name in COLUMNS])
    writer.writerows([*row[:-1], *row[-1]] for row in rows)
    return text.getvalue()


def read_flights(paths):
    """The flights, counted; every one that is bad input is named."""
    flights, bad, seen = [], [], set()
    for path in paths:
        try:
            if os.path.realpath(path) in seen:
                raise Bad(f"{named(path)}: it is given twice")
            seen.add(os.path.realpath(path))
            stream = read_frames(path)
            flights.append(with_place(named(path), lambda: count_flight(named(path), stream)))
        except Bad as one:
            bad.append(str(one))
    if bad:
        raise Bad("\nframes.py: ".join(bad) + f"\nframes.py: nothing is counted: {len(bad)} of {len(paths)} flights can't be read")
    return flights


# ---- the energy of a return in whole numbers

# In the order of the entry's input: name, lowest, highest.
ENERGY_NUMBERS = [
    ("position_north_mm", -10000000, 10000000), ("position_east_mm", -10000000, 10000000), ("position_altitude_mm", -100000, 2000000),
    ("home_north_mm", -10000000, 10000000), ("home_east_mm", -10000000, 10000000), ("return_altitude_mm", 0, 2000000),
    ("power_climb_mw", 0, 10000000), ("power_cruise_mw", 0, 10000000), ("power_descent_mw", 0, 10000000),
    ("wind_thousandths", 0, 10000), ("speed_climb_mm_s", 0, 100000), ("speed_cruise_mm_s", 0, 100000), ("speed_descent_mm_s", 0, 100000),
]


def energy_numbers(words):
    """The thirteen numbers, checked, from a file or from words NAME=NUMBER."""
    names = [name for name, _, _ in ENERGY_NUMBERS]
    if len(words) == 1 and "=" not in words[0]:
        given = read_flight(words[0], "energy")
        return with_place(named(words[0]), lambda: checked_numbers(members(given, "energy", names)))
    given = {}
    for word in words:
        name, sign, value = word.partition("=")
        if name not in names:
            raise Bad(f"energy.{name}: there is no such number; there are {', '.join(names)}")
        if name in given:
            raise Bad(f"energy.{name}: it is given twice")
        try:
            given[name] = int(value)
        except ValueError:
            raise Bad(f"energy.{name}: a whole number is wanted, not {json.dumps(value)}") from None
    return checked_numbers(given)


def checked_numbers(given):
    for name, low, high in ENERGY_NUMBERS:
        value = given.get(name)
        if value is None:
            raise Bad(f"energy.{name}: it is missing")
        if isinstance(value, bool) or not isinstance(value, int):
            raise Bad(f"energy.{name}: a whole number is wanted, not {json.dumps(value)}")
        if not low <= value <= high:
            raise Bad(f"energy.{name}: {value} is outside its limits, {low} to {high} (refusal 36)")
    for name, _, _ in ENERGY_NUMBERS[10:]:
        if given[name] == 0:
            raise Bad(f"energy.{name}: a speed of 0 (refusal 37)")
    return [given[name] for name, _, _ in ENERGY_NUMBERS]


def spaced(n):
    """A number in groups of three digits."""
    return f"{n:,}"


def show_leg(name, factors, divisors):
    """A leg as a line; what it adds to the total."""
    energy = divisor = 1
    for n in factors:
        energy *= n
    for n in divisors:
        divisor *= n
    quotient, remainder = divmod(energy, divisor)
    by = " x ".join(spaced(n) for n in divisors)
    if len(divisors) > 1:
        by = f"({by} = {spaced(divisor)})"
    say(f"{name + ':':16}{' x '.join(spaced(n) for n in factors)} = {spaced(energy)}; divided by {by}: {spaced(quotient)}, remainder {spaced(remainder)}")
    return quotient, 1 if remainder else 0


def less(a, b):
    """a - b as it is written on paper."""
    return f"{spaced(a)} - {spaced(b) if b >= 0 else f'({spaced(b)})'}"


def energy_command(words):
    (north, east, altitude, home_north, home_east, back, climb_mw, cruise_mw, descent_mw, wind,
     climb_speed, cruise_speed, descent_speed) = energy_numbers(words)
    square = (north - home_north) ** 2 + (east - home_east) ** 2
    root = math.isqrt(square)
    rest = square - root * root
    distance = root + (1 if rest else 0)
    climb, descent = max(0, back - altitude), max(altitude, back)
    say(f"{'north:':16}{less(north, home_north)} = {spaced(north - home_north)} mm")
    say(f"{'east:':16}{less(east, home_east)} = {spaced(east - home_east)} mm")
    say(f"{'home distance:':16}the squares' sum is {spaced(square)}; its whole root {spaced(root)}, remainder {spaced(rest)}; so {spaced(distance)} mm")
    say(f"{'climb height:':16}{less(back, altitude)} = {spaced(back - altitude)}{'' if climb == back - altitude else ', below 0'}; so {spaced(climb)} mm")
    say(f"{'descent height:':16}the larger of {spaced(altitude)} and {spaced(back)}; so {spaced(descent)} mm")
    legs = [show_leg("climb", [climb, climb_mw], [climb_speed]),
            show_leg("cruise", [distance, cruise_mw, wind], [cruise_speed, 1000]),
            show_leg("descent", [descent, descent_mw], [descent_speed])]
    ones = sum(one for _, one in legs)
    total = sum(quotient for quotient, _ in legs) + ones
    say(f"{'total:':16}{' + '.join(spaced(quotient) for quotient, _ in legs)} + {ones} for remainders = {spaced(total)} mJ")


# ---- drawing


def float32(x):
    return struct.unpack("<f", struct.pack("<f", x))[0]


def held(corners):
    """The corners as they are held: reversed where their area, summed in 32-bit floats, is not above 0."""
    area = 0.0
    for (n, e), (n1, e1) in zip(corners, corners[1:] + corners[:1]):
        area = float32(area + float32(float32(n * e1) - float32(n1 * e)))
    return corners if area > 0 else corners[::-1]


def drawable(corners):
    return len(corners) >= 3 and all(abs(x) <= 10000 for corner in corners for x in corner)


def draw_area(area, ends):
    """An area as SVG, from the places of its corners: filled, with its number in the middle."""
    x, y = (sum(xs) / len(xs) for xs in zip(*ends))
    outline = " ".join(f"{x:.1f},{y:.1f}" for x, y in ends)
    return [f'<polygon points="{outline}" stroke="firebrick" fill="mistyrose"/>',
            f'<text x="{x:.1f}" y="{y:.1f}" font-size="14" fill="firebrick" text-anchor="middle" dominant-baseline="central">{area}</text>']


def draw_fence(body, points=(), areas=()):
    """A fence as SVG: its sides from corner to corner, and each side's number a little beside its middle. Points are
    (north, east, inside); those beyond the fence's size on each side are left out. Areas are (number, corners)."""
    low, high, sent = read_fence(body)
    if not drawable(sent):
        raise Bad("a fence of 3 corners or more, each within ±10,000 m, can be drawn")
    corners = held(sent)
    south, north = min(n for n, _ in corners), max(n for n, _ in corners)
    west, east = min(e for _, e in corners), max(e for _, e in corners)
    size = max(north - south, east - west, 1.0)
    edge = 140 if points else 40

    def place(n, e):
        return edge + 520 * (e - west) / size, edge + 520 * (north - n) / size

    ends = [place(n, e) for n, e in corners]
    width, height = 2 * edge + 520 * (east - west) / size, 2 * edge + 30 + 520 * (north - south) / size
    lines = [f'<svg xmlns="http://www.w3.org/2000/svg" width="{width:.0f}" height="{height:.0f}" font-family="sans-serif">',
             '<rect width="100%" height="100%" fill="white"/>']
    for area, ring in areas:
        lines += draw_area(area, [place(n, e) for n, e in ring])
    for side, ((x, y), (x1, y1)) in enumerate(zip(ends, ends[1:] + ends[:1])):
        long = max(((x1 - x) ** 2 + (y1 - y) ** 2) ** 0.5, 1.0)
        at_x, at_y = (x + x1) / 2 - 12 * (y1 - y) / long, (y + y1) / 2 + 12 * (x1 - x) / long
        lines.append(f'<line x1="{x:.1f}" y1="{y:.1f}" x2="{x1:.1f}" y2="{y1:.1f}" stroke="black"/>')
        lines.append(f'<text x="{at_x:.1f}" y="{at_y:.1f}" font-size="14" text-anchor="middle" dominant-baseline="central">{side}</text>')
    lines += [f'<circle cx="{x:.1f}" cy="{y:.1f}" r="3"/>' for x, y in ends]
    for n, e, yes in points:
        if abs(n - (south + north) / 2) <= size and abs(e - (west + east) / 2) <= size:
            x, y = place(n, e)
            lines.append(f'<circle cx="{x:.1f}" cy="{y:.1f}" r="4" stroke="black" fill="{"steelblue" if yes else "white"}"/>')
    told = f"{KINDS[body.kind]}, {number(low)} to {number(high)} m; north {number(south)} to {number(north)}, east {number(west)} to {number(east)}"
    lines.append(f'<text x="8" y="{height - 12:.0f}" font-size="12">{told}</text>')
    return "\n".join(lines + ["</svg>", ""])


# ---- a flight on a page

PAGE_WIDTH, PAGE_LEFT, PAGE_RIGHT, MAP_SIZE = 1120, 168, 1088, 460
ACTION_COLOURS = {"Nominal": "#4f9d69", "Warn": "#f2c14e", "Hold": "#5b8fd6", "ReturnToLaunch": "#e07b39", "Land": "#b8322f"}
INK, FAINT, GRID = "#222222", "#666666", "#e2e2e2"
LEGEND = ["A request has the colour of the action it asks for.", "", "On the map:", "cross: home", "ring: first position", "dot: last position",
          "way flown: the colour of the action shown, drawn a little to", "the right of the direction of flight", "numbers outside the fence: its sides"]


def svg_text(x, y, text, size=12, anchor="start", fill=INK, more=""):
    return f'<text x="{x:.1f}" y="{y:.1f}" font-size="{size}" text-anchor="{anchor}" fill="{fill}"{more}>{text}</text>'


def svg_rect(x, y, width, height, fill, more=""):
    return f'<rect x="{x:.1f}" y="{y:.1f}" width="{width:.1f}" height="{height:.1f}" fill="{fill}"{more}/>'


def svg_line(x, y, x1, y1, stroke=INK, more=""):
    return f'<line x1="{x:.1f}" y1="{y:.1f}" x2="{x1:.1f}" y2="{y1:.1f}" stroke="{stroke}"{more}/>'


def elapsed(times, wraps):
    """Seconds of each step on a clock that goes on where the 32 bits wrap. A reading that went back stays where the last one was."""
    last, at, seconds = times[0], times[0], []
    for now in times:
        age = (now - last) & 0xFFFFFFFF if wraps else now - last
        if age < 1 << 31 if wraps else age >= 0:
            last, at = now, at + age
        seconds.append(at / 1000)
    return seconds


def runs(values):
    """Equal neighbours together: the first place, the place behind the last, the value."""
    first = 0
    for at in range(1, len(values) + 1):
        if at == len(values) or values[at] != values[first]:
            yield first, at, values[first]
            first = at


def ticks(low, high, most):
    """Round numbers from low to high, at most so many."""
    step = 10.0 ** math.floor(math.log10(max(high - low, 1e-6) / most))
    while (high - low) / step > most:
        step *= 2.5 if round(step / 10 ** math.floor(math.log10(step) + 1e-9)) == 2 else 2
    return [k * step for k in range(math.ceil(low / step - 1e-9), math.floor(high / step + 1e-9) + 1)]


def time_scale(seconds):
    """Where a time is on the page; each step lasts until the next, and the last one as long as most do."""
    gaps = sorted(b - a for a, b in zip(seconds, seconds[1:]))
    ends = seconds + [seconds[-1] + ((gaps[len(gaps) // 2] if gaps else 0) or 1)]
    return ends, lambda t: PAGE_LEFT + (PAGE_RIGHT - PAGE_LEFT) * (t - ends[0]) / max(ends[-1] - ends[0], 1e-3)


def draw_times(ends, place, top, bottom):
    """The lines of the clock through all charts, and their times below."""
    lines = []
    for t in ticks(ends[0], ends[-1], 16 if ends[-1] < 10000 else 8):
        lines.append(svg_line(place(t), top, place(t), bottom, GRID))
        lines.append(svg_text(place(t), bottom + 16, f"{t:.10g}", 11, "end" if place(t) > PAGE_RIGHT - 20 else "middle", FAINT))
    return lines + [svg_text(PAGE_LEFT - 10, bottom + 16, "clock, s", 11, "end", FAINT)]


def draw_band(decisions, ends, place, top):
    """The actions over time, each with its name and reason where there is room."""
    lines = [svg_text(PAGE_LEFT - 10, top + 21, "action", 13, "end")]
    for first, behind, (action, reason) in runs([(one["action"], one["reason"]) for one in decisions]):
        x, width = place(ends[first]), place(ends[behind]) - place(ends[first])
        lines.append(svg_rect(x, top, width, 32, ACTION_COLOURS[action], ' stroke="white" stroke-width="0.5"'))
        fill = INK if action == "Warn" else "white"
        if width > 7 * len(action):
            both = reason != "None" and width > 5.55 * len(reason) + 4
            lines.append(svg_text(x + width / 2, top + (14 if both else 20), action, 12, "middle", fill))
            lines += [svg_text(x + width / 2, top + 27, reason, 9.5, "middle", fill)] if both else []
    return lines


def lanes_of(decisions):
    """The lanes under the band: a name, and a colour or None for each step. Reasons that never ask have none."""
    lanes = []
    for k, reason in enumerate(REASONS):
        asked = [one["active"][k] for one in decisions]
        if any(asked):
            lanes.append((reason, [slot and ACTION_COLOURS[slot[1]] for slot in asked]))
    notes = [("no valid position", lambda one: not one["position_valid"]), ("may disarm", lambda one: one["disarm_eligible"])]
    return lanes + [(name, ["#9a9a9a" if test(one) else None for one in decisions]) for name, test in notes if any(map(test, decisions))]


def draw_lanes(lanes, ends, place, top):
    lines = []
    for k, (name, colours) in enumerate(lanes):
        y = top + 20 * k
        lines.append(svg_rect(PAGE_LEFT, y, PAGE_RIGHT - PAGE_LEFT, 16, "#f5f5f5"))
        lines.append(svg_text(PAGE_LEFT - 10, y + 12, name, 12, "end"))
        lines += [svg_rect(place(ends[first]), y, place(ends[behind]) - place(ends[first]), 16, colour)
                  for first, behind, colour in runs(colours) if colour]
    return lines


def thinned(points):
    """Points of a line without those that can't be seen: of each tenth of a pixel the first, lowest, highest and last."""
    kept_points = []
    for first, behind, _ in runs([round(10 * x) for x, _ in points]):
        own = points[first:behind]
        kept_points += own if len(own) < 5 else [own[0], min(own, key=lambda p: p[1]), max(own, key=lambda p: p[1]), own[-1]]
    return kept_points


def draw_line(values, ends, place, top, height, title, limits):
    """A chart of a number over time, with gaps where it is absent, and a dashed line at each limit."""
    finite = [x for x in values if x is not None and math.isfinite(x)] + [x for x in limits if math.isfinite(x)]
    low, high = min(finite), max(finite)
    pad = 0.06 * (high - low) or 1
    low, high = low - pad, high + pad

    def level(x):
        return top + height * (high - x) / (high - low)

    lines = [svg_text(PAGE_LEFT, top - 7, title, 12)]
    for x in ticks(low, high, 6):
        lines += [svg_line(PAGE_LEFT, level(x), PAGE_RIGHT, level(x), GRID), svg_text(PAGE_LEFT - 10, level(x) + 4, f"{x:g}", 11, "end", FAINT)]
    lines += [svg_line(PAGE_LEFT, level(x), PAGE_RIGHT, level(x), "#b8322f", ' stroke-dasharray="5 4"') for x in limits if math.isfinite(x)]
    for first, behind, there in runs([x is not None and math.isfinite(x) for x in values]):
        if there:
            points = thinned([(place(ends[k]), level(values[k])) for k in range(first, behind)])
            text = " ".join(f"{x:.1f},{y:.1f}" for x, y in points)
            end = f'{points[-1][0] + 1.5:.1f},{points[-1][1]:.1f}'
            lines.append(f'<polyline points="{text} {end}" fill="none" stroke="#1f4e79" stroke-width="1.8" stroke-linejoin="round"/>')
    return lines + [svg_rect(PAGE_LEFT, top, PAGE_RIGHT - PAGE_LEFT, height, "none", ' stroke="#999999"')]


def map_scale(points, left, top):
    """Where north and east are on the map, which shows all the points with the same scale both ways, and the pixels of a metre."""
    norths, easts = [n for n, _ in points], [e for _, e in points]
    size = 1.16 * max(max(norths) - min(norths), max(easts) - min(easts), 1)
    north, east = (max(norths) + min(norths)) / 2, (max(easts) + min(easts)) / 2
    scale = MAP_SIZE / size
    return scale, lambda n, e: (left + MAP_SIZE / 2 + scale * (e - east), top + MAP_SIZE / 2 - scale * (n - north))


def beside(points):
    """A way's points three pixels to the right of the direction of flight, two for each stretch, so that a way back along the way out is
    seen beside it. Each stretch: its two ends, and the number of the point it leads to."""
    across, stretches = (0.0, 0.0), []
    for k, ((x, y), (x1, y1)) in enumerate(zip(points, points[1:]), 1):
        long = math.hypot(x1 - x, y1 - y)
        if long > 0.3:
            across = (-3 * (y1 - y) / long, 3 * (x1 - x) / long)
        stretches.append(((x + across[0], y + across[1]), (x1 + across[0], y1 + across[1]), k))
    return stretches


def draw_way(way, place):
    """The way flown, in the colour of the action shown where each stretch ends."""
    stretches, lines = beside([place(n, e) for n, e, _ in way]), []
    for first, behind, action in runs([way[k][2] for _, _, k in stretches]):
        ends = [end for start, stop, _ in stretches[first:behind] for end in (start, stop)]
        points = " ".join(f"{x:.1f},{y:.1f}" for first, _, (x, y) in runs(ends))
        lines.append(f'<polyline points="{points}" fill="none" stroke="{ACTION_COLOURS[action]}" stroke-width="4" stroke-linejoin="round"/>')
    return lines


def draw_marks(way, place):
    """Home as a cross; the first position as a ring, the last as a dot in the colour of its action."""
    x, y = place(0, 0)
    lines = [svg_line(x - 11, y, x + 11, y), svg_line(x, y - 11, x, y + 11)]
    if way:
        (x, y), (x1, y1) = place(*way[0][:2]), place(*way[-1][:2])
        lines.append(f'<circle cx="{x:.1f}" cy="{y:.1f}" r="7" fill="none" stroke="{INK}" stroke-width="1.5"/>')
        lines.append(f'<circle cx="{x1:.1f}" cy="{y1:.1f}" r="4" fill="{ACTION_COLOURS[way[-1][2]]}" stroke="{INK}"/>')
    return lines


def draw_sides(corners, place):
    """The fence, with the number of each side outside it beside its middle."""
    ends = [place(*corner) for corner in corners]
    outline = " ".join(f"{x:.1f},{y:.1f}" for x, y in ends)
    lines = [f'<polygon points="{outline}" fill="#f3f8f4" stroke="{INK}" stroke-width="1.5"/>']
    for side, ((x, y), (x1, y1)) in enumerate(zip(ends, ends[1:] + ends[:1])):
        long = max(math.hypot(x1 - x, y1 - y), 1)
        lines.append(svg_text((x + x1) / 2 + 13 * (y1 - y) / long, (y + y1) / 2 - 13 * (x1 - x) / long + 4, side, 12, "middle", FAINT))
    return lines


def draw_ruler(scale, left, top):
    """A length to scale under the map, and beside it where north is."""
    metres = ticks(0, MAP_SIZE / scale / 3, 3)[-1]
    x, y = left, top + MAP_SIZE + 16
    ruler = [svg_line(x, y, x + scale * metres, y, INK, ' stroke-width="2"')] + [svg_line(at, y - 4, at, y + 4) for at in (x, x + scale * metres)]
    ruler.append(svg_text(x + scale * metres + 10, y + 4, f"{metres:g} m", 12))
    x = left + MAP_SIZE + 16
    return ruler + [f'<path d="M {x} {top} l 6 18 l -6 -5 l -6 5 z" fill="{INK}"/>', svg_text(x, top + 32, "N", 12, "middle")]


def draw_keep_out(ends):
    outline = " ".join(f"{x:.1f},{y:.1f}" for x, y in ends)
    return f'<polygon points="{outline}" fill="#f6d5d3" stroke="#b8322f"/>'


def name_keep_out(area, ends):
    """An area's number beside it, with a white edge, since a way may be below it."""
    x, y = max(ends)
    return svg_text(x + 6, y - 4, f"area {area}", 12, "start", "#b8322f", ' stroke="white" stroke-width="3" paint-order="stroke"')


def draw_map(corners, areas, way, left, top):
    points = corners + [(0.0, 0.0)] + [(n, e) for n, e, _ in way] + [corner for _, ring in areas for corner in ring]
    scale, place = map_scale(points, left, top)
    lines = [svg_rect(left, top, MAP_SIZE, MAP_SIZE, "#fbfbfb", ' stroke="#999999"')] + draw_sides(corners, place)
    rings = [(area, [place(n, e) for n, e in ring]) for area, ring in areas]
    lines += [draw_keep_out(ends) for _, ends in rings] + draw_way(way, place) + [name_keep_out(area, ends) for area, ends in rings]
    return lines + draw_marks(way, place) + draw_ruler(scale, left, top)


def draw_legend(decisions, ends, areas, left, top):
    """The colours with the steps and seconds of each action, and the marks of the map."""
    lines = [svg_text(left + x, top + 4, name, 12, anchor, FAINT) for x, name, anchor in ((0, "action", "start"), (210, "steps", "end"), (290, "seconds", "end"))]
    for k, action in enumerate(ACTIONS):
        y, own = top + 26 + 22 * k, [at for at, one in enumerate(decisions) if one["action"] == action]
        lines += [svg_rect(left, y - 12, 18, 15, ACTION_COLOURS[action]), svg_text(left + 26, y, action, 13), svg_text(left + 210, y, len(own), 13, "end"),
                  svg_text(left + 290, y, f"{sum(ends[at + 1] - ends[at] for at in own):.10g}", 13, "end")]
    y = top + 26 + 22 * len(ACTIONS) + 16
    told = LEGEND + ["red: keep-out areas held at some time"] * bool(areas)
    return lines + [svg_text(left, y + 19 * k, line, 12, "start", FAINT) for k, line in enumerate(told)]


def way_of(frames, decisions):
    """North, east and the action shown, of each step that took a position: its Decision has a distance then."""
    bodies = [(bytes_, 17 if kind in WIDE else 9) for _, kind, bytes_ in frames if kind in TELEMETRIES]
    return [(*struct.unpack_from("<ff", bytes_, at), one["action"]) for (bytes_, at), one in zip(bodies, decisions) if one["fence_dist_m"] is not None]


def setting_of(frames, name):
    """A float setting of the flight's configuration."""
    place = sum({"u8": 1, "flag": 1}.get(kind, 4) for _, kind, _ in CONFIG_FIELDS[:[field for field, _, _ in CONFIG_FIELDS].index(name)])
    bodies = [bytes_ for _, _, bytes_ in frames if len(bytes_) == 242]
    return struct.unpack_from("<f", bodies[0], place)[0] if bodies else math.nan


def draw_flight(frames, decisions):
    """A flight as SVG: actions, requests, distance and margin over time, and the way flown over fence and areas."""
    times, corners, areas = times_in(frames)[:len(decisions)], corners_in(frames), areas_of(frames)
    if not drawable(corners):
        raise Bad("a fence of 3 corners or more, each within ±10,000 m, can be drawn")
    if not decisions or None in times:
        raise Bad("there is no step to draw")
    ends, place = time_scale(elapsed(times, TELEMETRY_WIDE not in [kind for _, kind, _ in frames]))
    lanes, way = lanes_of(decisions), way_of(frames, decisions)
    approach, marginal = setting_of(frames, "fence_approach_m"), setting_of(frames, "energy_marginal_wh")
    band = 54
    distance = band + 44 + 20 * len(lanes) + 30
    margin = distance + 120 + 30
    bottom = margin + 120
    chart = draw_times(ends, place, band, bottom)
    chart += draw_band(decisions, ends, place, band) + draw_lanes(lanes, ends, place, band + 44)
    chart += draw_line([one["fence_dist_m"] for one in decisions], ends, place, distance, 120,
                       f"distance to the fence{' or the nearest area' if areas else ''}, m (dashed: 0, and fence_approach_m, {number(approach)})", [0, approach])
    chart += draw_line([one["energy.margin_wh"] for one in decisions], ends, place, margin, 120,
                       f"energy margin of a return, Wh (dashed: 0, and energy_marginal_wh, {number(marginal)})", [0, marginal])
    below = bottom + 44
    chart += draw_map(corners, areas, way, PAGE_LEFT, below) + draw_legend(decisions, ends, areas, PAGE_LEFT + MAP_SIZE + 70, below + 12)
    height = below + MAP_SIZE + 40
    head = [f'<svg xmlns="http://www.w3.org/2000/svg" width="{PAGE_WIDTH}" height="{height}" viewBox="0 0 {PAGE_WIDTH} {height}" font-family="Helvetica, Arial, sans-serif">',
            svg_rect(0, 0, PAGE_WIDTH, height, "white"), svg_text(PAGE_LEFT, 32, f"A flight of {len(decisions)} steps in {ends[-1] - ends[0]:.10g} s", 18)]
    return "\n".join(head + chart + ["</svg>", ""])


def decisions_in(stream):
    """The Decisions of a stream, and the refusals among them with their places."""
    decisions, refusals = [], []
    for at, kind, bytes_ in split(stream):
        body = Body(kind, bytes_)
        if kind == REFUSAL:
            refusals.append(f"byte {at}: {with_place(f'byte {at}', lambda: show_frame(body))}")
        elif kind in DECISIONS:
            decisions.append(with_place(f"byte {at}", lambda: read_decision(body)))
        else:
            raise Bad(f"byte {at}: {KINDS[kind]}, where a Decision is due (refusal 2)")
    return decisions, refusals


def draw_page(words, stepped_by):
    """Draws the flight with its Decisions; bad input where they are not as many as its telemetries, after the page is written."""
    frames, stream = frames_of(words[0]), read_frames(stepped_by)
    decisions, refusals = with_place(named(stepped_by), lambda: decisions_in(stream))
    times = times_in(frames)
    page = with_place(named(words[0]), lambda: draw_flight(frames, decisions[:len(times)]))
    write_bytes(page.encode(), words[1:])
    with_place(named(stepped_by), lambda: compare(len(decisions), refusals, times, words[0]))


# ---- merging

# The readings of a telemetry body: name, place, bytes with the flag, places of floats within it. A stamp follows the flag.
READINGS = [("position", 4, 29, (5, 9, 13, 17, 21, 25)), ("gps", 33, 13, (9,)), ("voltage_v", 46, 9, (5,)), ("percent", 55, 9, (5,)),
            ("remaining_wh", 64, 9, (5,)), ("heartbeat", 73, 5, ()), ("armed", 78, 6, ()), ("landed", 84, 6, ()),
            ("rc_ok", 90, 6, ()), ("ekf_ok", 96, 6, ())]


def rounded(x):
    """The 32-bit float nearest to a result of one operation on such floats."""
    try:
        return struct.unpack("<f", struct.pack("<f", x))[0]
    except OverflowError:
        return math.copysign(math.inf, x)


def kept(name, floats, present_hdop, capacity):
    """Whether `validate_telemetry` keeps a present reading with these floats."""
    if name == "position":
        n, e, d, *velocity = floats
        if not all(map(math.isfinite, floats)) or abs(n) > 10000 or abs(e) > 10000 or -d < -100 or -d > 2000:
            return False
        squares = [rounded(v * v) for v in velocity]
        return rounded(math.sqrt(rounded(rounded(squares[0] + squares[1]) + squares[2]))) <= 100
    if name == "gps":
        return not present_hdop or 0 <= floats[0] <= 100
    if name in ("voltage_v", "percent"):
        return 0 <= floats[0] <= 100
    if name == "remaining_wh":
        return math.isfinite(floats[0]) and 0 <= floats[0] <= rounded(capacity * rounded(1.1))
    return True


def standing(reading, now, capacity):
    """What the rule looks at, least for what wins: absent, dropped, without an age, the age."""
    name, bytes_, places = reading
    if bytes_[0] == 0:
        return (1, 0, 0, 0)
    floats = [struct.unpack_from("<f", bytes_, at)[0] for at in places]
    age = (now - struct.unpack_from("<I", bytes_, 1)[0]) & 0xFFFFFFFF
    ageless = age >= 1 << 31
    drops = not kept(name, floats, name == "gps" and bytes_[8] == 1, capacity)
    return (0, int(drops), int(ageless), 0 if ageless else age)


def merge_bodies(first, second, capacity):
    now = struct.unpack_from("<I", first)[0]
    merged = bytearray(first[:4])
    for name, at, width, places in READINGS:
        two = [(name, body[at:at + width], places) for body in (first, second)]
        taken = bytearray(min(two, key=lambda reading: standing(reading, now, capacity))[1])
        for place in places:
            if math.isnan(struct.unpack_from("<f", taken, place)[0]):
                struct.pack_into("<I", taken, place, 0x7FC00000)
        merged += taken
    return bytes(merged)


def checked_frames(path):
    """The frames of a flight, kind and body, each telemetry as `show` takes it."""
    frames = []
    for at, kind, bytes_ in frames_of(path):
        if kind in TELEMETRIES:
            with_place(f"{named(path)}: byte {at}", lambda: show_frame(Body(kind, bytes_)))
        if kind == TELEMETRY_WIDE:
            raise Bad(f"{named(path)}: byte {at}: {KINDS[kind]}, where kind 3 is due (refusal 2)")
        frames.append((kind, bytes_))
    return frames


def telemetry_in(frames):
    return [body for kind, body in frames if kind == TELEMETRY]


def merge_flights(first, second):
    """The first flight's frames, with its telemetry merged with the second's."""
    whole = checked_frames(first)
    a, b = telemetry_in(whole), telemetry_in(checked_frames(second))
    before = [body for kind, body in whole if kind not in (TELEMETRY, AREAS)]
    if len(before) != 2 or len(before[0]) != 242:
        raise Bad(f"{named(first)}: a configuration and a fence are wanted before the telemetry")
    if len(a) != len(b):
        raise Bad(f"{named(first)} has {len(a)} telemetries and {named(second)} has {len(b)}")
    capacity = struct.unpack_from("<f", before[0], 1)[0]
    for k, (x, y) in enumerate(zip(a, b)):
        if x[:4] != y[:4]:
            raise Bad(f"{named(first)} and {named(second)}: telemetry[{k}].now_ms: the two radios' differ (refusal 38)")
    merged = (merge_bodies(x, y, capacity) for x, y in zip(a, b))
    return b"".join(frame(kind, next(merged) if kind == TELEMETRY else body) for kind, body in whole)


# ---- the command


def read_bytes(path):
    """A file's bytes, of which there is at least one."""
    try:
        if path == "-":
            if sys.stdin is None:
                raise Bad("standard input: it is closed")
            bytes_ = sys.stdin.buffer.read()
        else:
            with open(path, "rb") as file:
                bytes_ = file.read()
    except OSError as error:
        raise Bad(f"{named(path)}: {error.strerror}") from None
    if not bytes_:
        raise Bad(f"{named(path)}: byte 0: it is empty")
    return bytes_


def has_mark(bytes_):
    """Whether a byte order mark is at the front. No frame begins so but with a kind that is none."""
    utf16 = bytes_.startswith((codecs.BOM_UTF16_LE, codecs.BOM_UTF16_BE)) and bytes_[2:4] not in [struct.pack("<H", kind) for kind in KINDS]
    return utf16 or bytes_.startswith(codecs.BOM_UTF8)


def is_text(bytes_):
    """Whether these are a flight's JSON and no frames: of a frame's first four bytes one is 0, as every kind is below 256."""
    return has_mark(bytes_) or 0 not in bytes_[:4] and bytes_.lstrip(b" \t\r\n")[:1] in (b"{", b"[")


def read_frames(path):
    """The bytes of a file of frames."""
    bytes_ = read_bytes(path)
    if is_text(bytes_):
        raise Bad(f"{named(path)}: byte 0: this is text, and frames are wanted")
    return bytes_


def decoded(path, bytes_):
    if has_mark(bytes_):
        raise Bad(f"{named(path)}: byte 0: a byte order mark; UTF-8 without one is wanted")
    try:
        return bytes_.decode()
    except UnicodeDecodeError as error:
        raise Bad(f"{named(path)}: byte {error.start}: not a text file in UTF-8") from None


def written_float(text):
    """A number as it is written. Python takes 1e400 for an infinity, which is written Infinity here."""
    value = float(text)
    if value in (float("inf"), float("-inf")):
        raise Bad(f"{text} is beyond the largest 32-bit float")
    return value


def plain(value, where):
    """A parsed value, with its objects as dicts: without null, and without a member that is given twice. An object is a
    tuple of its members before."""
    if value is None:
        raise Bad(f"{where or 'flight'}: null is not a value here; leave out what is absent")
    if isinstance(value, list):
        return [plain(member, f"{where}[{k}]") for k, member in enumerate(value)]
    if not isinstance(value, tuple):
        return value
    found = {}
    for name, member in value:
        place = f"{where}.{name}" if where else name
        if name in found:
            raise Bad(f"{place}: it is given twice")
        found[name] = plain(member, place)
    return found


def read_flight(path, where=""):
    return parse_flight(path, read_bytes(path), where)


def parse_flight(path, bytes_, where=""):
    """A file's JSON. `where` is the name of its whole, in front of each member's."""
    text = decoded(path, bytes_)
    if not text.strip():
        raise Bad(f"{named(path)}: line 1: there is nothing but blanks")
    try:
        return with_place(named(path), lambda: plain(json.loads(text, parse_float=written_float, object_pairs_hook=tuple), where))
    except json.JSONDecodeError as error:
        raise Bad(f"{named(path)}: line {error.lineno}, column {error.colno}: {error.msg}") from None
    except RecursionError:
        raise Bad(f"{named(path)}: nested too deeply") from None
    except ValueError:
        raise Bad(f"{named(path)}: a number has too many digits") from None


def packed_flight(path, bytes_, kind=None):
    flight = parse_flight(path, bytes_)
    return with_place(named(path), lambda: pack_flight(flight, kind))


def frames_of(path):
    """The frames of a flight, from its JSON or its frames."""
    bytes_ = read_bytes(path)
    if is_text(bytes_):
        bytes_ = packed_flight(path, bytes_)
    return with_place(named(path), lambda: list(split(bytes_)))


def times_in(frames):
    """The clock reading of each telemetry; None where its frame is too short to have one."""
    telemetries = [("<Q" if kind in WIDE else "<I", body) for _, kind, body in frames if kind in TELEMETRIES]
    return [struct.unpack_from(form, body)[0] if len(body) >= struct.calcsize(form) else None for form, body in telemetries]


def corners_in(frames):
    """The corners of a flight's fence, as they are held; none where there is no fence."""
    for at, kind, bytes_ in frames:
        if kind in FENCES:
            body = Body(kind, bytes_)
            return held(with_place(f"byte {at}", lambda: read_fence(body))[2])
    return []


def pack_command(words, kind=None):
    if kind not in (None, *map(str, CONFIGS)):
        raise Bad(f"--kind: 1 or 11 is wanted, not {json.dumps(kind)}")
    write_bytes(packed_flight(words[0], read_bytes(words[0]), kind and int(kind)), words[1:])


def output():
    """Standard output, unless it is closed."""
    if sys.stdout is None:
        raise OSError(errno.EBADF, "it is closed")
    return sys.stdout


def say(line):
    print(line, file=output())


def write_bytes(bytes_, to=()):
    """Into the file that is named, or to standard output."""
    if to:
        try:
            with open(to[0], "wb") as file:
                file.write(bytes_)
        except OSError as error:
            raise Bad(f"{to[0]}: {error.strerror}") from None
    else:
        output().buffer.write(bytes_)


def areas_of(frames):
    """Every area of these frames, once."""
    areas = []
    for at, kind, bytes_ in frames:
        if kind in (AREA, AREAS):
            body = Body(kind, bytes_)
            with_place(f"byte {at}", lambda: areas.extend(area for area in read_areas(body) if area not in areas))
    for area, corners in areas:
        if not drawable(corners):
            raise Bad(f"area {area}: an area of 3 corners or more, each within ±10,000 m, can be drawn")
    return areas


def draw_frames(frames, points):
    for at, kind, bytes_ in frames:
        if kind in FENCES:
            body = Body(kind, bytes_)
            areas = areas_of(frames)
            drawn = with_place(f"byte {at}", lambda: draw_fence(body, points, areas))
            with_place(f"byte {at}", body.end)
            return drawn.encode()
    raise Bad("there is no fence")


def draw(path, points=()):
    """The fence of a flight or of frames as SVG, with its areas."""
    frames = frames_of(path)
    return with_place(named(path), lambda: draw_frames(frames, points))


def draw_command(words, decisions=None):
    if decisions:
        draw_page(words, decisions)
    else:
        write_bytes(draw(words[0]), words[1:])


def point_of(line):
    try:
        north, east = [float32_of(float(word)) for word in line.split()]
    except ValueError:
        raise Bad("two numbers are wanted, north and east") from None
    return north, east


def float32_of(x):
    return struct.unpack("<f", pack_f32(x, "a number"))[0]


def points_of(path):
    """The points of a text: a line of north and east each."""
    text = decoded(path, read_bytes(path))
    return [with_place(f"{named(path)}: line {at}", lambda: point_of(line)) for at, line in enumerate(text.splitlines(), 1)]


def points_command(words):
    write_bytes(b"".join(struct.pack("<ff", *point) for point in points_of(words[0])), words[1:])


def map_command(words):
    points, answers = points_of(words[1]), read_bytes(words[2])
    if len(answers) != 2 * len(points):
        raise Bad(f"{words[2]}: {len(answers)} bytes, and {2 * len(points)} are wanted for {len(points)} points")
    write_bytes(draw(words[0], [(n, e, answers[2 * k]) for k, (n, e) in enumerate(points)]), words[3:])


def merge_command(words):
    write_bytes(merge_flights(words[0], words[1]), words[2:])


def input_of(path):
    """What --input gives: the times of the telemetry, and the fence's corners."""
    frames = frames_of(path)
    return times_in(frames), with_place(named(path), lambda: corners_in(frames))


def show_command(words, stepped=None):
    times, corners = input_of(stepped) if stepped else ([], [])
    path = words[0] if words else "-"
    stream = read_frames(path)
    steps, refusals = with_place(named(path), lambda: show(stream, times, corners))
    if stepped:
        with_place(named(path), lambda: compare(steps, refusals, times, stepped))


def csv_command(words, stepped=None):
    times = input_of(stepped)[0] if stepped else None
    path = words[0] if words else "-"
    stream = read_frames(path)
    steps, refusals = with_place(named(path), lambda: write_decisions(stream, times))
    with_place(named(path), lambda: compare(steps, refusals, [None] * steps if times is None else times, stepped))


def telemetry_command(words, kind="3"):
    if kind not in map(str, TELEMETRIES):
        raise Bad(f"--kind: 3 or 9 is wanted, not {json.dumps(kind)}")
    text = decoded(words[0], read_bytes(words[0]))
    write_bytes(with_place(named(words[0]), lambda: pack_log(text, int(kind))), words[1:])


def count_command(words, as_csv=None):
    rows = count_rows(read_flights(words))
    write_bytes((count_csv if as_csv else count_table)(rows).encode(errors="surrogateescape"))


# Each command: its function, the fewest and the most words after its name, an option, the words that the option takes.
COMMANDS = {"pack": (pack_command, 1, 2, "--kind", 1), "show": (show_command, 0, 1, "--input", 1), "draw": (draw_command, 1, 2, "--decisions", 1),
            "points": (points_command, 1, 2, None, 0), "map": (map_command, 3, 4, None, 0), "energy": (energy_command, 1, math.inf, None, 0),
            "merge": (merge_command, 2, 3, None, 0), "count": (count_command, 1, math.inf, "--csv", 0),
            "csv": (csv_command, 0, 1, "--input", 1), "telemetry": (telemetry_command, 1, 2, "--kind", 1)}


def command_of(words):
    """What the words ask for, as a function without arguments; None where they are bad usage."""
    if "--help" in words or "-h" in words:
        return lambda: say(__doc__)
    command, least, most, option, takes = COMMANDS.get(words[0] if words else "", (None, 0, 0, None, 0))
    rest, given = words[1:], []
    if option in rest:
        at = rest.index(option)
        given = rest[at + takes:at + takes + 1]
        rest = rest[:at] + rest[at + takes + 1:]
        if not given:
            return None
    if command is None or not least <= len(rest) <= most or any(word.startswith("--") for word in rest + given * takes):
        return None
    return lambda: command(rest, *given)


def usage(words):
    """What is said of bad usage: the words, and how the command, or any, is called."""
    lines = ["  " + line.strip().split("  ")[0] for line in __doc__.splitlines() if line.startswith("  frames.py ")]
    own = [line for line in lines if line.split()[1] == (words[0] if words else "")]
    return "\n".join([f"frames.py: bad usage: {' '.join(['frames.py', *words])}", *(own or lines), "frames.py --help shows all of it"])


def complain(text):
    if sys.stderr is not None:
        print(text, file=sys.stderr)


def flush():
    if sys.stdout is not None:
        sys.stdout.flush()


def output_failed(error):
    """What is said of an output that takes no more. Python writes the rest once more when it ends: into nothing then."""
    if sys.stdout is not None:
        os.dup2(os.open(os.devnull, os.O_WRONLY), sys.stdout.fileno())
    why = "it was closed before all was written" if isinstance(error, BrokenPipeError) else error.strerror
    return f"standard output: {why}"


def main(words):
    command = command_of(words)
    if command is None:
        complain(usage(words))
        return 2
    told = []
    for work in (command, flush):
        try:
            work()
        except Bad as bad:
            told.append(str(bad))
        except OSError as error:
            told.append(output_failed(error))
    for text in told:
        complain(f"frames.py: {text}")
    return 1 if told else 0


if __name__ == "__main__":
    sys.exit(main(sys.argv[1:]))
