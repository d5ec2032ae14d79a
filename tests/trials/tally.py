#!/usr/bin/env python3
"""What a load reaches: tally.py TELEMETRY DECISIONS counts actions, reasons, requests and positions."""
import os
import sys
from collections import Counter

sys.path.insert(0, os.path.join(os.path.dirname(os.path.abspath(__file__)), "..", "..", "tools"))
sys.dont_write_bytecode = True
from frames import ACTIONS, REASONS  # noqa: E402


def frames(name, size):
    with open(name, "rb") as file:
        data = file.read()
    if len(data) % size:
        sys.exit(f"{name}: {len(data)} bytes are no row of frames of {size}")
    return [data[i : i + size] for i in range(0, len(data), size)]


def line(what, names, counts):
    print(what + ":", ", ".join(f"{name} {counts[i]}" for i, name in enumerate(names) if counts[i]))


def main():
    telemetry, decisions = frames(sys.argv[1], 106), frames(sys.argv[2], 95)
    if len(telemetry) != len(decisions):
        sys.exit(f"{len(telemetry)} steps, {len(decisions)} Decisions")
    print(f"{len(decisions)} steps, none differs")
    line("actions shown", ACTIONS, Counter(d[4] for d in decisions))
    line("reasons shown", REASONS, Counter(d[5] for d in decisions))
    line("requests filed", REASONS, Counter(r for d in decisions for r in range(19) if d[7 + 3 * r]))
    print(f"clock faults {sum(d[65] for d in decisions)}; positions sent {sum(t[8] for t in telemetry)}, valid {sum(d[64] for d in decisions)}")


main()
