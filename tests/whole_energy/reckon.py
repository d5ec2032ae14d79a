#!/usr/bin/env python3
"""Document 02, L8, worked out once more from its text, with fractions, beside the C entry.

  reckon.py DRIVER [CASES [SEED]]   DRIVER: energy_test.c compiled; exit status 1 where anything differs
  reckon.py --tool TOOL CASES       what tools/frames.py energy prints, compared with the same
  reckon.py --one NUMBER ..         the record of one input, for the driver's 'time'
"""
import contextlib
import importlib.util
import io
import random
import re
import struct
import subprocess
import sys
from fractions import Fraction
from math import ceil, floor

SPAN, LOW, HIGH = 10_000_000, -100_000, 2_000_000
LIMITS = [(-SPAN, SPAN), (-SPAN, SPAN), (LOW, HIGH), (-SPAN, SPAN), (-SPAN, SPAN), (0, HIGH),
          (0, SPAN), (0, SPAN), (0, SPAN), (0, 10_000), (0, 100_000), (0, 100_000), (0, 100_000)]
FILL = 0xA5


def root_of(n):
    """The whole root by halving an interval."""
    low, high = 0, n + 1
    while high - low > 1:
        middle = (low + high) // 2
        if middle * middle <= n:
            low = middle
        else:
            high = middle
    return low


def reckoned(numbers):
    """The nine numbers, and the exact sum of the legs for the distance."""
    north, east, altitude, home_north, home_east, back, p_up, p_along, p_down, wind, v_up, v_along, v_down = numbers
    square = abs(north - home_north) ** 2 + abs(east - home_east) ** 2
    root = root_of(square)
    distance = root if root * root == square else root + 1
    up = back - altitude if back > altitude else 0
    down = altitude if altitude > back else back
    legs = [Fraction(up * p_up, v_up), Fraction(distance * p_along * wind, v_along * 1000), Fraction(max(down, 0) * p_down, v_down)]
    divisors = [v_up, v_along * 1000, v_down]
    nine = [distance, square - root * root]
    for leg, divisor in zip(legs, divisors):
        nine += [floor(leg), int((leg - floor(leg)) * divisor)]
    return nine + [sum(ceil(leg) for leg in legs)], sum(legs)


def due(data, room):
    """The answer, and the output slice with the byte behind it."""
    untouched = bytes([FILL]) * (room + 1)
    if len(data) < 52:
        return 1, untouched
    if len(data) > 52:
        return 3, untouched
    numbers = struct.unpack("<13i", data)
    if any(not low <= n <= high for n, (low, high) in zip(numbers, LIMITS)):
        return 36, untouched
    if 0 in numbers[10:]:
        return 37, untouched
    if room < 72:
        return 5, untouched
    nine, exact = reckoned(numbers)
    if not exact <= nine[8] < exact + 3:
        raise SystemExit(f"the bound does not hold for {numbers}")
    return 0, struct.pack("<9Q", *nine) + untouched[72:]


def inside(random_, k):
    low, high = LIMITS[k]
    way = random_.randrange(4)
    if way == 0:
        return random_.choice([low, low + 1, high - 1, high, 0 if low <= 0 else low, 1])
    if way == 1:
        return max(low, min(high, random_.randrange(-1000, 1001)))
    return random_.randint(low, high)


def accepted(random_):
    numbers = [inside(random_, k) for k in range(13)]
    for k in (10, 11, 12):
        numbers[k] = max(1, numbers[k])
    if random_.randrange(8) == 0:  # a square's root: a triangle of 3, 4 and 5
        numbers[3], numbers[4] = 0, 0
        k = random_.randrange(2_000_000)
        numbers[0], numbers[1] = 3 * k, -4 * k
    return numbers


def boundary_cases():
    """Each number at and just beyond each of its limits, and at the ends of 32 bits, beside two plain inputs."""
    for base in ([0, 0, 0, 0, 0, 0, 0, 0, 0, 0, 1, 1, 1], [SPAN, SPAN, HIGH, -SPAN, -SPAN, HIGH, SPAN, SPAN, SPAN, 10_000, 1, 1, 1],
                 [-SPAN, SPAN, LOW, SPAN, -SPAN, HIGH, SPAN, SPAN, SPAN, 10_000, 100_000, 100_000, 100_000]):
        yield base, 72
        for k, (low, high) in enumerate(LIMITS):
            for n in (low - 1, low, low + 1, high - 1, high, high + 1, -1, 0, 1, -2**31, 2**31 - 1):
                numbers = list(base)
                numbers[k] = n
                yield numbers, 72
                for j in (10, 11, 12):  # a limit comes before a speed of 0
                    zero = list(numbers)
                    zero[j] = 0
                    yield zero, 71


def cases(random_, count):
    for numbers, room in boundary_cases():
        yield struct.pack("<13i", *numbers), room
    for length in list(range(0, 60)) + [104, 255, 256, 4096]:
        for room in (0, 71, 72):
            yield random_.randbytes(length), room
    for room in range(0, 100):
        yield struct.pack("<13i", *accepted(random_)), room
    for _ in range(count):
        numbers = accepted(random_)
        way = random_.randrange(10)
        if way == 0:
            numbers[random_.randrange(13)] = random_.randint(-2**31, 2**31 - 1)
        elif way == 1:
            numbers[random_.choice([10, 11, 12])] = 0
        yield struct.pack("<13i", *numbers), random_.choice([72, 72, 72, 73, 100])


def printed(text):
    """The nine numbers in what the tool prints."""
    lines = text.split("\n")
    found = [re.search(r"remainder ([\d,]+); so ([\d,]+) mm", lines[2]).groups()[::-1]]
    found += [re.search(r": ([\d,]+), remainder ([\d,]+)$", line).groups() for line in lines[5:8]]
    found += [re.search(r"= ([\d,]+) mJ$", lines[8]).groups()]
    return [int(number.replace(",", "")) for group in found for number in group]


def compare_tool(path, count):
    sys.dont_write_bytecode = True
    spec = importlib.util.spec_from_file_location("frames", path)
    frames = importlib.util.module_from_spec(spec)
    spec.loader.exec_module(frames)
    random_ = random.Random(20261116)
    for _ in range(count):
        numbers = accepted(random_)
        text = io.StringIO()
        with contextlib.redirect_stdout(text):
            frames.energy_command([f"{name}={n}" for (name, _, _), n in zip(frames.ENERGY_NUMBERS, numbers)])
        if printed(text.getvalue()) != reckoned(numbers)[0]:
            print(f"the tool differs for {numbers}:\n{text.getvalue()}")
            return 1
    print(f"the tool agrees on {count} inputs")
    return 0


def main(words):
    if words[:1] == ["--tool"]:
        return compare_tool(words[1], int(words[2]))
    if words[:1] == ["--one"]:
        sys.stdout.buffer.write(struct.pack("<HH13i", 52, 72, *map(int, words[1:])))
        return 0
    count = int(words[1]) if len(words) > 1 else 20_000
    seed = int(words[2]) if len(words) > 2 else 20261116
    tried = list(cases(random.Random(seed), count))
    stream = b"".join(struct.pack("<HH", len(data), room) + data for data, room in tried)
    said = subprocess.run([words[0]], input=stream, stdout=subprocess.PIPE, check=True).stdout
    at = differ = 0
    answers = {}
    for data, room in tried:
        answer, output = struct.unpack_from("<I", said, at)[0], said[at + 4:at + 5 + room]
        at += 5 + room
        right = due(data, room)
        answers[right[0]] = answers.get(right[0], 0) + 1
        if (answer, output) != right:
            differ += 1
            if differ <= 10:
                print(f"input {data.hex()}, room {room}: {answer} {output.hex()}, right is {right[0]} {right[1].hex()}")
    if at != len(said):
        print(f"the driver wrote {len(said)} bytes, {at} are due")
        differ += 1
    told = ", ".join(f"{n} of {k}" for k, n in sorted(answers.items()))
    print(f"seed {seed}: {len(tried)} calls compared ({told}), {differ} differ")
    if set(answers) != {0, 1, 3, 5, 36, 37}:
        print("not every answer was tried")
        differ += 1
    return 1 if differ else 0


if __name__ == "__main__":
    sys.exit(main(sys.argv[1:]))
