#!/usr/bin/env python3
"""Document 02, L6, reckoned from its words alone: reckon.py SEED COUNT writes that many frames to standard output."""
import struct
import sys


class Draws:
    def __init__(self, seed):
        self.x = seed

    def draw(self):
        self.x = (self.x * 1664525 + 1013904223) % 2**32
        return self.x


def frame(draws, now):
    """The frame of now_ms, each other field one draw in declared order."""
    stamp = lambda: struct.pack("<I", (now - draws.draw() // 2**20) % 2**32)
    flag = lambda: bytes([draws.draw() // 2**31])
    enum = lambda cases: bytes([draws.draw() // 65536 % cases])
    byte = lambda: bytes([draws.draw() // 2**24])
    real = lambda: struct.pack("<f", (draws.draw() // 65536 - 32768) / 8)

    def option(*fields):
        """A flag and its fields: all are drawn, and written as zero where the flag is 0."""
        present = flag()
        value = b"".join(f() for f in fields)
        return present + (value if present == b"\1" else bytes(len(value)))

    body = struct.pack("<I", now)
    body += option(stamp, *[real] * 6)
    body += option(stamp, lambda: enum(3), lambda: option(byte), lambda: option(real))
    for _ in range(3):
        body += option(stamp, real)
    body += option(stamp)
    body += option(stamp, flag)
    body += option(stamp, lambda: enum(5))
    body += option(stamp, flag)
    body += option(stamp, flag)
    return struct.pack("<HH", 2 + len(body), 3) + body


def main():
    seed, count = map(int, sys.argv[1:])
    draws, now = Draws(seed), 0
    for n in range(count):
        if n:
            now = (now + draws.draw() // 2**22) % 2**32
        sys.stdout.buffer.write(frame(draws, now))


main()
