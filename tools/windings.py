#!/usr/bin/env python3
"""What `./run --windings KIND POWER` must print, worked out from docs/ with the sine of the C library.

    python3 tools/windings.py three-phase 32767 > crates/console_windings/stdout
"""
import math
import sys

kind, power = sys.argv[1], int(sys.argv[2])
lead = {"two-phase": 64, "three-phase": 85}[kind]


def toward_zero(n, d):
    return n // d if n >= 0 else -(-n // d)


def phase(place):
    # half a unit decides the rounding, and no place comes near a half
    wave = math.floor(32767 * math.sin(2 * math.pi * (place % 256) / 256) + 0.5)
    return toward_zero(wave * power, 32767)


def cut(step, x):
    return toward_zero(max(-32767, min(32767, x)), step) * step


def line(x):
    return f"{'-' if x < 0 else '+'}{abs(x) // 128}"


print("pos | phase A  phase B |  DAC A   DAC B  words       |  PWM A   PWM B  lines")
for position in range(256):
    a, b = phase(position), phase(position + lead)
    da, db = cut(1, a), cut(1, b)
    pa, pb = cut(128, a), cut(128, b)
    # the wiring negates phase A and exchanges the two
    la, lb = line(pb), line(cut(128, -a))
    print(f"{position:>3} | {a:>7}  {b:>7} | {da:>6}  {db:>6}  {da + 32768:>5} {db + 32768:>5} | "
          f"{pa:>6}  {pb:>6}  {la:<4} {lb}")
