#!/usr/bin/env python3
"""Searches for a speed, worked out from docs/GATE.md: what each finds, and how many speeds it asks.

    python3 tools/questions.py          how many are asked in moves of real size, as crates/motion's tests expect and docs/SPEED.md tells
    python3 tools/questions.py rows     the rows of single searches that those tests expect
"""
import sys
from collections import Counter

END = 2**30
MASK = 2**64 - 1


def stopping_distance(s, a):
    n = s // a + 1
    return n * s - a * (n * (n - 1) // 2)


def largest(top, a, d):
    """The largest speed up to top that can stop within d."""
    low, high = 0, top + 1
    while high - low > 1:
        middle = (low + high) // 2
        if stopping_distance(middle, a) <= d:
            low = middle
        else:
            high = middle
    return low


def asked(floor, top, a, d):
    """How many speeds a search asks whose guess is the largest speed that is allowed."""
    count = 1
    if stopping_distance(top, a) <= d or top <= floor:
        return count
    low, high, best = floor, top, largest(top, a, d)

    def ask(speed):
        nonlocal low, high, count
        count += 1
        low, high = (speed, high) if speed <= best else (low, speed)
        return speed <= best

    def free():
        return high - low > 1 and high - low <= 2 ** (30 - count)

    if free() and ask(low + 1) and free():
        if ask(min(max(best, low + 1), high - 1)) and free():
            ask(low + 1)
    while high - low > 1:
        ask((low + high) // 2)
    return count


class Rng:
    """Splitmix64."""

    def __init__(self, seed):
        self.state = seed

    def next(self):
        self.state = (self.state + 0x9E3779B97F4A7C15) & MASK
        z = self.state
        z = ((z ^ z >> 30) * 0xBF58476D1CE4E5B9) & MASK
        z = ((z ^ z >> 27) * 0x94D049BB133111EB) & MASK
        return z ^ z >> 31


def moves(seed, count, bits):
    """The searches of moves from rest, each until it arrives or for 4,000 cycles, by how many speeds they ask: 1 to 4, and more."""
    rng, asks = Rng(seed), Counter()
    for _ in range(count):
        top = rng.next() % 2**23 + 1
        a = rng.next() % 2**bits + 1
        left = (rng.next() % 20_000 + 1) * 65_536
        speed = 0
        for _ in range(4_000):
            if left == 0:
                break
            most, least = min(top, speed + a), max(speed - a, 0)
            asks[min(asked(least, most, a, left), 5)] += 1
            speed = max(largest(most, a, left), least)
            left -= speed
    return [asks[k] for k in range(1, 6)]


KINDS = [("accelerations up to 2^12", 1, 200, 12), ("up to 2^16", 2, 200, 16), ("up to 2^26", 3, 2_000, 26)]

ROWS = [
    (1_901, 17_515_529_401_685, 0, END - 1),
    (817, 10_916_795_706_014, 0, END - 1),
    (16_384, 49_152, 5, 40_000),
    (16_384, 49_152, 5, 32_768),
    (16_384, 49_152, 32_768, 40_000),
    (16_384, 49_152, 33_000, 40_000),
    (16_384, 49_152, 41_000, 40_000),
    (16_384, 49_152, 40_000, 40_000),
    (1, 2**47 - 1, 0, END - 1),
    (1, 0, 0, END - 1),
    (1, 0, END - 1, END - 1),
    (END, 700_000_000, 3, END - 1),
    (END, 2**47 - 1, 0, END - 1),
    (END, END - 2, 0, END - 1),
    (END, 1, 0, END - 1),
    (2**26, 2**27 - 1, 2**26 - 1, 3 * 2**26 - 1),
]

# Their answers lie far below the top, where a guess misleads: how many are asked hangs on the guess.
MISLED = [(1_000, 2**40, 5, 400_000_000), (7, 12_345_678_901, 0, 2**29), (2**20, 3 * 2**20, 2, 2**28)]


def main():
    if sys.argv[1:] == ["rows"]:
        for a, d, floor, top in ROWS:
            print(a, d, floor, top, "->", max(largest(top, a, d), floor), asked(floor, top, a, d))
        for a, d, floor, top in MISLED:
            print(a, d, floor, top, "->", max(largest(top, a, d), floor))
        return
    for name, seed, count, bits in KINDS:
        counts = moves(seed, count, bits)
        total = sum(counts)
        shares = " ".join(f"{100 * n / total:.2f} %" for n in counts)
        print(f"{name}: {total} searches, {counts}, {shares}")


main()
