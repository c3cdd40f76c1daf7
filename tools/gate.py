#!/usr/bin/env python3
"""One gate, worked out from docs/GATE.md and docs/PHASES.md, with the sine of the C library.

    python3 tools/gate.py move 1000 1310720 65536 16384 > crates/console_move/stdout
    python3 tools/gate.py tests        the values that crates/gate_tests expects
"""
import math
import sys

END = 2**30
PART = 65536
PLACES = {"complete": 0, "wrap": 1, "reached": 2, "positive": 5, "negative": 6, "error": 7}


def around(x, half):
    while x < -half:
        x += 2 * half
    while x >= half:
        x -= 2 * half
    return x


def signed(x):
    return x - 2**32 if x >= 2**31 else x


def toward(v, goal, by):
    return min(goal, v + by) if goal >= v else max(goal, v - by)


def fits(s, a, d):
    """Whether the stopping distance of s is at most d."""
    while s > 0 and d >= 0:
        d, s = d - s, s - a
    return d >= 0


def fastest(top, a, d):
    low, high = 0, top + 1
    while high - low > 1:
        mid = (low + high) // 2
        low, high = (mid, high) if fits(mid, a, d) else (low, mid)
    return low


def phase(place, power):
    wave = math.floor(32767 * math.sin(2 * math.pi * (place % 256) / 256) + 0.5)
    size = abs(wave) * power // 32767
    return -size if wave < 0 else size


class Gate:
    def __init__(self):
        self.buffered = {"destination": 0, "velocity": 0, "acceleration": 1, "mode": "trapezoidal", "power": 0}
        self.active = dict(self.buffered)
        self.P = self.V = self.actual = self.clock = self.point = self.mask = 0
        self.halted, self.rested, self.auto = False, True, True
        self.condition = "off"
        self.events, self.found = set(), set()
        self.armed = {"positive", "negative"}
        self.lead = 64

    def latch(self):
        self.active = dict(self.buffered)
        if not self.events & {"positive", "negative"}:
            self.halted = False

    def load(self, register, value):
        """Whether the value, as a word or a 32-bit number, is taken."""
        if register in ("destination", "acceleration", "actual"):
            value = signed(value)
            fits = -END <= value < END and not (register == "acceleration" and value == 0)
        else:
            fits = 0 <= value < (END if register == "velocity" else 32768)
        if not fits:
            self.events.add("error")
        elif register == "actual":
            self.actual, self.P, self.V, self.halted = value, PART * value, 0, True
        else:
            self.buffered[register] = value
        return fits

    def keep(self, word):
        self.events = {e for e in self.events if word >> PLACES[e] & 1}

    def new_events(self):
        """The places of the bits that are set and were not at the last collect, the lowest first."""
        return sorted(PLACES[e] for e in self.events - self.found)

    def collect(self):
        self.found = set(self.events)

    def target(self):
        return self.P // PART

    def distance(self):
        return PART * self.active["destination"] - self.P

    def at_rest(self):
        arrived = self.active["mode"] == "trapezoidal" and self.distance() == 0
        return self.V == 0 and (self.halted or self.active["velocity"] == 0 or arrived)

    def status(self, axis=0):
        return sum(1 << PLACES[e] for e in self.events) + (0 if self.at_rest() else 1 << 10) + (axis << 12)

    def calls(self):
        return any(self.mask >> PLACES[e] & 1 for e in self.events)

    def trip(self, side, switches):
        if side in switches and side in self.armed and not self.events & {"positive", "negative"}:
            self.events.add(side)
            self.armed.remove(side)
            self.V, self.halted = 0, True
        if side not in switches:
            self.armed.add(side)

    def holds(self, switches):
        point = signed(self.point)
        return {
            "off": False, "time": self.clock == self.point,
            "target above": self.target() >= point, "target below": self.target() <= point,
            "actual above": self.actual >= point, "actual below": self.actual <= point,
            "complete": "complete" in self.events, "external": "home" in switches,
        }[self.condition]

    def next_velocity(self):
        top, rate = self.active["velocity"], self.active["acceleration"]
        a, d, v = abs(rate), self.distance(), self.V
        if self.halted:
            return 0
        if self.active["mode"] == "velocity":
            return toward(v, -top if rate < 0 else top, a)
        if d == 0 or v * d < 0:
            return toward(v, 0, a)
        speed = max(fastest(min(top, abs(v) + a), a, abs(d)), abs(v) - a)
        return speed if d > 0 else -speed

    def cycle(self, count=0, switches=()):
        self.clock = (self.clock + 1) % 2**32
        self.actual = around(self.actual + count, END)
        self.trip("positive", switches)
        self.trip("negative", switches)
        if self.holds(switches):
            self.condition = "off"
            self.events.add("reached")
            if self.auto:
                self.latch()
        self.V = self.next_velocity()
        there = self.P + self.V
        self.P = around(there, 2**46)
        if self.P != there:
            self.events.add("wrap")
        rest = self.at_rest()
        if rest and not self.rested:
            self.events.add("complete")
        self.rested = rest
        return self.phases()

    def phases(self):
        at = self.target()
        return phase(at, self.active["power"]), phase(at + self.lead, self.active["power"])


def sent(destination, velocity, acceleration, power=0):
    gate = Gate()
    for register, value in (("destination", destination), ("velocity", velocity), ("acceleration", acceleration), ("power", power)):
        assert gate.load(register, value % 2**32), register
    gate.latch()
    return gate


def move(destination, velocity, acceleration, power=16384):
    gate = sent(destination, velocity, acceleration, power)
    print("cycle |    velocity       target | phase A  phase B | gate")
    for _ in range(10000):
        a, b = gate.cycle()
        state = "moving" if not gate.at_rest() else "motion complete" if "complete" in gate.events else "at rest"
        print(f"{gate.clock:>5} | {gate.V:>11}  {gate.target():>11} | {a:>7}  {b:>7} | {state}")
        if gate.at_rest():
            return
    print("still moving after 10000 cycles")


def mixed(sum_, v):
    """A checksum that depends on the order of the velocities."""
    return (sum_ * 31 + v) % 2**32


def long_move(destination, velocity, acceleration, cycles):
    gate, total, done = sent(destination, velocity, acceleration), 0, 0
    for _ in range(cycles):
        gate.cycle()
        total = mixed(total, gate.V)
        if "complete" in gate.events and not done:
            done = gate.clock
    print(f"move to {destination}, velocity {velocity}, acceleration {acceleration}, {cycles} cycles:")
    print(f"    checksum {total}, V {gate.V}, P {gate.P}, complete in cycle {done}, status {gate.status()}")


def rows(title, gate, cycles, **inputs):
    seen = []
    for _ in range(cycles):
        gate.cycle(**inputs)
        seen.append((gate.V, gate.P, gate.status()))
    print(f"{title}: (V, P, status) {seen}")


def tests():
    rows("short", sent(1, 40000, 16384), 4)
    rows("uneven", sent(1, 65536, 65535), 3)
    gate = sent(0, 20000, -16384)
    gate.buffered["mode"] = "velocity"
    gate.latch()
    rows("cruise", gate, 3)
    gate = sent(0, 65536, 65536)
    gate.buffered["mode"] = "velocity"
    gate.load("actual", END - 2)
    gate.latch()
    rows("wrap", gate, 2)
    for case in ((1000, 1310720, 65536, 400), (-12000, 3000000, 40001, 400), (2000, END - 1, -30001, 400)):
        long_move(*case)
    gate = sent(1000, 1310720, 65536)
    gate.cycle()
    rows("both limits", gate, 1, switches=("positive", "negative"))
    print("    armed", gate.armed, "halted", gate.halted)
    gate.latch()
    rows("latched while limited", gate, 1, switches=("positive", "negative"))
    gate.keep(0)
    rows("cleared", gate, 1, switches=("positive", "negative"))
    print("    armed", gate.armed, "halted", gate.halted)
    gate = sent(1, 40000, 16384)
    gate.condition, gate.point = "target above", 1
    rows("breakpoint at 1", gate, 5)
    gate = sent(1, 40000, 16384)
    gate.condition, gate.point, gate.mask = "time", 1, 4
    rows("time 1", gate, 1)
    print("    calls", gate.calls(), "phases", gate.phases())


if __name__ == "__main__":
    if sys.argv[1] == "tests":
        tests()
    else:
        move(*map(int, sys.argv[2:]))
