#!/usr/bin/env python3
"""The console's lots and scripts, worked out from docs/BOARD.md, docs/EVENTS.md, docs/SCRIPT.md and docs/CONSOLE.md, over the gate of
gate.py.

    python3 tools/console.py lots > crates/console/stdout
    python3 tools/console.py crates/console_script/data/example.txt > crates/console_script/stdout
    python3 tools/console.py lots|FILE [A,B [ROOM]]      over these stages, with so much room in each event list
"""
import sys

from gate import Gate

STEPS = {"dac": 1, "pwm": 128}
NO_WORDS = {
    "SET_PRFL_TRAP": 0x09, "SET_PRFL_VEL": 0x0A, "STOP": 0x46, "UPDATE": 0x1A, "SET_AUTO_UPDATE_ON": 0x5C, "SET_AUTO_UPDATE_OFF": 0x5D,
    "SET_TIME_BRK": 0x17, "SET_POS_BRK": 0x18, "SET_NEG_BRK": 0x19, "SET_ACTL_POS_BRK": 0x1B, "SET_ACTL_NEG_BRK": 0x1C,
    "SET_MTN_CMPLT_BRK": 0x35, "SET_EXT_BRK": 0x5E, "SET_BRK_OFF": 0x6D, "SET_PHASE_2": 0x74, "SET_PHASE_3": 0x73,
}
TAKES = {
    "SET_BUF_MTR_CMD": (0x77, 1), "SET_MTR_CMD": (0x62, 1), "RST_STATUS": (0x34, 1), "SET_INTRPT_MASK": (0x2F, 1), "MULTI_UPDATE": (0x5B, 1),
    "SET_POS": (0x10, 2), "SET_VEL": (0x11, 2), "SET_ACC": (0x12, 2), "SET_BRK_PNT": (0x16, 2), "SET_ACTL_POS": (0x4D, 2),
}
GIVES = {
    "SET_1": (0x01, 1), "SET_2": (0x02, 1), "SET_I": (0x08, 1), "GET_STATUS": (0x31, 1), "GET_POS": (0x4A, 2), "GET_VEL": (0x4B, 2),
    "GET_ACC": (0x4C, 2), "GET_TRGT_POS": (0x1D, 2), "GET_TRGT_VEL": (0x1E, 2), "GET_ACTL_POS": (0x37, 2), "GET_TIME": (0x3E, 2),
}
UNSIGNED = {"GET_VEL", "GET_TIME", "SET_1", "SET_2", "SET_I", "GET_STATUS"}
CODES = {**NO_WORDS, **{n: c for n, (c, _) in {**TAKES, **GIVES}.items()}}
NAMES = {code: name for name, code in CODES.items()}
CONDITIONS = {
    "SET_TIME_BRK": "time", "SET_POS_BRK": "target above", "SET_NEG_BRK": "target below", "SET_ACTL_POS_BRK": "actual above",
    "SET_ACTL_NEG_BRK": "actual below", "SET_MTN_CMPLT_BRK": "complete", "SET_EXT_BRK": "external", "SET_BRK_OFF": "off",
}
REGISTERS = {"SET_POS": "destination", "SET_VEL": "velocity", "SET_ACC": "acceleration", "SET_ACTL_POS": "actual", "SET_BUF_MTR_CMD": "power"}


class Refused(Exception):
    pass


class Events:
    """An event list, its oldest record first, and the places of the two readers that stand at it."""

    def __init__(self, room):
        self.room, self.records, self.listed = room, [], 0
        self.places = {"panel": 0, "book": 0}

    def add(self, records):
        if len(self.records) + len(records) > self.room:
            raise Refused(10)
        self.records += records
        self.listed += len(records)

    def at(self, place):
        """The record at the place and the next place, or none at the end."""
        oldest = self.listed - len(self.records)
        behind = (place - oldest) % 2**64
        if behind > len(self.records):
            behind = 0
        return (self.records[behind], (oldest + behind + 1) % 2**64) if behind < len(self.records) else None

    def read(self, reader):
        """The reader's next record, or none at the end."""
        record, self.places[reader] = self.at(self.places[reader]) or (None, self.places[reader])
        return record

    def remove(self):
        return self.records.pop(0) if self.records else None


def cut(x, step):
    size = min(abs(x), 32767) // step * step
    return -size if x < 0 else size


class Board:
    def __init__(self, step):
        self.step, self.slips = step, [False, False]
        self.reset()

    def reset(self):
        self.gates, self.current, self.open, self.words = [Gate(), Gate()], 0, None, []
        self.pairs = [(0, 0), (0, 0)]

    def command(self, code):
        if self.open:
            raise Refused(2)
        if code not in NAMES:
            raise Refused(1)
        name = NAMES[code]
        if name in NO_WORDS:
            self.run(name)
        elif name in TAKES:
            self.open, self.words = ("taking", name), []
        else:
            self.open, self.words = ("giving", name), self.answer(name)

    def run(self, name):
        gate = self.gates[self.current]
        if name in CONDITIONS:
            gate.condition = CONDITIONS[name]
        elif name.startswith("SET_PRFL"):
            gate.buffered["mode"] = "velocity" if name.endswith("VEL") else "trapezoidal"
        elif name.startswith("SET_AUTO"):
            gate.auto = name.endswith("ON")
        elif name.startswith("SET_PHASE"):
            gate.lead = 85 if name.endswith("3") else 64
        elif name == "STOP":
            gate.buffered["velocity"] = 0
        else:
            gate.latch()

    def answer(self, name):
        if name == "SET_I":
            calling = [k for k in (0, 1) if self.gates[k].calls()]
            if not calling:
                raise Refused(6)
            self.current = calling[0]
        elif name in ("SET_1", "SET_2"):
            self.current = int(name[-1]) - 1
        gate = self.gates[self.current]
        if GIVES[name][1] == 1:
            return [gate.status(self.current)]
        value = {
            "GET_POS": gate.buffered["destination"], "GET_VEL": gate.buffered["velocity"], "GET_ACC": gate.buffered["acceleration"],
            "GET_TRGT_POS": gate.target(), "GET_TRGT_VEL": gate.V, "GET_ACTL_POS": gate.actual, "GET_TIME": gate.clock,
        }[name] % 2**32
        return [value >> 16, value % 65536]

    def write(self, word):
        if not self.open or self.open[0] != "taking":
            raise Refused(3)
        name = self.open[1]
        self.words.append(word)
        if len(self.words) < TAKES[name][1]:
            return
        value = 0
        for w in self.words:
            value = value * 65536 + w
        self.open, self.words = None, []
        if not self.finish(name, value):
            raise Refused(5)

    def finish(self, name, value):
        gate = self.gates[self.current]
        if name == "MULTI_UPDATE":
            for k in (0, 1):
                if value < 4 and value >> k & 1:
                    self.gates[k].latch()
            return value < 4
        if name == "RST_STATUS":
            gate.keep(value)
        elif name == "SET_INTRPT_MASK":
            gate.mask = value
        elif name == "SET_BRK_PNT":
            gate.point = value
        elif name == "SET_MTR_CMD":
            if not gate.load("power", value):
                return False
            gate.active["power"] = value
        else:
            return gate.load(REGISTERS[name], value)
        return True

    def read(self):
        if not self.open or self.open[0] != "giving":
            raise Refused(4)
        word = self.words.pop(0)
        if not self.words:
            self.open = None
        return word

    def cycle(self, inputs):
        self.pairs = [tuple(cut(x, self.step) for x in gate.cycle(*i)) for gate, i in zip(self.gates, inputs)]

    def take(self):
        for k in (0, 1):
            if self.gates[k].calls() and not self.slips[k]:
                self.slips[k] = True
                return k + 1
        raise Refused(6)

    def close(self, gate, word):
        if not self.slips[gate - 1]:
            return False
        self.slips[gate - 1] = False
        self.gates[gate - 1].keep(word)
        return True

    def collect(self, gate, events):
        if gate not in (1, 2):
            raise Refused(5)
        asked, new = self.gates[gate - 1], []
        for place in asked.new_events():
            newest = (events.records + new)[-1:]
            if not newest or newest[0][:2] != (gate, place):
                new.append((gate, place, asked.clock))
        events.add(new)
        asked.collect()

    def packet(self, name, value=0):
        """The whole packet of a mnemonic, up to its end or first refusal."""
        self.command(CODES[name])
        if name in TAKES:
            for place in range(TAKES[name][1] - 1, -1, -1):
                self.write(value >> 16 * place & 0xFFFF)
        if name not in GIVES:
            return "ok"
        value = 0
        for _ in range(GIVES[name][1]):
            value = value * 65536 + self.read()
        if name not in UNSIGNED and value >= 2**31:
            value -= 2**32
        return f"value {value}"

    def shown(self):
        return "pairs " + " ".join(f"{a} {b}" for a, b in self.pairs)

    def wires(self):
        """What the make has on its wires: words of a DAC, a sign and a magnitude for each phase of a PWM."""
        phases = [x for pair in self.pairs for x in pair]
        codes = [str(x + 32768) for x in phases] if self.step == 1 else [f"{'-' if x < 0 else '+'}{abs(x) // 128}" for x in phases]
        return "wires " + " ".join(codes)


def number(text):
    return int(text[2:], 16) if text.startswith("0x") else int(text)


def switches(letters):
    return [name for name in ("positive", "negative", "home") if name[0] in letters]


def told(record, *more):
    return " ".join(str(x) for x in ("event", *record, *more)) if record else "none"


def played(board, events, words):
    verb, rest = words[0], words[1:]
    if verb == "command":
        board.command(CODES[rest[0]] if rest[0] in CODES else number(rest[0]))
    elif verb == "write":
        board.write(number(rest[0]) % 65536)
    elif verb == "read":
        return f"word {board.read()}"
    elif verb in ("cycle", "run", "pairs"):
        turns = {"cycle": 1, "pairs": 0}.get(verb) if verb != "run" else number(rest[0])
        inputs = [(number(rest[i]), switches(rest[i + 1])) for i in (0, 2)] if len(rest) == 4 else [(0, ()), (0, ())]
        for _ in range(turns):
            board.cycle(inputs)
        return board.shown()
    elif verb == "wires":
        return board.wires()
    elif verb == "reset":
        board.reset()
    elif verb == "take":
        return f"slip {board.take()}"
    elif verb == "close":
        return "ok" if board.close(int(rest[0]), number(rest[1]) % 65536) else "no slip"
    elif verb == "collect":
        board.collect(number(rest[0]), events)
    elif verb in ("panel", "book"):
        return told(events.read(verb))
    elif verb == "event":
        record, following = events.at(number(rest[0])) or (None, None)
        return told(record, "next", following)
    elif verb == "remove":
        return told(events.remove())
    else:
        return board.packet(verb, number(rest[0]) % 2**32 if rest else 0)
    return "ok"


def sides(stages, room):
    """Each board with its own event list, by its letter."""
    return {side: (Board(STEPS[make]), Events(room)) for side, make in zip("ab", stages.split(","))}


def play(path, stages, room):
    boards, at = sides(stages, room), "a"
    for line in open(path):
        words = line.split("#")[0].split()
        if not words:
            continue
        if words[0] == "board":
            at = words[1]
            continue
        try:
            print(played(*boards[at], words))
        except Refused as refusal:
            print(f"refused {refusal}")


LOTS_ONE = [(1200, 1310720, 65536, 20), (333, 983040, 40000, 170), (-77, 2000000, 123456, 340)]
LOTS_TWO = [(700, 655360, 32768, 5), (1900, 1966080, 65536, 165), (40, 3000000, 200000, 325)]
HEADING = "destination  velocity  acceleration  latched   moves    rests    target"
EVENT_NAMES = {
    0: "motion complete", 1: "wrap-around", 2: "breakpoint reached", 5: "positive limit", 6: "negative limit", 7: "command error",
}


def tell(board, answers, packets):
    for name, *value in packets:
        try:
            answers.append(board.packet(name, *[v % 2**32 for v in value]))
        except Refused as refusal:
            answers.append(f"refused {refusal}")


def collected(board, events, answers, gate):
    try:
        board.collect(gate, events)
        answers.append("ok")
    except Refused as refusal:
        answers.append(f"refused {refusal}")


def ordered(board, events, answers, gate, lot):
    destination, velocity, acceleration, start = lot
    registers = [("SET_POS", destination), ("SET_VEL", velocity), ("SET_ACC", acceleration), ("SET_BRK_PNT", start)]
    tell(board, answers, [(f"SET_{gate}",), ("RST_STATUS", 0), *registers, ("SET_TIME_BRK",)])
    collected(board, events, answers, gate)


def noted(seen, gate):
    if gate.V and seen[0] is None:
        seen[0] = gate.clock
    if not gate.V and seen[0] is not None and seen[1] is None:
        seen[1] = gate.clock
    seen[2] = gate.target()


def read_on(events, reader, most):
    return [record for record in (events.read(reader) for _ in range(most)) if record]


def worked(board, events, two_works):
    answers, rows, panel = ([], []), ([], []), []
    tell(board, answers[0], [("SET_1",), ("SET_MTR_CMD", 20000), ("SET_INTRPT_MASK", 1)])
    if two_works:
        tell(board, answers[1], [("SET_2",), ("SET_MTR_CMD", 12000), ("SET_INTRPT_MASK", 0)])
    for lots in zip(LOTS_ONE, LOTS_TWO):
        seen = [[None, None, 0], [None, None, 0]]
        for k in range(1 + two_works):
            ordered(board, events, answers[k], k + 1, lots[k])
        for _ in range(160):
            board.cycle([(max(-32768, min(32767, g.target() - g.actual)), ()) for g in board.gates])
            for k in (0, 1):
                noted(seen[k], board.gates[k])
        for k in range(1 + two_works):
            collected(board, events, answers[k], k + 1)
        panel.append(len(read_on(events, "panel", 8)))
        gate = board.take()
        answers[0].append(f"slip {gate}")
        answers[0].append("ok" if board.close(gate, 0xFFFE) else "no slip")
        for k in (0, 1):
            rows[k].append((lots[k], seen[k]))
    return answers[0], rows, panel


def show(gate, rows):
    print(f"gate {gate}   {HEADING}")
    for (destination, velocity, acceleration, start), (moves, rests, target) in rows:
        print(f"      {destination:>11}  {velocity:>8}  {acceleration:>12}  {start:>7}{moves:>8} {rests:>8}  {target:>8}")


def show_events(events, panel):
    print("panel    events read after each lot:", *panel)
    print("book     gate  event                    clock")
    for gate, place, clock in read_on(events, "book", len(events.records)):
        print(f"         {gate:>4}  {EVENT_NAMES[place]:<18}  {clock:>10}")
    while events.remove():
        pass


def lots(stages, room):
    (a, events), (b, others) = sides(stages, room).values()
    one, rows, panel = worked(a, events, True)
    again, more, other_panel = worked(b, others, False)
    first, second = stages.split(",")
    print(f"board a, over {first}: lots through both gates")
    show(1, rows[0])
    show(2, rows[1])
    show_events(events, panel)
    print(f"board b, over {second}: the same lots through gate 1, gate 2 idle")
    show(1, more[0])
    show_events(others, other_panel)
    print("the two boards compared")
    print(f"gate 1: {sum(x == y for x, y in zip(one, again))} of {len(one)} answers alike")
    for k in (0, 1):
        same = vars(a.gates[k]) == vars(b.gates[k]) and a.slips[k] == b.slips[k]
        apart = [abs(x - y) for x, y in zip(a.pairs[k], b.pairs[k])]
        print(f"gate {k + 1}: records {'equal' if same else 'not equal'}, phases {apart[0]} and {apart[1]} apart")


if __name__ == "__main__":
    task, stages, room = sys.argv[1:] + ["dac,pwm", "64"][len(sys.argv) - 2 :]
    if task == "lots":
        lots(stages, int(room))
    else:
        play(task, stages, int(room))
