#!/usr/bin/env python3
"""Plays random scripts, many of their lines damaged, by the console and by the boards of console.py, and compares every answer, which lines
are reported and the status. The stages and the room in the event lists are drawn too. Lines are told apart here by docs/SCRIPT.md alone.

    python3 tools/scripts.py [SCRIPTS [SEED]]      after one ./run, which builds the console
    python3 tools/scripts.py FILE [A,B [ROOM]]     prints what is to be answered to one script, over dac,pwm or these stages
                                                   and with room for 64 events in each list, or so many
    python3 tools/scripts.py crates/console_faults/data/faults.txt pwm,dac > crates/console_faults/stdout
"""
import os
import random
import re
import subprocess
import sys

from console import CODES, TAKES, Refused, played, sides

CONSOLE = os.path.join(os.path.dirname(os.path.dirname(os.path.abspath(__file__))), "crates", "console", "out", "console")
EDGES = {1: (-32768, -1, 0, 1, 3, 4, 127, 32767, 32768, 65535), 2: (-(2**31), -(2**30) - 1, -(2**30), -1, 0, 1, 40000, 65536, 2**30 - 1, 2**30, 2**32 - 1)}
BAD = ("", "x", "0x", "-0x1", "0x+1", "+-1", "--1", "1.0", "1e3", "4294967296", "-2147483649", "99999999999999999999", "０", "a", "b", "-", "pn", "#", "SET_pos",
       "256", "18446744073709551616")
ALONE = ("read", "reset", "take", "panel", "book", "remove", "pairs", "wires")
VERBS = ("board", "command", "write", "cycle", "run", "close", "collect", "event", *ALONE, *CODES)
OFTEN = ("cycle", "run", "take", "close", "command", "write", "read", "wires")
LISTS = ("collect", "collect", "collect", "panel", "book", "event", "remove", "cycle", "RST_STATUS")
ODD_GATES = (0, 3, 10, 127, 128, 255, 256, 257, 65537, -1, 2**32 + 1, 2**64 + 1)
# lines that set an event bit of the current gate, one of each kind
EVENTS = (
    ("SET_ACTL_POS 0", "SET_POS 1", "SET_VEL 65536", "SET_ACC 65536", "SET_PRFL_TRAP", "UPDATE", "run 4"),
    ("SET_ACTL_POS 1073741823", "SET_VEL 65536", "SET_ACC 65536", "SET_PRFL_VEL", "UPDATE", "run 2"),
    ("SET_EXT_BRK", "cycle 0 h 0 h"), ("cycle", "cycle 0 p 0 p"), ("cycle", "cycle 0 n 0 n"), ("SET_POS 1073741824",),
)
FAR_PLACES = (2**32, 2**63 - 1, 2**63, 2**64 - 2, 2**64 - 1, 2**64, 2**64 + 1, 10**30, -1, -(2**63), -(2**64))


def number(text):
    """The number that a word writes, or none."""
    if re.fullmatch(r"0x[0-9a-fA-F]+", text):
        return int(text[2:], 16)
    return int(text) if re.fullmatch(r"[+-]?[0-9]+", text) else None


def within(text, low, high):
    value = number(text)
    return value is not None and low <= value <= high


def word(text):
    return within(text, -32768, 65535)


def inputs(rest):
    return all(within(rest[i], -32768, 32767) and re.fullmatch(r"-|[pnh]+", rest[i + 1]) for i in (0, 2))


def readable(words):
    """Whether the words are a line of a script."""
    verb, *rest = words
    if verb in TAKES:
        low, high = ((-32768, 65535), (-(2**31), 2**32 - 1))[TAKES[verb][1] - 1]
        return len(rest) == 1 and within(rest[0], low, high)
    return {
        "board": lambda: rest in (["a"], ["b"]),
        "command": lambda: len(rest) == 1 and (rest[0] in CODES or within(rest[0], 0, 255)),
        "write": lambda: len(rest) == 1 and word(rest[0]),
        "cycle": lambda: not rest or len(rest) == 4 and inputs(rest),
        "run": lambda: len(rest) == 1 and within(rest[0], 0, 2**32 - 1),
        "close": lambda: len(rest) == 2 and rest[0] in ("1", "2") and word(rest[1]),
        "collect": lambda: len(rest) == 1 and within(rest[0], 0, 255),
        "event": lambda: len(rest) == 1 and within(rest[0], 0, 2**64 - 1),
    }.get(verb, lambda: not rest and (verb in CODES or verb in ALONE))()


def written(rng, value):
    if value < 0:
        return str(value)
    return rng.choice((str(value), f"+{value}", f"0{value}" if value else "-0", hex(value), f"0x{value:X}", f"0x{value:024x}"))


def value(rng, width):
    return written(rng, rng.choice(EDGES[width]) if rng.random() < 0.5 else rng.randrange(100_000))


def good(rng):
    """A line as it should be."""
    verb = rng.choice(rng.choices((VERBS, OFTEN, LISTS), (5, 2, 3))[0])
    if verb == "RST_STATUS" and rng.random() < 0.5:
        return [verb, "0"]
    if verb in TAKES:
        return [verb, value(rng, TAKES[verb][1])]
    if verb == "command":
        return [verb, rng.choice((rng.choice(list(CODES)), written(rng, rng.randrange(256))))]
    if verb == "cycle" and rng.random() < 0.7:
        return [verb, *(w for _ in (1, 2) for w in (written(rng, rng.choice((-32768, -5, 0, 7, 32767))), rng.choice(("-", "p", "n", "h", "pn", "hp", "pnh"))))]
    more = {"board": lambda: [rng.choice("ab")], "write": lambda: [value(rng, 1)], "run": lambda: [str(rng.randrange(60))],
            "close": lambda: [rng.choice(("1", "2", "1", "2", "+1", "0x2", "01")), value(rng, 1)],
            "collect": lambda: [written(rng, rng.choice((1, 2)) if rng.random() < 0.8 else rng.choice(ODD_GATES))],
            "event": lambda: [written(rng, rng.randrange(20) if rng.random() < 0.7 else rng.choice(FAR_PLACES))]}
    return [verb, *more.get(verb, list)()]


def damaged(rng, words):
    """The line with one thing wrong, as it may be."""
    words, at = list(words), rng.randrange(len(words))
    how = rng.randrange(5)
    if how == 0:
        del words[at]
    elif how == 1:
        words.insert(at + 1, rng.choice(BAD))
    elif how == 2:
        words[at] = rng.choice(BAD)
    elif how == 3:
        words[at] = words[at].swapcase()
    else:
        words[at] = words[at][: rng.randrange(len(words[at]) + 1)]
    return words


def happening(rng):
    """Lines by which an event of a gate comes and is collected, but for a few; or comes twice, so that a record is repeated."""
    gate = rng.choice("12")
    lines = (f"SET_{gate}", "RST_STATUS 0", f"collect {gate}", *rng.choice(EVENTS), f"collect {gate}")
    return [line.split() for line in lines * rng.choice((1, 1, 2)) if rng.random() < 0.9]


def script(rng):
    lines, damage = [], rng.choice((0, 0.25, 0.5))
    drawn = (words for _ in range(rng.randrange(1, 120)) for words in (happening(rng) if rng.random() < 0.05 else [good(rng)]))
    for words in drawn:
        if rng.random() < damage:
            words = damaged(rng, words)
        # a run of many cycles would only take long
        if words[:1] == ["run"] and words[1:] and (number(words[1]) or 0) > 1000 and readable(words):
            continue
        lines.append(rng.choice((" ", "\t", "  ")).join(words) + rng.choice(("", "", " # note", "#")))
    return lines


def call(rng):
    """The words of a call of the console, and the stages and the room that it has by them."""
    room = rng.choice((0, 1, 1, 2, 2, 3, rng.randrange(4, 20), 64, 65535))
    options = {"--stages": ",".join(rng.choices(("dac", "pwm"), k=2)), "--events": str(room)}
    said = {name: options[name] for name in rng.sample(list(options), rng.choice((0, 1, 2, 2, 2)))}
    has = {"--stages": "dac,pwm", "--events": "64", **said}
    return [word for option in said.items() for word in option], has["--stages"], int(has["--events"])


def expected(lines, stages="dac,pwm", room=64):
    """What is to be answered, and which lines cannot be read."""
    boards, at, answers, faults = sides(stages, room), "a", [], []
    for n, line in enumerate(lines, 1):
        words = line.split("#")[0].split()
        if not words:
            continue
        if not readable(words):
            faults.append(n)
        elif words[0] == "board":
            at = words[1]
        else:
            try:
                answers.append(played(*boards[at], [w.lstrip("+") for w in words]))
            except Refused as refusal:
                answers.append(f"refused {refusal}")
    return answers, faults


def main():
    if sys.argv[1:] and os.path.exists(sys.argv[1]):
        print("\n".join(expected(open(sys.argv[1]).read().splitlines(), *sys.argv[2:3], *map(int, sys.argv[3:4]))[0]))
        return 0
    count, seed = [int(word) for word in sys.argv[1:3]] + [300, 1][len(sys.argv) - 1 :]
    rng = random.Random(seed)
    lines_played = lines_faulty = 0
    for n in range(count):
        lines = script(rng)
        words, stages, room = call(rng)
        answers, faults = expected(lines, stages, room)
        if not any(line.split("#")[0].split() for line in lines):
            continue
        done = subprocess.run([CONSOLE, *words, "-"], input="\n".join(lines), capture_output=True, text=True)
        told = [int(m) for m in re.findall(r"^line (\d+): expected ", done.stderr, re.M)]
        if (done.stdout.splitlines(), told, done.returncode) != (answers, faults, 1 if faults else 0):
            print("\n".join(lines))
            print(f"script {n}, played with {words}, differs: {done.stdout.splitlines()} {told} {done.returncode}, not {answers} {faults}")
            return 1
        lines_played += len(answers)
        lines_faulty += len(faults)
    print(f"{count} scripts, {lines_played} answers, {lines_faulty} lines that cannot be read; no difference")
    return 0


if __name__ == "__main__":
    sys.exit(main())
