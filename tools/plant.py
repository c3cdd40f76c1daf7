#!/usr/bin/env python3
"""Plants the bugs of tools/plants.txt one at a time, and says whether the check refuses each.

    python3 tools/plant.py                     all of them
    python3 tools/plant.py board wiring_undo   those of some crates, or by their labels
    python3 tools/plant.py --room DIR ..       in a folder that is kept, with what each check said in DIR/said

It works in a copy of the repository; run `rt all check` first, since the copy takes over what each crate's out/ has of earlier checks.
"""
import os
import re
import shutil
import subprocess
import sys
import tempfile

ROOT = os.path.dirname(os.path.dirname(os.path.abspath(__file__)))
LOST_NAME = re.compile(r"that can be named from here|has no field|not in scope")


def plants(path):
    """The edits of the list: a blank line ends each, and \\n in a text is a new line."""
    found = []
    for block in open(path, encoding="utf-8").read().split("\n\n"):
        plant = {"pairs": []}
        for line in block.splitlines():
            key, _, text = line.partition(": ")
            if key == "old":
                plant["pairs"].append([text.replace("\\n", "\n"), ""])
            elif key == "new":
                plant["pairs"][-1][1] = text.replace("\\n", "\n")
            elif key in ("label", "crate", "file", "note"):
                plant[key] = text
        if "label" in plant:
            found.append(plant)
    return found


def edited(text, pairs):
    for old, new in pairs:
        if text.count(old) != 1:
            return None
        text = text.replace(old, new)
    return text


def first_loss(said):
    """The function and the goal that were lost first, and whether a fact is lost, or only a name of a proof file, or the code has a form with no proof."""
    lost = re.findall(r"^(fn|struct|enum|impl) (\S+): (?:no proof|not proved)(.*)$", said, re.M)
    for _, function, why in sorted(lost, key=lambda one: one[0] != "fn"):
        if re.search(r"which (?:is|are) not proved", why):
            continue
        if "does not cover" in why:
            return function, "", "form"
        open_goal = re.search(r"^note: \S+: it is not proved .*?\(`([^`]*)`\)", said, re.M)
        error = re.search(r"^\S+: error: `([^`]*)`: (.*)$", said, re.M)
        if error:
            return function, error.group(1), "name" if LOST_NAME.search(error.group(2)) else "fact"
        return function, open_goal.group(1) if open_goal else "", "fact"
    return "", "", ""


def check(room, crate):
    done = subprocess.run(["rt", "check"], cwd=os.path.join(room, "crates", crate), capture_output=True, text=True)
    said = done.stdout + done.stderr
    if done.returncode == 1 and re.search(r"^logic=not-proved", said, re.M):
        function, goal, kind = first_loss(said)
        if function:
            return "refused", function, goal, kind, said
    if done.returncode == 0 and re.search(r"^logic=proved", said, re.M):
        return "SURVIVED", "", "", "", said
    return "bad edit", "", "", "", said


def tried(room, plant):
    path = os.path.join(room, "crates", plant["crate"], plant["file"])
    before = open(path, encoding="utf-8").read()
    after = edited(before, plant["pairs"])
    if after is None:
        return "bad edit", "", "", "", "an old text does not stand in the file once"
    with open(path, "w", encoding="utf-8") as f:
        f.write(after)
    try:
        return check(room, plant["crate"])
    finally:
        with open(path, "w", encoding="utf-8") as f:
            f.write(before)


def main():
    words = sys.argv[1:]
    kept = words[1] if words[:1] == ["--room"] else None
    words = words[2:] if kept else words
    room = kept or tempfile.mkdtemp(prefix="plant-")
    for part in ("crates", "crates.txt"):
        there, here = os.path.join(ROOT, part), os.path.join(room, part)
        shutil.rmtree(here, ignore_errors=True)
        shutil.copytree(there, here) if os.path.isdir(there) else shutil.copy(there, here)
    os.makedirs(os.path.join(room, "said"), exist_ok=True)
    chosen = [p for p in plants(os.path.join(ROOT, "tools", "plants.txt")) if not words or p["crate"] in words or p["label"] in words]
    count = {"refused": 0, "SURVIVED": 0, "bad edit": 0}
    print("| label | crate | outcome | lost first | goal | what is lost |")
    print("|---|---|---|---|---|---|")
    for plant in chosen:
        outcome, function, goal, kind, said = tried(room, plant)
        count[outcome] += 1
        with open(os.path.join(room, "said", plant["label"]), "w", encoding="utf-8") as f:
            f.write(said)
        print(f"| {plant['label']} | {plant['crate']} | {outcome} | {function} | {goal} | {kind} |", flush=True)
    if not kept:
        shutil.rmtree(room)
    print(f"{len(chosen)} planted: {count['refused']} refused, {count['SURVIVED']} survived, {count['bad edit']} bad edits")
    return 0 if count["refused"] == len(chosen) else 1


if __name__ == "__main__":
    sys.exit(main())
