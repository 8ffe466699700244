#!/usr/bin/env python3
"""Measures what `best` and `compose` come to with the usual budget.

    python3 bench/best.py [PROGRAM] [--only WORD] [--limit SECONDS] [--at-once N]

Run it at the top of the repository once the program is built; PROGRAM is crates/fux/out/fux if it
isn't named. Each exercise is a row: what `compose` finds and what `best` finds, the processor
seconds of each whole process, and the most memory that it held, as /usr/bin/time tells them.
Then come a row for each group, and the exercises in which `compose` ends and `best` takes longer.
The status is 1 where `best` and `compose` find different penalties.
"""
import argparse
import collections
import concurrent.futures
import glob
import os
import re
import subprocess
import sys
import tempfile

TOP = os.path.dirname(os.path.dirname(os.path.abspath(__file__)))

# the cantus firmi of drills 1 to 5, of bench/long.fux, and of eleven bars and fewer
DRILLS = (
    "D4 F4 D4 F4 D4 E4 F4 G4 A4 F4 E4 F4 G4 A4 F4 D4 F4 E4 D4 E4 F4 G4 E4 D4",
    "D4 F4 D4 E4 F4 E4 G4 E4 G4 E4 G4 E4 G4 F4 E4 F4 A4 F4 A4 F4 E4 D4 E4 D4",
    "D4 F4 D4 E4 D4 E4 G4 E4 F4 G4 E4 G4 A4 G4 E4 G4 E4 G4 E4 G4 E4 G4 E4 D4",
    "D4 F4 D4 E4 G4 F4 E4 D4 F4 A4 G4 A4 G4 F4 E4 D4 E4 F4 G4 F4 E4 G4 E4 D4",
    "D4 F4 D4 E4 F4 G4 A4 G4 F4 E4 D4 E4 G4 E4 F4 G4 A4 F4 D4 F4 A4 G4 E4 D4",
)
LONG = "D4 F4 D4 F4 E4 D4 E4 G4 E4 F4 G4 E4 G4 A4 G4 E4 G4 E4 G4 E4 G4 E4 E4 D4"
LOW = {
    6: "D3 F3 E3 G3 E3 D3",
    8: "D3 F3 E3 G3 F3 G3 E3 D3",
    11: "D3 F3 E3 D3 G3 F3 A3 G3 F3 E3 D3",
}
INNER = {
    6: "D4 F4 E4 G4 E4 D4",
    8: "D4 F4 E4 G4 F4 F4 E4 D4",
    10: "D4 F4 E4 D4 G4 F4 A4 G4 E4 D4",
    11: "D4 F4 E4 D4 G4 F4 A4 G4 F4 E4 D4",
    16: "D4 F4 E4 D4 G4 F4 A4 G4 F4 E4 D4 F4 G4 F4 E4 D4",
    24: LONG,
}

Exercise = collections.namedtuple("Exercise", "group name text others")
Run = collections.namedtuple("Run", "status penalty seconds megabytes")


def text_of(voices, cantus_voice, cantus, species, species_voice, ranges):
    """A note text in the dorian mode."""
    lines = ["fux 1", "mode dorian", f"voices {voices}", f"bars {len(cantus.split())}"]
    lines += [f"species {species} voice {species_voice}", f"cantus {cantus_voice} {cantus}"]
    return "\n".join([*lines, *(f"range {it}" for it in ranges), ""])


def two_voices(species, cantus, top):
    return text_of(2, 0, cantus, species, 1, [f"1 {top}"])


def three_voices(species, cantus, ranges):
    return text_of(3, 0, cantus, species, 2, ranges)


def four_voices(species, bars):
    return text_of(4, 1, INNER[bars], species, 3, ["0 A2 D4", "2 A4 F5", "3 D5 C6"])


def exercises():
    """All that is measured."""
    narrow, wide = ["1 A3 F4", "2 F4 D5"], ["1 A3 F5", "2 F4 D6"]
    for species in range(1, 6):
        for path in sorted(glob.glob(os.path.join(TOP, "examples", "gradus", "*.fux"))):
            with open(path, encoding="utf-8") as it:
                text = re.sub(r"(?m)^species \d", f"species {species}", it.read())
            name = os.path.basename(path)[:-4]
            yield Exercise(f"Gradus, species {species}", f"{name} {species}", text, None)
        for number, cantus in enumerate(DRILLS, 1):
            text = two_voices(species, cantus, "F4 F5")
            yield Exercise(f"drills, species {species}", f"drill {number} {species}", text, None)
    for species in range(1, 6):
        text = three_voices(species, LOW[11], narrow)
        yield Exercise("three voices, 11 bars", f"three voices, 11 bars {species}", text, None)
        text = three_voices(species, LONG, wide)
        yield Exercise("three voices, 24 bars", f"three voices, 24 bars {species}", text, None)
    for bars, kinds in ((6, (2, 3, 4, 5)), (8, (1, 2, 3, 4, 5)), (10, (1,)), (11, (1, 2, 3, 4, 5)),
                        (16, (1,)), (24, (1,))):
        for species in kinds:
            name = f"four voices, {bars} bars {species}"
            yield Exercise(f"four voices, {bars} bars", name, four_voices(species, bars), None)
    for bars in (6, 8, 11):
        third = (3, 5) if bars == 6 else (4, 2)
        for species, other in ((2, 4), (3, 2), third, (5, 2)):
            name = f"mixed, {bars} bars, {species} and {other}"
            text = three_voices(species, LOW[bars], narrow)
            yield Exercise(f"mixed, {bars} bars", name, text, f"1:{other}")


def run(program, limit, words):
    """A whole process. It is begun by a small one, since what its parent held counts as its own."""
    with tempfile.NamedTemporaryFile("r") as told:
        timed = ("/usr/bin/time", "-q", "-f", "%U %S %M", "-o", told.name)
        ran = subprocess.run((*timed, "timeout", str(limit), program, *words),
                             capture_output=True, text=True, check=False)
        user, system, kilobytes = told.read().split()[-3:]
    found = re.search(r"penalty (\d+)|at least (\d+)", ran.stdout + ran.stderr)
    number = found and (found[1] or found[2])
    said = {0: number, 1: "none", 6: f"spent at {number}", 124: f"not ended after {limit} s"}
    status = said.get(ran.returncode, f"status {ran.returncode}")
    penalty = status if ran.returncode in (0, 1) else None
    return Run(status, penalty, float(user) + float(system), int(kilobytes) / 1024)


def runs_of(program, limit, folder, number, exercise):
    """What `compose` and `best` come to."""
    path = os.path.join(folder, f"{number}.fux")
    with open(path, "w", encoding="utf-8") as it:
        it.write(exercise.text)
    if exercise.others:
        words = ["mixed", path, "--with", exercise.others]
        return run(program, limit, words), run(program, limit, [*words, "--best"])
    return run(program, limit, ["compose", path]), run(program, limit, ["best", path])


def report(rows):
    """Writes the tables, and tells in how many exercises the penalties differ."""
    print("| Exercise | `compose` | Time, s | Memory, MB | `best` | Time, s | Memory, MB |")
    print("|---|---|---|---|---|---|---|")
    groups = collections.defaultdict(list)
    for exercise, usual, sharp in rows:
        cells = [f"{it.status} | {it.seconds:.2f} | {it.megabytes:.0f}" for it in (usual, sharp)]
        print(f"| {exercise.name} | {cells[0]} | {cells[1]} |")
        groups[exercise.group].append(sharp)
    print("\n| Exercises | Found by `best` | Time, s | Memory, MB |\n|---|---|---|---|")
    for group, ran in groups.items():
        found = sum(it.penalty is not None for it in ran)
        print(f"| {group} | {found} of {len(ran)} | up to {max(it.seconds for it in ran):.2f} "
              f"| up to {max(it.megabytes for it in ran):.0f} |")
    print("\nWhere `compose` ends and `best` takes more than 0.05 s and more than `compose`:")
    for exercise, usual, sharp in rows:
        if usual.penalty and sharp.seconds > max(0.05, usual.seconds):
            print(f"{exercise.name}: {sharp.seconds:.2f} s for {usual.seconds:.2f} s")
    return sum(bool(usual.penalty) and usual.penalty != sharp.penalty for _, usual, sharp in rows)


def main():
    words = argparse.ArgumentParser(description="Measures `best` and `compose`.")
    words.add_argument("program", nargs="?", default=os.path.join(TOP, "crates/fux/out/fux"))
    words.add_argument("--only", default="")
    words.add_argument("--limit", type=int, default=110)
    words.add_argument("--at-once", type=int, default=3)
    asked = words.parse_args()
    some = [it for it in exercises() if asked.only in it.group]
    with tempfile.TemporaryDirectory() as folder, \
            concurrent.futures.ThreadPoolExecutor(asked.at_once) as threads:
        begun = [threads.submit(runs_of, asked.program, asked.limit, folder, number, it)
                 for number, it in enumerate(some)]
        rows = [(it, *each.result()) for it, each in zip(some, begun)]
    return 1 if report(rows) else 0


if __name__ == "__main__":
    sys.exit(main())
