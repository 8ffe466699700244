#!/usr/bin/env python3
"""Reads sheets back that `fux toxml` and `fux markxml` wrote, and compares them with their note texts.

    read_sheets.py EX FILE [EX FILE ..]
    read_sheets.py --all FUX FOLDER [SCHEMA]

EX is a note text. FILE is the document that was made of it, what a score editor wrote after reading
that document (`musescore3 -o again.musicxml x.musicxml`), or a MIDI file that one made of it. For each
pair a line says `same`, or the first difference. Of MusicXML notes, lengths, ties, spelling and rests
are compared, of MIDI keys, starts and lengths; the text is read by none of the program's code.

With `--all` the documents of every example and of forty exercises of all species, of two to four
voices, are written to FOLDER with the program FUX, plain and, where there is a setting, marked; each is
tried against SCHEMA by `xmllint`, where one is named, and read back from what `musescore3` and
LilyPond (`musicxml2ly -m`) make of it. The last lines count what came back.
The exit status is the number of files that differ, at most 100.
"""
import glob
import json
import os
import random
import re
import subprocess
import sys
import xml.etree.ElementTree as tree


# ---- note texts

def items_of(words):
    """The items of a line, as name and length."""
    return [(name, int(n)) for name, n in (item.split(":") for item in words if item != "|")]


def lay(line, at, items):
    """Lays items from a slot on into a voice's line: [start, end, name] for each note."""
    for name, length in items:
        if name == "_":
            if line and line[-1][1] == at:
                line[-1][1] += length
        elif name not in ("r", "?"):
            line.append([at, at + length, name])
        at += length


def sung(text):
    """For each voice from the lowest: its notes, in slots; without a setting what is given."""
    count, bars, free, given = 0, 0, {}, {}
    voices = {}
    for line in text.split("\n"):
        words = line.split()
        if not words or words[0].startswith(";"):
            continue
        if words[0] == "voices":
            count = int(words[1])
        elif words[0] == "cantus":
            names = enumerate(words[2:])
            voices[int(words[1])] = [[8 * k, 8 * k + 8, name] for k, name in names]
        elif words[0] == "given":
            given.setdefault(int(words[1]), []).append((int(words[2]), items_of(words[3:])))
        elif words[0] == "sing":
            free[int(words[1])] = []
            lay(free[int(words[1])], 0, items_of(words[2:]))
    if not free:
        for voice, lines in given.items():
            free[voice] = []
            for bar, items in sorted(lines):
                lay(free[voice], 8 * bar - 8, items)
    voices.update(free)
    return [voices.get(v, []) for v in range(count)]


# ---- MusicXML

def name_of(pitch):
    alter = {"1": "#", "-1": "b"}.get(pitch.findtext("alter", "0"), "")
    return pitch.findtext("step") + alter + pitch.findtext("octave")


def written(root):
    """The same of a document, whose highest part comes first."""
    voices = []
    for part in root.findall("part"):
        notes, at, divisions, open_tie = [], 0, 1, False
        for measure in part.findall("measure"):
            for node in measure:
                if node.tag == "attributes" and node.find("divisions") is not None:
                    divisions = int(node.findtext("divisions"))
                if node.tag != "note":
                    continue
                length = 2 * int(node.findtext("duration")) // divisions
                pitch = node.find("pitch")
                ties = [tie.get("type") for tie in node.findall("tie")]
                if pitch is not None:
                    before = notes[-1][1:] if notes else None
                    if "stop" in ties and open_tie and before == [at, name_of(pitch)]:
                        notes[-1][1] += length
                    else:
                        notes.append([at, at + length, name_of(pitch)])
                open_tie = "start" in ties
                at += length
        voices.append(notes)
    return voices[::-1]


# ---- MIDI

def key_of(name):
    letter, sign, octave = re.fullmatch(r"([A-G])([#b]?)(\d)", name).groups()
    steps = {"C": 0, "D": 2, "E": 4, "F": 5, "G": 7, "A": 9, "B": 11}
    return steps[letter] + {"": 0, "#": 1, "b": -1}[sign] + 12 * int(octave) + 12


def number(data, at):
    value = 0
    while True:
        value = 128 * value + (data[at] & 127)
        at += 1
        if data[at - 1] < 128:
            return value, at


def track_notes(data):
    """[start, end, key] of a track, in ticks, by start and key."""
    at, time, status, sounding, notes = 0, 0, 0, {}, []
    while at < len(data):
        delta, at = number(data, at)
        time += delta
        if data[at] >= 128:
            status, at = data[at], at + 1
        if status == 255:
            length, at = number(data, at + 1)
            at += length
        elif status in (240, 247):
            length, at = number(data, at)
            at += length
        elif status // 16 in (12, 13):
            at += 1
        else:
            kind, key, level = status // 16, data[at], data[at + 1]
            at += 2
            if kind == 9 and level:
                sounding[key] = time
            elif kind in (8, 9) and key in sounding:
                notes.append([sounding.pop(key), time, key])
    return sorted(notes)


def played(data):
    """For each track with notes, from the last, its notes in slots, with keys for names."""
    ticks = int.from_bytes(data[12:14], "big")
    at, tracks = 14, []
    while at + 8 <= len(data):
        size = int.from_bytes(data[at + 4:at + 8], "big")
        if data[at:at + 4] == b"MTrk":
            notes = track_notes(data[at + 8:at + 8 + size])
            if notes:
                # an end is a tick early in some editors' files: to the nearest slot
                tracks.append([[round(2 * n / ticks) for n in pair[:2]] + pair[2:] for pair in notes])
        at += 8 + size
    return tracks[::-1]


# ---- the comparison

def compare(ex, path):
    wanted = sung(open(ex).read())
    if path.endswith((".mid", ".midi")):
        found = played(open(path, "rb").read())
        wanted = [[[a, b, key_of(n)] for a, b, n in line] for line in wanted if line]
    else:
        found = written(tree.parse(path).getroot())
    if len(wanted) != len(found):
        return f"{len(wanted)} voices, {len(found)} parts"
    for voice, (here, there) in enumerate(zip(wanted, found)):
        if here != there:
            pairs = enumerate(zip(here, there))
            first = next((k for k, (a, b) in pairs if a != b), min(len(here), len(there)))
            one, other = here[first:first + 1], there[first:first + 1]
            return f"voice {voice}, note {first + 1}: {one} and {other}"
    return "same"


# ---- all of them

def run(*words, out=None):
    done = subprocess.run(words, stdout=subprocess.PIPE, stderr=subprocess.DEVNULL)
    if out:
        open(out, "wb").write(done.stdout)
    return done


def bars_of(rng, species, pitches):
    """A bar's items in the rhythm of a species; of the fifth with lengths of every kind."""
    if species < 5:
        lengths = [8] if species == 1 else [2, 2, 2, 2] if species == 3 else [4, 4]
    else:
        lengths = []
        while sum(lengths) < 8:
            lengths.append(min(rng.choice((1, 1, 2, 2, 2, 3, 4, 4, 5, 6, 7, 8)), 8 - sum(lengths)))
    items = [f"{rng.choice(pitches)}:{n}" for n in lengths]
    if species == 5 and rng.random() < 0.15:
        items[-1] = f"r:{lengths[-1]}"
    return items


def line_of(rng, species, bars, pitches):
    """A voice's line, which ties over bar lines in the fourth and fifth species."""
    line = [bars_of(rng, species, pitches) for _ in range(bars)]
    for before, bar in zip(line, line[1:]):
        if not before[-1].startswith("r") and rng.random() < {4: 0.8, 5: 0.4}.get(species, 0):
            bar[0] = "_:" + bar[0].split(":")[1]
    return " | ".join(" ".join(bar) for bar in line)


def forty(folder):
    """Forty exercises of all species and modes, of two to four voices and 3 to 24 bars, with settings
    by chance, lawful or not: leaps, signs, and in the fifth species all lengths and rests."""
    finals = {"dorian": "D", "phrygian": "E", "lydian": "F", "mixolydian": "G", "aeolian": "A", "ionian": "C"}
    spans = [(3, ["A2", "Bb2", "B2"]), (4, ["F#4", "Bb4", "C#4"]), (4, ["G#4", "C#4"]), (5, ["C#5", "F#5"])]
    rng = random.Random(51)
    for k in range(40):
        species, voices, mode = k % 5 + 1, 2 + k // 5 % 3, list(finals)[k % 6]
        bars = rng.choice((3, 5, 8, 11, 16, 24))
        names = [letter + "3" for letter in "CDEFGAB"]
        cantus = [finals[mode] + "3"] + [rng.choice(names) for _ in range(bars - 2)] + [finals[mode] + "3"]
        rows = ["fux 1", f"mode {mode}", f"voices {voices}", f"bars {bars}",
                f"species {species} voice {voices - 1}", f"cantus 0 {' '.join(cantus)}"]
        lines = []
        for voice in range(1, voices):
            octave, signed = spans[voice]
            pitches = [letter + str(octave) for letter in "CDEFGAB"] + signed
            rows.append(f"range {voice} C{octave} B{octave}")
            rhythm = species if voice == voices - 1 or species == 5 else 1
            lines.append(f"sing {voice} {line_of(rng, rhythm, bars, pitches)}")
        path = os.path.join(folder, f"exercise-{k + 1:02}.fux")
        open(path, "w").write("\n".join(rows + lines) + "\n")
        yield path


def documents(fux, folder):
    """Each text with its documents, plain and marked."""
    examples = sorted(glob.glob("examples/**/*.fux", recursive=True))
    for ex in examples + list(forty(folder)):
        name = os.path.join(folder, ex.removeprefix(folder + "/").replace("/", "-").removesuffix(".fux"))
        for kind, command in (("", "toxml"), ("-marked", "markxml")):
            path = f"{name}{kind}.musicxml"
            done = run(fux, command, ex, out=path)
            if done.returncode in (0, 1) and done.stdout:
                yield ex, path


def all_of(fux, folder, schema):
    os.makedirs(folder, exist_ok=True)
    pairs = list(documents(fux, folder))
    count, differ = {}, 0

    def told(kind, path, said):
        nonlocal differ
        good, whole = count.get(kind, (0, 0))
        count[kind] = (good + (said == "same"), whole + 1)
        if said != "same":
            differ += 1
            print(f"{path}: {kind}: {said}")

    jobs = [{"in": path, "out": [path.replace(".musicxml", ".again.musicxml"),
                                 path.replace(".musicxml", ".mid")]} for _, path in pairs]
    open(f"{folder}/jobs.json", "w").write(json.dumps(jobs))
    os.environ["QT_QPA_PLATFORM"] = "offscreen"
    run("musescore3", "-j", f"{folder}/jobs.json")
    for _, path in pairs:
        stem = path.removesuffix(".musicxml") + ".ly"
        run("musicxml2ly", "-m", "-o", stem, path)
        if os.path.exists(stem):
            # played as written, where musicxml2ly has each note played a little short
            text = open(stem).read().replace("\\articulate", "")
            open(stem, "w").write(text)
    scores = sorted(glob.glob(f"{folder}/*.ly"))
    subprocess.run(["lilypond", "-s", "-dno-print-pages", *scores], cwd=folder, stderr=subprocess.DEVNULL)
    for ex, path in pairs:
        told("as written", path, compare(ex, path))
        if schema:
            done = run("xmllint", "--nonet", "--noout", "--schema", schema, path)
            told("by the schema", path, "same" if done.returncode == 0 else "not valid")
        stem = path.removesuffix(".musicxml")
        for kind, end in (("MuseScore's MusicXML", ".again.musicxml"), ("MuseScore's MIDI", ".mid"),
                          ("LilyPond's MIDI", ".midi")):
            told(kind, path, compare(ex, stem + end) if os.path.exists(stem + end) else "not written")
    for kind, (good, whole) in count.items():
        print(f"{kind}: {good} of {whole}")
    return differ


def main(words):
    if words[:1] == ["--all"]:
        return min(all_of(words[1], os.path.abspath(words[2]), words[3] if words[3:] else None), 100)
    differ = 0
    for ex, path in zip(words[::2], words[1::2]):
        said = compare(ex, path)
        differ += said != "same"
        print(f"{path}: {said}")
    return min(differ, 100)


if __name__ == "__main__":
    sys.exit(main(sys.argv[1:]))
