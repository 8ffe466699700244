#!/usr/bin/env python3
"""Runs the gate and counts what each crate takes of it.

    python3 bench/gate.py [--page] [--counts FILE] [--from FILE] [--beside COMMIT ..]
                          [words of rt ci, as --anew]

It starts `rt ci` with those words at the top of the repository, passes on what that prints, and
looks at the processes below it twice a second. A process that works on a crate says so by its
words (`--crate-name`), its program or its folder; it is counted with the processes that it
starts itself. One that works in a copy with an edit tries a wrong body, or is the proof that the
edits of a crate begin with. What the whole took is told by the system once all have ended, so
what no sample saw is a row of its own. Each half minute it does the same piece of work itself, so
that who compares two runs sees how fast the machine was in each. Where RT_JOBS says how many
proofs `rt ci` makes side by side, each of them has one processor.

--counts FILE keeps the counts, --from FILE takes kept ones in place of a run, and --page writes
the table into docs/gate.md, between its two lines that begin with `<!-- run`. --beside COMMIT
compares the run with the one that docs/gate.md tells in that commit, by what the proofs took of
those crates whose files are the same: so a run on a slow machine says what it would take on
another one. The status is that of `rt ci`.
"""
import collections
import json
import os
import re
import resource
import statistics
import subprocess
import sys
import threading
import time

TOP = os.path.dirname(os.path.dirname(os.path.abspath(__file__)))
PAGE = os.path.join(TOP, "docs", "gate.md")
TICKS = os.sysconf("SC_CLK_TCK")
EVERY = 0.5
PACE_EVERY = 30


def crates():
    """The crates of crates.txt, in its order."""
    lines = open(os.path.join(TOP, "crates.txt"), encoding="utf-8")
    return [line.split(":")[0].split()[0] for line in lines if ":" in line and line[0] != "#"]


def wrong_bodies(name):
    """How many edits a crate has."""
    folder = os.path.join(TOP, "crates", name, "must-fail")
    names = os.listdir(folder) if os.path.isdir(folder) else []
    return len([it for it in names if it.endswith(".edit")])


def processes():
    """Each process: its parent, when it began, and its ticks with those of children that ended."""
    found = {}
    for pid in filter(str.isdigit, os.listdir("/proc")):
        try:
            with open(f"/proc/{pid}/stat", encoding="utf-8", errors="replace") as it:
                fields = it.read().rpartition(")")[2].split()
        except OSError:
            continue
        found[int(pid)] = int(fields[1]), int(fields[19]), sum(map(int, fields[11:15]))
    return found


def words_of(pid):
    """The words of a process, and its folder."""
    try:
        with open(f"/proc/{pid}/cmdline", "rb") as it:
            words = it.read().decode(errors="replace").split("\0")
        return words, os.readlink(f"/proc/{pid}/cwd")
    except OSError:
        return [], ""


def work_of(pid):
    """The crate that a process works on, and whether it tries a wrong body there."""
    words, folder = words_of(pid)
    is_edit = "rt-edit" in folder
    if "--crate-name" in words[:-1]:
        return words[words.index("--crate-name") + 1], is_edit
    at = re.search(r"/crates/([a-z0-9_]+)(/|$)", " ".join([*words, folder]))
    return (at[1], is_edit) if at else None


def pace():
    """The processor seconds that a fixed piece of work takes now."""
    began, found = time.thread_time(), {}
    for number in range(1_000_000):
        found[number * 7919 % 1_000_003] = number
    sum(found.values())
    return time.thread_time() - began


class Sampler:
    """What was seen of the processes below one."""

    def __init__(self, top):
        self.top, self.works, self.seen = top, {}, {}

    def look(self):
        found = processes()
        below = collections.defaultdict(list)
        for pid, (parent, _, _) in found.items():
            below[parent].append(pid)

        def all_ticks(pid):
            return found[pid][2] + sum(map(all_ticks, below[pid]))

        def walk(pid):
            for child in below[pid]:
                key = child, found[child][1]
                # (a process that is just begun has the words of its parent)
                if self.works.get(key) is None:
                    self.works[key] = work_of(child)
                if self.works[key]:
                    self.seen[key] = max(self.seen.get(key, 0), all_ticks(child))
                else:
                    walk(child)

        walk(self.top)

    def seconds(self):
        """Processor seconds by crate: of proofs and tests, and of wrong bodies."""
        told = collections.defaultdict(lambda: [0.0, 0.0])
        for key, ticks in self.seen.items():
            name, is_edit = self.works[key]
            told[name][is_edit] += ticks / TICKS
        return told


def run(words):
    """Runs the gate, and returns its status and what it took."""
    began, before = time.time(), resource.getrusage(resource.RUSAGE_CHILDREN)
    gate = subprocess.Popen(["rt", "ci", *words], cwd=TOP, stdout=subprocess.PIPE, text=True)
    lines = []

    def pass_on():
        for line in gate.stdout:
            lines.append(line)
            print(line, end="", flush=True)

    reader = threading.Thread(target=pass_on)
    reader.start()
    sampler, paces, due = Sampler(gate.pid), [], 0
    while gate.poll() is None:
        sampler.look()
        if time.time() >= due:
            paces.append(pace())
            due = time.time() + PACE_EVERY
        time.sleep(EVERY)
    reader.join()
    used = resource.getrusage(resource.RUSAGE_CHILDREN)
    whole = used.ru_utime + used.ru_stime - before.ru_utime - before.ru_stime
    kit = subprocess.run(["rt", "version"], stdout=subprocess.PIPE, text=True).stdout.split("\n")[0]
    return {
        "words": words,
        "status": gate.returncode,
        "day": time.strftime("%-d %B %Y"),
        "minutes": (time.time() - began) / 60,
        "whole": whole,
        "processors": os.cpu_count(),
        "side_by_side": os.environ.get("RT_JOBS", ""),
        "paces": paces,
        "kit": kit.strip(),
        "last": [it.strip() for it in lines[-2:]],
        "seconds": sampler.seconds(),
    }


def pace_of(paces):
    """The sentence that says how fast the machine was, if a run noted it."""
    if not paces:
        return []
    return [
        f"The piece of work that `bench/gate.py` does each half minute took {min(paces):.2f} to "
        f"{max(paces):.2f} seconds, {statistics.fmean(paces):.2f} in the mean."
    ]


def git(*words):
    """What git says."""
    ran = subprocess.run(["git", *words], cwd=TOP, stdout=subprocess.PIPE, text=True, check=True)
    return ran.stdout


def files_of(commit, name):
    """What tells whether a library's proof reads the same files in two commits. A program's proof
    reads all that it links too, so it isn't compared."""
    told = git("ls-tree", commit, f"crates/{name}/").split("\n")
    return [it for it in told if it.split("/")[-1] in ("src", "specs", "proofs")]


def is_library(name):
    return os.path.exists(os.path.join(TOP, "crates", name, "src", "lib.rt"))


def beside(told, commit):
    """The sentence that compares a run with the one that the page of a commit tells."""
    page = git("show", f"{commit}:docs/gate.md")
    day, whole = re.search(r"On (.*?), `.*?` took ([0-9.]+) processor minutes", page).groups()
    rows = re.findall(r"^\| `(\w+)` \| [0-9]+ \| ([0-9]+) \| [0-9]+ \|", page, re.M)
    then = {name: int(seconds) for name, seconds in rows if name in told["seconds"]}
    same = [it for it in then if is_library(it) and files_of(commit, it) == files_of("HEAD", it)]
    if not same:
        return f"No crate has the files that it had in the run of {whole} minutes on {day}."
    old, new = sum(then[it] for it in same), sum(told["seconds"][it][0] for it in same)
    return (
        f"The {len(same)} crates whose files are as in the run of {whole} minutes on {day} took "
        f"{old} seconds then and {new:.0f} here: by those seconds the whole is "
        f"{told['whole'] / 60 * old / new:.0f} minutes."
    )


def table(told, commits):
    """The text of a run: a sentence for the whole, and a row for each crate."""
    rows, sums = [], [0, 0, 0]
    for name in crates():
        proof, edits = told["seconds"].get(name, (0, 0))
        rows.append((name, wrong_bodies(name), proof, edits))
    rows.sort(key=lambda row: (-(row[2] + row[3]), row[0]))
    jobs = told.get("side_by_side")
    words = " ".join([*([f"RT_JOBS={jobs}"] if jobs else []), "rt ci", *told["words"]])
    text = [
        f"On {told['day']}, `{words}` took {told['whole'] / 60:.1f} processor minutes and "
        f"{told['minutes']:.1f} minutes on {told['processors']} processors, with {told['kit']}.",
        f"Its last line was `{told['last'][-1] if told['last'] else ''}`.",
        *pace_of(told.get("paces")),
        *[beside(told, it) for it in commits],
        "The table has processor seconds.",
        "",
        "| Crate | Wrong bodies | Proof and tests | Their checks | All |",
        "|---|---|---|---|---|",
    ]
    for name, count, proof, edits in rows:
        text.append(f"| `{name}` | {count} | {proof:.0f} | {edits:.0f} | {proof + edits:.0f} |")
        sums = [sums[0] + count, sums[1] + proof, sums[2] + edits]
    own = max(0, told["whole"] - sums[1] - sums[2])
    both = sums[1] + sums[2]
    text.append(f"| all crates | {sums[0]} | {sums[1]:.0f} | {sums[2]:.0f} | {both:.0f} |")
    text.append(f"| `rt ci` itself, and what no sample saw | | | | {own:.0f} |")
    return "\n".join(text)


def write_page(text):
    """Puts the text into the page, in the place of the one that an earlier run wrote."""
    with open(PAGE, encoding="utf-8") as it:
        page = it.read()
    found = re.fullmatch(r"(.*?<!-- run[^\n]*\n).*?(<!-- run[^\n]*\n.*)", page, re.S)
    if not found:
        sys.exit("docs/gate.md lacks its two lines that begin with `<!-- run`")
    with open(PAGE, "w", encoding="utf-8") as it:
        it.write(f"{found[1]}\n{text}\n\n{found[2]}")


def main():
    words, options, commits = sys.argv[1:], {}, []
    while words and words[0] in ("--page", "--counts", "--from", "--beside"):
        name = words.pop(0)
        if name == "--beside":
            commits.append(words.pop(0))
        else:
            options[name] = words.pop(0) if name != "--page" else ""
    if "--from" in options:
        with open(options["--from"], encoding="utf-8") as it:
            told = json.load(it)
    else:
        told = run(words)
    if "--counts" in options:
        with open(options["--counts"], "w", encoding="utf-8") as it:
            json.dump(told, it)
    text = table(told, commits)
    if "--page" in options:
        write_page(text)
    else:
        print(text)
    return told["status"]


if __name__ == "__main__":
    sys.exit(main())
