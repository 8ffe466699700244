#!/usr/bin/env python3
"""Measures certificates of the third form, and tries changed ones.

    python3 bench/certificates.py [PROGRAM]              a row for each exercise of the Gradus in five species, of the
                                                         course, and of five drills; then a row for each group
    python3 bench/certificates.py [PROGRAM] --forms      the second and the third form of those that both have
    python3 bench/certificates.py [PROGRAM] --changes    changed certificates, with their verdicts

Run it at the top of the repository once the program is built. Times are processor seconds of whole processes, memory
is the most that is held, both as /usr/bin/time tells them. With --limit N a process that takes more than N seconds is
stopped, and with --only WORD only groups whose names have the word are measured. It ends with 1 where a certificate isn't accepted, or a change comes to what it may not.
"""
import collections
import glob
import os
import re
import statistics
import subprocess
import sys
import tempfile

TOP = os.path.dirname(os.path.dirname(os.path.abspath(__file__)))
SMALL = ("fux 1\nmode dorian\nvoices 2\nbars 4\nspecies 3 voice 1\ncantus 0 D4 F4 E4 D4\n"
         "range 1 C5 E5\n")

LIMIT = 3600
if "--limit" in sys.argv:
    LIMIT = int(sys.argv[sys.argv.index("--limit") + 1])

ONLY = sys.argv[sys.argv.index("--only") + 1] if "--only" in sys.argv else ""

Run = collections.namedtuple("Run", "status out err seconds kilobytes")


def run(*words):
    """A whole process. It is begun by a small one, since what its parent held counts as its own."""
    with tempfile.NamedTemporaryFile() as told, tempfile.TemporaryFile() as out, tempfile.TemporaryFile() as err:
        timed = ("/usr/bin/time", "-q", "-f", "%U %S %M", "-o", told.name)
        code = subprocess.call((*timed, "timeout", str(LIMIT), *words), stdin=subprocess.DEVNULL, stdout=out, stderr=err)
        out.seek(0)
        err.seek(0)
        user, system, kilobytes = told.read().split()[-3:]
        if code == 124:
            return Run(code, b"", f"stopped after {LIMIT} s", float(user) + float(system), int(kilobytes))
        return Run(code, out.read(), err.read().decode(), float(user) + float(system), int(kilobytes))


# ---- exercises

def bare(text, species=None):
    """An exercise without its setting, in another species where one is given."""
    text = "".join(it for it in text.splitlines(True) if not it.startswith((";", "sing ")))
    return text if species is None else re.sub(r"(?m)^species \d", f"species {species}", text)


def named(path):
    return os.path.splitext(os.path.basename(path))[0]


def exercises(program):
    """Group, name and text of each."""
    for species in range(1, 6):
        for path in sorted(glob.glob(f"{TOP}/examples/gradus/*.fux")):
            yield f"*Gradus*, species {species}", f"{named(path)} {species}", bare(open(path).read(), species)
    for path in sorted(glob.glob(f"{TOP}/examples/course/*.fux")):
        yield "the course", named(path), bare(open(path).read())
    for number in range(1, 6):
        said = run(program, "drill", str(number), "--best").out.decode()
        pitches = re.search(r"(?m)^cantus (.*)$", said).group(1)
        for species in (1, 2, 3, 5):
            yield (f"drills, species {species}", f"drill {number} {species}",
                   f"fux 1\nmode dorian\nvoices 2\nbars 24\nspecies {species} voice 1\n"
                   f"cantus 0 {pitches}\nrange 1 F4 F5\n")


# ---- tables

Measured = collections.namedtuple("Measured", "said bytes lists claims wrote checked")


def measured(program, folder, text, form):
    """The certificate of an exercise, and what its check says; none where it isn't found."""
    path, cert = f"{folder}/exercise", f"{folder}/certificate"
    open(path, "w").write(text)
    wrote = run(program, "certify", path, "--form", str(form))
    if wrote.status not in (0, 1):
        return None, wrote
    open(cert, "wb").write(wrote.out)
    checked = run(program, "check", path, cert)
    front, claims = wrote.out.split(b"claims\n", 1)
    return Measured(checked.out.decode().strip() or checked.err.strip(), len(wrote.out),
                    len(re.findall(rb"(?m)^keeps", front)), claims.count(b"\n"), wrote, checked), wrote


def size(count):
    return f"{count / 1e6:.1f} MB" if count >= 1e6 else f"{count / 1e3:.1f} KB"


def middle_and_most(numbers, shown):
    return f"{shown(statistics.median(numbers))}, {shown(max(numbers))}"


def seconds(it):
    return f"{it:.2f}"


def megabytes(it):
    return f"{it / 1024:.0f}"


def table(program, folder):
    groups, wrong = collections.OrderedDict(), 0
    print("| Exercise | Verdict | Bytes | Lists | Claims | Write, s | MB | Check, s | MB |")
    print("|---|---|---|---|---|---|---|---|---|")
    for group, name, text in exercises(program):
        if ONLY not in group:
            continue
        got, wrote = measured(program, folder, text, 3)
        all_of = groups.setdefault(group, [])
        all_of.append(got)
        if got is None:
            said = wrote.out.decode().strip() or wrote.err.strip()
            print(f"| {name} | none: {said} | | | | {wrote.seconds:.2f} | {wrote.kilobytes // 1024} | | |")
        else:
            wrong += not got.said.startswith("accepted")
            print(f"| {name} | {got.said} | {got.bytes:,} | {got.lists} | {got.claims:,} | "
                  f"{got.wrote.seconds:.2f} | {got.wrote.kilobytes // 1024} | {got.checked.seconds:.2f} | "
                  f"{got.checked.kilobytes // 1024} |")
        sys.stdout.flush()
    print("\nThe median and the most of each group:\n")
    print("| Exercises (accepted) | Bytes | Claims | Write, s | Check, s | Check, MB |")
    print("|---|---|---|---|---|---|")
    for group, all_of in groups.items():
        found = [it for it in all_of if it is not None and it.said.startswith("accepted")]
        if not found:
            print(f"| {group} (0 of {len(all_of)}) | | | | | |")
            continue
        print(f"| {group} ({len(found)} of {len(all_of)}) | "
              f"{middle_and_most([it.bytes for it in found], size)} | "
              f"{middle_and_most([it.claims for it in found], lambda n: f'{n:,.0f}')} | "
              f"{middle_and_most([it.wrote.seconds for it in found], seconds)} | "
              f"{middle_and_most([it.checked.seconds for it in found], seconds)} | "
              f"{middle_and_most([it.checked.kilobytes for it in found], megabytes)} |")
    return wrong


def forms(program, folder):
    wrong = 0
    print("| Exercise | Form | Verdict | Bytes | Claims | Write, s | Check, s | MB |")
    print("|---|---|---|---|---|---|---|---|")
    for group, name, text in exercises(program):
        if ONLY not in group:
            continue
        second, _ = measured(program, folder, text, 2)
        if second is None:
            continue
        third, _ = measured(program, folder, text, 3)
        for form, it in ((2, second), (3, third)):
            if it is None:
                print(f"| {name} | {form} | none | | | | | |")
                continue
            wrong += not it.said.startswith("accepted")
            print(f"| {name} | {form} | {it.said} | {it.bytes:,} | {it.claims:,} | {it.wrote.seconds:.2f} | "
                  f"{it.checked.seconds:.2f} | {it.checked.kilobytes // 1024} |")
        if third is not None:
            wrong += third.said != second.said
        sys.stdout.flush()
    return wrong


# ---- changed certificates

class Text:
    """A certificate as its parts: the first line, that of the penalty, those of the setting, the
    lists as lines, and the claims."""

    def __init__(self, text):
        front, claims = text.split("claims\n", 1)
        lines = front.splitlines()
        self.form, self.best = lines[0], lines[1]
        self.sing = [it for it in lines[2:] if it.startswith("sing ")]
        self.lists = []
        for it in lines[2 + len(self.sing):]:
            if it.startswith("keeps"):
                self.lists.append([])
            self.lists[-1].append(it)
        self.claims = claims.splitlines()

    def copy(self):
        return Text(self.text())

    def text(self):
        lines = [self.form, self.best, *self.sing]
        for it in self.lists:
            lines += it
        return "".join(it + "\n" for it in [*lines, "claims", *self.claims])

    def front(self):
        return len("".join(it + "\n" for it in [self.form, self.best, *self.sing]))

    def prices(self):
        """List and line of each price."""
        return [(k, n) for k, it in enumerate(self.lists) for n, line in enumerate(it)
                if line.startswith("price ")]

    def cases(self):
        """List and line of the first line of cases."""
        return next((k, n) for k, it in enumerate(self.lists) for n, line in enumerate(it)
                    if line.startswith("cases "))

    def claim(self, said, which=0):
        places = [n for n, it in enumerate(self.claims) if it == said]
        return places[which]


def with_price(cert, k, change):
    """The price of a number, with its words changed."""
    cert = cert.copy()
    at, line = cert.prices()[k]
    cert.lists[at][line] = " ".join(change(cert.lists[at][line].split()))
    return cert.text()


def with_lines(cert, at, change):
    """The lines of a list, changed."""
    cert = cert.copy()
    change(cert.lists[at])
    return cert.text()


def with_cases(cert, change):
    cert = cert.copy()
    at, line = cert.cases()
    cert.lists[at][line] = " ".join(change(cert.lists[at][line].split()))
    return cert.text()


def with_claims(cert, change):
    cert = cert.copy()
    change(cert.claims)
    return cert.text()


def put(place, said):
    return lambda claims: claims.__setitem__(place, said)


def number(words, to):
    return [*words[:4], str(to)]


REFUSED = "refused at "
TRUE = "refused, or still true"


def changes(cert, weight, others):
    """What is changed, the certificate then, and how its verdict begins."""
    head, false = "refused at claim 0: head", r"refused at claim \d+: false$"
    at_byte = r"refused at byte \d+: head$"
    penalty = int(cert.best.split()[1])

    def best(n):
        it = cert.copy()
        it.best = f"best {n}"
        return it.text()

    def sung(lines, n):
        it = cert.copy()
        it.sing, it.best = lines, f"best {n}"
        return it.text()

    def form(n):
        it = cert.copy()
        it.form = f"fux-cert {n}"
        return it.text()

    yield "another lawful setting with its own penalty", sung(*others), REFUSED
    yield "another lawful setting with the best penalty", sung(others[0], penalty), REFUSED
    yield "a lesser penalty", best(penalty - 1), head
    yield "a greater penalty", best(penalty + 1), head
    yield "one pitch of the setting", sung([re.sub(r"\w+:8$", "F5:8", cert.sing[0])], penalty), head
    none = cert.copy()
    none.best, none.sing = "none", []
    yield "`none` in place of the setting", none.text(), REFUSED
    yield "`fux-cert 2`", form(2), rf"refused at byte {cert.front()}: head$"
    yield "`fux-cert 4`", form(4), "refused at byte 9: head"

    prices = len(cert.prices())
    last = prices - 1
    yield "a price above 16 times Q20", with_price(cert, last, lambda w: number(w, 16 * weight + 1)), (
        rf"refused at price {prices}: false$")
    yield "a price of -3", with_price(cert, 0, lambda w: number(w, -3)), at_byte
    yield "a price of 0", with_price(cert, 0, lambda w: number(w, 0)), at_byte
    yield "a price with a zero in front", with_price(cert, 0, lambda w: number(w, "0" + w[4])), at_byte
    at, line = cert.prices()[last]
    yield "a price twice", with_lines(cert, at, lambda it: it.insert(line, it[line])), at_byte
    yield "two prices exchanged", with_lines(
        cert, at, lambda it: it.insert(line, f"{' '.join(it[line].split()[:3])} B6 1")), at_byte
    yield "a price of a case that isn't there", with_price(
        cert, last, lambda w: [w[0], "17", *w[2:]]), at_byte
    yield "a price of the cantus", with_price(cert, 0, lambda w: [*w[:2], "0", *w[3:]]), at_byte
    yield "each price 1", re.sub(r"(?m)^(price .*) \d+$", r"\1 1", cert.text()), TRUE
    yield "each price as high as may be", re.sub(
        r"(?m)^(price .*) \d+$", rf"\1 {16 * weight}", cert.text()), TRUE
    yield "the first price left out", with_lines(
        cert, cert.prices()[0][0], lambda it: it.pop(cert.prices()[0][1])), TRUE
    yield "all prices left out", re.sub(r"(?m)^price .*\n", "", cert.text()), TRUE
    yield "a price more of a pitch that never comes", with_lines(
        cert, at, lambda it: it.append(f"{' '.join(it[line].split()[:3])} B6 {16 * weight}")), TRUE

    yield "the first key left out", with_cases(cert, lambda w: [*w[:2], *w[3:]]), "refused at |accepted"
    yield "the last key left out", with_cases(cert, lambda w: w[:-1]), "refused at |accepted"
    yield "a key more", with_cases(cert, lambda w: [*w[:2], "126", *w[2:]]), "refused at |accepted"
    yield "keys that rise", with_cases(cert, lambda w: [*w[:2], "1", *w[2:]]), at_byte
    yield "no keys", with_cases(cert, lambda w: w[:2]), "refused at |accepted"
    yield "the voice of the cantus", with_cases(cert, lambda w: [w[0], "0", *w[2:]]), at_byte
    yield "the cases left out", re.sub(r"(?m)^cases .*\n", "", cert.text()), at_byte
    yield "`keeps turn`", with_lines(cert, 0, put(0, "keeps turn")), at_byte
    yield "`keeps`", re.sub(r"(?m)^keeps.*", "keeps", cert.text()), TRUE
    yield "`keeps turns`", re.sub(r"(?m)^keeps.*", "keeps turns", cert.text()), TRUE
    yield "`keeps turns runs`", re.sub(r"(?m)^keeps.*", "keeps turns runs", cert.text()), TRUE

    lists = cert.copy()
    lists.lists = lists.lists[::-1]
    yield "the lists exchanged", lists.text(), "accepted"
    lists = cert.copy()
    lists.lists = lists.lists[:1]
    yield "the first list alone", lists.text(), TRUE
    lists = cert.copy()
    lists.lists = lists.lists[1:]
    yield "the first list left out", lists.text(), TRUE
    lists = cert.copy()
    lists.lists = [["keeps"]] * (9 - len(lists.lists)) + lists.lists
    yield "nine lists", lists.text(), at_byte
    lists = cert.copy()
    lists.lists = []
    yield "no list", lists.text(), rf"refused at byte {cert.front()}: head$"

    yield "`f` for the first `o`", with_claims(cert, put(0, "f")), "refused at claim 1: false"
    yield "`x` for the first `o`", with_claims(cert, put(0, "x")), "refused at claim 1: false"
    setting = cert.claim("s")
    for said in ("f", "x"):
        yield f"`{said}` for the `o` before the setting", with_claims(
            cert, put(setting - 1, said)), REFUSED
    for said in ("o", "x", "s"):
        place = cert.claim("f", -1)
        yield f"`{said}` for `f`", with_claims(cert, put(place, said)), false
    yield "`f` for `x`", with_claims(cert, put(cert.claim("x"), "f")), (
        rf"refused at claim {cert.claim('x') + 1}: false$")
    first = next(n for n, it in enumerate(cert.claims) if it.startswith("b "))
    yield "`o` for `b`", with_claims(cert, put(first, "o")), REFUSED
    yield "another rule", with_claims(cert, put(first, "b 2")), TRUE
    for said in ("f", "o", "x"):
        yield f"`{said}` for `s`", with_claims(cert, put(setting, said)), false
    yield "a claim `f` left out", with_claims(cert, lambda it: it.pop(cert.claim("f"))), REFUSED
    yield "a claim `o` left out", with_claims(cert, lambda it: it.pop(cert.claim("o", -1))), REFUSED
    yield "a claim twice", with_claims(cert, lambda it: it.insert(setting, "s")), REFUSED
    count = len(cert.claims)
    yield "the last claim left out", with_claims(cert, lambda it: it.pop()), (
        f"refused at claim {count}: short")
    yield "a claim more", with_claims(cert, lambda it: it.append("o")), (
        f"refused at claim {count + 1}: over")
    text = cert.text()
    yield "cut within a line", text[:-1], rf"refused at byte {text[:-1].rindex(chr(10)) + 1}: end$"
    yield "a carriage return", text.replace("claims\no\n", "claims\no\r\n"), (
        rf"refused at byte {text.index('claims') + 7}: word$")
    yield "a rule that isn't there", with_claims(cert, put(0, "b 27")), (
        rf"refused at byte {text.index('claims') + 7}: word$")


def try_changes(program, folder):
    exercise, path = f"{folder}/exercise", f"{folder}/certificate"
    open(exercise, "w").write(SMALL)
    cert = Text(run(program, "certify", exercise, "--form", "3").out.decode())
    second = run(program, "compose", exercise, "--nth", "2").out.decode()
    others = (re.findall(r"(?m)^sing .*$", second), int(re.search(r"penalty (\d+)", second).group(1)))
    wrong = count = 0
    print(f"Of the certificate of {len(cert.text())} bytes, {len(cert.lists)} lists and "
          f"{len(cert.claims)} claims of\n\n```\n{SMALL}```\n")
    print("| Change | Verdict |\n|---|---|")

    def tried(what, words, begins):
        nonlocal wrong, count
        it = run(*words)
        said = (it.out.decode() or it.err).strip()
        # what is still accepted says what the head says, and that is so
        fits = re.match(begins if begins != TRUE else f"{REFUSED}|accepted: {cert.best}$", said)
        count += 1
        wrong += fits is None
        print(f"| {what} | {said}{'' if fits else ' (NOT ' + begins + ')'} |")

    open(path, "w").write(cert.text())
    tried("none", (program, "check", exercise, path), f"accepted: {cert.best}$")
    for what, text, begins in changes(cert, 3, others):
        open(path, "w").write(text)
        tried(what, (program, "check", exercise, path), begins)
    open(path, "w").write(cert.text())
    sheet = f"{folder}/sheet"
    for weight in ("Q20", "Q10", "Q1"):
        open(sheet, "w").write(f"[weights]\n{weight} = 0\n")
        tried(f"a sheet with {weight} = 0", (program, "check", exercise, path, "--sheet", sheet),
              "refused at |accepted")
    other = f"{folder}/other"
    open(other, "w").write(SMALL.replace("D4 F4 E4 D4", "D4 E4 E4 D4"))
    tried("of another cantus firmus", (program, "check", other, path), REFUSED)
    print(f"\n{count} tried, {wrong} of them otherwise than they may.")
    return wrong


def main():
    words = [it for k, it in enumerate(sys.argv) if k and "--" not in it and sys.argv[k - 1] not in ("--limit", "--only")]
    program = words[0] if words else f"{TOP}/crates/fux/out/fux"
    with tempfile.TemporaryDirectory() as folder:
        if "--changes" in sys.argv:
            wrong = try_changes(program, folder)
        elif "--forms" in sys.argv:
            wrong = forms(program, folder)
        else:
            wrong = table(program, folder)
    sys.exit(1 if wrong else 0)


if __name__ == "__main__":
    main()
