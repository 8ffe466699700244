#!/usr/bin/env python3
"""Asks that the pages, which are the files *.md, are true of the repository.

    python3 docs/check.py                    tells each fault; the status is 1 where there is one
    python3 docs/check.py --split PAGE..     writes pages anew with one sentence a line
    python3 docs/check.py --fix              does so with all, and sets the marks of definitions
    python3 docs/check.py --files            prints the files that docs/adding-a-rule.md has to list

What is asked:
- a word in backticks that looks like a name of the code, or like a file, stands there (not in
  CHANGES.md, which tells of names that are gone);
- a link within the repository leads to a file, and one to a heading to a heading;
- no heading stands twice in a page;
- outside of tables and of quoted text, each line has one sentence;
- docs/adding-a-rule.md lists exactly the files under crates/ that match the regular expression
  of its line `<!-- files: .. -->`;
- docs/gate.md has a row for each crate, and says why one has no wrong bodies;
- docs/proved.md has a section for each crate, and the list of crates by floors has each;
- docs/definitions.md marks the definitions that `run` reaches;
- docs/rules.md has each rule in the sentence that the program tells of it;
- README.md shows a mark explained as a stored run of the same file has it.
- each picture in docs/pictures/ is an answer of the runs that the gate tries the program against.
"""
import glob
import json
import os
import re
import sys

sys.dont_write_bytecode = True
import reached  # noqa: E402

TOP = os.path.dirname(os.path.dirname(os.path.abspath(__file__)))
CODE = (".rt", ".antt", ".edit", ".txt", ".toml", ".py", ".sh", ".c", ".fux")
SIGNS = re.compile(r"[A-Za-z_][A-Za-z0-9_'-]*")


def text_of(path):
    with open(os.path.join(TOP, path), encoding="utf-8", errors="replace") as it:
        return it.read()


def pages():
    return [it for it in files() if it.endswith(".md")]


def files():
    """Each file of the repository, without what is made and what git keeps."""
    found = []
    for at, folders, names in os.walk(TOP):
        folders[:] = [it for it in folders if it not in (".git", "out")]
        found += [os.path.relpath(os.path.join(at, name), TOP) for name in names]
    return sorted(found)


def crates():
    lines = text_of("crates.txt").split("\n")
    return [line.split(":")[0].split()[0] for line in lines if ":" in line and line[0] != "#"]


# ---- one sentence a line

HELD = re.compile(r"`+[^`]*`+|\[[^\]]*\]\([^)]*\)")
ENDS = re.compile(r"(?<=[.?!])((?:[)\"']|\*\*|\*)*) +(?=[A-Z0-9`*\"(\[\x00])")
SHORT = re.compile(r"(?:^|[ (])(?:e\.g|i\.e|cf|St|vs)\.$")


def sentences(text):
    """The sentences of a paragraph. Words in backticks and links stay whole."""
    held = []

    def hold(found):
        held.append(found[0])
        return f"\x00{len(held) - 1}\x01"

    text, parts, begun = HELD.sub(hold, text), [], 0
    for found in ENDS.finditer(text):
        part = text[begun:found.end(1)]
        if not SHORT.search(part):
            parts.append(part)
            begun = found.end()
    parts.append(text[begun:])
    return [re.sub(r"\x00(\d+)\x01", lambda it: held[int(it[1])], part).strip() for part in parts]


ITEM = re.compile(r"( *)([-*]|\d+\.) +(.*)")


def split(page):
    """The page with one sentence a line."""
    out, paragraph, lead = [], [], ["", ""]

    def flush():
        if paragraph:
            for n, part in enumerate(sentences(" ".join(paragraph))):
                out.append((lead[1] if n else lead[0]) + part)
            paragraph.clear()
        lead[:] = ["", ""]

    fence = False
    for line in page.split("\n"):
        bare = line.strip()
        if bare.startswith("```"):
            flush()
            fence = not fence
            out.append(line)
        elif fence or not bare or bare[0] in "|#<>" or set(bare) <= set("-="):
            flush()
            out.append(line)
        elif ITEM.fullmatch(line):
            flush()
            found = ITEM.fullmatch(line)
            begin = f"{found[1]}{found[2]} "
            lead[:] = [begin, " " * len(begin)]
            paragraph.append(found[3].strip())
        else:
            if not paragraph and line.startswith("  "):
                indent = line[: len(line) - len(line.lstrip())]
                lead[:] = [indent, indent]
            paragraph.append(bare)
    flush()
    return "\n".join(out)


def unsplit(name):
    was, wanted = text_of(name).split("\n"), split(text_of(name)).split("\n")
    if was == wanted:
        return []
    at = next((n for n, (a, b) in enumerate(zip(was, wanted)) if a != b), 0)
    return [f"{name}:{at + 1}: not one sentence a line: python3 docs/check.py --split {name}"]


# ---- words in backticks

def words_of_code(names):
    """Each word of the code, of its comments and of the names of files."""
    words = set()
    for name in names:
        words.update(SIGNS.findall(name.replace("/", " ").replace(".", " ")))
        if name.startswith("crates/") or name in ("crates.txt", "fux"):
            for word in SIGNS.findall(text_of(name)):
                words.add(word)
                words.update(word.split("-"))
        elif name.endswith(CODE) and not name.startswith("docs/"):
            words.update(SIGNS.findall(text_of(name)))
    return words


def looks_like_name(word):
    return "_" in word.strip("_") or re.search(r"[a-z0-9][A-Z]", word) is not None


ENDINGS = (".rt", ".antt", ".edit", ".md", ".py", ".sh", ".txt", ".toml")


def unknown_words(name, words, names):
    """The words in backticks of a page that stand nowhere."""
    told, folders = [], {os.path.dirname(it) for it in names}
    shown = "\n".join(f"/{it}" for it in names) + "\n" + "\n".join(f"/{it}/" for it in folders)
    fence = False
    for number, line in enumerate(text_of(name).split("\n")):
        if line.strip().startswith("```"):
            fence = not fence
        if fence:
            continue
        for span in re.findall(r"`([^`]+)`", line):
            if re.fullmatch(r"[\w.*/<>+-]+", span) and ("/" in span or span.endswith(ENDINGS)):
                path = re.escape(re.sub(r"^\./", "", span).strip("/")).replace(r"\*", "[^/\n]*")
                if not re.search(rf"/{path}(/|$)", shown, re.M):
                    told.append(f"{name}:{number + 1}: no file `{span}`")
                continue
            for word in SIGNS.findall(span):
                if looks_like_name(word) and word not in words:
                    told.append(f"{name}:{number + 1}: no word `{word}` of the code, in `{span}`")
    return told


# ---- links, and what pages list

def anchors(name):
    """The headings of a page, as links name them."""
    heads = re.findall(r"^#+ +(.*)$", text_of(name), re.M)
    bare = [re.sub(r"[^\w\- ]", "", it.lower()).strip().replace(" ", "-") for it in heads]
    return bare


def headings_twice(name):
    """The headings that a page has more than once."""
    text = re.sub(r"```.*?```", "", text_of(name), flags=re.S)
    found = re.findall(r"^#+ .*$", text, re.M)
    twice = sorted({it for it in found if found.count(it) > 1})
    return [f"{name}: the heading {it!r} stands twice" for it in twice]


def dead_links(name):
    told, at = [], os.path.dirname(name)
    for target in re.findall(r"\]\(([^)\s]+)\)", text_of(name)):
        if re.match(r"[a-z]+:", target):
            continue
        path, _, anchor = target.partition("#")
        path = os.path.normpath(os.path.join(at, path)) if path else name
        if not os.path.exists(os.path.join(TOP, path)):
            told.append(f"{name}: a link to {target}, and no such file")
        elif anchor and path.endswith(".md") and anchor not in anchors(path):
            told.append(f"{name}: a link to {target}, and no such heading")
    return told


def files_found(expression, names):
    """The files under crates/ whose text matches."""
    inside = [it for it in names if it.startswith("crates/")]
    return {it for it in inside if re.search(expression, text_of(it))}


def files_of_a_rule(names):
    """The files that docs/adding-a-rule.md lists, against those that its expression finds."""
    name = "docs/adding-a-rule.md"
    page = text_of(name)
    found = re.search(r"<!-- files: (.*?) -->", page)
    if not found:
        return [f"{name}: it lacks its line `<!-- files: .. -->`"]
    rows = [line for line in page[found.end():].split("\n") if line.startswith("|")]
    cells = [line.split("|")[1] for line in rows]
    listed = {f"crates/{path}" for cell in cells for path in re.findall(r"`([^`]+)`", cell)}
    wanted = files_found(found[1], names)
    if "--files" in sys.argv:
        return [it[len("crates/"):] for it in sorted(wanted)]
    told = [f"{name}: {it} isn't listed" for it in sorted(wanted - listed)]
    over = sorted(listed - wanted)
    return told + [f"{name}: {it} is listed, and the expression doesn't find it" for it in over]


def crates_of_gate():
    """The rows of docs/gate.md, and of its reasons, against the crates that there are."""
    name, page, told = "docs/gate.md", text_of("docs/gate.md"), []
    rows = re.findall(r"^\| `(\w+)` \|", page, re.M)
    why = re.findall(r"^- ((?:`\w+`(?:, | and )?)+):", page, re.M)
    reasons = {it for line in why for it in re.findall(r"`(\w+)`", line)}
    for crate in crates():
        if rows and crate not in rows:
            told.append(f"{name}: no row for {crate}: python3 bench/gate.py --page writes them")
        has_some = glob.glob(os.path.join(TOP, "crates", crate, "must-fail", "*.edit"))
        if not has_some and crate not in reasons and not crate.endswith("_cases"):
            told.append(f"{name}: it doesn't say why {crate} has no wrong bodies")
    return told + [f"{name}: {it} is no crate" for it in sorted({*rows, *reasons} - {*crates()})]


def crates_by_floor():
    """The page that lists the crates floor by floor, against those that there are."""
    told, there = [], {*crates()}
    for name in pages():
        for block in re.findall(r"^```\n(.*?)^```", text_of(name), re.M | re.S):
            if not re.search(r"^door ", block, re.M):
                continue
            listed = {word for line in block.split("\n") for word in line.split()[1:]}
            told += [f"{name}: {it} stands on no floor" for it in sorted(there - listed)]
            told += [f"{name}: {it} is no crate" for it in sorted(listed - there)]
    return told


def crates_of_proved():
    heads = re.findall(r"^### (.*)$", text_of("docs/proved.md"), re.M)
    there = {it for line in heads for it in re.findall(r"`(\w+)`", line)}
    told = [f"docs/proved.md: no section for {it}" for it in crates() if it not in there]
    return told + [f"docs/proved.md: {it} is no crate" for it in sorted(there - {*crates()})]


def marks():
    """The marks of docs/definitions.md, against what `run` reaches."""
    seen, _ = reached.reached()
    page = text_of("docs/definitions.md")
    if reached.marked(page, seen)[0] == page:
        return []
    return ["docs/definitions.md: its marks aren't those of the code: docs/reached.py --mark"]


def sentences_of_rules():
    """The sentences of docs/rules.md, against those of the program, which go by number."""
    code = text_of("crates/class_marker/src/sentences.rt")
    told = re.findall(r'^ +(?:\d+|_) => "(.*)",$', code, re.M)
    names = [f"S{n}" for n in range(1, 29)] + ["K1", "K2", "K3"]
    wanted = [f"- {name}: {it}" for name, it in zip(names, told)]
    found = re.findall(r"^- [SK]\d+: .*$", text_of("docs/rules.md"), re.M)
    if len(told) == len(names) and wanted == found:
        return []
    over = [it for it in found + wanted if it not in wanted or it not in found] or ["the order"]
    return [f"docs/rules.md: not what the program says of a rule: {it}" for it in over]


def mark_on_the_first_page():
    """The mark that README.md shows is what a stored run writes of the file that it names."""
    page = text_of("README.md")
    found = re.search(r"`\./fux explain (\S+)` tells.*?```\n(.*?)```", page, re.S)
    if not found:
        return ["README.md: no mark explained"]
    path, shown = found[1], found[2]
    quoted = {it: json.dumps(text_of(it) if it == path else shown) for it in (path, "shown")}
    for run in text_of("crates/stored_runs/stdin").split("\n\n"):
        if '\nwords "explain" "F"\n' in run and f'file "F" {quoted[path]}\n' in run:
            return [] if f'out {quoted["shown"][:-1]}' in run else ["README.md: not what is written of the mark"]
    return [f"README.md: no stored run explains {path}"]


def pictures(names):
    runs = text_of("crates/stored_runs/stdin")
    shown = [name for name in names if name.startswith("docs/pictures/")]
    written = {name: text_of(name).replace("\\", "\\\\").replace('"', '\\"').replace("\n", "\\n") for name in shown}
    return [f"{name} is no answer of a stored run" for name in shown if f'\nout "{written[name]}"\n' not in runs]


def put(name, page):
    with open(os.path.join(TOP, name), "w", encoding="utf-8") as it:
        it.write(page)


def main():
    words = sys.argv[1:]
    if words[:1] == ["--split"]:
        for name in words[1:]:
            path = os.path.relpath(os.path.abspath(name), TOP)
            put(path, split(text_of(path)))
        return 0
    names = files()
    if words == ["--files"]:
        print("\n".join(files_of_a_rule(names)))
        return 0
    if words == ["--fix"]:
        reached.write_marks()
        for name in pages():
            put(name, split(text_of(name)))
    known, told = words_of_code(names), []
    for name in pages():
        told += unsplit(name) + dead_links(name) + headings_twice(name)
        if name != "CHANGES.md":
            told += unknown_words(name, known, names)
    told += files_of_a_rule(names) + crates_of_gate() + crates_of_proved()
    told += crates_by_floor() + marks() + sentences_of_rules() + pictures(names)
    told += mark_on_the_first_page()
    for line in told:
        print(f"docs/check.py: {line}")
    return 1 if told else 0


if __name__ == "__main__":
    sys.exit(main())
