#!/usr/bin/env python3
"""Which definitions of specs/ the words of `run`'s clauses reach: those that a reader has to trust.

    python3 docs/reached.py           says how many there are, crate by crate
    python3 docs/reached.py --list    lists them, as CRATE MODULE.NAME
    python3 docs/reached.py --mark    marks them in docs/definitions.md, and writes the counts there

It begins with the definitions that the file of `run` names in its contracts, and follows the
names in each definition: those of its own module, those that the module imports, and those under
an imported module's other name. Types of the code aren't counted; they stand in src/.
"""
import collections
import glob
import os
import re
import sys

TOP = os.path.dirname(os.path.dirname(os.path.abspath(__file__)))
PAGE = os.path.join(TOP, "docs", "definitions.md")
MARK = "●"
WORD = re.compile(r"[^\s(){},;\[\]\"]+")
FIRST = {"abbrev", "pub", "unfoldable", "record", "data", "infixl", "infixr", "infix", "opaque"}
IMPORT = re.compile(
    r"use Rattle\.(\w+)\.specs\.([\w.]+?)(?:\.\{(.*)\}| as (\w+))?\s*$"
)


def modules():
    """Each module of specs/ by its crate and name: its definitions' texts, and its imports."""
    found = {}
    every = os.path.join(TOP, "crates", "*", "specs", "**", "*.antt")
    for path in glob.glob(every, recursive=True):
        crate, _, inside = os.path.relpath(path, os.path.join(TOP, "crates")).split(os.sep, 2)
        with open(path, encoding="utf-8") as it:
            found[crate, inside[:-5].replace(os.sep, ".")] = read(it.read().split("\n"))
    return found


def read(lines):
    texts, imports, others, name = collections.OrderedDict(), {}, {}, None
    is_inner = False
    for line in lines:
        if not line.strip() or line.lstrip().startswith("--"):
            continue
        # what a module with parameters has is indented by two
        if line.startswith("module "):
            is_inner = True
        elif line[0] != " ":
            is_inner = False
        elif is_inner and line.startswith("  "):
            line = line[2:]
        used = IMPORT.match(line.removeprefix("pub "))
        if used:
            taken(used, imports, others)
            continue
        if line[0] not in " \t)}":
            words = line.split()
            while words and words[0] in FIRST:
                words.pop(0)
            name = words[0] if words else None
        if name and not line.startswith(("use ", "pub use ", "module ", "unfolding ", "pub mod ")):
            texts.setdefault(name, []).append(line)
    return texts, imports, others


def taken(used, imports, others):
    """Keeps what an import names."""
    crate, module, names, other = used.groups()
    if names is None:
        others[other or module.split(".")[-1]] = crate, module
        return
    for one in names.split(","):
        was, _, now = one.strip().partition(" as ")
        imports[now or was] = crate, module, was


def run_words():
    """The definitions that the file of `run` names, and the crate that it stands in."""
    for path in glob.glob(os.path.join(TOP, "crates", "*", "src", "*.rt")):
        with open(path, encoding="utf-8") as it:
            text = it.read()
        if re.search(r"^pub fn run<", text, re.M):
            imports, others = {}, {}
            for line in text.split("\n"):
                used = IMPORT.match(line.strip().removeprefix("ghost ").rstrip(";"))
                if used:
                    taken(used, imports, others)
            return set(imports.values())
    sys.exit("no file under crates/*/src has `pub fn run<`")


def reached():
    """Each definition that is reached, as a crate, a module and a name."""
    every, seen = modules(), set()
    left = [it for it in run_words() if it[:2] in every]
    while left:
        crate, module, name = left.pop()
        if (crate, module, name) in seen or (crate, module) not in every:
            continue
        texts, imports, others = every[crate, module]
        if name not in texts:
            if name in imports:
                left.append(imports[name])
            continue
        seen.add((crate, module, name))
        for word in WORD.findall(" ".join(texts[name])):
            head, _, tail = word.partition(".")
            if head in others and tail:
                left.append((*others[head], tail.split(".")[0]))
            for one in (word, head):
                if one in texts and one != name:
                    left.append((crate, module, one))
                elif one in imports:
                    left.append(imports[one])
    return seen, every


def marked(page, seen):
    """The page with a mark behind each name that is reached, and how many names have one."""
    out, crate, counts = [], None, [0, 0]
    for line in page.split("\n"):
        head = re.match(r"## `(\w+)`", line)
        if line.startswith("## "):
            crate = head[1] if head else None
        cell = re.match(r"\| (`.*?) \|", line)
        if crate and cell:
            module, text = "", cell[1].replace(f" {MARK}", "")

            def put(found):
                nonlocal module
                before, _, name = found[1].rpartition(".")
                module = before or module
                is_reached = (crate, module, name) in seen
                counts[0] += 1
                counts[1] += is_reached
                return found[0] + (f" {MARK}" if is_reached else "")

            text = re.sub(r"`([^`]+)`", put, text)
            line = f"| {text} |" + line[cell.end():]
        out.append(line)
    return "\n".join(out), counts


SAID = re.compile(r"<!-- reached -->.*?<!-- /reached -->", re.S)


def write_marks():
    """Sets the marks of the page, and says in it how many there are."""
    seen, every = reached()
    with open(PAGE, encoding="utf-8") as it:
        page = it.read()
    page, counts = marked(page, seen)
    whole = sum(len(texts) for texts, _, _ in every.values())
    said = (
        "<!-- reached -->\n"
        f"The words of `run`'s clauses reach {len(seen):,} of the {whole:,} names in `specs/`.\n"
        f"Of the {counts[0]:,} names below they reach {counts[1]:,}, which have the mark {MARK}: "
        "a reader has to trust these.\n"
        "`docs/reached.py` follows the names, lists them all, and sets the marks.\n<!-- /reached -->"
    )
    page = SAID.sub(lambda _: said, page)
    with open(PAGE, "w", encoding="utf-8") as it:
        it.write(page)


def main():
    seen, every = reached()
    if "--list" in sys.argv:
        print("\n".join(sorted(f"{crate} {module}.{name}" for crate, module, name in seen)))
    elif "--mark" in sys.argv:
        write_marks()
    else:
        by_crate = collections.Counter(crate for crate, _, _ in seen)
        for crate, count in by_crate.most_common():
            print(f"{count:5} {crate}")
        print(f"{len(seen):5} in all, of {sum(len(texts) for texts, _, _ in every.values())}")
    return 0


if __name__ == "__main__":
    sys.exit(main())
