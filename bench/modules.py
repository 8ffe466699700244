#!/usr/bin/env python3
"""Says what each part of a crate's proof took, by when its modules were written.

    python3 bench/modules.py FOLDER [HOW MANY]

The seconds are of the clock, so nothing else should run beside the check.

FOLDER is one that a check of the crate filled from nothing with one job, as its `out/incremental`
behind a first `rt check --jobs 1`: it has a file for each module that was checked, and what
passed since the file before is what a module took. `--progress` tells of a function only when it
ended, so what was loaded or checked for it first counts as its own; here it stands apart. First
come the kinds of modules, then the functions, then the modules, the dearest first. `Lts` has the
steps of a function, by which it is shown that each borrow and each drop is right; `Proof` and
`Answers` what is shown of its contract.
"""
import collections
import os
import re
import sys

PARTS = (
    "Answers|Code|Drops|Given|Goals|Instances|Invariants|Kinds|Layout|Link|Lts|Met|Mir|Named|"
    "Proof|Reads|Statement|TheLink|Tie|View"
)


def modules(folder):
    """Each module with the seconds since the one before it was written."""
    found = []
    for at, _, names in os.walk(folder):
        for name in names:
            if name.endswith(".oantt"):
                found.append((os.stat(os.path.join(at, name)).st_mtime_ns / 1e9, name))
    found.sort()
    before = found[0][0] if found else 0
    for when, name in found:
        yield when - before, re.sub(r"^Rattle-|(\.decls)?\.oantt$", "", name)
        before = when


def part_of(module):
    """The kind of a module, and the function that it is of, if it is of one."""
    inside = re.fullmatch(rf"\w+-proofs\.(.*?)\.({PARTS})\b.*", module)
    if inside:
        return inside[2], inside[1]
    if "-specs.contracts" in module:
        return "contracts", ""
    return ("definitions" if "-specs" in module else "lemmas and the rest"), ""


def write(title, taken, count):
    """The dearest of what was counted."""
    print(title)
    for name, seconds in taken.most_common(count):
        print(f"{seconds:9.2f}  {name}")


def main():
    if len(sys.argv) < 2:
        sys.exit(__doc__)
    folder, count = sys.argv[1], int(sys.argv[2]) if len(sys.argv) > 2 else 20
    kinds, functions, each = (collections.Counter() for _ in range(3))
    for seconds, module in modules(folder):
        kind, function = part_of(module)
        kinds[kind] += seconds
        each[module] += seconds
        if function:
            functions[function] += seconds
    write("Kinds of modules, in seconds:", kinds, count)
    write("Functions:", functions, count)
    write("Modules:", each, count)


if __name__ == "__main__":
    main()
