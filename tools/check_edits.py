#!/usr/bin/env python3
"""Says which edits no longer fit the crates: an old text has to stand exactly once in its file.

usage: python3 tools/check_edits.py [NAME..]      at the top; the edits of these crates, or of all

Reads crates/NAME/must-fail/*.edit and edits/NAME/*.edit. A 'file:' line holds for the 'old:' and 'new:' lines after it, and each pair
applies to what the earlier pairs of its edit made. Each edit that does not fit is printed with the reason, and the exit status is then 1.
Whether the prover refuses an edit is for `rt ci` and .ci/edits to say.
"""

import glob
import os
import sys


def edits_of(names):
    for path in sorted(glob.glob("crates/*/must-fail/*.edit") + glob.glob("edits/*/*.edit")):
        name = path.split(os.sep)[1]
        if not names or name in names:
            yield name, path


def places(text, old):
    """How often a text stands in another, overlaps too."""
    n, at = 0, text.find(old)
    while at >= 0:
        n, at = n + 1, text.find(old, at + 1)
    return n


def faults(name, path):
    """What keeps an edit from fitting the crate of that name."""
    found, made = [], {}
    file = old = None
    pairs = 0
    with open(path, encoding="utf-8") as f:
        lines = f.read().split("\n")
    for line in lines:
        if not line:
            continue
        if line.startswith("file: "):
            file = os.path.join("crates", name, line[len("file: "):])
            if file not in made:
                if not os.path.isfile(file):
                    return [f"there is no {file}"]
                with open(file, encoding="utf-8") as f:
                    made[file] = f.read()
        elif line.startswith("old: ") and file is not None and old is None:
            old = line[len("old: "):]
        elif (line.startswith("new: ") or line == "new:") and old is not None:
            new = line[len("new: "):]
            n = places(made[file], old)
            if n != 1:
                return [f"stands {n} times in {file}: {old}"]
            if new == old:
                found.append(f"changes nothing: {old}")
            made[file] = made[file].replace(old, new)
            old = None
            pairs += 1
        else:
            return [f"a line that is none of file, old and new, or out of turn: {line}"]
    if old is not None or not pairs:
        found.append("an old text without a new one, or no pair at all")
    for file, text in made.items():
        with open(file, encoding="utf-8") as f:
            if f.read() == text:
                found.append(f"all its pairs together leave {file} as it is")
    return found


def main():
    count = bad = 0
    for name, path in edits_of(sys.argv[1:]):
        count += 1
        said = faults(name, path)
        for fault in said:
            print(f"{path}: {fault}")
        bad += bool(said)
    print(f"{count - bad} fit, {bad} don't")
    return 1 if bad or not count else 0


if __name__ == "__main__":
    sys.exit(main())
