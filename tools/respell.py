#!/usr/bin/env python3
"""Gives the repository's own words the spelling of today's Rattle, after the kit's port.py has turned the library's.

usage: python3 tools/respell.py      at the top, once, with crates/ as port.py leaves it

A word of specs/ and proofs/ that was in lower camel case is in snake case afterwards, in .antt files, in the clauses of .rt files, in edits
and, in backquotes, in the pages. Names of src/ are in snake case already and types in upper camel case, so neither is touched. Where two
words of one file come to share a spelling, that is said: they may be a function of src/ and the definition that it computes, in modules
of their own; any others are told apart in APART.
"""

import os
import re
import sys

# names that are no plain camel case
BY_HAND = {
    "getD-zeros": "get_or-zeros",
    "unlike": "Unlike",
}
# Words that would fall together with another word of the same file, or that a tactic has now: folder, word, what it becomes there. They are
# turned first, and only where they stand as a whole word.
APART = [
    ("crates/package/proofs", "read_is", "read_is_lem"),
    ("crates/package/proofs", "written_is", "written_is_lem"),
    ("crates/package/specs/laws/Trips.antt", "in_order", "in_order_lem"),
    ("crates/package/specs/laws/Promises.antt", "no_old", "none_old"),
    ("crates/rows/specs", "rows_left", "rows_left_lem"),
    ("crates/garden/proofs", "rows_left", "rows_left_lem"),
    ("crates/rules", "first_of", "first_rule"),
    ("crates/formula", "first_of", "first_place"),
]
# what cannot stand in a name
BREAKS = "\\s(){}\\[\\].,;:\u231c\u231d\"`\\\\|\u2192\u00d7"
WORD = re.compile(f"[^{BREAKS}]+")
CAMEL = re.compile(r"(?<![A-Za-z0-9_])[a-z][A-Za-z0-9_'\u2080-\u2089]*?[a-z0-9][A-Z]")
HUMP = re.compile(r"(?<=[a-z0-9])([A-Z])")


def turned(word):
    if word in BY_HAND:
        return BY_HAND[word]
    if not re.match(r"[a-z]", word) or not HUMP.search(word):
        return word
    # each part between dashes by itself: a type in a name keeps its capital
    parts = word.split("-")
    return "-".join(HUMP.sub(lambda m: "_" + m.group(1).lower(), p) if re.match(r"[a-z]", p) else p for p in parts)


def files():
    for top in ("crates", "edits"):
        for folder, dirs, names in os.walk(top):
            dirs[:] = sorted(d for d in dirs if d != "out")
            for name in sorted(names):
                if name.endswith((".antt", ".rt", ".edit")):
                    yield os.path.join(folder, name)


def clauses(text):
    """A .rt file's text with each word turned that is no string; Rust's own names have no humps."""
    pieces = re.split(r'("(?:[^"\\]|\\.)*")', text)
    return "".join(p if p.startswith('"') else WORD.sub(lambda m: turned(m.group(0)), p) for p in pieces)


def main():
    shared = []
    new = {}
    for path in files():
        with open(path, encoding="utf-8") as f:
            text = f.read()
        for folder, word, to in APART:
            if path.startswith(folder):
                text = WORD.sub(lambda m: to if m.group(0) == word else m.group(0), text)
        seen = {}
        for word in set(WORD.findall(text)):
            to = turned(word)
            seen.setdefault(to, set()).add(word)
        for to, words in sorted(seen.items()):
            if len(words) > 1:
                shared.append(f"{path}: {' and '.join(sorted(words))} are both {to} now")
        new[path] = clauses(text) if path.endswith(".rt") else WORD.sub(lambda m: turned(m.group(0)), text)
    pages = ["README.md"] + sorted(os.path.join("docs", p) for p in os.listdir("docs") if p.endswith(".md"))
    for path in pages:
        with open(path, encoding="utf-8") as f:
            text = f.read()
        new[path] = re.sub(r"`([^`\n]+)`", lambda m: "`" + WORD.sub(lambda w: turned(w.group(0)), m.group(1)) + "`", text)
    written = 0
    for path, text in new.items():
        with open(path, encoding="utf-8") as f:
            if f.read() == text:
                continue
        written += 1
        with open(path, "w", encoding="utf-8") as f:
            f.write(text)
    print("\n".join(shared))
    print(f"respell: {written} files")
    return 0


if __name__ == "__main__":
    sys.exit(main())
