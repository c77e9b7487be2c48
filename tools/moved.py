#!/usr/bin/env python3
"""Says what became of the theorems that stood in specs/laws before the port moved them to proofs/Theorems.

usage: python3 tools/moved.py             at the top, in a checkout with its history: compares each file of proofs/Theorems with the one in
                                          specs/laws at the commit in the second line of docs/PORT.md, lines of `use` aside
       python3 tools/moved.py --theorems  prints the theorems of proofs/Theorems whole, as docs/PORT.md lists them
"""

import difflib
import glob
import os
import re
import subprocess
import sys

USE = re.compile(r"(pub )?use ")
# a theorem has a type and then clauses; records, data and what is defined with a mark are no theorems
NAMED = re.compile(r"(\s*)(?:pub )?([^\s:({]+) : ")
OTHER = re.compile(r"\s*(abbrev|unfoldable|pub record|pub data|record|data)\b")


def crates():
    with open("crates.txt", encoding="utf-8") as f:
        return [line.split(":")[0].split()[0] for line in f if ":" in line]


def text(path):
    with open(path, encoding="utf-8") as f:
        return f.read()


def without_uses(lines):
    return [line for line in lines if not USE.match(line)]


def compare():
    commit = text("docs/PORT.md").split("\n")[1]
    said = subprocess.run(["git", "ls-tree", "-r", "--name-only", commit, "crates"], capture_output=True, text=True, check=True)
    count = 0
    for path in said.stdout.split("\n"):
        found = re.match(r"crates/(\w+)/specs/laws/(\w+)\.antt$", path)
        if not found:
            continue
        count += 1
        to = "crates/{}/proofs/Theorems/{}.antt".format(*found.groups())
        old = subprocess.run(["git", "show", f"{commit}:{path}"], capture_output=True, text=True, check=True).stdout
        old, new = without_uses(old.split("\n")), without_uses(text(to).split("\n"))
        if old != new:
            print("\n".join(difflib.unified_diff(old, new, path, to, lineterm="", n=0)))
    print(f"{count} files compared")


def theorems(path):
    lines = text(path).split("\n")
    block = None
    modules = [-2]
    for i, line in enumerate(lines):
        indent = len(line) - len(line.lstrip())
        if line.strip():
            while modules[-1] >= indent:
                modules.pop()
        if block is not None and line.strip() and indent <= block:
            block = None
        if OTHER.match(line):
            block = indent
        found = NAMED.match(line)
        if re.match(r"\s*module _ ", line):
            modules.append(indent)
            yield line.rstrip()
        elif found and block is None and indent == modules[-1] + 2:
            clause = re.compile(r"\s{%d}%s(\s|$)" % (indent, re.escape(found[2])))
            j = i + 1
            while j < len(lines) and lines[j].strip() and not clause.match(lines[j]) and not lines[j].lstrip().startswith("unfolding "):
                j += 1
            yield "\n".join(lines[i:j])


def main():
    if sys.argv[1:] != ["--theorems"]:
        compare()
        return
    for crate in crates():
        for path in sorted(glob.glob(f"crates/{crate}/proofs/Theorems/*.antt")):
            print(f"-- {os.path.relpath(path, 'crates')}")
            print("\n".join(theorems(path)))


main()
