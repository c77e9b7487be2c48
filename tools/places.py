#!/usr/bin/env python3
"""Lists the places that docs/DESIGN-PASS.md counts, point by point.

usage: python3 tools/places.py [POINT] [--at COMMIT]      at the top; all points, or one of 1 to 8, of the checkout or of a commit

It goes by the text of src/ and proofs/ alone: what is a place and what only looks like one is said on the page.
"""
import collections
import re
import subprocess
import sys


def files(commit, part, ending):
    """(path, text) of each file of that part of the crates."""
    if commit is None:
        names = subprocess.run(["git", "ls-files", f"crates/*/{part}/*{ending}"], capture_output=True, text=True, check=True).stdout.split()
        return [(name, open(name).read()) for name in names]
    names = subprocess.run(["git", "ls-tree", "-r", "--name-only", commit, "crates"], capture_output=True, text=True, check=True).stdout.split()
    names = [name for name in names if re.match(rf"crates/\w+/{part}/.*{re.escape(ending)}$", name)]
    return [(name, subprocess.run(["git", "show", f"{commit}:{name}"], capture_output=True, text=True, check=True).stdout) for name in names]


def functions(text):
    """(line, name, parameters, clauses, body) of each function."""
    lines = text.split("\n")
    for number, line in enumerate(lines):
        start = re.match(r"( *)(?:pub(?:\(crate\))? )?(?:const )?(?:extern \"C\" )?fn (\w+)", line)
        if not start:
            continue
        end = number
        while end < len(lines) and lines[end] != start.group(1) + "}":
            end += 1
        whole = "\n".join(lines[number : end + 1])
        opening = re.search(r"\)(?: -> [^{;]*?)?(?:\s+where[^{]*?)?\s*(?=requires|ensures|\{)", whole)
        if not opening:
            continue
        head, rest = whole[: opening.start()], whole[opening.end() :]
        clauses = "\n".join(re.findall(r"(?m)^ *(?:requires|ensures).*(?:\n(?! *\{$).*)*", rest.split("\n" + start.group(1) + "{\n")[0]))
        body = rest.split("\n" + start.group(1) + "{\n", 1)[-1] if clauses else rest
        parameters = re.findall(r"(?m)(\w+): ([^,\n()]+(?:\([^)]*\))?)", head[head.index("(") + 1 :])
        yield number + 1, start.group(2), parameters, clauses, body


def shape(body):
    """A body with its names, types and numbers taken out, each name by its first place."""
    seen = {}
    keep = {"let", "mut", "if", "else", "while", "for", "in", "return", "match", "loop", "break", "as", "true", "false"}
    out = []
    for token in re.findall(r"\w+|'[a-z]+|[^\w\s]", re.sub(r"//.*", "", body)):
        if token in keep:
            out.append(token)
        elif re.match(r"\d|u8$|u16$|u32$|u64$|usize$|b$", token):
            out.append("#")
        elif re.match(r"\w", token):
            out.append(seen.setdefault(token, f"n{len(seen)}"))
        else:
            out.append(token)
    return " ".join(out)


def lines_of(sources, pattern):
    return [f"{path}:{n}: {line.strip()}" for path, text in sources for n, line in enumerate(text.split("\n"), 1) if re.search(pattern, line)]


def one(src, proofs):
    found = [("enums", lines_of(src, r"^(pub )?enum "))]
    found.append(("flags in structs", lines_of(src, r"^ +(pub )?\w+: bool,$")))
    found.append(("numbers for refusals, kinds and what can't be", lines_of(src, r"^ *(pub )?const (?!MOST|MARK|PLACES|\w+_WIDTH)[A-Z_]+: u(8|32|64|size) = (\d+|NO_ROOM);")))
    answers = []
    for path, text in src:
        for n, name, _, clauses, body in functions(text):
            head = text.split("\n")[n - 1 :]
            result = re.search(r"\) -> (u32|u64|usize|bool)\b", "\n".join(head).split("{")[0])
            if result and re.search(r"return (false|words::[A-Z_]+|BAD|UNREAD|NO_DIGIT)|^ *words::[A-Z_]+$|UNREAD|\bBAD\b|NO_DIGIT", body, re.M) and re.search(r"number|fault|judge|read|set|digit|put|count|word|byte|longer", name):
                answers.append(f"{path}:{n}: fn {name} -> {result.group(1)}")
    found.append(("functions that answer with a number or a flag", answers))
    return found


def two(src, proofs):
    shapes = collections.defaultdict(list)
    for path, text in src:
        for n, name, _, _, body in functions(text):
            if len(re.findall(r"\w+", body)) >= 8:
                shapes[shape(body)].append(f"{path}:{n}: fn {name}")
    return [("bodies of one shape", [" and ".join(same) for same in shapes.values() if len(same) > 1])]


def three(src, proofs):
    counting = r"^ *('\w+: )?while ((\w+ as usize\)?|\(\w+ as usize\)|\w+(\.\w+)?) (<|<=|>|!=) |0 < |1 < )"
    return [("loops that count an index", lines_of(src, counting)), ("other loops with while and loop", [line for line in lines_of(src, r"^ *('\w+: )?(while|loop)\b") if not re.search(counting, line.split(": ", 1)[1])])]


def four(src, proofs):
    code = [line for line in lines_of(src, r"\w\.0 (==|!=|<|<=|>|>=) ") if not re.search(r": (requires|ensures|×) ?", line) and "ghost" not in line]
    found = [("comparisons of the words in numbers of a kind", code)]
    copies = []
    for path, text in src:
        for match in re.finditer(r"(\w+): (\w+)\.\1\b", text):
            copies.append(f"{path}:{text.count(chr(10), 0, match.start()) + 1}: {match.group(0)}")
    found.append(("fields copied one by one", copies))
    found.append(("functions that convert or print", [f"{path}:{n}: fn {name}" for path, text in src for n, name, _, _, body in functions(text) if re.search(r"^\s*match \w+(\.\w+)? \{\s*(\w+::)+\w+(\(\w+\))? (=>|\|)", body) or re.match(r"(number|place|kind_of|symbol_of|codes_of|of_\w+|field|show_\w+|say_word)$", name)]))
    return found


def five(src, proofs):
    facts = collections.Counter()
    groups = collections.Counter()
    for path, text in src:
        for n, name, parameters, clauses, _ in functions(text):
            wants = "\n".join(re.findall(r"requires.*(?:\n(?! *(?:ensures|requires)).*)*", clauses))
            for fact in set(re.findall(r"\b(Ruled|Tabled|RootRows|Fit|Rowed|Stands|Inside|Sized|Grounded|Staged|Placed|Ready|Rising|Room|some_rules|a_rule|good_items|most_edges|most_reduces)\b", wants)):
                facts[fact] += 1
            names = {(p, t.strip()) for p, t in parameters}
            for a in names:
                for b in names:
                    if a < b:
                        groups[(a, b)] += 1
    many = [f"{path}:{n}: fn {name}: {len(parameters)}" for path, text in src for n, name, parameters, _, _ in functions(text) if len(parameters) > 7]
    return [("functions of more than seven parameters", many), ("facts in requires of three functions or more", [f"{fact}: {k} functions" for fact, k in facts.most_common() if k >= 3]), ("pairs of parameters in ten functions or more", [f"{a[0]}: {a[1]}, {b[0]}: {b[1]}: {k} functions" for (a, b), k in groups.most_common() if k >= 10])]


def six(src, proofs):
    return [("arrays in structs and locals", lines_of(src, r"(: \[\w+(::\w+)*; |= \[\w+; )")), ("counts beside them", lines_of(src, r"^ +(pub )?(count|len|length|size|n|depth): (u32|usize),$")), ("places of a table in one slice", lines_of(src, r"^pub const [A-Z]+: usize = \d+;$"))]


def seven(src, proofs):
    found = []
    for path, text in src:
        for n, name, _, _, body in functions(text):
            ways = re.findall(r"(?:=> |return |if \w+(?: ==|\.\w+ ==) [\w:']+ \{\s*return )(?:\w+::)*[a-z_]\w*\(", body)
            if len(ways) >= 3:
                found.append(f"{path}:{n}: fn {name}: {len(ways)} ways")
    return [("functions that pick one of three steps or more", found)]


def eight(src, proofs):
    lets, same, lines = 0, 0, 0
    for path, text in proofs:
        if not path.endswith("Answers.antt"):
            continue
        lines += text.count("\n")
        seen = collections.Counter(line.strip() for line in text.split("\n") if re.match(r" +let .* in$", line))
        lets += sum(k - 1 for k in seen.values() if k > 1)
        bodies = collections.Counter()
        for part in re.split(r"\n\s*\n", text):
            match = re.search(r"(?ms)^pub ([\w.+'-]+) : goal\.\1\n(?:unfolding .*\n)?\1 \w+ =(.*)", part)
            if match:
                bodies[re.sub(r"\s+", " ", match.group(2)).strip()] += 1
        same += sum(k - 1 for body, k in bodies.items() if k > 1 and len(body) > 30)
    return [("", [f"{lines} lines of answers, {lets} lets said again in their file, {same} answers said again in their file"])]


def main():
    words = sys.argv[1:]
    commit = None
    if "--at" in words:
        commit = words[words.index("--at") + 1]
        words = [w for w in words if w not in ("--at", commit)]
    src, proofs = files(commit, "src", ".rt"), files(commit, "proofs", ".antt")
    for number, point in enumerate((one, two, three, four, five, six, seven, eight), 1):
        if words and str(number) not in words:
            continue
        for what, places in point(src, proofs):
            print(f"{number}. {what}: {len(places)}" if what else f"{number}.")
            for place in places:
                print("   " + place)


main()
