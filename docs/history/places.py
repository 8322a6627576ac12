#!/usr/bin/env python3
"""Lists the places in crates/*/src that the design pass looks at, point by point.

    python3 docs/history/places.py [COMMIT] [--list]

Without a commit it reads the working tree. It prints how many places there are of each kind; with --list, each place too.
It finds by the shape of the text, so that each place is still to be read.
"""
import collections
import pathlib
import re
import subprocess
import sys


def sources(commit):
    if commit is None:
        for path in sorted(pathlib.Path("crates").glob("*/src/*.rt")):
            yield str(path), path.read_text()
        return
    names = subprocess.run(
        ["git", "ls-tree", "-r", "--name-only", commit, "crates"],
        capture_output=True, text=True, check=True).stdout.split()
    for name in names:
        if re.fullmatch(r"crates/[^/]+/src/[^/]+\.rt", name):
            yield name, subprocess.run(
                ["git", "show", f"{commit}:{name}"], capture_output=True, text=True, check=True).stdout


def functions(text):
    """Each function that has a body: line, name, signature, clauses, body."""
    lines = text.split("\n")
    for i, line in enumerate(lines):
        m = re.match(r"( *)(?:pub(?:\([a-z]+\))? )?(?:final )?fn (\w+)", line)
        if not m:
            continue
        indent = m.group(1)
        j = i
        while not (lines[j] == indent + "{" or lines[j].endswith((" {", ";", "{}")) and "ensures" not in lines[j] or lines[j].endswith("};")):
            j += 1
        if lines[j].endswith((";", "{}")):
            continue
        end = next(k for k in range(j, len(lines)) if lines[k] == indent + "}")
        head = "\n".join(lines[i:j + 1])
        signature = re.split(r"^ *(?:requires|ensures)\b", head, flags=re.M)[0]
        yield i + 1, m.group(2), signature, head[len(signature):], "\n".join(lines[j + 1:end])


def shape(body):
    """The body with each name, number and text as one sign."""
    tokens = re.findall(r'"[^"]*"|\'.\'|\w+|[^\w\s]', re.sub(r"//.*", "", body))
    kept = {"if", "else", "match", "for", "while", "let", "mut", "return", "in", "None", "Some", "Ok", "Err", "loop", "as"}
    return tuple(t if t in kept or not re.match(r"\w|[\"']", t) else "_" for t in tokens)


LINES = [
    ("1 own enums", r"^\s*(pub )?enum \w+"),
    ("1 flags as parameters or beside a value", r"\b\w+: bool\b(?!;)|Result<bool|Option<bool|\(bool, |, bool\)"),
    ("1 numbers for kinds", r"const NO\w*: u\d+|-> u8$|fn number\b"),
    ("3 while and loop", r"^\s*(while|loop)\b"),
    ("3 for over a range of indices", r"^\s*for .* in .*\.\.(?!\.)"),
    ("3 for with enumerate", r"^\s*for .*enumerate\(\)"),
    ("3 sums and counts by hand", r"^\s*(?!self\.(from|count|len)\b)\w[\w.]* \+= "),
    ("4 casts", r"\bas (u8|u16|u32|u64|usize|i64)\b"),
    ("4 comparisons by hand", r"^impl(<.*>)? (PartialEq|PartialOrd|Ord|Eq|Clone|Precedes)\b"),
    ("4 words by hand", r"^\s*(\S+ => )?(e?print(ln)?!\(rt; )?\(?\"[a-z :,.{}]+\"|^\s*\S+::\S+ => (e?print(ln)?)!"),
    ("6 a length beside a buffer", r"^\s*(len|count|written): usize,|\blet written\b"),
    ("6 arrays beside one another", r"^\s*\w+: \[\w+; \d+\],"),
    ("7 switches on a step", r"^\s*(\S+ = )?(if (on|up)|match (change|call|self|command|asked\(&rt\)\?)) \{"),
]


def main():
    args = [a for a in sys.argv[1:] if a != "--list"]
    commit = args[0] if args else None
    found = collections.defaultdict(list)
    shapes = collections.defaultdict(list)
    clauses = collections.defaultdict(list)
    pairs = collections.defaultdict(list)
    for path, text in sources(commit):
        for number, line in enumerate(text.split("\n"), 1):
            if line.lstrip().startswith("//"):
                continue
            for kind, pattern in LINES:
                if re.search(pattern, line):
                    found[kind].append(f"{path}:{number}: {line.strip()}")
        for number, name, signature, head, body in functions(text):
            place = f"{path}:{number}: {name}"
            if len(shape(body)) > 10:
                shapes[shape(body)].append(place)
            for clause in re.findall(r"(?:requires|ensures)(?: \w+)? \{ (.*) \}", head):
                clauses[clause].append(place)
            params = re.findall(r"(\w+): ([^,()]+?)(?=[,)\n])", re.sub(r"<[A-Z].*?>\(", "(", signature))
            for i, p in enumerate(params):
                for q in params[i + 1:]:
                    pairs[" ".join(sorted([f"{p[0]}: {p[1]}", f"{q[0]}: {q[1]}"]))].append(place)
    for places in shapes.values():
        if len(places) > 1:
            found["2 bodies of one shape"].append(" ~ ".join(places))
    for clause, places in clauses.items():
        if len(places) > 2:
            found["5 a clause of three functions or more"].append(f"{len(places)} times {clause}")
    for pair, places in pairs.items():
        if len(places) > 2:
            found["5 parameters together in three functions or more"].append(f"{len(places)} times {pair}")
    for kind in sorted(found):
        print(f"{kind}: {len(found[kind])}")
        if "--list" in sys.argv:
            for place in found[kind]:
                print(f"    {place}")


main()
