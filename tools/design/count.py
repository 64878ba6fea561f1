#!/usr/bin/env python3
"""Counts the places of docs/DESIGN-PASS.md in src/, at a commit or in the work tree.

    python3 tools/design/count.py [COMMIT] [--list POINT]

Each point is a pattern over lines, but for twins (point 2) and facts (point 5): those compare whole functions and clauses. A line of a
comment counts for nothing. What a pattern finds is a place to look at; the page says which of them are no places.
"""
import collections
import re
import subprocess
import sys

POINTS = {
    "1a": ("own enums", r"^(pub |pub\(crate\) )?enum "),
    "1b": ("refusals by a bare number", r"refused\([0-9]+\)|\bnumber: [1-9][0-9]*\b|return [1-9][0-9]?;|Refused\([0-9]+\)|=> [1-9][0-9]?,"),
    "1c": ("a number or flag beside values in a struct", r"^    (pub |pub\(crate\) )?(number|over|found|ok): (u16|bool),"),
    "3": ("loops by while or loop", r"^ +(while|loop)\b(?! let)"),
    "3b": ("for over the numbers of a range", r"^ +for \w+ in .*\.\.(?!\])"),
    "4": ("true or false returned after an if", r"^ +return (true|false);"),
    "6": ("lent or local arrays of a fixed size", r"\[(u8|u16|Answer|Request); \w+\]"),
    "7": ("function types, closures and dyn", r"\bfn\(|\bdyn |impl Fn|\|\w*\| "),
}


def files(commit):
    if commit:
        names = subprocess.run(["git", "ls-tree", "-r", "--name-only", commit, "crates"], capture_output=True, text=True, check=True).stdout.split()
        names = [n for n in names if re.match(r"crates/\w+/src/.*\.rt$", n)]
        return {n: subprocess.run(["git", "show", f"{commit}:{n}"], capture_output=True, text=True, check=True).stdout for n in names}
    names = subprocess.run(["git", "ls-files", "crates/*/src/*.rt"], capture_output=True, text=True, check=True).stdout.split()
    return {n: open(n).read() for n in names}


def functions(text):
    for m in re.finditer(r"^( *)(?:pub |pub\(crate\) )?fn (\w+).*?^\1\}$", text, re.M | re.S):
        body = m.group(0)
        start = re.search(r"^ *\{$|\{$", body, re.M)
        yield m.group(2), body, body[start.start():] if start else body


def twins(texts):
    """Functions of three lines or more whose bodies are the same but for names and numbers."""
    groups = collections.defaultdict(list)
    for name, text in texts.items():
        for fn, _, body in functions(text):
            code = re.sub(r"//.*", "", body)
            if code.count("\n") >= 4:
                shape = re.sub(r"\b(?!if|else|match|return|while|for|let|mut|in|as|usize|u16|u8|true|false)[\w:]+\b", "x", code)
                groups[re.sub(r"\s+", " ", shape)].append(f"{name}: {fn}")
    return [g for g in groups.values() if len(g) > 1]


def facts(texts):
    """Conjuncts of requires clauses that stand in the contracts of three or more functions."""
    found = collections.defaultdict(list)
    for name, text in texts.items():
        for fn, body, _ in functions(text):
            for clause in re.findall(r"requires(?: \w+)? \{(.*?)\}\n", body, re.S):
                for part in clause.split("×"):
                    found[re.sub(r"\s+", " ", part).strip(" ()")].append(f"{name}: {fn}")
    return {k: v for k, v in found.items() if len(v) > 2}


def main():
    args = sys.argv[1:]
    shown = args[args.index("--list") + 1] if "--list" in args else None
    commit = args[0] if args and not args[0].startswith("--") else None
    texts = files(commit)
    for key, (what, pattern) in POINTS.items():
        hits = [(n, i, line) for n, t in texts.items() for i, line in enumerate(t.splitlines(), 1)
                if re.search(pattern, line) and not line.lstrip().startswith("//") and "ghost use" not in line]
        print(f"{key:3} {len(hits):4}  {what}")
        if shown == key:
            print("\n".join(f"        {n}:{i}: {line.strip()}" for n, i, line in hits))
    for key, what, found in [("2", "groups of functions that differ in names and numbers", [", ".join(g) for g in twins(texts)]),
                             ("5", "facts that three or more contracts require", [f"{len(v)} times {k}" for k, v in facts(texts).items()])]:
        print(f"{key:3} {len(found):4}  {what}")
        if shown == key:
            print("\n".join("        " + f for f in found))


main()
