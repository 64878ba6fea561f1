#!/usr/bin/env python3
"""Brings the repository's own definitions and lemmas to today's spelling, once, after port.py: words in snake case, a dash only
where it joins the names of two definitions. Types and modules stay in camel case; names of src/ stay.

usage: python3 tools/respell.py [--look] [FOLDER]     at the top of the repository (or FOLDER); --look only prints what falls together
"""
import collections
import os
import re
import sys

DECLARED = re.compile(r"^(\s*)((?:(?:pub|abbrev|unfoldable|private)\s+)*)([^\s:(){}.,;]+)((?:\s+\{[^}]*\})?)\s+:\s")
TOKEN = re.compile(r"[^\s(){}\[\],;.@|\"`]+")
STD = set("""length append set take drop map get_or cons nil none some sum add mul sub div mod min max and or not suc zero copy true false
eqb leb ltb cond fst snd head tail replicate reverse index slice all""".split())
KEPT = re.compile(r"^(invariant|decreases|returns|overflow|nonzero|bounds|slice_bounds|offset_bounds)(-|$)|-spec$")


def texts(top, ends):
    for folder, dirs, files in os.walk(os.path.join(top, "crates")):
        dirs[:] = sorted(d for d in dirs if d not in ("out", "data"))
        for f in sorted(files):
            if f.endswith(ends):
                yield os.path.join(folder, f)


def read(p):
    with open(p, encoding="utf-8") as f:
        return f.read()


def is_answer_file(p):
    return p.endswith("/Proof.antt")


def declared(top):
    """Each name that the repository declares in specs/ and proofs/: its kind is 'word' (specs/, abbrev, unfoldable, a field) or 'lemma'."""
    found = {}
    for p in texts(top, ".antt"):
        record = False
        for line in read(p).splitlines():
            if re.match(r"\s*(pub )?(record|data)\s", line):
                record = True
            elif line.strip() and not line.startswith(" ") and not line.startswith("--"):
                record = False
            m = DECLARED.match(line)
            if not m:
                continue
            name = m.group(3)
            if is_answer_file(p) and ("tie." in line or KEPT.search(name)):
                continue
            word = record or "/specs/" in p or "abbrev" in m.group(2) or "unfoldable" in m.group(2)
            if found.get(name) != "word":
                found[name] = "field" if record else "word" if word else "lemma"
    return found


def snake(part):
    part = re.sub(r"(?<=[a-z0-9'])([A-Z])", lambda m: "_" + m.group(1).lower(), part)
    return part


def respelled(name, kind, words):
    if not re.match(r"[a-z]", name):
        return name
    parts = [snake(x) for x in name.split("-")]
    out = parts[0]
    for a, b in zip(parts, parts[1:]):
        joins = kind == "lemma" and a in words and b in words
        out += ("-" if joins else "_") + b
    return out


def turned(top):
    found = declared(top)
    words = {snake(n) for n, k in found.items() if k != "lemma" and "-" not in n} | STD
    table = {n: respelled(n, k, words) for n, k in found.items()}
    taken = {table[n] for n, k in found.items() if k != "lemma"}
    taken |= {table[n] for n in found if re.search(r"[A-Z]", n)}
    for n, k in found.items():
        if k == "lemma" and not re.search(r"[A-Z]", n) and table[n] in taken:
            table[n] += "_lem"
    return {n: r for n, r in table.items() if r != n}, found


def own(crates, line):
    m = re.match(r"\s*(?:pub )?(?:ghost )?use (.*)", line)
    return not m or any(m.group(1).startswith(f"Rattle.{c}.") for c in crates)


def turn_antt(text, table, fields, crates, answers):
    out = []
    foreign = set()
    for line in text.splitlines(keepends=True):
        if line.startswith("use ") and not own(crates, line):
            foreign |= set(TOKEN.findall(line.split("{", 1)[1])) if "{" in line else set()
    for line in text.splitlines(keepends=True):
        if line.startswith("use ") and not own(crates, line):
            out.append(line)
            continue
        code, dash, said = line.partition("--") if "--" in line else (line, "", "")

        def new(m, s=None):
            t = m.group(0)
            if t not in table or t in foreign:
                return t
            before = m.string[m.start() - 1] if m.start() else ""
            if before == "." and answers and "-" in t:
                return t.replace("-", "_") if t in fields else t
            if before == "." and t not in fields and not re.search(r"(?:Rattle[\w.]*|module)\.$", m.string[: m.start()]):
                return t
            return table[t]

        code = TOKEN.sub(new, code)
        said = re.sub(r"`([^`\n]+)`", lambda m: "`" + TOKEN.sub(lambda t: table.get(t.group(0), t.group(0)), m.group(1)) + "`", said)
        said = re.sub(r"[a-z]\w*[A-Z]\w*", lambda m: table.get(m.group(0), m.group(0)), said)
        out.append(code + dash + said)
    return "".join(out)


def turn_rt(text, table):
    camel = lambda s: re.sub(r"(?<![\w'])[a-z][\w']*[A-Z][\w']*", lambda m: table.get(m.group(0), m.group(0)), s)
    dashed = lambda s: re.sub(r"(?<![\w'-])[a-z][\w']*(?:-[\w']+)+", lambda m: table.get(m.group(0), m.group(0)), s)
    out = []
    for line in text.splitlines(keepends=True):
        line = camel(line)
        if line.lstrip().startswith("//"):
            line = re.sub(r"`([^`\n]+)`", lambda m: "`" + dashed(m.group(1)) + "`", line)
        elif '"' not in line:
            line = dashed(line)
        out.append(line)
    return "".join(out)


def turn_page(text, table):
    return re.sub(r"`([^`\n]+)`", lambda m: "`" + TOKEN.sub(lambda t: table.get(t.group(0), t.group(0)), m.group(1)) + "`", text)


def main(argv):
    look = "--look" in argv
    rest = [a for a in argv if a != "--look"]
    top = rest[0] if rest else "."
    crates = sorted(os.listdir(os.path.join(top, "crates")))
    table, found = turned(top)
    fields = {n for n, k in found.items() if k == "field"}
    together = collections.defaultdict(set)
    for n in found:
        together[table.get(n, n)].add(n)
    for new, olds in sorted(together.items()):
        if len(olds) > 1:
            print("together:", new, sorted(olds))
    news = set(table.values())
    for p in texts(top, ".antt"):
        text = read(p)
        code = "\n".join(l.partition("--")[0] for l in text.splitlines())
        tokens = set(TOKEN.findall(code))
        for old in sorted(tokens & set(table)):
            if table[old] in tokens:
                print("clash:", p, old, table[old])
        if not look:
            new = turn_antt(text, table, fields, crates, is_answer_file(p))
            if new != text:
                with open(p, "w", encoding="utf-8") as f:
                    f.write(new)
    for p in texts(top, ".rt"):
        text = read(p)
        for old in sorted(set(re.findall(r"(?<![\w'])[a-z][\w']*[A-Z][\w']*", text)) & set(table)):
            if re.search(r"(?:\(|, |let (?:mut )?|^\s+)(?:mut )?" + table[old] + r"\s*[:=]", text, re.M):
                print("hides:", p, old, table[old])
        if not look:
            new = turn_rt(text, table)
            if new != text:
                with open(p, "w", encoding="utf-8") as f:
                    f.write(new)
    if not look:
        for p in list(texts(top, ".edit")):
            text = read(p)
            new = turn_rt(text, table)
            if new != text:
                with open(p, "w", encoding="utf-8") as f:
                    f.write(new)
        pages = [os.path.join(top, "README.md")] + [os.path.join(d, f) for d, _, fs in os.walk(os.path.join(top, "docs")) for f in fs if f.endswith(".md")]
        for p in pages:
            text = read(p)
            new = turn_page(text, table)
            if new != text:
                with open(p, "w", encoding="utf-8") as f:
                    f.write(new)
    print(f"{len(table)} of {len(found)} names respelled")
    return 0


if __name__ == "__main__":
    raise SystemExit(main(sys.argv[1:]))
