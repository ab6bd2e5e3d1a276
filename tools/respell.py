#!/usr/bin/env python3
"""Brings this repository's own definitions and lemmas to today's spelling; run once, after port.py.

A definition or lemma is spelled in snake case (inRoom becomes in_room). A dash stays only where it joins the names of two
definitions, as in length-spell; before a plain word it becomes an underscore. Types, modules, what src/ declares and what the
check itself names keep their spelling. A name that would fall together with another gets _lem.
"""
import os
import re
import sys

# Definitions of the library that lemmas here are named by.
LIBRARY = set("length append take drop set sets map get_or set_at add mul sub div mod neg abs pos min max reverse filter cond le lt eq and or".split())
TOKEN = re.compile(r"[^\s(){}\[\]|,;=.:λ→×⌜⌝\"`]+")
DEFINED = re.compile(r"^[ ]*((?:(?:abbrev|unfoldable|pub) )*)([^\s:(){}|,;=.]+)((?: [^\s:(){}|,;=.]+)*) : (.*)$", re.M)


def sources(root, endings):
    for folder, dirs, files in os.walk(root):
        dirs[:] = sorted(d for d in dirs if d not in ("out", "target", ".git"))
        for f in sorted(files):
            if f.endswith(endings):
                yield os.path.join(folder, f)


def read(path):
    with open(path, encoding="utf-8") as f:
        return f.read()


def snake(part):
    part = re.sub(r"(?<=[a-z0-9'])([A-Z])", lambda m: "_" + m.group(1).lower(), part)
    return part


def respelled(name, functions):
    parts = [snake(p) for p in name.split("-")]
    out, at = [], 0
    # the longest runs of parts that are each a definition's name
    def runs(i):
        if i == len(parts):
            return []
        for j in range(len(parts), i, -1):
            if "_".join(parts[i:j]) in functions:
                rest = runs(j)
                if rest is not None:
                    return ["_".join(parts[i:j])] + rest
        return None
    found = runs(0)
    return "-".join(found) if found else "_".join(parts)


def main():
    root = sys.argv[1] if len(sys.argv) > 1 else "."
    crates = os.path.join(root, "crates")
    marks, names, kept = {}, {}, set()
    for p in sources(crates, ".antt"):
        for m in DEFINED.finditer(read(p)):
            for n in [m.group(2)] + m.group(3).split():
                if not re.match(r"[a-zα-ω]", n) or n in ("use", "let", "in", "module"):
                    continue
                if re.match(r"(tie|goal)\.", m.group(4)):
                    kept.add(n)
                    continue
                names.setdefault(n, set()).add(p)
                if "abbrev" in m.group(1) or "unfoldable" in m.group(1):
                    marks[n] = True
    functions = LIBRARY | {snake(n) for n in marks if "-" not in n}
    mapping = {}
    for n in names:
        if ("-" in n or re.search(r"[a-z0-9'][A-Z]", n)) and n not in kept:
            new = respelled(n, functions)
            if new != n:
                mapping[n] = new
    # names that fall together: the definition keeps the name, the lemma gets _lem
    taken = {n for n in names if n not in mapping} | kept
    for n in sorted(list(mapping), key=lambda n: (n not in marks, n)):
        new = mapping[n]
        if n in marks and new in taken and new in names and new not in marks and new not in kept:
            print("falls together:", n, "->", new, "and the lemma of that name becomes", new + "_lem")
            mapping[new] = new + "_lem"
            taken.add(new + "_lem")
            continue
        if new in taken:
            print("falls together:", n, "->", new, "becomes", new + "_lem")
            mapping[n] = new + "_lem"
        taken.add(mapping[n])
    print(len(mapping), "names")

    def turn(text, skip, dashes, rust):
        def one(m):
            t = m.group(0)
            if t in skip or t not in mapping or ("-" in t and not dashes):
                return t
            # a name that is spelled as Rust spells a function's may be one, in src/ and in a path
            if re.fullmatch(r"[a-z0-9_]+", t) and (rust or text[m.start() - 1:m.start()] == "."):
                return t
            return mapping[t]
        return TOKEN.sub(one, text)

    changed = 0
    for p in sources(crates, (".antt", ".rt", ".edit")):
        text = read(p)
        skip = set()
        for m in re.finditer(r"^(?:ghost )?use ([^\s{]+)\.\{([^}]*)\}", text, re.M):
            if not m.group(1).startswith("Rattle.") or m.group(1).startswith("Rattle.std"):
                skip |= {w.strip().split(" as ")[0] for w in m.group(2).split(",")}
        comment = "--" if p.endswith(".antt") else "//"
        lines = []
        for line in text.split("\n"):
            code, sep, said = line, "", ""
            at = re.search(r"(^|\s)" + comment + r"(\s|$)", line)
            if at and not p.endswith(".edit"):
                cut = at.start() + len(at.group(1))
                code, said = line[:cut], line[cut:]
            if p.endswith(".edit") and not re.match(r"(old|new): ", line):
                lines.append(turn(line, skip, False, True))
                continue
            lines.append(turn(code, skip, True, p.endswith(".rt")) + turn(said, skip, False, p.endswith(".rt")))
        new = "\n".join(lines)
        if new != text:
            changed += 1
            with open(p, "w", encoding="utf-8") as f:
                f.write(new)
    print(changed, "files")


main()
