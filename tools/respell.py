#!/usr/bin/env python3
"""Respells the repository's own definitions and lemmas: words in snake case, facts in camel case.

Run once, at the top, on what the toolchain's own script leaves:  python3 tools/respell.py [--dry]
It renames by whole words in specs/, proofs/ and the clauses of src/. Names of src/, goals and strings stay.
"""
import os
import re
import sys

# Names that would fall together with another one of the same file.
APART = {
    "any-leads": "any_leads_lem",
    "at-place": "at_place_lem",
    "bit-or": "bit_or_lem",
    "field-shown": "field_shown_lem",
    "held_by": "held_by_lem",
    "is-page": "is_page_lem",
    "page-at": "page_at_lem",
    "page-of": "page_of_lem",
    "put-at": "put_at_lem",
    "put-cell": "put_cell_lem",
    "put-pages": "put_pages_lem",
}

ID = r"[\w'\u25cc\u2032\-]"
SIG = re.compile(r"^(\s*)((?:(?:abbrev|pub|unfoldable)\s+)*)([^\s:(){}.,;]+)\s*:\s(.*)$")
KEYWORDS = {"let", "in", "module", "record", "data", "where", "use", "elim", "do", "open", "unfolding"}


def files(root):
    for d, dirs, names in os.walk(os.path.join(root, "crates")):
        dirs[:] = sorted(x for x in dirs if x != "out")
        for f in sorted(names):
            if f.endswith((".rt", ".antt")):
                yield os.path.join(d, f)


def defined(root):
    """The names that are defined, and those of them that are fields of records."""
    names, fields = {}, set()
    for p in files(root):
        if not p.endswith(".antt"):
            continue
        inside = None
        for line in open(p, encoding="utf-8"):
            if line.lstrip().startswith("--") or not line.strip():
                continue
            indent = len(line) - len(line.lstrip())
            if inside is not None and indent <= inside:
                inside = None
            m = re.match(r"^\s*(?:pub )?(record|data) (\S+)", line)
            if m:
                names.setdefault(m.group(2), set()).add(p)
                inside = indent if m.group(1) == "record" else None
                continue
            m = SIG.match(line)
            if not m or m.group(3) in KEYWORDS or m.group(4).startswith("goal."):
                continue
            names.setdefault(m.group(3), set()).add(p)
            if inside is not None:
                fields.add(m.group(3))
    return names, fields


def respelled(name):
    if name in APART:
        return APART[name]
    if name[:1].isupper():
        if "-" not in name:
            return name
        return "".join(w[:1].upper() + w[1:] for w in name.split("-"))
    if not re.fullmatch(r"[a-z][\w'\-]*", name):
        return name
    words = re.sub(r"([a-z0-9])([A-Z])", lambda m: m.group(1) + "_" + m.group(2).lower(), name)
    return words.replace("-", "_")


def main():
    root = "."
    dry = "--dry" in sys.argv
    names, fields = defined(root)
    new = {n: respelled(n) for n in names if respelled(n) != n}
    pattern = re.compile(r"(?<!%s)(%s)(?!%s)" % (ID, "|".join(sorted(map(re.escape, new), key=len, reverse=True)), ID))
    clashes = {}
    for p in files(root):
        text = open(p, encoding="utf-8").read()
        rust = p.endswith(".rt")

        def turn(m):
            n = m.group(1)
            before = text[m.start() - 1 : m.start()]
            if "-" in n and before == "." and n not in fields:
                return n
            if rust and "-" in n:
                line = text[text.rfind("\n", 0, m.start()) + 1 : text.find("\n", m.start())]
                if "//" in line[: line.find(n)] or '"' in line:
                    return n
            return new[n]

        out = pattern.sub(turn, text)
        # comments keep their words
        a, b = text.split("\n"), out.split("\n")
        mark = "//" if rust else "--"
        out = "\n".join(x if x.lstrip().startswith(mark) and "-" in x and not re.search(r"[a-z][A-Z]", x) else y for x, y in zip(a, b))
        words = set(re.findall(r"(?<!%s)%s+(?!%s)" % (ID, ID, ID), text))
        seen = {}
        for w in words:
            seen.setdefault(new.get(w, w), set()).add(w)
        for w, olds in seen.items():
            if len(olds) > 1:
                clashes.setdefault((w, tuple(sorted(olds))), []).append(p)
        if out != text and not dry:
            open(p, "w", encoding="utf-8").write(out)
    for (w, olds), ps in sorted(clashes.items()):
        print("falls together:", w, olds, " ".join(x.replace("./crates/", "") for x in ps))
    print(len(new), "names")


main()
