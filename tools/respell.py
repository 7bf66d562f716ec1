#!/usr/bin/env python3
"""Spells the repository's own names as today's Rattle does, once, behind the kit's port.py.

usage: python3 tools/respell.py        at the top of the repository

Functions, lemmas, fields and constructors of specs/ and proofs/ get snake case, and a lemma that would then have its function's name gets `_lem`. What the
toolchain makes (goals, labels) and what a file imports from the library keeps its spelling, as do the names of src/. Comments are turned only where they cite a
name with a capital inside it. A line 'meets:' names a file in which a new spelling stood already; `--try` lists the names and changes nothing.
"""
import glob
import re
import sys

TOKEN = re.compile(r'[^\s(){}\[\].;,@"«»]+')
DECLARED = re.compile(r"^ *(?:abbrev |unfoldable |opaque )*(?:pub )?(?:abbrev |unfoldable )*(?:record |data )?([^\s:(){}@]+)((?: [({][^\n]*)?) : ?(.*)$")
LABEL = re.compile(r"^(in|loop|then|else|returns|if|overflow|slice_bounds|invariant|decreases|unreachable|arg|call)[-_]|-(requires|init|preserved|smaller)$")
# Spellings that are settled by hand, since the rule's own would meet another name.
SETTLED = {
    "amount-of": "amount_of_lem",
    "few-tasks": "tasks_few",
    "first-waiting": "first_waiting_lem",
    "frame-of": "frame_of_lem",
    "last-core": "last_core_lem",
    "put-back": "put_back_lem",
    "runTime": "run_time_of",
    "share-of": "share_of_lem",
    "sheet-told": "sheet_told_lem",
}


def files():
    found = []
    for folder in ("src", "specs", "proofs"):
        for kind in ("rt", "antt"):
            found += glob.glob(f"crates/*/{folder}/**/*.{kind}", recursive=True)
    return sorted(f for f in found if "/out/" not in f)


def read(path):
    with open(path, encoding="utf-8") as f:
        return f.read()


def snake(word):
    word = re.sub(r"([a-z0-9])([A-Z])", r"\1_\2", word)
    return "_".join(p[0].lower() + p[1:] if p[:1].isupper() else p for p in word.split("_"))


def declared(texts):
    names = set()
    for path, text in texts.items():
        if path.endswith(".rt"):
            continue
        code = "\n".join(line for line in text.split("\n") if not line.lstrip().startswith("--"))
        for line in code.split("\n"):
            m = DECLARED.match(line)
            if not m or re.match(r"(goal|need|rules)\.", m.group(3)) or LABEL.search(m.group(1)):
                continue
            name = m.group(1)
            if name in ("use", "module", "let", "in", "where") or not re.match(r"[a-z]", name):
                continue
            names.add(name)
    return names


def respelled(name):
    return SETTLED.get(name) or "_".join(snake(p) for p in name.split("-"))


def imported(text, path):
    """The names that a file takes from elsewhere than the repository's crates."""
    own = {p.split("/")[1] for p in glob.glob("crates/*/")}
    found = set()
    for m in re.finditer(r"\buse ([A-Za-z_][\w.·]*)\.\{([^}]*)\}", text):
        top = m.group(1).split(".")
        if top[0] == "Rattle" and len(top) > 1 and top[1] in own:
            continue
        found |= {w.strip().split(" as ")[-1] for w in m.group(2).split(",")}
    return found


def turned(text, names, path):
    skip = imported(text, path)

    def one(m):
        w = m.group(0)
        return names[w] if w in names and w not in skip else w

    lines = []
    mark = "//" if path.endswith(".rt") else "--"
    for line in text.split("\n"):
        code, sign, comment = line, "", ""
        if line.lstrip().startswith(mark):
            code, sign, comment = "", "", line
        code = TOKEN.sub(one, code)
        comment = TOKEN.sub(lambda m: one(m) if re.search(r"[a-z][A-Z]", m.group(0)) else m.group(0), comment)
        lines.append(code + sign + comment)
    return "\n".join(lines)


def main():
    texts = {f: read(f) for f in files()}
    table = {n: respelled(n) for n in declared(texts)}
    table = {n: s for n, s in table.items() if n != s and "." not in n}
    back = {}
    for n, s in table.items():
        back.setdefault(s, []).append(n)
    for s, ns in sorted(back.items()):
        if len(ns) > 1:
            print(f"fall together: {ns} as {s}")
    for path, text in texts.items():
        tokens = set()
        for line in text.split("\n"):
            if not line.lstrip().startswith(("--", "//")):
                tokens |= set(TOKEN.findall(line))
        for n in sorted(tokens & set(table)):
            if table[n] in tokens:
                print(f"meets: {path}: {n} as {table[n]}")
    if "--try" in sys.argv:
        for n in sorted(table):
            print(n, table[n])
        return
    for path, text in texts.items():
        new = turned(text, table, path)
        if new != text:
            with open(path, "w", encoding="utf-8") as f:
                f.write(new)


if __name__ == "__main__":
    main()
