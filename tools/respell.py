#!/usr/bin/env python3
"""Spells this repository's own definitions and lemmas as today's Rattle does.

usage: python3 tools/respell.py [--check] [--table]      at the top, once, after port.py; --check writes nothing

A name in camel case or with dashes gets underscores; a dash stays between two names of functions, as in
`length-xors`. Types, modules, the names of src/ and those that Rattle makes stay. Code of .antt files,
clauses and `ghost use` of .rt files, and code spans of comments turn. Two names that would fall together are
listed, and nothing is written.
"""
import collections
import os
import re
import sys

WORD = re.compile(r'[^\s(){}.;,@"«»`]+')
DECLARED = re.compile(
    r"(?m)^ *(?:(?:pub|abbrev|unfoldable|pattern) +)*([^\s(){}.;,@\"«»:]+)(?: (?:\{[^{}\n]*\}|\([^()\n]*\)))* :(?= |$)"
)
STD = set(
    "length take drop append replicate set get_or map cons mul add sub div mod le lt xor cond eqb ltb leb "
    "bit_xor bit_or sum max min put xors".split()
)
# lemmas that port.py gave a definition's name
FIRST = {
    "crates/demands/proofs/Pieces.antt": {"next_word": "next_word_lem"},
    "crates/demands/proofs/Steps.antt": {n: n + "_lem" for n in ("add_step", "turn_step", "write_step")},
}


def files(ends):
    for folder, dirs, names in os.walk("crates"):
        dirs[:] = sorted(d for d in dirs if d not in ("out", "must-fail"))
        for name in sorted(names):
            if name.endswith(ends):
                yield os.path.join(folder, name)


def read(path):
    with open(path, encoding="utf-8") as f:
        return f.read()


def snake(word):
    word = re.sub(r"(?<=[a-z0-9])([A-Z])(?=[a-z0-9]|$|-|')", lambda m: "_" + m[1].lower(), word)
    return re.sub(r"(?<=[a-z0-9])([A-Z]+)", lambda m: "_" + m[1].lower(), word)


def is_value(name):
    return bool(re.match(r"[a-z]", name))


def is_generated(path):
    return os.path.basename(path) in ("Proof.antt", "Answers.antt", "Invariants.antt")


def main():
    antt = {p: read(p) for p in files(".antt")}
    rt = {p: read(p) for p in files(".rt")}
    for p, rows in FIRST.items():
        antt[p] = WORD.sub(lambda m: rows.get(m[0], m[0]), antt[p])
    declared, functions = collections.defaultdict(set), set(STD)
    for p, t in antt.items():
        if is_generated(p):
            continue
        for m in DECLARED.finditer(t):
            declared[m[1]].add(p)
            if "/specs/" in p and is_value(m[1]):
                functions.add(snake(m[1]))
    functions.discard("some")
    table = {}
    for name in declared:
        if not is_value(name) or not re.search(r"[A-Z-]", name) or len(name) < 3:
            continue
        parts = [snake(w) for w in name.split("-")]
        if any(not w for w in parts):
            continue
        new = parts[0]
        for a, b in zip(parts, parts[1:]):
            new += ("-" if a in functions and (b in STD or a in STD and b in functions) else "_") + b
        if new != name:
            table[name] = new
    fields = {n for n, ps in declared.items() if all(re.search(rf"(?m)^ +pub {re.escape(n)} :", antt[p]) for p in ps)}
    back = collections.defaultdict(set)
    for old, new in table.items():
        back[new].add(old)
    for new, olds in back.items():
        for old in olds:
            # a lemma of its function's name
            if "-" in old and any("-" not in o and o not in fields for o in olds):
                table[old] = new + "_lem"
    # names that fall together
    bad = []
    back = collections.defaultdict(set)
    for old, new in table.items():
        back[new].add(old)
    for new, olds in back.items():
        if len(olds - fields) > 1:
            bad.append(f"{new}: {', '.join(sorted(olds))}")
        if new in declared and not olds <= fields:
            bad.append(f"{new}: {', '.join(sorted(olds))}, and it is declared in {', '.join(sorted(declared[new]))}")
    for p, t in antt.items():
        ws = set() if is_generated(p) else set(WORD.findall(t))
        for old in ws & set(table):
            if table[old] in ws and old not in fields:
                bad.append(f"{p}: both {old} and {table[old]}")
    for b in bad:
        print("look:", b)
    if "--table" in sys.argv:
        for old in sorted(table):
            print(old, table[old])
    if bad or "--check" in sys.argv:
        sys.exit(1 if bad else 0)

    def one(m):
        return table.get(m[0], m[0])

    def code(text, dotted):
        """turns words; behind a dot only names of fields that the repository's records have"""
        return WORD.sub(lambda m: m[0] if dotted and m.start() and text[m.start() - 1] == "." and m[0] not in fields else one(m), text)

    fields = {n for n, ps in declared.items() if any(re.search(rf"(?m)^ +pub {re.escape(n)} :", antt[p]) for p in ps)}
    for p, t in antt.items():
        out = []
        for line in t.split("\n"):
            if re.match(r"\s*--", line):
                out.append(re.sub(r"`[^`]*`", lambda m: WORD.sub(one, m[0]), line))
            else:
                out.append(code(line, is_generated(p)))
        new = "\n".join(out)
        if new != t:
            with open(p, "w", encoding="utf-8") as f:
                f.write(new)
    clause = re.compile(r"//[^\n]*|ghost use [^;]*;|\b(?:requires|ensures)\b[^{;\n]*\{")
    for p, t in rt.items():
        new, at = "", 0
        for m in iter(lambda: clause.search(t, at), None):
            end, deep = m.end(), 1
            while m[0].endswith("{") and deep:
                deep += {"{": 1, "}": -1}.get(t[end], 0)
                end += 1
            part = t[m.start() : end]
            part = re.sub(r"`[^`]*`", lambda k: WORD.sub(one, k[0]), part) if part.startswith("//") else WORD.sub(one, part)
            new, at = new + t[at : m.start()] + part, end
        new += t[at:]
        if new != t:
            with open(p, "w", encoding="utf-8") as f:
                f.write(new)


main()
