#!/usr/bin/env python3
"""Brings the names that this repository declares in specs/ and proofs/ to the spelling of today's Rattle.

usage: python3 tools/respell.py [--list]      at the top of the repository, once, after /opt/rattle/port/port.py

Words are in snake case, and a dash stays only where it joins two names. Types, modules, functions of src/ and what
Rattle makes keep their spelling. Where two names would fall together, CLASH says the new one. It rewrites .antt and
.rt files; a code's own identifiers are left alone, since only clauses and ghost lines hold such names there.
"""
import os, re, sys

WORD = re.compile(r"[A-Za-z_\u0370-\u03ff\u2080-\u209c][A-Za-z0-9_'\u0370-\u03ff\u2080-\u209c]*(?:-[A-Za-z0-9_'\u2080-\u209c]+)*")
DECLARED = re.compile(r"^(\s*)((?:pub|unfoldable|abbrev|opaque|private)\s+)*([A-Za-z_][^\s:{}()]*)\s*(?:[({].*)?:\s")
CLASH = {
    "isName": "is_heading_name",
    "isKnown": "is_known_set",
    "noBlocks": "has_no_blocks",
    "readBack": "reads_back",
    "afterFirst": "after_the_first",
    "wordEnd": "end_of_word",
    "bit-or": "bit-or",
    "first-of": "first-of",
    "bad-mark": "bad-mark",
    "empties-so": "empties-so",
    "firsts-so": "firsts-so",
    "line-used": "line-used",
    "looked-up": "looked-up",
    "message-of": "message-of",
}

def texts():
    for folder, dirs, files in os.walk("crates"):
        dirs[:] = sorted(d for d in dirs if d not in ("out", "must-fail"))
        for f in sorted(files):
            if f.endswith((".rt", ".antt")):
                yield os.path.join(folder, f)

def snake(w):
    w = re.sub(r"([a-z0-9])([A-Z])", r"\1_\2", w)
    w = re.sub(r"([A-Z])([A-Z][a-z])", r"\1_\2", w)
    return w.lower()

def own():
    names = set()
    for p in texts():
        if not p.endswith(".antt") or p.endswith("/Lib.antt"):
            continue
        parts = p.split("/")
        if parts[2] == "proofs" and len(parts) > 4:
            continue
        for line in open(p, encoding="utf-8"):
            m = DECLARED.match(line)
            if m and not line.lstrip().startswith(("--", "use ", "module", "let ", "in ")):
                names.add(m.group(3))
    return names

def known(text):
    names = set()
    for line in text:
        m = re.match(r"^(?:pub )?(?:ghost )?use (?:Rattle\.std|mathlib|native|lib|borrow|Prim)\S*\.\{(.*)\}", line)
        if m:
            names.update(x.strip().split(" as ")[0] for x in m.group(1).split(","))
    return names

def respelled(name, names):
    parts = name.split("-")
    new = []
    for w in parts:
        if w == "getD":
            w = "get_or"
        if re.search(r"[A-Z]", w) and not w[0].isupper():
            w = snake(w)
        new.append(w)
    out = new[0]
    for a, b, x, y in zip(parts, parts[1:], new, new[1:]):
        joins = (a in names or x in names) and (b in names or y in names) and len(b) > 1
        out += ("-" if joins else "_") + y
    return out

def main():
    all_text = {p: open(p, encoding="utf-8").read() for p in texts()}
    declared = own()
    library = known(l for t in all_text.values() for l in t.split("\n"))
    plain = {n for n in declared | library if "-" not in n}
    tokens = set()
    for t in all_text.values():
        tokens.update(WORD.findall(t))
    table = {}
    for n in sorted(declared):
        if n[0].isupper() or n in library:
            continue
        m = CLASH.get(n) or respelled(n, plain)
        if m != n:
            table[n] = m
    bad = [(n, m) for n, m in table.items() if m in tokens and n not in CLASH]
    twice = [(n, m) for n, m in table.items() if list(table.values()).count(m) > 1]
    if "--list" in sys.argv:
        for n, m in table.items():
            print(n, "->", m, "CLASH" if (n, m) in bad else "", "TWICE" if (n, m) in twice else "")
        return 0
    if twice:
        print("two names would fall together:", twice)
        return 1
    for p, t in all_text.items():
        s = WORD.sub(lambda m: table.get(m.group(0), m.group(0)), t)
        if s != t:
            open(p, "w", encoding="utf-8").write(s)
    return 0

raise SystemExit(main())
