#!/usr/bin/env python3
"""Brings the repository's own names of specs/ and proofs/ to snake case, after port.py.

usage: python3 tools/respell.py            at the top of the repository: writes the files in place
       python3 tools/respell.py --table    prints the table, old and new

A name turns that the repository's own antt files use, that no library gives, and that has a dash, a capital inside or a
prime of another kind: `withFrames` to `with_frames`, `cells-get` to `cells_get`, `live′` to `live'`. Where a lemma would
get the name of a function, it ends in `_lem`. What Rattle makes of a function (`returns-2`, `After-get`), and what stands
in Rust code, strings and comments outside of code spans, stays.
"""
import collections
import glob
import os
import re
import sys

WORD = re.compile(r"[^\s(){}.;,@\"«»]+")
QUIET = re.compile(r'"(?:[^"\\\n]|\\.)*"|(?<![^\s(){}.;,@"«»])--[^\n]*')
USE = re.compile(r"^(?:pub )?use ([^\s{]+?)\.\{([^}]*)\}", re.M)
CLAUSE = re.compile(r"(?:requires|ensures)\s*\*?\s*(?:\w+\s*)?\{|ghost\s+use\b[^;]*;|ghost\s*(?:\w+\s*(?::\s*)?)?\{")
SPAN = re.compile(r"`[^`\n]+`")
GENERATED = re.compile(r"^\s*(\S+) : tie\.", re.M)
LIBRARY = {"eq-eqb", "le-leb"}


def own_crates():
    return {os.path.basename(os.path.dirname(p)) for p in glob.glob("crates/*/src")}


def blank(text):
    return QUIET.sub(lambda m: " " * len(m[0]), text)


def library_names(text, own):
    found = set()
    for m in USE.finditer(text):
        parts = m[1].split(".")
        if parts[0] == "Rattle" and len(parts) > 1 and parts[1] in own:
            continue
        found |= {i.strip().split(" as ")[-1] for i in m[2].split(",") if i.strip()}
    return found


def snake(name):
    name = name.replace("′", "'").replace("getD", "get_or")
    if name[0].islower():
        name = re.sub(r"([a-z0-9])([A-Z])", lambda m: m[1] + "_" + m[2].lower(), name)
        name = name.replace("-", "_")
    return name


def turns(w):
    return w not in LIBRARY and re.match(r"[A-Za-z]", w) and (
        ("-" in w and w[0].islower()) or re.match(r"[a-z]\w*[a-z0-9][A-Z]|[a-z][A-Z]", w) or "′" in w)


def table():
    own = own_crates()
    count = collections.Counter()
    old = set()
    for f in sorted(glob.glob("crates/*/specs/*.antt") + glob.glob("crates/*/proofs/*.antt")):
        text = open(f, encoding="utf-8").read()
        lib = library_names(text, own)
        for m in WORD.finditer(blank(text)):
            count[m[0]] += 1
            if m[0] not in lib and turns(m[0]):
                old.add(m[0])
    made = {w: snake(w) for w in sorted(old)}
    by_new = collections.defaultdict(set)
    for w, n in made.items():
        if n != w:
            by_new[n].add(w)
    for n in list(by_new):
        together = by_new[n] | ({n} if count[n] else set())
        if len(together) < 2:
            continue
        camel = [w for w in together if re.search(r"[a-z][A-Z]", w)]
        # the function keeps the name, a lemma gets the ending
        for w in together:
            if camel and w not in camel or not camel and w != n:
                made[w] = n + "_lem"
    return {w: n for w, n in made.items() if w != n}


def antt(text, names, own):
    lib = library_names(text, own)
    here = {w: n for w, n in names.items() if w not in lib}
    for m in GENERATED.finditer(text):
        here.pop(m[1], None)

    def word(m):
        return here.get(m[0], m[0])

    out, at = [], 0
    for q in QUIET.finditer(text):
        out.append(WORD.sub(word, text[at:q.start()]))
        out.append(SPAN.sub(lambda s: WORD.sub(lambda m: here.get(m[0].strip("`"), None) and m[0].replace(m[0].strip("`"), here[m[0].strip("`")]) or m[0], s[0]), q[0]) if q[0].startswith("--") else q[0])
        at = q.end()
    out.append(WORD.sub(word, text[at:]))
    return "".join(out)


def close_of(text, at):
    depth = 0
    for i in range(at, len(text)):
        if text[i] == "{":
            depth += 1
        elif text[i] == "}":
            depth -= 1
            if not depth:
                return i + 1
    return len(text)


def rust(text, names):
    out, at = [], 0
    while True:
        m = CLAUSE.search(text, at)
        if not m:
            break
        end = m.end() if m[0].endswith(";") else close_of(text, m.end() - 1)
        out.append(text[at:m.start()])
        out.append(WORD.sub(lambda w: names.get(w[0], w[0]), text[m.start():end]))
        at = end
    out.append(text[at:])
    return "".join(out)


def main():
    names = table()
    if "--table" in sys.argv:
        for w, n in names.items():
            print(w, n, sep="\t")
        return
    own = own_crates()
    for f in sorted(glob.glob("crates/**/*", recursive=True)):
        if "/out/" in f or not f.endswith((".antt", ".rt")):
            continue
        text = open(f, encoding="utf-8").read()
        new = antt(text, names, own) if f.endswith(".antt") else rust(text, names)
        if new != text:
            open(f, "w", encoding="utf-8").write(new)


main()
