#!/usr/bin/env python3
"""Moves the laws of specs/ to proofs/, in the crates whose must-fail edits change a definition.

usage: python3 tools/laws.py CRATE..      at the top of the repository, once a crate

An edit of a definition is refused only where a file of proofs/ falls: a law beside the definitions in specs/ would make
the text one that can't be read. In each specs/X.antt what is a record, data, an `abbrev` or `unfoldable` stays, with the
`module` blocks that hold nothing else; the rest goes to proofs/X.antt, word for word. Lists of names in `use` lines of
all crates follow.
"""
import glob
import os
import re
import sys

WORD = re.compile(r"[^\s(){}.;,@\"«»]+")
QUIET = re.compile(r'"(?:[^"\\\n]|\\.)*"|(?<![^\s(){}.;,@"«»])--[^\n]*')
DEFINES = re.compile(r"^\s*(?:pub )?(?:record|data) |^\s*(?:abbrev|unfoldable) ")
SIGNED = re.compile(r"^(\s*)(?:pub )?([^\s(){}.;,@\"«»]+)\s+:\s")


def blank(text):
    return QUIET.sub(lambda m: " " * len(m[0]), text)


def words(text):
    return set(WORD.findall(blank(text)))


def blocks(lines):
    """Lines that begin at the margin, each with the lines below it; comments go with what follows."""
    out, head = [], []
    for l in lines:
        if l.startswith("--") or not l.strip() and not out:
            head.append(l)
        elif l and not l[0].isspace() and not l.startswith(("unfolding ", ")", "}")):
            out.append(head + [l])
            head = []
        elif not l.strip():
            head.append(l)
        else:
            if head and out and all(not h.strip() for h in head):
                out[-1] += head
                head = []
            elif head:
                # a comment at the margin inside a block
                out[-1] += head
                head = []
            out[-1].append(l)
    if head and out:
        out[-1] += head
    return out


def first(block):
    return next(l for l in block if l.strip() and not l.startswith("--"))


def name_of(block):
    w = [x for x in WORD.findall(first(block)) if x not in ("pub", "abbrev", "unfoldable", "record", "data")]
    return w[0] if w else ""


def items(lines):
    """Declarations: signature and clauses of one name, a `module` block, a `use` line."""
    out = []
    for b in blocks(lines):
        n, f = name_of(b), first(b)
        if out and not f.startswith(("use ", "module ")) and out[-1][0] == n and not SIGNED.match(f) and not DEFINES.match(f):
            out[-1][1] += b
        elif out and not f.startswith(("use ", "module ")) and not SIGNED.match(f) and not DEFINES.match(f):
            # a fixity, and the clause of an operator
            out[-1][1] += b
        else:
            kind = "use" if f.startswith("use ") else "module" if f.startswith("module ") else "def" if DEFINES.match(f) else "law"
            out.append([n, b, kind, f])
    return out


def names_in_module(body):
    found = []
    for l in body:
        m = re.match(r"^ +(?:abbrev |unfoldable )?(?:pub )?(?:record |data )?([^\s(){}.;,@\"«»]+) ", l)
        if m and (re.match(r"^  \S", l) or re.match(r"^ +(?:abbrev |unfoldable )?pub ", l)):
            found.append(m[1])
    return found


def module_kind(body):
    for l in body[1:]:
        if re.match(r"^  \S", l) and not l.strip().startswith("--"):
            if SIGNED.match(l) and not DEFINES.match(l):
                return "law"
    return "def"


def uses_of(lines_used, text_words):
    """`use` lines with the names that the text has."""
    out = []
    for u in lines_used:
        m = re.match(r"^((?:pub )?use [^\s{]+\.)\{([^}]*)\}\s*$", u, re.S)
        if m:
            keep = [i for i in (x.strip() for x in m[2].split(",")) if i and (i.split(" as ")[-1] in text_words or operator_used(i.split(" as ")[-1], text_words))]
            if keep:
                out.append(m[1] + "{" + ", ".join(keep) + "}")
        else:
            m = re.match(r"^use (\S+?)(?: as (\S+))?\s*$", u)
            alias = m and (m[2] or m[1].split(".")[-1])
            if not alias or alias in text_words:
                out.append(u.rstrip())
    return out


def operator_used(name, text_words):
    if "◌" not in name:
        return False
    return any(p in text_words or any(p in w for w in text_words) for p in name.split("◌") if p)


# Files that go whole: their definitions stand in `module` blocks of laws, or are names for what the laws say.
WHOLE = {("machine", m) for m in ("DemandLaws", "Kept", "Rows", "Worked")}


def split(crate, path):
    mod = os.path.basename(path)[:-5]
    text = open(path, encoding="utf-8").read()
    if (crate, mod) in WHOLE:
        os.makedirs(f"crates/{crate}/proofs", exist_ok=True)
        os.rename(path, f"crates/{crate}/proofs/{mod}.antt")
        return set(), False
    lines = text.split("\n")
    head = []
    while lines and (lines[0].startswith("--") or not lines[0].strip()):
        head.append(lines.pop(0))
    its = items(lines)
    uses = ["\n".join(b).strip() for n, b, k, f in its if k == "use"]
    rest = [[n, b, (module_kind(b) if k == "module" else k), f, k] for n, b, k, f in its if k != "use"]
    if not any(r[2] == "law" for r in rest):
        return None
    # a private definition that only laws name goes with them
    changed = True
    while changed:
        changed = False
        for r in rest:
            if r[2] == "def" and not re.search(r"\bpub\b", r[3]) and r[4] != "module":
                users = [q for q in rest if q is not r and q[2] == "def" and r[0] in words("\n".join(q[1]))]
                if not users:
                    r[2] = "law"
                    changed = True
    defs = [r for r in rest if r[2] == "def"]
    laws = [r for r in rest if r[2] == "law"]
    law_text = "\n".join("\n".join(r[1]) for r in laws)
    def_text = "\n".join("\n".join(r[1]) for r in defs)
    law_words, def_words = words(law_text), words(def_text)
    own_defs = []
    for r in defs:
        if r[4] == "module":
            own_defs += names_in_module(r[1])
        else:
            own_defs.append(r[0])
            m = re.match(r"\s*(?:pub )?data\b", r[3])
            if m:
                own_defs += [mm[1] for l in r[1] for mm in [re.match(r"^  ([^\s(){}.;,@\"«»]+) :", l)] if mm]
    own_laws = []
    for r in laws:
        own_laws += names_in_module(r[1]) if r[4] == "module" else [r[0]]
        if r[4] != "module" and re.match(r"\s*(?:pub )?data\b", r[3]):
            own_laws += [mm[1] for l in r[1] for mm in [re.match(r"^  ([^\s(){}.;,@\"«»]+) :", l)] if mm]
    needed = [d for d in own_defs if d in law_words]
    # what laws name must be pub
    for r in defs:
        if r[4] != "module" and r[0] in needed and not re.search(r"\bpub\b", r[3]):
            i = next(i for i, l in enumerate(r[1]) if l == r[3])
            r[1][i] = re.sub(r"^(abbrev |unfoldable )?", lambda m: (m[1] or "") + "pub ", r[1][i])
    def tidy(t):
        return re.sub(r"\n{3,}", "\n\n", t).strip("\n") + "\n"
    law_uses = uses_of(uses, law_words)
    if needed:
        law_uses.append(f"use Rattle.{crate}.specs.{mod}.{{{', '.join(needed)}}}")
    os.makedirs(f"crates/{crate}/proofs", exist_ok=True)
    open(f"crates/{crate}/proofs/{mod}.antt", "w", encoding="utf-8").write(tidy("\n".join(head + law_uses) + "\n\n" + law_text))
    if defs:
        open(path, "w", encoding="utf-8").write(tidy("\n".join(head + uses_of(uses, def_words)) + "\n\n" + def_text))
    else:
        os.remove(path)
    return set(own_laws), bool(defs)


def lib(crate, folder, add, drop):
    p = f"crates/{crate}/{folder}/Lib.antt"
    lines = open(p, encoding="utf-8").read().rstrip("\n").split("\n") if os.path.exists(p) else ["-- Laws: each file says what it shows."]
    lines = [l for l in lines if not any(l.strip() in (f"pub mod {d}", f"mod {d}") for d in drop)]
    have = {l.split()[-1] for l in lines if l.strip().startswith(("pub mod", "mod"))}
    lines += [f"pub mod {a}" for a in add if a not in have]
    open(p, "w", encoding="utf-8").write("\n".join(lines) + "\n")


def main():
    moved = {}
    for crate in sys.argv[1:]:
        order = re.findall(r"mod (\w+)", open(f"crates/{crate}/specs/Lib.antt", encoding="utf-8").read())
        add, drop = [], []
        for mod in order:
            got = split(crate, f"crates/{crate}/specs/{mod}.antt")
            if got:
                moved[crate, mod] = got
                add.append(mod)
                if not got[1]:
                    drop.append(mod)
        lib(crate, "specs", [], drop)
        lib(crate, "proofs", add, [])
    use = re.compile(r"^((?:pub |ghost )?use )Rattle\.(\w+)\.specs\.(\w+)\.\{([^}]*)\}(;?)$", re.M)
    whole = re.compile(r"^(use )Rattle\.(\w+)\.specs\.(\w+)( as \S+)?$", re.M)

    def turn(m):
        key = m[2], m[3]
        if key not in moved:
            return m[0]
        laws, has_defs = moved[key]
        names = [i.strip() for i in m[4].split(",") if i.strip()]
        go = [i for i in names if i.split(" as ")[0] in laws or not has_defs]
        stay = [i for i in names if i not in go]
        out = []
        if stay:
            out.append(f"{m[1]}Rattle.{m[2]}.specs.{m[3]}.{{{', '.join(stay)}}}{m[5]}")
        if go:
            out.append(f"{m[1]}Rattle.{m[2]}.proofs.{m[3]}.{{{', '.join(go)}}}{m[5]}")
        return "\n".join(out)

    def turn_whole(m):
        key = m[2], m[3]
        if key in moved:
            print("look: whole module", m[0])
            if not moved[key][1]:
                return f"{m[1]}Rattle.{m[2]}.proofs.{m[3]}{m[4] or ''}"
        return m[0]

    for f in sorted(glob.glob("crates/**/*", recursive=True)):
        if "/out/" in f or not f.endswith((".antt", ".rt")):
            continue
        t = open(f, encoding="utf-8").read()
        n = whole.sub(turn_whole, use.sub(turn, t))
        if n != t:
            open(f, "w", encoding="utf-8").write(n)
    for (c, mod), (laws, has_defs) in moved.items():
        print(f"{c}: {mod}: {len(laws)} names to proofs/" + ("" if has_defs else ", all"))


main()
