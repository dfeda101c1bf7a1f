#!/usr/bin/env python3
"""Turns proofs that call `tie.close` into Invariants.antt and Answers.antt, by the names that Rattle made and makes.

usage: python3 tools/answers.py CRATE..      at the top of the repository

For each proofs/F/Proof.antt of a crate: what `rt check --generated DIR --old-names` says of F gives each need its goal.
A need answered by `search` or `search rules` alone is left to Rattle; each other answer keeps its words, with the steps
named anew and without the steps of `.before`. A loop's invariant and measure go to Invariants.antt.
"""
import glob
import json
import os
import re
import subprocess
import sys
import tempfile

WORD = re.compile(r"[^\s(){}.;,@\"«»]+")


def names_of(crate):
    with tempfile.TemporaryDirectory() as d:
        subprocess.run(["rt", "check", "--generated", d, "--old-names"], cwd=f"crates/{crate}", stdout=subprocess.PIPE, stderr=subprocess.STDOUT)
        return json.load(open(d + "/names.json"))


def blocks(text):
    """The declarations: lists of lines that begin at the margin."""
    out = []
    for l in text.split("\n"):
        if l and not l[0].isspace() and not (out and l.startswith(("unfolding ", ")", "]", "}"))):
            out.append([l])
        elif out:
            out[-1].append(l)
    return out


def group(items):
    """Signature and definition of one name together, with the comment above."""
    out, comment = [], []
    for b in items:
        if b[0].startswith("--"):
            comment += b
            continue
        head = b[0].split()
        if out and out[-1][0] == head[0] and ":" not in head[1:2] and not b[0].startswith(("use ", "pub ", "abbrev ")):
            out[-1][1].extend(b)
        else:
            name = [h for h in head if h not in ("pub", "abbrev", "unfoldable")][0]
            out.append([name, comment + b])
        comment = []
    return out


def parts(text):
    """The arguments of a call, at the top level."""
    out, depth, word = [], 0, ""
    for ch in text:
        if ch in "([{":
            depth += 1
        if ch in ")]}":
            depth -= 1
        if ch.isspace() and not depth:
            if word:
                out.append(word)
            word = ""
        else:
            word += ch
    return out + ([word] if word else [])


def unbefore(text):
    while True:
        new = re.sub(r"(?<=[\w'\-₀-₉])\.before(?![\w'\-])", "", text)
        if new == text:
            return text
        text = new


def step_path(names, every, rows):
    """The path of a step's fact by today's names; names are the fields behind `c`."""
    names = [{"well-formed": "well_formed", "type-inv": "type_inv"}.get(n.strip("«»"), n.strip("«»")) for n in names]
    first = names[0]
    for old in (first, first.replace("-", "_"), first.removesuffix("_lem")):
        best = None
        for (field, path), new in rows.items():
            if field == old and list(path) == names[1:1 + len(path)] and (best is None or len(path) > len(best[0])):
                best = (path, new)
        if best:
            return best[1] + names[1 + len(best[0]):]
        if old in every:
            return [every[old]] + names[1:]
    return names


def turn_paths(text, every, rows):
    """Paths behind `c`, and behind a name that stands for it."""
    while True:
        m = re.search(r"let ([^\s(){}.;,]+) = c in\s*", text)
        if not m:
            break
        text = text[:m.start()] + re.sub(rf"(?<![^\s(){{}};,]){re.escape(m[1])}(?![^\s(){{}}.;,])", "c", text[m.end():])
    args = set(re.findall(r"let ([^\s(){}.;,]+) = [^\s]*\.args in", text)) | {"goal", "tie"}

    def turn(m):
        head, names = m[1], m[2][1:].split(".")
        if head in args or not names[0]:
            return m[0]
        new = step_path(names, every, rows)
        path = head + "." + ".".join(new)
        # the branch of `!x` tells of x now
        if new and new[0].startswith("if-not-") and new[-1] in ("true", "false"):
            return f"(ap not {path})"
        return path

    return re.sub(r"(?<![^\s(){};,])([^\s(){}.;,@\"«»]+)((?:\.(?:[^\s(){}.;,@\"«»]+|«[^«»]+»))+)", turn, text)


def search_alone(body):
    return re.fullmatch(r"search(\s+\(?rules\)?)?", body.strip()) is not None or body.strip() == "tt"


def loop_params(spec, head, kind):
    """The map from parameters to paths of l."""
    _, names = spec["loops"][kind]
    changed = [n for n, ch in zip(names, spec["changed"][kind]) if ch]
    still = [n for n, ch in zip(names, spec["changed"][kind]) if not ch]
    before = [h for h in head if h.endswith("₀")]
    after = [h for h in head if not h.endswith("₀")]
    paths = {}
    for h, n in zip(before, changed):
        paths[h] = "l.initial." + n
    left = [n for n in still + changed]
    for h in after:
        n = h.replace("-", "_")
        if n not in left:
            n = left[0]
        left.remove(n)
        paths[h] = "l." + n
    return paths


def convert(crate, path, spec):
    text = open(path, encoding="utf-8").read()
    folder = os.path.dirname(path)
    f = os.path.relpath(folder, f"crates/{crate}/proofs").replace("/", ".")
    every, by_place, rows_at = {}, {}, {}
    for (place, parent, (old, new), *_), arm in zip(spec["places"], spec["arms"]):
        if old:
            every[old] = new
        # the same old name may have another new one in another arm: what counts is the way from a goal's place up
        by_place[place] = {**by_place.get(parent, {}), **({old: new} if old else {})}
        rows_at[place] = dict(rows_at.get(parent, {}))
        if arm:
            view, _, rows = arm
            for new_field, old_field, behind in rows:
                rows_at[place][old_field, tuple(behind)] = [view, new_field]
    for (old, new), _ in spec["loops"]:
        every[old] = new

    def fields_at(place):
        return {**every, **by_place.get(place, {})}, rows_at.get(place, {})
    items = group(blocks(text))
    comment, uses, own, needs, loops = [], [], [], {}, {}
    final = None
    for name, lines in items:
        body = "\n".join(lines).rstrip()
        first = [l for l in lines if not l.startswith("--")][0]
        if first.startswith("use "):
            comment += [l for l in lines if l.startswith("--")]
            uses.append(first)
        elif "tie.close" in body or re.search(r"-lts\.spec\b", body):
            final = body
        elif re.search(r": (tie|\S+-lts)\.(invariant|decreases)", body):
            loops[name] = body
        elif re.search(r": tie\.Need", body):
            needs[name] = body
        else:
            own.append(body)
    if final is None:
        return "no tie.close"
    m = re.search(r"tie\.spec\b(.*)\)\s*$", final, re.S) or re.search(r"-lts\.spec \([^()]*\)\s*\([^()]*\)\s*\S+\.Post(.*)$", final, re.S)
    if not m:
        return "no tie.spec: " + final[:80]
    args = parts(m[1])
    args = [a for a in args if not re.fullmatch(r"(invariant|decreases)\S*", a)]
    want = spec["needs"]
    if len(args) != len(want):
        return f"{len(args)} arguments, {len(want)} needs: {want}"
    answers = []

    def fine(t, fields):
        return turn_paths(unbefore(t), *fields)

    for a, (old, new), (place, _) in zip(args, want, spec["asked_at"]):
        fields = fields_at(place)
        if a in needs:
            body = needs[a]
            lines = body.split("\n")
            head = [l for l in lines if l.startswith("--")]
            rest = [l for l in lines if not l.startswith("--")]
            sig = rest[0]
            unf = [l for l in rest[1:] if l.startswith("unfolding ")]
            dl = [l for l in rest[1:] if not l.startswith("unfolding ")]
            d = "\n".join(dl)
            mm = re.match(rf"{re.escape(a)}((?:\s+[^\s=]+)*)\s+=\s*(.*)", d, re.S)
            if not mm:
                return f"{a}: no definition"
            pars = mm[1].split()
            val = mm[2]
            extra = [p for p in pars if p not in ("c", "κs")]
            if not pars:
                val_line = f"{new} c = ({val}) c"
            else:
                val_line = f"{new} c = {val}" if pars[0] == "c" else f"{new} {' '.join(pars)} = {val}"
            if search_alone(val) and not unf:
                continue
            out = head + [f"pub {new} : goal.{new}"] + unf + [val_line]
            answers.append(fine("\n".join(out), fields))
        else:
            mm = re.fullmatch(r"\(λ ([^.]*)\. (.*)\)", a, re.S)
            if mm:
                val = mm[2].strip()
                if search_alone(val):
                    continue
                answers.append(fine(f"pub {new} : goal.{new}\n{new} c = {val}", fields))
            else:
                answers.append(f"pub {new} : goal.{new}\n{new} c = {a} c")
    # where a need or a loop's name stands in another text
    renames = {}
    for a, (old, new) in zip(args, want):
        if a in needs and a != new:
            renames[a] = new

    inv = []
    for name, body in loops.items():
        lines = [l for l in body.split("\n")]
        head = [l for l in lines if l.startswith("--")]
        rest = [l for l in lines if not l.startswith("--")]
        k = None
        kind, tail = re.match(r"(invariant|decreases)-(\S+)", name).groups()
        for i, ((old, new), _) in enumerate(spec["loops"]):
            if tail == old:
                k, target = i, f"{kind}-{new}"
        if k is None:
            return f"{name}: no such loop among {spec['loops']}"
        unf = [l for l in rest[1:] if l.startswith("unfolding ")]
        d = "\n".join(l for l in rest[1:] if not l.startswith("unfolding "))
        mm = re.match(rf"{re.escape(name)}((?:\s+[^\s=]+)*)\s+=\s*(.*)", d, re.S)
        pars, val = mm[1].split(), mm[2]
        sub = loop_params(spec, pars, k)
        for bound in re.findall(r"λ ([^.]*)\.", val):
            for b in WORD.findall(bound):
                sub.pop(b, None)
        val = re.sub(r"(?<![^\s(){};,@\"«»])([^\s(){}.;,@\"«»]+)", lambda w: sub.get(w[1], w[1]), val)
        inv.append("\n".join(head + [f"abbrev pub {target} : goal.{target}"] + unf + [f"{target} l = {val}"]))
    # an answer that cites another one stands below it
    if renames:
        turned = []
        for text_ in answers:
            head_, body_ = text_.split(" c = ", 1) if " c = " in text_ else ("", text_)
            body_ = re.sub(r"(?<![^\s(){};,@])([^\s(){}.;,@\"«»]+)", lambda w: renames.get(w[1], w[1]), body_)
            turned.append((head_ + " c = " if head_ else "") + body_)
        named = {re.search(r"^pub (\S+) :", a, re.M)[1]: a for a in turned}
        done, order = set(), []

        def put(n):
            if n in done:
                return
            done.add(n)
            for w in WORD.findall(named[n].split(" c = ", 1)[-1]):
                if w in named and w != n:
                    put(w)
            order.append(named[n])

        for n in named:
            put(n)
        answers = order
    keep = [u for u in uses if not re.search(r"\.(Statement|Tie)\b", u)]
    mod = f"Rattle.{crate}.proofs.{f}"
    if inv:
        out = "\n".join(comment + keep + [f"use {mod}.Given as goal", ""]) + "\n" + "\n\n".join(inv) + "\n"
        open(folder + "/Invariants.antt", "w", encoding="utf-8").write(out)
    if answers or own:
        body = "\n\n".join(own + answers)
        lacks = [w for w in ("ap", "not") if "(ap not " in body and not any(re.search(rf"[{{ ]{w}[,}}]", u) for u in keep)]
        if lacks:
            keep.append("use Rattle.std.proofs.Common.{" + ", ".join(lacks) + "}")
        out = "\n".join(comment + keep + [f"use {mod}.Goals as goal", ""]) + "\n" + body + "\n"
        open(folder + "/Answers.antt", "w", encoding="utf-8").write(out)
    os.remove(path)
    return None


def main():
    for crate in sys.argv[1:]:
        names = names_of(crate)
        for path in sorted(glob.glob(f"crates/{crate}/proofs/**/Proof.antt", recursive=True)):
            f = os.path.relpath(os.path.dirname(path), f"crates/{crate}/proofs").replace("/", ".")
            key = f"Rattle-{crate}-proofs.{f}.Lts" + ("-" + f[1:] if f.startswith("+") else "")
            if key not in names:
                print(f"{crate}: {f}: no names ({[k for k in names if f in k][:3]})")
                continue
            said = convert(crate, path, names[key])
            if said:
                print(f"{crate}: {f}: left: {said[:300]}")


main()
