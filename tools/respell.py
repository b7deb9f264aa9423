#!/usr/bin/env python3
"""Brings the repository's own definitions and lemmas to today's spelling: snake case for all but types and modules.

usage: python3 tools/respell.py         at the top of the repository, once, right after the kit's port.py
       python3 tools/respell.py --list  prints the renamings, old and new, and changes nothing

A name in camel case (onSome) and a name whose plain words are joined by dashes (none-fits) get underscores (on_some, none_fits).
A dash stays where it joins two names (total-append). A name whose new form another name has already gets `_lem`.
What Rattle makes (goals, steps, invariants, measures) and every name of src/ keeps its form.
"""
import collections
import os
import re
import sys

ROOT = os.getcwd()
WORD = r"[^\s(){}\[\].,;:=«»\"'`\\|]+"
HEAD = re.compile(r"^(\s*)((?:(?:abbrev|unfoldable|pub|record|data)\s+)*)(" + WORD + r")((?:\s+[({][^\n]*?[)}])*)\s+:(?:\s|$)")
FIELD = re.compile(r"[{;]\s*(" + WORD + r") =")
# the names of the library that lemmas are named after
STD = {"length", "take", "drop", "append", "map", "set", "replicate", "get_or", "ltb", "leb", "eqb", "min", "max", "pick"}
# what the rule would give is a field (cancel_pending), a name of the library (take_at), or already another lemma's
OTHERS = {"cancelPending": "cancel_activation", "takeAt": "taken_at", "found_in": "found_in_lem", "goes_on": "goes_on_lem"}
# made by Rattle in the files of a function's proof
MADE = re.compile(r"^(returns|invariant|decreases|overflow|the)(-|$)")


def files(kind):
    for crate in sorted(os.listdir(os.path.join(ROOT, "crates"))):
        for folder, dirs, names in os.walk(os.path.join(ROOT, "crates", crate, kind)):
            dirs.sort()
            for n in sorted(names):
                yield os.path.join(folder, n)


def definitions():
    """Each name that a file of specs/ or proofs/ defines: its files, and whether it is a lemma of proofs/ alone."""
    at = collections.defaultdict(set)
    made = set()
    for kind in ("specs", "proofs"):
        for path in files(kind):
            if not path.endswith(".antt"):
                continue
            with open(path, encoding="utf-8") as f:
                for line in f:
                    if line.startswith(("use ", "--", "module ")):
                        continue
                    m = HEAD.match(line)
                    if not m or m.group(3) in ("let", "in", "where", "module", "_", "λ"):
                        continue
                    name = m.group(3)
                    if "tie." in line[m.end():] or MADE.match(name):
                        made.add(name)
                    else:
                        at[name].add(kind)
    return at, made


def snake(name):
    return re.sub(r"(?<=[a-z0-9])([A-Z])", lambda m: "_" + m.group(1).lower(), name)


def renamings():
    at, made = definitions()
    known = set(at) | STD | {snake(n) for n in at}
    out = {}
    for name in at:
        if name in made or name[0].isupper():
            continue
        if not re.search(r"[a-z0-9][A-Z]|-", name):
            continue
        if not re.fullmatch(r"[A-Za-z0-9'-]+", name.replace("≤", "").replace("≢", "")):
            continue
        parts = name.split("-")
        new = snake(parts[0])
        for i in range(1, len(parts)):
            left = "-".join(parts[:i])
            right = "-".join(parts[i:])
            joins = (left in known and right in known) or bool(re.search(r"[A-Z]", left))
            new += ("-" if joins and len(parts) == 2 else "_") + snake(parts[i])
        out[name] = new
    # names that would fall together
    taken = collections.defaultdict(list)
    for name in at:
        taken[out.get(name, name)].append(name)
    for new, names in sorted(taken.items()):
        if len(names) < 2:
            continue
        names.sort(key=lambda n: ("specs" not in at[n], "-" in n))
        for n in names[1:]:
            if n in out and out[n] == new:
                out[n] = new + "_lem"
    out.update((k, v) for k, v in OTHERS.items() if k in at)
    return {k: v for k, v in out.items() if k != v}


def turn(text, table):
    def one(m):
        return table.get(m.group(0), m.group(0))

    return re.sub(WORD, one, text)


def rust(text, table):
    """In src/ only clauses and ghost imports name definitions; no name of the code is among the old names but by accident."""
    out = []
    inside = False
    for line in text.split("\n"):
        s = line.strip()
        starts = s.startswith(("ghost use", "requires", "ensures", "ghost "))
        if starts or inside or s.startswith("//"):
            out.append(turn(line, table))
            if starts:
                depth = 0
            if starts or inside:
                depth += line.count("{") - line.count("}")
                inside = depth > 0
        else:
            out.append(line)
    return "\n".join(out)


def main():
    table = renamings()
    if "--list" in sys.argv:
        for k in sorted(table):
            print(k, table[k])
        return
    n = 0
    for kind in ("specs", "proofs", "src"):
        for path in files(kind):
            if not path.endswith((".antt", ".rt")):
                continue
            with open(path, encoding="utf-8") as f:
                old = f.read()
            new = rust(old, table) if path.endswith(".rt") else turn(old, table)
            if new != old:
                n += 1
                with open(path, "w", encoding="utf-8") as f:
                    f.write(new)
    print(f"respell: {len(table)} names, {n} files")


if __name__ == "__main__":
    main()
