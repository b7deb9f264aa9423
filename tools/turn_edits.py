#!/usr/bin/env python3
"""Brings the must-fail edits to today's spelling, once the sources have it.

usage: python3 tools/turn_edits.py    at the top of the repository, after the kit's port.py and tools/respell.py

An `old:` that stands (once, in what the pairs above it made) is left as it is, and of the `new:` beside it only a name in camel case
is turned, in a file of antt: so a second run changes nothing. An `old:` that does not stand is turned together with its `new:` by the
rules that the definitions were turned by: the renamings of tools/respell.py, read off the text that it was run on (BEFORE), paths,
names of fields without brackets, and projections written tight, (s .gate) as s.gate and (f x .y) as (f x).y. It is written if it then
stands once. The rest is named and was mended by hand: deeds/invalid_released_twice and entry/not_paused_before_count, whose pairs on a
proof file speak of today's Answers.antt. matching/delivery_past_the_room and text/number_of_21_digits have such pairs since the port,
because the edit changes the name of a goal.
"""
import glob
import os
import re
import subprocess
import sys
import tempfile

import respell

BEFORE = "33b3988"
NAME = r"[A-Za-z_][\w']*"
OPERATORS = [f" {it} " for it in ("+", "-", "*", "/", "%", "∷", "++", "=")]


def table():
    """The renamings of tools/respell.py, of the text that it was run on."""
    with tempfile.TemporaryDirectory() as top:
        tar = subprocess.run(["git", "archive", BEFORE, "crates"], stdout=subprocess.PIPE, check=True).stdout
        subprocess.run(["tar", "x", "-C", top], input=tar, check=True)
        was, respell.ROOT = respell.ROOT, top
        try:
            return respell.renamings()
        finally:
            respell.ROOT = was


def opened(text, end):
    """Where the bracket opens that text[:end] stands in, or -1."""
    depth = 0
    for i in range(end - 1, -1, -1):
        if text[i] == ")":
            depth += 1
        elif text[i] == "(":
            if depth == 0:
                return i
            depth -= 1
    return -1


def tight(text):
    """Projections without a space before them, of a name, or of an application in brackets."""
    # at the end of a bracket, inner ones first
    while True:
        m = re.search(rf"((?: \.{NAME})+)\)", text)
        at = opened(text, m.start()) if m else -1
        if at < 0:
            break
        inside = text[at + 1 : m.start()]
        of = max([inside.rfind(it) + len(it) for it in OPERATORS if it in inside], default=0)
        before, last = inside[:of], inside[of:]
        if " " in last:
            last = f"({last})"
        whole = before + last + m[1].replace(" ", "")
        text = text[:at] + (f"({whole})" if before else whole) + text[m.end() :]
    return re.sub(rf"(?<=[\w'])((?: \.{NAME})+)", lambda m: m[1].replace(" ", ""), text)


def turned(text, names):
    text = re.sub(r"«([^»]*)»", r"\1", text)
    text = re.sub(r"Rattle·(\w+)·(specs|proofs)\.\2\b", r"Rattle.\1.\2", text)
    text = re.sub(r"Rattle·(\w+)", r"Rattle.\1", text)
    text = text.replace("the-variants", "TheVariants")
    return tight(humps(respell.turn(text, names), names))


def humps(text, names):
    """The names in camel case that are left: those that the table lacks have been respelt by the kit's script."""
    return re.sub(r"(?<![\w'-])[a-z]\w*[A-Z][\w']*", lambda m: names.get(m[0]) or respell.snake(m[0]), text)


def pairs(lines):
    """Each pair: its file, and the numbers of its lines `old:` and `new:`."""
    file, old = "", None
    for i, line in enumerate(lines):
        if line.startswith("file: "):
            file = line[len("file: ") :].strip()
        elif line.startswith("old: "):
            old = i
        elif line.startswith("new:") and old is not None:
            yield file, old, i
            old = None


def text_of(path):
    try:
        with open(path, encoding="utf-8") as f:
            return f.read()
    except OSError:
        return ""


def main():
    names, count, changed, left = None, 0, 0, []
    for edit in sorted(glob.glob("crates/*/must-fail/*.edit")):
        count += 1
        crate = os.path.dirname(os.path.dirname(edit))
        was = text_of(edit)
        lines = was.split("\n")
        texts = {}
        for file, o, n in list(pairs(lines)):
            text = texts.setdefault(file, text_of(f"{crate}/{file}"))
            old, new = lines[o][len("old: ") :], lines[n][len("new:") :].removeprefix(" ")
            if text.count(old) == 1:
                if file.endswith(".antt") and re.search(r"[a-z][A-Z]", new):
                    names = names or table()
                    new = humps(new, names)
                    lines[n] = "new: " + new
            else:
                names = names or table()
                old, new = turned(old, names), turned(new, names)
                if text.count(old) != 1:
                    left.append(f"{edit}: {file}: {lines[o]}")
                    continue
                lines[o], lines[n] = "old: " + old, "new: " + new if new else "new:"
            texts[file] = text.replace(old, new)
        now = "\n".join(lines)
        if now != was:
            changed += 1
            with open(edit, "w", encoding="utf-8") as f:
                f.write(now)
    for it in left:
        print("left: " + it)
    print(f"turn_edits: {count} edits, {changed} turned, {len({it.split(': ')[0] for it in left})} left")


if __name__ == "__main__":
    sys.exit(main())
