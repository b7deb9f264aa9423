#!/usr/bin/env python3
"""Counts the places of docs/DESIGN-PASS.md in src/ (and the answers in proofs/), today or at a commit.

    python3 tools/places.py [COMMIT] [--list]

Each point has the patterns below, by which a place is found in the text of a source file. They find forms, and say nothing of reasons.
"""
import difflib, re, subprocess, sys

args = [a for a in sys.argv[1:] if not a.startswith("--")]
LIST = "--list" in sys.argv
COMMIT = args[0] if args else None


def files(suffix, folder):
    if COMMIT:
        names = subprocess.run(["git", "ls-tree", "-r", "--name-only", COMMIT, "crates"], capture_output=True, text=True, check=True).stdout.split("\n")
    else:
        names = subprocess.run(["git", "ls-files", "crates"], capture_output=True, text=True, check=True).stdout.split("\n")
    for n in names:
        if n.endswith(suffix) and f"/{folder}/" in n:
            if COMMIT:
                yield n, subprocess.run(["git", "show", f"{COMMIT}:{n}"], capture_output=True, text=True, check=True).stdout
            else:
                yield n, open(n).read()


def code(text):
    return "\n".join(re.sub(r"(^|\s)//.*$", "", l) for l in text.split("\n"))


SRC = [(n, code(t)) for n, t in files(".rt", "src")]
FOUND = {}


def place(point, kind, file, what):
    FOUND.setdefault(point, {}).setdefault(kind, []).append(f"{file}: {what}")


def blocks(text, word):
    """The items `word NAME .. { .. }` of a text, with their bodies."""
    for m in re.finditer(r"(?:pub )?%s (\w+)[^;{]*\{" % word, text):
        depth, i = 1, m.end()
        while depth and i < len(text):
            depth += {"{": 1, "}": -1}.get(text[i], 0)
            i += 1
        yield m.group(1), m.group(0), text[m.end():i - 1]


def variants(body):
    out, depth, cur = [], 0, ""
    for ch in body:
        if ch in "{(":
            depth += 1
        if ch in "})":
            depth -= 1
        if ch == "," and depth == 0:
            out.append(cur.strip())
            cur = ""
        else:
            cur += ch
    if cur.strip():
        out.append(cur.strip())
    return [re.sub(r"#\[.*?\]\s*", "", v) for v in out if v.strip()]


def functions(text):
    """Each function: name, signature with its clauses, body."""
    for m in re.finditer(r"(?m)^( *)(?:pub )?fn (\w+)", text):
        indent = m.group(1)
        end = re.search(r"(?m)^%s\}" % indent, text[m.end():])
        whole = text[m.start():m.end() + (end.end() if end else 0)]
        cut = re.search(r"(?m)^%s\{" % indent, whole)
        at = cut.start() if cut else whole.find("{")
        yield m.group(2), whole[:at], whole[at:]


# ---- 1: own enums of the shape of Option or Result, a flag with a value beside it, numbers for kinds or refusals
EMPTY = r"^(None|Nothing|Out|Fail|Bad|Stop|Ran|End|Keep)\b"
for n, t in SRC:
    for name, _, body in blocks(t, "enum"):
        vs = variants(body)
        if len(vs) >= 2 and any(re.match(EMPTY, v) for v in vs) and any("(" in v or "{" in v for v in vs):
            place(1, "own Option or Result", n, name)
    for name, _, body in blocks(t, "struct"):
        if re.search(r"\b(ok|more|bad): (bool|MaybeU64|Option)", body) or re.search(r"\b(outcome: Outcome|answer: Answer)", body):
            place(1, "a flag beside a value", n, name)
        if re.search(r"\b(kind|number): u(8|64)\b", body):
            place(1, "a number for a kind", n, name)
    for name, sig, body in functions(t):
        if name == "number" and "self" in sig:
            place(1, "a number for a kind", n, "fn number")
        elif re.search(r"\bkind: u(8|64)\b", sig):
            place(1, "a number for a kind", n, "fn " + name)

# ---- 2: twins: functions whose bodies are the same but for names and constants
def skeleton(body):
    return re.sub(r"\b\d+\b", "0", re.sub(r"\b(orders|msgs|deliveries|observed|account|awaiting|order|msg|delivery|obs|open|buy|sell)_?\w*\b|\b[A-Z]\w+\b", "X", body))


bodies = []
for n, t in SRC:
    for name, sig, body in functions(t):
        if body.count("\n") >= 4:
            bodies.append((n, name, skeleton(body)))
twins = set()
for i, (n, name, x) in enumerate(bodies):
    for m, other, y in bodies[i + 1:]:
        if abs(len(x) - len(y)) <= 0.15 * max(len(x), len(y)):
            d = difflib.SequenceMatcher(None, x, y, autojunk=False)
            if d.real_quick_ratio() > 0.9 and d.quick_ratio() > 0.9 and d.ratio() > 0.92:
                twins |= {(n, name), (m, other)}
for n, name in sorted(twins):
    place(2, "twins", n, name)

# ---- 3: loops that count an index by hand
for n, t in SRC:
    for name, _, body in functions(t):
        for m in re.finditer(r"\bwhile ([^{]*)\{", body):
            if re.search(r"\b(\w+) \+= 1;", body):
                place(3, "while with a counter", n, f"{name}: while {m.group(1).strip()}")
        for m in re.finditer(r"\bfor (\w+) in ([^{]*\.\.[^{]*)\{", body):
            if m.group(1) != "_" and re.search(r"\[[^\]]*\b%s\b[^\]]*\]" % m.group(1), body):
                place(3, "for over indices", n, f"{name}: for {m.group(1)} in {m.group(2).strip()}")

# ---- 4: equality, order, copying, conversion and printing by hand
for n, t in SRC:
    for name, sig, body in functions(t):
        if re.search(r"=> (true|false),", body) and "match" in body:
            place(4, "a test of an enum by its cases", n, name)
        if name in ("max", "saturating_sub", "less", "least", "small", "is_same", "add_up_to", "wide"):
            place(4, "an operation of the library", n, name)
        if len(re.findall(r"(\w+): (\w+)\.\1\b", body)) + len(re.findall(r"let (\w+) = \w+\.\1;", body)) >= 3 and re.search(r"\b[A-Z]\w+ \{", body):
            place(4, "a struct copied field by field", n, name)
        if name == "number" and "self" in sig or name == "flag_number":
            place(4, "a conversion", n, name)
        if re.match(r"put_(number|signed|name|kind)", name):
            place(4, "printing", n, name)

# ---- 5: parameters that travel together, and a fact in many contracts
for n, t in SRC:
    for name, sig, body in functions(t):
        if re.search(r"log: &mut \[u64\]", sig) and "raised: u64" in sig:
            place(5, "log with raised", n, name)
        if re.search(r"out: &mut \[u8\]", sig) and re.search(r"\bat: usize", sig):
            place(5, "out with at", n, name)
        if sum(bool(re.search(r"\b%s: " % p, sig)) for p in ("orders", "msgs", "awaiting", "deliveries", "observed", "agent", "account", "control", "venue")) >= 3:
            place(5, "the state in parts", n, name)
        if "is_paused control.phase ≡ false" in sig:
            place(5, "the pause in the contract", n, name)

# ---- 6: buffers with a length beside them, parallel arrays, arenas of indices
for n, t in SRC:
    for name, _, body in blocks(t, "struct"):
        if re.search(r": \[[^\]]*; [^\]]*\]", body) and re.search(r"\b(count|length|first|next|len): usize", body):
            place(6, "a buffer with a length", n, name)
        if len(re.findall(r"\b[a-z]: u64", body)) > 5:
            place(6, "a row of nameless numbers", n, name)
    for name, sig, body in functions(t):
        if re.search(r"d: &(mut )?Desk", sig):
            place(6, "one row of numbers for all data", n, name)
        if re.search(r'b"[^"]{40,}"', body):
            place(6, "texts packed in one", n, name)

# ---- 7: a switch on which step to run, tables of functions
for n, t in SRC:
    for name, _, body in blocks(t, "enum"):
        if re.match(r"(Job|Work|Onward|Again|Slot|OrderEdit|MsgEdit|Effect|Class|Next)$", name):
            place(7, "a step chosen apart from its run", n, name)

# ---- 8: answers in proofs
answers = lines = 0
for n, t in files(".antt", "proofs"):
    lines += t.count("\n")
    if n.endswith("Answers.antt"):
        answers += len(re.findall(r"(?m)^pub [\w\-'₀-₉]+ : goal\.", t))
place(8, "answers", "proofs/", str(answers))

for p in range(1, 9):
    kinds = FOUND.get(p, {})
    if p == 8:
        print(f"8  {answers} answers, {lines} lines in proofs/")
        continue
    print(f"{p}  {sum(len(v) for v in kinds.values())}  " + "; ".join(f"{k} {len(v)}" for k, v in kinds.items()))
    if LIST:
        for k, v in kinds.items():
            for x in v:
                print(f"     {k}: {x}")
