#!/usr/bin/env python3
"""The lists at the end of docs/DESIGN-PASS.md: what is public and changed since a commit, old and new side by side.

    python3 tools/sidebyside.py COMMIT > LISTS

Public functions with their contracts, `From`s and methods of traits with theirs, definitions of specs/, and theorems that README or docs/ name, wherever they lie.
"""
import re, subprocess, sys

COMMIT = sys.argv[1]


def tree(commit):
    if commit:
        names = subprocess.run(["git", "ls-tree", "-r", "--name-only", commit, "crates", "docs", "README.md"], capture_output=True, text=True, check=True).stdout.split()
        read = lambda n: subprocess.run(["git", "show", f"{commit}:{n}"], capture_output=True, text=True, check=True).stdout
    else:
        names = subprocess.run(["git", "ls-files", "crates", "docs", "README.md"], capture_output=True, text=True, check=True).stdout.split()
        read = lambda n: open(n).read()
    return {n: read(n) for n in names if n.endswith((".rt", ".antt", ".md"))}


def one_line(text):
    return re.sub(r"\s+", " ", text).strip().replace("|", "\\|")


def bare(text, mark):
    return "\n".join(l for l in text.split("\n") if not l.strip().startswith(mark))


# ---- code: `pub fn`, the functions of a trait's impl, and `ghost` members of an impl
def functions(text):
    out = {}
    lines = bare(text, "//").split("\n")
    owner, in_trait, i = "", False, 0
    while i < len(lines):
        l = lines[i]
        m = re.match(r"(?:pub )?(impl|trait)\b(.*)\{", l)
        if m and not l.startswith(" "):
            head = m.group(2)
            owner = re.sub(r"^<[^>]*(?:<[^>]*>[^>]*)*>\s*", "", head.strip())
            in_trait = " for " in head or m.group(1) == "trait"
        elif l == "}":
            owner, in_trait = "", False
        g = re.match(r"    ghost (\w+) = (.*)$", l)
        if g and owner:
            out[(owner, "ghost " + g.group(1))] = one_line(l.rstrip(";"))
        m = re.match(r"\s*(pub )?fn (\w+)", l)
        if m and (m.group(1) or in_trait):
            j, sig = i, []
            while j < len(lines) and not re.match(r"^\s*\{\s*$", lines[j]) and not lines[j].rstrip().endswith(";"):
                if re.search(r"\)\s*(->[^{]*)?\{\s*$", lines[j]):
                    sig.append(lines[j].rstrip()[:-1])
                    break
                sig.append(lines[j])
                j += 1
            else:
                if j < len(lines) and lines[j].rstrip().endswith(";"):
                    sig.append(lines[j].rstrip()[:-1])
            out[(owner, m.group(2))] = one_line(" ".join(sig)).replace("pub fn", "fn")
            i = j
        i += 1
    return out


# ---- logic: each declaration with its body, the names that it brings in or not
def definitions(text, only_statement=False):
    out, name, body = {}, None, []
    for l in bare(text, "--").split("\n") + ["end"]:
        m = re.match(r"\s*(?:(?:abbrev|unfoldable) )*pub (?:(?:record|data) )?([^\s:]+)", l) or re.match(r"\s*(?:abbrev|unfoldable) (?:pub )?([^\s:]+)", l)
        top = l and not l.startswith(" ")
        fresh = m and not re.match(r"\s*pub mod", l) and (top or re.match(r"  (?:(?:abbrev|unfoldable) )*(?:pub )", l)) and not re.match(r"  pub \w+ : ", l) if m else False
        inside_module = m and re.match(r"  (?:(?:abbrev|unfoldable) )*pub \S+ :", l) and name is not None and not re.match(r"pub record", body[0] if body else "")
        if m and not re.match(r"\s*pub mod", l) and (top or (inside_module or fresh)):
            if name:
                out[name] = body
            name, body = m.group(1), [l]
        elif top and re.match(r"(use|mod|module|end)\b", l):
            if name:
                out[name] = body
            name, body = None, []
        elif name:
            body.append(l)
    return {n: one_line(" ".join(b)) for n, b in out.items()}


def statements(text):
    """Public lemmas of proofs/: what stands between the name and its proof."""
    out = {}
    lines = bare(text, "--").split("\n")
    for i, l in enumerate(lines):
        m = re.match(r"(\s*)pub ([^\s:]+) : ", l)
        if not m:
            continue
        body = [l]
        for k in lines[i + 1:]:
            if re.match(r"\s*(unfolding\b|%s\b)" % re.escape(m.group(2)), k) or re.match(r"\s*%s " % re.escape(m.group(2)), k) or not k.strip():
                break
            body.append(k)
        out[m.group(2)] = one_line(" ".join(body))
    return out


old, new = tree(COMMIT), tree(None)


def crate(n):
    return n.split("/")[1]


def collect(files, folder, suffix, parse, module):
    out = {}
    for n, t in sorted(files.items()):
        if n.startswith("crates/") and f"/{folder}/" in n and n.endswith(suffix):
            key = f"{crate(n)} {n.split('/')[-1][:-5]}" if module else crate(n)
            for k, v in parse(t).items():
                out.setdefault(key, {})[k] = v
    return out


print("## Public functions, old and new\n")
a, b = collect(old, "src", ".rt", functions, False), collect(new, "src", ".rt", functions, False)
for c in sorted(set(a) | set(b)):
    x, y = dict(a.get(c, {})), dict(b.get(c, {}))
    rows, used = [], set()
    for k in sorted(x):
        match = k if k in y else next((q for q in sorted(y) if q[1] == k[1] and q not in x and q not in used), None)
        if match is None:
            rows.append((x[k], ""))
        else:
            used.add(match)
            if x[k] != y[match] or k[0] != match[0]:
                rows.append((x[k], y[match]))
    rows += [("", y[k]) for k in sorted(y) if k not in used]
    rows = [r for r in rows if r[0] != r[1]]
    if rows:
        print(f"### {c}\n\n| Was | Is |\n|---|---|")
        for r in rows:
            print("| " + " | ".join(f"`{s}`" if s else "" for s in r) + " |")
        print()

print("## Definitions, old and new\n")
a, b = collect(old, "specs", ".antt", definitions, True), collect(new, "specs", ".antt", definitions, True)
for c in sorted(set(a) | set(b)):
    x, y = a.get(c, {}), b.get(c, {})
    rows = [(k, x.get(k, ""), y.get(k, "")) for k in sorted(set(x) | set(y)) if x.get(k) != y.get(k)]
    if rows:
        print(f"### {c}\n\n| | Was | Is |\n|---|---|---|")
        for k, p, q in rows:
            print(f"| `{k}` | " + " | ".join(f"`{s}`" if s else "" for s in (p, q)) + " |")
        print()

print("## Theorems that README or docs/ name, old and new\n")
print("By the word alone, so that a lemma or a field stands here too whose name is also a word of the docs (`at`, `ended`, `expired`).\n")
words = set(re.findall(r"`([^`\s]+)`", " ".join(t for n, t in list(old.items()) + list(new.items()) if n == "README.md" or (n.startswith("docs/") and "DESIGN-PASS" not in n and "PORT" not in n))))
a, b = collect(old, "proofs", ".antt", statements, True), collect(new, "proofs", ".antt", statements, True)
print("| | Was | Is |\n|---|---|---|")
same = 0
for c in sorted(set(a) | set(b)):
    x, y = a.get(c, {}), b.get(c, {})
    for k in sorted(set(x) | set(y)):
        if k in words and not c.endswith(" Answers"):
            if x.get(k) == y.get(k):
                same += 1
            else:
                print(f"| {c} `{k}` | " + " | ".join(f"`{s}`" if s else "" for s in (x.get(k, ""), y.get(k, ""))) + " |")
print(f"\n{same} more stand word for word.")
