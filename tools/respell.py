#!/usr/bin/env python3
"""Brings the names of this repository's own definitions and lemmas to one spelling: words in snake case, types and modules in camel case.

usage: python3 tools/respell.py [--list]     at the top of the repository, once, after the kit's own script
       with --list nothing is written, and each old name is printed with its new one

A name is the repository's own where one of its .antt files declares it: by a signature, as a field, as a constructor, or in a `let`, a `λ` or a
pattern. Names of the library, names that the checker makes for a proof's goals, and all code in src/ but its clauses stay as they are.
Where two names of one file fall together the script says so, with 'look:'. A function and the definition of what it answers may share a name, and so
may fields of two records.
"""
import collections
import os
import re
import sys

NAME = re.compile(r"[^\s(){}\[\],;.`\"«»]+")
HYPHEN = re.compile(r"[^\W_]'?-[^\W_]")
USE = re.compile(r"^\s*(?:pub )?(?:ghost )?use ([^{;\n]+?)(?:\.\{([^}]*)\}|;|$)", re.M)
SIGNATURE = re.compile(r"^\s*(?:(?:pub|abbrev|unfoldable|opaque|ghost|record|data|mutual)\s+)*([^\s(){}\[\],;.]+)(?:\s+[({].*)?\s+:(?:\s+(.*)|$)", re.M)
HEAD = re.compile(r"^\s*(?:(?:pub|abbrev|unfoldable)\s+)*(?:record|data)\s+([^\s(){}:]+)", re.M)


def files(root):
    for folder, dirs, names in os.walk(os.path.join(root, "crates")):
        dirs[:] = sorted(d for d in dirs if d != "out")
        for n in sorted(names):
            if n.endswith((".antt", ".rt")):
                yield os.path.join(folder, n)


def bare(text):
    """The text of an .antt file without its comments."""
    return "\n".join("" if l.lstrip().startswith("--") else re.sub(r"\s-- .*$", "", l) for l in text.split("\n"))


def imported(text):
    """The names that a file takes from the library or from what the checker makes, and those that it takes from inside the repository."""
    outside, inside = set(), set()
    for path, names in USE.findall(text):
        own = path.startswith("Rattle.") and not re.match(r"Rattle\.(std|core|io|os|libc|std_\w+)\.|.*\.(Goals|Given)(\.|$)", path)
        words = set()
        for n in names.split(","):
            words |= set(n.split(" as ")) if " as " in n else {n}
        words = {w.strip() for w in words if w.strip()}
        (inside if own else outside).update(words)
    return outside, inside


def spelled(name):
    if re.match(r"[A-Z].*[-_][a-z]", name):
        parts = re.split(r"[-_]", name)
        return parts[0] + "".join(p[:1].upper() + p[1:] for p in parts[1:])
    if not HYPHEN.search(name):
        return name
    return re.sub(r"(?<=[^\W_])('?)-(?=[^\W_])", r"\1_", name)


def declared(text):
    """The names that an .antt file declares, those of its goals aside."""
    found, goals = set(), set()
    for m in SIGNATURE.finditer(text):
        (goals if re.match(r"(goal|need|given)\.", m.group(2) or "") else found).add(m.group(1))
    found |= {m.group(1) for m in HEAD.finditer(text)}
    for m in re.finditer(r"\blet\s+([^\s(){}:=,]+)", text):
        found.add(m.group(1))
    for m in re.finditer(r"λ\s+([^.]*?)\.", text):
        for binder in re.findall(r"[^\s(){}:]+", re.sub(r"[({]([^():{}]*):[^(){}]*[)}]", r"\1 ", m.group(1))):
            found.add(binder)
    for m in re.finditer(r"[({]([^(){}:]+?)\s*:[^:]", text):
        found |= set(m.group(1).split())
    for line in text.split("\n"):
        m = re.match(r"^\s*([^\s(){}:=]+)((?:\s+[^\s:=]+)*)\s+=(?:\s|$)", line)
        if m and m.group(1) not in ("let", "use"):
            found |= {w for w in NAME.findall(m.group(2))}
    for m in re.finditer(r"\|\s+([^↦]*?)\s*↦", text):
        found |= set(NAME.findall(m.group(1)))
    return found, goals


def clauses(text):
    """The spans of an .rt file that are clauses: ghost uses, and what stands in braces after ensures, requires or a ghost member."""
    spans = [(m.start(), m.end()) for m in re.finditer(r"^\s*ghost use [^;]*;", text, re.M)]
    starts = re.compile(r"(?:\b(?:ensures|requires)(?:\s+\S+)?\s*\{|\bghost\s+[^\s:={]+\s*[:=]\s*\{|\bghost\s+invariant[^{;]*\{|\bprove!\s*\{)")
    for m in starts.finditer(text):
        depth, i = 1, m.end()
        while depth and i < len(text):
            depth += {"{": 1, "}": -1}.get(text[i], 0)
            i += 1
        spans.append((m.start(), i))
    for m in re.finditer(r"#\[tactic\([^\]]*\)\]", text):
        spans.append((m.start(), m.end()))
    merged = []
    for a, b in sorted(spans):
        if merged and a < merged[-1][1]:
            merged[-1] = (merged[-1][0], max(b, merged[-1][1]))
        else:
            merged.append((a, b))
    return merged


def turned(text, names):
    return NAME.sub(lambda m: names.get(m.group(0), m.group(0)), text)


def main(argv):
    root = os.getcwd()
    texts = {p: open(p, encoding="utf-8").read() for p in files(root)}
    own, goals = set(), set()
    for p, t in texts.items():
        if p.endswith(".antt"):
            d, g = declared(bare(t))
            own |= d
            goals |= g
    turn = {n: spelled(n) for n in own if spelled(n) != n}
    result, bad = {}, []
    for p, t in texts.items():
        outside, inside = imported(bare(t) if p.endswith(".antt") else t)
        here = {n: new for n, new in turn.items() if n not in outside}
        local = declared(bare(t))[0] if p.endswith(".antt") else set()
        made = {n for n in goals if n in local or n in inside}
        for n in made:
            if n in here:
                bad.append(f"{os.path.relpath(p, root)}: {n} is a goal and a name of our own")
        if p.endswith(".antt"):
            lines = t.split("\n")
            new = "\n".join(l if l.lstrip().startswith("--") and False else turned(l, here) for l in lines)
            seen = set(NAME.findall(bare(t)))
        else:
            new, at, seen = "", 0, set()
            for a, b in clauses(t):
                new += t[at:a] + turned(t[a:b], here)
                seen |= set(NAME.findall(t[a:b]))
                at = b
            new += t[at:]
        after = collections.defaultdict(set)
        for n in seen:
            after[here.get(n, n)].add(n)
        for n, olds in after.items():
            if len(olds) > 1:
                bad.append(f"{os.path.relpath(p, root)}: {', '.join(sorted(olds))} fall together as {n}")
        result[p] = new
    if "--list" in argv:
        for n in sorted(turn):
            print(n, turn[n])
    for b in bad:
        print("look: " + b)
    if "--list" in argv:
        return 0
    changed = 0
    for p, new in result.items():
        if new != texts[p]:
            with open(p, "w", encoding="utf-8") as f:
                f.write(new)
            changed += 1
    print(f"respell: {len(turn)} names, {changed} files")
    return 0


if __name__ == "__main__":
    raise SystemExit(main(sys.argv[1:]))
