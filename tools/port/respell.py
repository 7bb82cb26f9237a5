#!/usr/bin/env python3
"""Gives the repository's own names the spelling of today's Rattle: words of definitions and lemmas in snake case.

usage: tools/port/respell.py            in the repository, once, right after port.py
       tools/port/respell.py --list     only prints the names, old and new

Which names: those that a file below specs/ or proofs/ declares or binds (not in a folder of a function's proof), that
are written with a dash or in lower camel case, and that no file takes from outside the repository. Types and modules
begin with a capital and stay. It prints the names that would fall together in a file and leaves those alone.
"""
import os, re, sys

TOKEN = re.compile(r"[^\s(){}\[\],;.«»\"|`]+")
EXTERNAL = re.compile(r"^(?:ghost )?use (?!Rattle\.(?:%s)\.)")
CAMEL = re.compile(r"^[a-z][A-Za-z0-9]*[A-Z][A-Za-z0-9]*['₀-₉]*$")
DASH = re.compile(r"^[a-zA-Z0-9ℕℤ≤≡√_]+(?:-[a-zA-Z0-9ℕℤ≤≡√+*_]+)+['₀-₉]*$")


# Lemmas that port.py gave a name that a definition now gets.
LEMMAS = {"in_bounds": "in_bounds_lem", "comes_back": "comes_back_lem"}


def files(kind):
    for d, ds, fs in os.walk("crates"):
        ds[:] = sorted(x for x in ds if x != "out")
        for f in sorted(fs):
            p = os.path.join(d, f)
            if p.endswith(kind):
                yield p


def is_answer(p):
    return os.path.basename(p) == "Proof.antt"


def uses(text):
    """Each `use` statement of a file, as (path, names)."""
    for m in re.finditer(r"^(?:ghost |pub )?use ([^\s{;]+)\{([^}]*)\}", text, re.M):
        yield m.group(1), [n.strip().split(" as ")[0].strip() for n in m.group(2).split(",") if n.strip()]


def uncommented(text):
    return re.sub(r"(^|\s)--[^\n]*", r"\1", text)


def snake(n):
    n = n.replace("-", "_")
    # lower camel parts
    n = re.sub(r"(?<=[a-z0-9])([A-Z])(?=[a-z])", lambda m: "_" + m.group(1).lower(), n) if CAMEL.match(n) or re.search(r"[a-z][A-Z]", n) else n
    return n if n[0].isupper() else n.lower()


def main(argv):
    own_crates = sorted(os.listdir("crates"))
    own = re.compile(r"^Rattle\.(%s)\." % "|".join(own_crates))
    external, declared = set(), set()
    texts = {}
    for p in list(files(".antt")) + list(files(".rt")):
        texts[p] = open(p, encoding="utf-8").read()
    for p, t in texts.items():
        for path, names in uses(t):
            if not own.match(path):
                external.update(names)
    for p, t in texts.items():
        if not p.endswith(".antt") or is_answer(p):
            continue
        t = uncommented(t)
        body = re.sub(r"^(?:pub )?use [^\n{]*(?:\{[^}]*\})?", "", t, flags=re.M)
        for tok in TOKEN.findall(body):
            if (CAMEL.match(tok) or DASH.match(tok)) and tok not in external:
                declared.add(tok)
    words = {p: set(TOKEN.findall(uncommented(t))) for p, t in texts.items()}
    made = re.compile(r"^(Need|After|In|Then|Else|At|returns|loop|invariant|decreases)-")
    names = {}
    for n in sorted(declared):
        if (made.match(n) and n[0].isupper()) or n[0].isdigit():
            continue
        new = snake(n)
        if new != n:
            names[n] = new
    # A lemma that would have the name of a definition gets `_lem`.
    for o in list(names):
        if "-" in o:
            n = names[o]
            here = [p for p, t in texts.items() if p.endswith(".antt") and o in words[p]]
            if n in external and any(n in words[p] for p in here) or any(c != o and "-" not in c and names[c] == n for c in names):
                names[o] = n + "_lem"
    names.update({n: n + "_lem" for n in LEMMAS})
    # names that fall together
    bad = set()
    byn = {}
    for o, n in names.items():
        byn.setdefault(n, []).append(o)
    for p, t in texts.items():
        if is_answer(p):
            continue
        toks = set(TOKEN.findall(t))
        for n, olds in byn.items():
            here = [o for o in olds if o in toks]
            if here and n in toks:
                bad.add((p, n, tuple(here), "already there"))
            if len(here) > 1:
                bad.add((p, n, tuple(here), "two"))
    for b in sorted(bad):
        print("together:", *b, file=sys.stderr)
    if "--list" in argv:
        for o in sorted(names):
            print(o, names[o])
        return
    for p in list(texts) + list(files(".edit")):
        t = texts.get(p) or open(p, encoding="utf-8").read()
        rt = p.endswith((".rt", ".edit"))

        def one(m):
            tok = m.group(0)
            new = names.get(tok)
            if not new:
                return tok
            return new

        def line(l):
            # comments: only camel words, and what stands in backticks
            if p.endswith(".antt"):
                m = re.match(r"^(.*?)((?:^|\s)--(?:\s.*)?)$", l)
                code, com = (m.group(1), m.group(2)) if m else (l, "")
            elif p.endswith(".edit"):
                m = re.match(r"^#", l)
                code, com = ("", l) if m else (l, "")
            else:
                m = re.match(r"^(.*?)(//.*)$", l)
                code, com = (m.group(1), m.group(2)) if m else (l, "")
            code = "".join(s if i % 2 and rt else TOKEN.sub(one, s) for i, s in enumerate(re.split(r'("[^"]*")', code)))
            com = TOKEN.sub(lambda m: one(m) if CAMEL.match(m.group(0)) else m.group(0), com)
            com = re.sub(r"`[^`]*`", lambda m: TOKEN.sub(one, m.group(0)), com)
            return code + com

        new = "\n".join(line(l) for l in t.split("\n"))
        if new != t:
            open(p, "w", encoding="utf-8").write(new)


main(sys.argv[1:])
