#!/usr/bin/env python3
"""Gives the repository's own definitions and lemmas the spelling of today's Rattle, after port.py. Usage: tools/respell.py, at the top, once.

Functions and lemmas are in snake case: a word in camel case, and a dash, gets an underscore. A dash stays where it joins the names of two
definition and of a function of lists, as in `ones-append`. A lemma that would have a definition's name gets `_lem`. An alias of an import
that stood because a function of src/ has the name goes, since both may have it now. Types, modules, functions of src/, what port.py has
spelled and strings stay. Proof files, edits and the names in the pages follow. Prints names that fall together, and edits whose text is
found in no spelling.
"""
import collections
import glob
import re
import sys

DECLARED = re.compile(r"\s*((?:(?:abbrev|unfoldable|pub|record|data)\s+)*)([^\s(){}:]+)\s*(?:\([^)]*\)|\{[^}]*\})*\s*:(?![:=])")
TOKEN = re.compile(r"[^\s(){}\[\],;.:\"`→∷=×≡+*∙λ|]+")
# words of std that lemmas are named by
STD = set("length take drop append map foldl set sets flip".split())


def declared():
    """Each name of specs/ and of lemma files, and whether it is a definition."""
    names = {}
    for f in sorted(glob.glob("crates/*/specs/**/*.antt", recursive=True) + glob.glob("crates/*/proofs/*.antt")):
        for line in open(f, encoding="utf-8"):
            m = DECLARED.match(line)
            if m and not line.lstrip().startswith(("use", "--", "let")):
                defined = "/specs/" in f or "abbrev" in m[1] or "unfoldable" in m[1] or bool(re.match("[a-z]+[A-Z]", m[2]))
                names[m[2]] = names.get(m[2], False) or defined
    return names


def snake(name):
    return re.sub(r"(?<=[a-z0-9])([A-Z])", lambda m: "_" + m[1].lower(), name)


def respelled(name, words):
    parts = [snake(p) if p[:1].islower() else p for p in name.split("-")]
    new = parts[0]
    for p in parts[1:]:
        new += ("-" if len(parts) == 2 and STD & set(parts) and words >= set(parts) else "_") + p
    return new


def table():
    names = declared()
    words = {snake(n) for n, defined in names.items() if defined and "-" not in n and n[:1].islower()} | STD
    new = {n: respelled(n, words) for n in names if "-" in n or (n[:1].islower() and re.search("[A-Z]", n))}
    new = {n: m for n, m in new.items() if n != m}
    taken = collections.defaultdict(set)
    for n in names:
        taken[new.get(n, n)].add(n)
    for m, olds in sorted(taken.items()):
        if len(olds) > 1:
            # the definition keeps the name
            lemmas = [n for n in olds if not names[n]]
            print(f"fall together as {m}: {sorted(olds)}; {lemmas} get _lem")
            for n in lemmas if len(lemmas) < len(olds) else sorted(lemmas)[1:]:
                new[n] = m + "_lem"
    return new


def turned(text, new):
    text = re.sub(r"\b(\w+) as \w+·\1\b", r"\1", text)
    text = re.sub(r"(?<![\w#])(?:Listing|Stream)·(\w+)", r"\1", text)
    return TOKEN.sub(lambda m: new.get(m[0], m[0]), text)


def main():
    new = table()
    camel = {n: m for n, m in new.items() if "-" not in n}
    for f in glob.glob("crates/**/*.antt", recursive=True):
        edit(f, lambda t: turned(t, new))
    for f in glob.glob("crates/**/*.rt", recursive=True):
        edit(f, lambda t: turned(t, camel))
    pages = glob.glob("docs/**/*.md", recursive=True) + ["README.md"]
    for f in pages:
        edit(f, lambda t: re.sub(r"`[^`\n]+`", lambda m: turned(m[0], new), t))
    edits(new)


def edit(f, change):
    old = open(f, encoding="utf-8").read()
    text = change(old)
    if text != old:
        open(f, "w", encoding="utf-8").write(text)


# Spellings that an edit has from before port.py, turned until its text is found.
OLDER = [(r"\bgetD\b", "get_or"), (r"(\w) \.(\w)", r"\1.\2"), ("′", "'")]


def edits(new):
    """An edit's lines follow its file. Where an 'old:' text is not found as it stands, by the older spellings."""
    lost = 0
    for e in sorted(glob.glob("crates/*/must-fail/*.edit")):
        crate = e.split("/must-fail/")[0]
        lines = open(e, encoding="utf-8").read().split("\n")
        files = [l[6:].strip() for l in lines if l.startswith("file: ")]
        text = open(crate + "/" + files[0], encoding="utf-8").read()
        for change in [lambda l: l, lambda l: turned(l, new), lambda l: older(turned(l, new))]:
            tried = [l[:5] + change(l[5:]) if l.startswith(("old: ", "new: ")) else l for l in lines]
            if fits(tried, text):
                break
        else:
            print("by hand:", e)
            lost += 1
            continue
        open(e, "w", encoding="utf-8").write("\n".join(tried))
    print(f"{lost} edits by hand")


def fits(lines, text):
    old = None
    for l in lines:
        if l.startswith("old: "):
            old = l[5:]
        elif l.startswith("new: "):
            if text.count(old) != 1:
                return False
            text = text.replace(old, l[5:])
    return True


def older(line):
    for a, b in OLDER:
        line = re.sub(a, b, line)
    return re.sub(r"\b[a-z]\w*[A-Z]\w*", lambda m: snake(m[0]), line)


if __name__ == "__main__":
    sys.exit(main())
