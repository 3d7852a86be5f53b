#!/usr/bin/env python3
"""Gives the repository's own definitions and lemmas their names in snake case, once, after the kit's port.py.

usage: python3 tools/snake_names.py [--dry]      at the top of the repository

Every name that a file of specs/ or a file of lemmas of proofs/ defines is a word in snake case afterwards, types and modules apart: readBytes and
read-bytes become read_bytes. Proofs of single functions (proofs/F/) keep the names that they define. The text of clauses, files of antt, edits
(crates/*/must-fail and more-must-fail) and pages that cite a name is turned with it. Where two names would become one in a file, nothing is written.
"""
import collections
import glob
import os
import re
import sys

# A name that would fall together with another one, and what it is called instead.
OTHER = {n: n + "_lem" for n in ("gives_operand", "kept_word", "wrong_size")}

TOKEN = re.compile(r"[^\s(){}\[\].,;:\"`|\\/]+")
DEFINES = re.compile(r"^\s*(?:\|\s*)?(?:(?:pub|abbrev|unfoldable)\s+)*([^\s(){}\[\].,;:\"`|\\/]+)(?:\s+\{[^}]*\})*\s+:\s", re.M)
WORDS = {"use", "data", "record", "module", "where", "in", "let", "unfolding", "mutual", "ruleset"}


def snake(name):
    s = re.sub(r"(?<=[a-z0-9'₀-₉])(?=[A-Z])", "_", name)
    s = re.sub(r"(?<=[A-Z])(?=[A-Z][a-z])", "_", s)
    return s.replace("-", "_").lower()


def lemma_files():
    """The files whose names are turned: specs/, and the files right in proofs/."""
    return sorted(glob.glob("crates/*/specs/**/*.antt", recursive=True) + glob.glob("crates/*/proofs/*.antt"))


def all_files():
    kinds = ["crates/*/specs/**/*.antt", "crates/*/proofs/**/*.antt", "crates/*/src/**/*.rt", "crates/*/must-fail/*.edit", "crates/*/more-must-fail/*.edit"]
    pages = ["docs/*.md", "README.md", "streams/*.md", "tests/**/*.md"]
    return sorted(f for k in kinds + pages for f in glob.glob(k, recursive=True) if "/out/" not in f)


def main():
    names = set()
    for f in lemma_files():
        with open(f, encoding="utf-8") as g:
            text = re.sub(r"--.*", "", g.read())
        for m in DEFINES.finditer(text):
            n = m[1]
            if n not in WORDS and not n[0].isupper() and ("-" in n.strip("-") or re.search(r"[a-z0-9₀-₉][A-Z]", n)) and re.match(r"[a-zA-Zα-ω]", n):
                names.add(n)
    camel = {snake(n) for n in names if "-" not in n}
    # a lemma that would have its definition's name ends in _lem
    turned = {n: OTHER.get(n, snake(n) + ("_lem" if "-" in n and snake(n) in camel else "")) for n in sorted(names)}
    for n in OTHER:
        turned.setdefault(n, OTHER[n])
    clash = []
    texts = {}
    for f in all_files():
        with open(f, encoding="utf-8") as g:
            texts[f] = g.read()
        if f not in lemma_files():
            continue
        seen = collections.defaultdict(set)
        for t in set(TOKEN.findall(re.sub(r"--.*", "", texts[f]))):
            seen[turned.get(t, t)].add(t)
        clash += [f"{f}: {sorted(v)}" for k, v in sorted(seen.items()) if len(v) > 1]
    print(f"{len(turned)} names; {len(clash)} places where two fall together")
    print("\n".join(clash))
    if clash or "--dry" in sys.argv:
        return 1 if clash else 0
    for f, t in texts.items():
        if f.endswith((".md", ".rt")):
            # a page's words with a dash and code are left, unless the name is in camel case or stands in a clause or between backticks
            new = turn_page(f, t, turned)
        elif f.endswith(".edit"):
            new = "\n".join(TOKEN.sub(lambda m: turned.get(m[0], m[0]), l) if l.startswith(("old:", "new:")) else l for l in t.split("\n"))
        else:
            # a comment's plain words are left, names in backticks are turned
            new = "\n".join(turn_line(l, turned) for l in t.split("\n"))
        if new != t:
            with open(f, "w", encoding="utf-8") as g:
                g.write(new)
    return 0


def turn_line(line, turned):
    code, mark, comment = line.partition("-- ") if not line.lstrip().startswith("--") else ("", line, "")
    if not mark:
        return TOKEN.sub(lambda m: turned.get(m[0], m[0]), line)
    return TOKEN.sub(lambda m: turned.get(m[0], m[0]), code) + turn_quoted(mark + comment, turned)


def turn_quoted(text, turned):
    return re.sub(r"`[^`]*`", lambda q: TOKEN.sub(lambda m: turned.get(m[0], m[0]), q[0]), text)


def turn_page(f, text, turned):
    if f.endswith(".md"):
        return turn_quoted(text, turned)
    out = []
    for l in text.split("\n"):
        out.append(turn_quoted(l, turned) if l.lstrip().startswith("//") else TOKEN.sub(lambda m: turned.get(m[0], m[0]), l))
    return "\n".join(out)


if __name__ == "__main__":
    raise SystemExit(main())
