#!/usr/bin/env python3
"""Brings the names of definitions and lemmas to one spelling: words in snake case, types and facts in camel case.

usage: python3 tools/respell.py     once, at the top of the repository

It collects the names with a dash that specs/ and proofs/ of the crates define, and writes each with underscores, or in
camel case where it begins with a capital, wherever it stands in the code of .rt and .antt files. Comments, strings,
names of the library, goals of the checker and names of src/ stay. Where two names would fall together it stops and
writes nothing.
"""

import glob
import re

NAME = r"[A-Za-z_][A-Za-z0-9_']*(?:-[A-Za-z0-9_'·]+)+"
TOKEN = re.compile(r"(?<![A-Za-z0-9_'·-])" + NAME + r"(?![A-Za-z0-9_'·-])")
DEFINED = re.compile(r"\s*(?:(?:pub|abbrev|unfoldable|data|record)\s+)*(" + NAME + r")\s*(?:\(.*\)\s*|\{.*\}\s*)*:(?!:)\s*(.*)")
GOAL = re.compile(r"(?:goal|need|given)\.")


def files():
    return sorted(f for kind in ("specs/**/*.antt", "proofs/**/*.antt", "src/**/*.rt") for f in glob.glob("crates/*/" + kind, recursive=True))


def parts(text, antt):
    """The text cut into pieces (is code, piece): comments and strings are no code."""
    comment = r"--[^\n]*" if antt else r"//[^\n]*"
    at = 0
    for m in re.finditer(comment + r'|"(?:\\.|[^"\\\n])*"', text):
        yield True, text[at:m.start()]
        yield False, m[0]
        at = m.end()
    yield True, text[at:]


def respelled(name):
    if name[0].isupper():
        return "".join(word[:1].upper() + word[1:] for word in name.split("-"))
    return name.replace("-", "_")


def defined(text):
    code = "".join(piece if is_code else " " for is_code, piece in parts(text, True))
    for line in code.split("\n"):
        m = DEFINED.match(line)
        if m and not GOAL.match(m[2]):
            yield m[1]


def words(text):
    """The names in the code of an .antt file, without the paths of modules."""
    code = "".join(piece if is_code else " " for is_code, piece in parts(text, True))
    return set(re.findall(r"[A-Za-z_][A-Za-z0-9_'-]*", re.sub(r"Rattle\.[A-Za-z0-9_.+]*", " ", code)))


def main():
    texts = {f: open(f, encoding="utf-8").read() for f in files()}
    names = {n for f, t in texts.items() if f.endswith(".antt") for n in defined(t)}
    new = {n: respelled(n) for n in names}
    bad = [(f, n, new[n]) for f, t in texts.items() if f.endswith(".antt") for n in sorted(names & words(t)) if new[n] in words(t)]
    bad += [("", n, m) for n in sorted(names) for m in sorted(names) if n < m and new[n] == new[m]]
    for f, n, m in bad:
        print(f"falls together: {f} {n} {m}")
    if bad:
        return 1
    changed = 0
    for f, text in texts.items():
        out = "".join(TOKEN.sub(lambda m: new.get(m[0], m[0]), piece) if is_code else piece for is_code, piece in parts(text, f.endswith(".antt")))
        if out != text:
            open(f, "w", encoding="utf-8").write(out)
            changed += 1
    print(f"{len(new)} names, {changed} files")
    return 0


if __name__ == "__main__":
    raise SystemExit(main())
