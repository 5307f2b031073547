#!/usr/bin/env python3
"""Respells the repository's own definitions and lemmas, once, after the kit's own scripts: words in snake case
(`own-stays` becomes `own_stays`), types in camel case (`Comes-back` becomes `ComesBack`).

usage: python3 tools/respell.py [FOLDER]          rewrites every .rt and .antt file below FOLDER/crates in place
       python3 tools/respell.py --look [FOLDER]   changes nothing, and prints the names and those that would fall together

A name is the repository's own if a line of specs/ or proofs/ declares it: a definition, a lemma, a field, a variant, a
parameter or a local of a proof. Names that Rattle makes (goals, calls, branches) keep their spelling: a line that declares
one gives it a type of the goals' module. Text in comments and in strings stays, and so do the names of files.
"""

import os
import re
import sys

WORD = r"[^\s(){}\[\].,;@\"`:λ=→]"
DECLARES = re.compile(r"\s*(?:\{|\(|module _ |let |in let |pub |abbrev |unfoldable |data |record |constructor )*((?:%s+ )*%s+) :(?!=)(?: (.*))?$" % (WORD, WORD))
HEADS = re.compile(r"\s*(?:pub )?(?:record|data) (%s+)" % WORD)
PARAMETERS = re.compile(r"[({]((?:%s+ )*%s+) : " % (WORD, WORD))
LETS = re.compile(r"\blet (%s+) (?::|=)" % WORD)
MADE = re.compile(r"(goal|need|given)\.")
# a lemma's name that Rattle makes too: a projection of it stays as it is
MADE_TOO = {"best-is"}
# whose plain respelling is the name of a function or a type beside it
OTHERWISE = {
    "unless-cut": "answer_unless_cut",
    "put-at": "list_put_at",
    "own-header": "own_header_in",
    "page-sector": "page_sector_bytes",
    "header-sector": "header_sector_bytes",
    "is-new": "seen_is_new",
    "is-old": "seen_is_old",
    "first-bytes": "first_bytes_of",
    "second-bytes": "second_bytes_of",
    "own-fault": "own_fault_of",
    "commands-in": "commands_in_bytes",
    "first-in": "first_in_bytes",
    "enter-in": "enter_in_bytes",
    "header-in": "header_in_bytes",
    "looks-for": "bytes_look_for",
    "Cut-in": "CutWithin",
    "No-header": "NoHeaderFound",
}


def sources(root, endings=(".rt", ".antt")):
    for folder, dirs, files in os.walk(os.path.join(root, "crates")):
        dirs[:] = sorted(d for d in dirs if d != "out")
        for f in sorted(files):
            if f.endswith(endings):
                yield os.path.join(folder, f)


def read(path):
    with open(path, encoding="utf-8") as f:
        return f.read()


def own_names(root):
    own, made = set(), set()
    for path in sources(root, (".antt",)):
        for line in read(path).split("\n"):
            code = line.split("-- ")[0]
            found = DECLARES.match(code)
            if found:
                names = made if found.group(2) and MADE.match(found.group(2)) else own
                names.update(found.group(1).split())
            for found in list(PARAMETERS.finditer(code)) + list(LETS.finditer(code)):
                own.update(found.group(1).split())
            found = HEADS.match(code)
            if found:
                own.add(found.group(1))
    good = re.compile(r"[A-Za-z][A-Za-z0-9_']*(-[A-Za-z0-9_']+)+$")
    return {n for n in own if good.match(n)} - made, made


def respelt(name):
    if name in OTHERWISE:
        return OTHERWISE[name]
    parts = name.split("-")
    if name[0].isupper():
        return "".join(p[:1].upper() + p[1:] for p in parts)
    return "_".join(p[:1].lower() + p[1:] if len(p) > 1 and p[1:].islower() else p for p in parts)


TOKEN = re.compile(r"--.*|//.*|\"(?:[^\"\\]|\\.)*\"|[^\s(){}\[\].,;@\"`:λ=→∷×≡]+")


def turned(text, names, antt):
    def one(m):
        t = m.group(0)
        if t.startswith('"') or (antt and t.startswith("--")) or (not antt and t.startswith("//")):
            return t
        if t in MADE_TOO and text[m.start() - 1 : m.start()] == ".":
            return t
        return names.get(t, t)
    return TOKEN.sub(one, text)


def tokens(text):
    return {m.group(0) for m in TOKEN.finditer(text)}


def main():
    look = "--look" in sys.argv[1:]
    rest = [a for a in sys.argv[1:] if a != "--look"]
    root = rest[0] if rest else "."
    own, made = own_names(root)
    names = {n: respelt(n) for n in sorted(own)}
    if look:
        back = {}
        for old, new in names.items():
            back.setdefault(new, []).append(old)
        for new, olds in back.items():
            if len(olds) > 1:
                print("TOGETHER", new, olds)
        for path in sources(root):
            here = tokens(read(path))
            for old, new in names.items():
                if old in here and new in here:
                    print("MEETS", os.path.relpath(path, root), old, new)
        for old, new in names.items():
            print(old, new)
        print("made:", " ".join(sorted(n for n in made if "-" in n)))
        return
    for path in sources(root):
        old = read(path)
        new = turned(old, names, path.endswith(".antt"))
        if new != old:
            with open(path, "w", encoding="utf-8") as f:
                f.write(new)


main()
