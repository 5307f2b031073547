#!/usr/bin/env python3
"""Counts places in src/ where an older form of the language may stand. `docs/DESIGN-PASS.md` says what each point is.

Run at the top of the repository: python3 tools/places.py [POINT] [-l]. With -l it lists each place. What is printed are
candidates: whether one is a place is said on the page.
"""
import re
import sys
from collections import defaultdict
from pathlib import Path

FUNCTION = re.compile(r"^(?P<indent> *)(?P<head>(?:pub(?:\(crate\))? )?(?:const )?fn (?P<name>\w+))", re.M)
CLAUSE = re.compile(r"^\s*(requires|ensures\*?)(?: (\w+))? \{(.*)\};?$", re.M)


def sources():
    for path in sorted(Path("crates").glob("*/src/**/*.rt")):
        yield str(path), path.read_text()


def code(text):
    """The text without comments and ghost lines."""
    text = re.sub(r"//[^\n]*", "", text)
    return re.sub(r"^\s*ghost [^\n]*\n", "\n", text, flags=re.M)


def functions(text):
    """Name, signature, clauses and body of each function with a body."""
    for match in FUNCTION.finditer(text):
        end = text.find("\n" + match["indent"] + "}", match.end())
        lines = text[match.start():end].split("\n")
        for i, line in enumerate(lines):
            if line == match["indent"] + "{" or line.endswith("{") and not re.match(r"\s*(requires|ensures)", line):
                head = "\n".join(lines[:i + 1])
                clauses = CLAUSE.findall(head)
                signature = CLAUSE.sub("", head)
                yield match["name"], signature, clauses, "\n".join(lines[i + 1:]), text.count("\n", 0, match.start()) + 1
                break


def lines_with(pattern):
    for path, text in sources():
        for number, line in enumerate(code(text).split("\n"), 1):
            if re.search(pattern, line):
                yield f"{path}:{number}: {line.strip()}"


def bodies():
    for path, text in sources():
        for name, signature, clauses, body, line in functions(text):
            yield path, name, signature, clauses, code(body), line


def point_1():
    """Flags beside a value, numbers for a kind or for nothing, flags in a result. (Enums are read by eye.)"""
    yield from lines_with(r"fn .*&mut (Sector|\[u8[^)]*)\) -> (Result<)?bool")
    yield from lines_with(r"fn .*\(\w*self\) -> u(8|16)\b|-> u8$|-> u8 \{|-> Result<bool")
    yield from lines_with(r"^\s*(long|set|cut): bool")
    yield from lines_with(r"\bkind == \d|^\s*\d+ (if .*)?=> ")


def shape(body):
    """A body with its types, numbers and texts taken out."""
    body = re.sub(r'"[^"]*"', "T", body)
    body = re.sub(r"\b\d[\w]*\b", "N", body)
    body = re.sub(r"\b[A-Z]\w*\b", "C", body)
    body = re.sub(r"\b(\w+?)_?(16|32|64)\b", r"\1", body)
    return re.sub(r"\s+", " ", body).strip()


def point_2():
    """Functions of one shape: bodies that are the same but for types, numbers and texts."""
    found = defaultdict(list)
    for path, name, _, _, body, line in bodies():
        if len(shape(body)) > 15:
            found[shape(body)].append(f"{path}:{line}: {name}")
    for same in found.values():
        if len(same) > 1:
            yield from (f"{place}   ({len(same)} alike: {same[0].split(': ')[1]})" for place in same)


def point_3():
    """Loops over an index, and counters in loops."""
    yield from lines_with(r"\bfor \w+ in [^{]*\.\.|\bwhile |\b\w+ (\+|-)= (1|20|n);|saturating_add\(1\)")


def point_4():
    """Comparison of two numbers with a name field by field, and the number or the word of an enum by hand."""
    yield from lines_with(r"\.0 (==|!=|<=|>=|<|>) [\w.]+\.0\b(?! *[+*])|\w+::\w+(\(_\))? => \d+,|^\s*\"\w+\" => Ok\(")
    yield from lines_with(r"fn (is_same|are_same|same|equal)\b")
    yield from lines_with(r"^\s*(Some|Ok)\((\w+)\) => (Some|Ok)\(\2\),")


def point_5():
    """Clauses that stand in three contracts or more of a crate, and parameters that go together in three functions or more."""
    found = defaultdict(set)
    for path, name, signature, clauses, _, line in bodies():
        crate = path.split("/")[1]
        for kind, _, clause in clauses:
            text = re.sub(r"\b\w+\.(now|old|new|entry|exit)\b", "_", clause)
            found[crate, kind, re.sub(r"\s+", " ", text)].add(f"{path}:{line}: {name}")
        given = re.search(r"fn \w+(?:<[^(]*>)?\((.*?)\)\s*(?:->|where|\{|$)", signature, re.S)
        names = re.findall(r"\b\w+: [^,()]+", given[1]) if given else []
        names = [n.strip() for n in names if not n.startswith(("heap", "rt"))]
        for i, first in enumerate(names):
            for second in names[i + 1:]:
                found[crate, "together", f"{first}, {second}"].add(f"{path}:{line}: {name}")
    for (crate, kind, text), places in sorted(found.items()):
        if len(places) > 2:
            yield f"{crate}: {len(places)} times {kind} {text[:110]}"


def point_6():
    """Structs with an array and a count, and lists that are lent to be filled and are answered with a count."""
    yield from lines_with(r"^\s*(pub(\(crate\))? )?\w+: \[[A-Z]\w+; \w+\],|^\s*(pub(\(crate\))? )?bytes: \[u8; \d+\],|^\s*(pub(\(crate\))? )?(len|bought|sold): usize,")
    for path, name, signature, _, _, line in bodies():
        if re.search(r"list: &mut \[Notice\]", signature) and re.search(r"-> (Result<)?usize|n: usize", signature):
            yield f"{path}:{line}: {name}"


def point_7():
    """Matches on a plain enum that was passed in, which choose the function or the form."""
    yield from lines_with(r"\bmatch (side|relation|kind|asked|target|self\.0|shape\.kind|script\.market)\b")
    yield from lines_with(r"\bdyn \w|: fn\(")


def point_8():
    """Answers and lemmas in proofs/, a line for each crate."""
    for crate in sorted(Path("crates").iterdir()):
        answers = lemmas = 0
        for path in crate.glob("proofs/**/*.antt"):
            text = path.read_text()
            heads = re.findall(r"^(?:abbrev |unfoldable )?pub [\w'-]+ : ", text, re.M)
            inside = [h for h in re.findall(r"^(?:abbrev |unfoldable )?pub [\w'-]+ : goal\.", text, re.M)]
            answers += len(inside)
            lemmas += len(heads) - len(inside)
        if answers + lemmas:
            yield f"{crate.name}: {answers} answers and invariants, {lemmas} lemmas and definitions"


POINTS = {str(i): globals()[f"point_{i}"] for i in range(1, 9)}

if __name__ == "__main__":
    chosen = [a for a in sys.argv[1:] if a in POINTS] or sorted(POINTS)
    for key in chosen:
        places = list(POINTS[key]())
        print(f"point {key}: {len(places)}   {POINTS[key].__doc__}")
        if "-l" in sys.argv[1:]:
            for place in places:
                print("   ", place)
