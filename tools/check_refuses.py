#!/usr/bin/env python3
"""Tries the edits in crates/NAME/check-refuses, which the check refuses before it proves anything: a value that is copied,
made, mistyped or let go. Run by hand: rt ci counts such an edit as one that it could not try, so they are not in must-fail/.

usage: python3 tools/check_refuses.py        at the top of the repository

Each file has the lines of a must-fail edit and a line 'says: NAME', the error that is expected.
"""

import glob
import os
import shutil
import subprocess
import sys
import tempfile


def lines_of(path):
    with open(path, encoding="utf-8") as f:
        return [tuple(line.rstrip("\n").split(": ", 1)) for line in f if ": " in line]


def refusal(edit, top):
    crate = edit.split(os.sep)[1]
    fields = lines_of(edit)
    name = next(v for k, v in fields if k == "file")
    path = os.path.join(top, "crates", crate, name)
    with open(path, encoding="utf-8") as f:
        before = text = f.read()
    old = None
    for key, value in fields:
        if key == "old":
            old = value
        elif key == "new":
            if text.count(old) != 1:
                return f"does not fit: {old}"
            text = text.replace(old, value)
    with open(path, "w", encoding="utf-8") as f:
        f.write(text)
    said = subprocess.run(["rt", "check"], cwd=os.path.join(top, "crates", crate), capture_output=True, text=True)
    with open(path, "w", encoding="utf-8") as f:
        f.write(before)
    wanted = next(v for k, v in fields if k == "says")
    if said.returncode == 0:
        return "is not refused"
    return None if f"error[{wanted}]" in said.stdout + said.stderr else f"is refused, but not by {wanted}"


def main():
    top = tempfile.mkdtemp(prefix="check-refuses-")
    shutil.copytree("crates", os.path.join(top, "crates"), ignore=shutil.ignore_patterns("out"))
    shutil.copy("crates.txt", top)
    bad = 0
    for edit in sorted(glob.glob(os.path.join("crates", "*", "check-refuses", "*.edit"))):
        why = refusal(edit, top)
        bad += why is not None
        print(f"{edit}: {why or 'refused, as it must be'}")
    shutil.rmtree(top)
    sys.exit(1 if bad else 0)


main()
