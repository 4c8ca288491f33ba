#!/usr/bin/env python3
"""Tests that each edit still applies: those in crates/CRATE/must-fail, which the check has to refuse, and those in
tests/planted/CRATE. Nothing is checked or built for it.

usage: python3 tests/edits.py                   at the end it prints 'N passed, M failed'
       python3 tests/edits.py --apply FOLDER EDIT
                                                changes the files of the crate in FOLDER as the edit says

An edit has lines 'file: PATH', below src/, specs/ or proofs/ of its crate, each with pairs of lines 'old: TEXT' and
'new: TEXT' behind it. Pair by pair, the old text has to stand in the file exactly once, and the new one takes its place.
Lines that begin with '#' are comments.
"""

import glob
import os
import sys


class BadEdit(Exception):
    pass


def pairs(edit):
    """The pairs of an edit, each with its file: (path, old, new)."""
    path = old = None
    with open(edit, encoding="utf-8") as lines:
        for line in lines.read().split("\n"):
            word, _, text = line.partition(":")
            text = text.removeprefix(" ")
            if word == "file" and old is None:
                path = text.strip()
                if os.path.normpath(path) != path or not path.startswith(("src/", "specs/", "proofs/")):
                    raise BadEdit(f"'{path}' is no file below src/, specs/ or proofs/")
            elif word == "old" and path and old is None and text:
                old = text
            elif word == "new" and old is not None:
                yield path, old, text
                old = None
            elif line.strip() and not line.startswith("#"):
                raise BadEdit(f"a line is out of place: {line}")
    if old is not None:
        raise BadEdit("its last 'old:' has no 'new:'")


def edited(folder, edit):
    """The texts of the files that an edit changes in a crate, by their paths."""
    before, texts = {}, {}
    for path, old, new in pairs(edit):
        if path not in texts:
            try:
                with open(f"{folder}/{path}", encoding="utf-8") as file:
                    before[path] = texts[path] = file.read()
            except FileNotFoundError:
                raise BadEdit(f"there is no file {path}") from None
        found = texts[path].count(old)
        if found != 1:
            raise BadEdit(f"this stands in {path} {found} times: {old}")
        texts[path] = texts[path].replace(old, new)
    if texts == before:
        raise BadEdit("it changes nothing")
    return texts


def apply(folder, edit):
    for path, text in edited(folder, edit).items():
        with open(f"{folder}/{path}", "w", encoding="utf-8") as file:
            file.write(text)


def test():
    os.chdir(os.path.dirname(os.path.dirname(os.path.abspath(__file__))))
    good = bad = 0
    for edit in sorted(glob.glob("crates/*/must-fail/*") + glob.glob("tests/planted/*/*")):
        crate = edit.removeprefix("crates/").removeprefix("tests/planted/").split("/")[0]
        try:
            if not edit.endswith(".edit"):
                raise BadEdit("its name does not end in .edit")
            edited(f"crates/{crate}", edit)
            good += 1
        except BadEdit as why:
            bad += 1
            print(f"FAIL {edit}: {why}")
    print(f"{good} passed, {bad} failed")
    return bad == 0


def main(words):
    if not words:
        return 0 if test() else 1
    if len(words) == 3 and words[0] == "--apply":
        try:
            apply(words[1], words[2])
            return 0
        except BadEdit as why:
            print(f"{words[2]}: {why}", file=sys.stderr)
            return 1
    print("usage: python3 tests/edits.py [--apply FOLDER EDIT]", file=sys.stderr)
    return 2


sys.exit(main(sys.argv[1:]))
