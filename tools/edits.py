"""Edits, which are wrong bodies in files: reads them, and finds what is wrong with them.

An edit is a file crates/CRATE/must-fail/NAME.edit if `rt ci`, and so the gate, tries it each time, and slips/CRATE/NAME.edit
if the command `./test --slips` alone does. It has these lines; others say nothing:
    function: PATH    the function whose contract has to refuse the edit, by its whole path, as a check prints it
    test: CRATE NAME  in the place of function: the test that has to fail with the edit (tools/by_test.py)
    named: yes        if the edit is bold in docs/CLAUSES.md
    file: src/lib.rt  the file of the crate that the next pairs change
    old: TEXT         a text that stands in that file exactly once
    new: TEXT         the text in its place
"""
import os
import sys
from typing import List, NamedTuple, Tuple

sys.dont_write_bytecode = True
from repository import PARTS, TOP

ENDING = ".edit"
GATED = "must-fail"


class Edit(NamedTuple):
    crate: str
    name: str
    lines: List[str]

    def words(self, word):
        """The texts of the lines that begin with a word."""
        return [line[len(word) + 2 :].strip() for line in self.lines if line.startswith(word + ": ")]

    @property
    def label(self):
        return f"{self.crate}/{self.name}"

    @property
    def function(self):
        return "".join(self.words("function")[:1])

    @property
    def test(self):
        """The crate and the name of the test that has to fail, or nothing if a function has to refuse the edit."""
        words = "".join(self.words("test")[:1]).split()
        return tuple(words) if len(words) == 2 else ()

    @property
    def is_named(self):
        return self.words("named") == ["yes"]

    def changes(self) -> List[Tuple[str, str, str]]:
        """The changes, each with its file, its old text and its new one."""
        found, path, old = [], "", ""
        for line in self.lines:
            if line.startswith("file: "):
                path = line[len("file: ") :].strip()
            elif line.startswith("old: "):
                old = line[len("old: ") :]
            elif line.startswith("new:"):
                rest = line[len("new:") :]
                found.append((path, old, rest[1:] if rest.startswith(" ") else rest))
                old = ""
        return found


def folders_of(crate):
    """Where the edits of a crate lie."""
    return [os.path.join(TOP, "crates", crate, GATED), os.path.join(TOP, "slips", crate)]


def edits_in(folder, crate):
    """The edits of a crate that lie in a folder, by their names."""
    found = []
    for name in sorted(os.listdir(folder)) if os.path.isdir(folder) else []:
        if name.endswith(ENDING):
            with open(os.path.join(folder, name), encoding="utf-8", errors="replace") as file:
                found.append(Edit(crate, name[: -len(ENDING)], file.read().split("\n")))
    return found


def edits_of(crates, folder=None):
    """All edits, in the order of their crates; those of FOLDER/CRATE alone if a folder is given."""
    return [edit for crate in crates for home in ([os.path.join(folder, crate)] if folder else folders_of(crate)) for edit in edits_in(home, crate)]


def edited(edit, crate_folder):
    """The edited texts by their files, or what is wrong with the edit."""
    texts = {}
    for path, old, new in edit.changes():
        if os.path.normpath(path) != path or path.split("/")[0] not in PARTS:
            return {}, f"it names no file below src/, specs/ or proofs/, but {path or 'none'}"
        if not old:
            return {}, "a line new: follows no line old:"
        try:
            if path not in texts:
                with open(os.path.join(crate_folder, path), encoding="utf-8") as file:
                    texts[path] = file.read()
        except (OSError, UnicodeDecodeError):
            return {}, f"there is no file {path}"
        if texts[path].count(old) != 1:
            return {}, f"an old text stands {texts[path].count(old)} times in {path}, and not once: {old.strip()}"
        texts[path] = texts[path].replace(old, new)
    return texts, "" if texts else "it changes nothing"


def wrong_with(edit):
    """What is wrong with an edit, as can be seen without a proof; nothing where all is right."""
    if edit.words("test"):
        if len(edit.words("test")) != 1 or not edit.test or edit.words("function"):
            return "it needs one line test: with a crate and a test, and no line function:"
    elif len(edit.words("function")) != 1 or not edit.function.startswith(edit.crate + "::"):
        return "it needs one line function: with the path of a function of its crate"
    if edit.words("named") not in ([], ["yes"]):
        return "its line named: says something else than yes"
    return edited(edit, os.path.join(TOP, "crates", edit.crate))[1]


def strangers(crates):
    """What stands in a folder of edits and is none."""
    slips = os.path.join(TOP, "slips")
    for crate in sorted(os.listdir(slips)):
        if crate not in crates or not os.path.isdir(os.path.join(slips, crate)):
            yield f"slips/{crate}: crates.txt has no such crate"
    for crate in crates:
        for folder in folders_of(crate):
            for name in sorted(os.listdir(folder)) if os.path.isdir(folder) else []:
                if not name.endswith(ENDING) or not os.path.isfile(os.path.join(folder, name)):
                    yield f"{os.path.relpath(folder, TOP)}/{name}: an edit is a file whose name ends in {ENDING}"
