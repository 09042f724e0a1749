"""The names on the pages of a repository: paths, commands and identifiers, and which of them are there."""
import fnmatch
import os
import re

from repository import TOP

ENDINGS = ("rt", "antt", "md", "edit")
# Files whose words make no name right.
PASSED_OVER = ("tools/pages", "tools/measured_minutes.txt")
# Folders that hold no sources.
SKIPPED = {".git", "out", "target", "__pycache__"}
COMMENT = {".rt": re.compile(r"//.*"), ".antt": re.compile(r"(?:^|(?<=\s))--\s.*", re.M)}
WORD = re.compile(r"[^\W\d][\w']*(?:-[\w']+)*")
FENCED = re.compile(r"^```(\w*)[^\n]*\n(.*?)^```", re.M | re.S)
INDENTED = re.compile(r"^ {4}(.*)$", re.M)
QUOTED = re.compile(r"`([^`\n]+)`")
PATH = re.compile(rf"(?<![\w./*-])(?:\./)?[\w.*-]+(?:/[\w.*-]+)+/?|(?<![\w./*-])(?:\./\w+|[\w*-]+\.(?:{'|'.join(ENDINGS)})\b)")
NAME = re.compile(r"(?<![\w'-])[^\W\d][\w']*(?:(?:-|::)[^\W\d][\w']*)*")


def files(top):
    """The path of each file of a repository, and of each folder."""
    found, folders = [], set()
    for at, below, names in os.walk(top):
        below[:] = [name for name in below if name not in SKIPPED]
        folders.add(os.path.relpath(at, top))
        found += [os.path.relpath(f"{at}/{name}", top) for name in names]
    return found, folders


def words_of(top, paths):
    """The words of all sources and scripts, and of the names of all files."""
    found = set()
    for path in paths:
        found.update(WORD.findall(path))
        end = os.path.splitext(path)[1]
        if end not in (".md", ".svg") and path not in PASSED_OVER:
            with open(f"{top}/{path}", encoding="utf-8", errors="replace") as file:
                text = file.read()
            found.update(WORD.findall(COMMENT[end].sub("", text) if end in COMMENT else text))
    return found | {part for word in found if "-" in word for part in word.split("-")}


class Names:
    """What there is in a repository."""

    def __init__(self, top=TOP):
        paths, folders = files(top)
        self.words = words_of(top, paths)
        self.ends = set()
        self.tops = {part for path in folders for part in path.split("/")} - {"."}
        for path in [*paths, *folders]:
            parts = path.split("/")
            self.ends.update("/".join(parts[at:]) for at in range(len(parts)))
            if path.endswith(".edit"):
                self.ends.add(f"{parts[1]}/{parts[-1].removesuffix('.edit')}")

    def has_path(self, path):
        """Whether a file or a folder has this path, or ends in it."""
        path = re.sub(r"\b[A-Z]{2,}\b(?!\.md)", "*", path.removeprefix("./").rstrip("/"))
        return path in self.ends or ("*" in path and bool(fnmatch.filter(self.ends, path)))

    def has_word(self, word):
        """Whether there is such an identifier, or the parts of it."""
        if word.startswith("_"):
            return any(other.endswith(word) for other in self.words)
        if word.endswith("_"):
            return any(other.startswith(word) for other in self.words)
        return word in self.words or ("-" in word and all(part in self.words for part in word.split("-")))

    def paths_in(self, code):
        """What is meant as a path in a piece of code."""
        for path in PATH.findall(code):
            parts = path.split("/")
            is_path = parts[0] == "." or parts[0] in self.tops or path.rpartition(".")[2] in ENDINGS
            if is_path and not SKIPPED & set(parts):
                yield path

    def paths_missing_in(self, code):
        """The paths in a piece of code that aren't there."""
        return (path for path in self.paths_in(code) if not self.has_path(path))

    def paths_on(self, text):
        """The paths in the code of a page, each once."""
        rest = FENCED.sub("", text)
        codes = [code for _, code in FENCED.findall(text)] + INDENTED.findall(rest) + QUOTED.findall(rest)
        return list(dict.fromkeys(path for code in codes for path in self.paths_in(code)))

    def words_missing_in(self, code):
        """The identifiers in a piece of code that aren't there."""
        for name in NAME.findall(PATH.sub(" ", code)):
            if re.search(r"::|.[_-]|[A-Z]\w*[a-z]", name):
                yield from (part for part in name.split("::") if not self.has_word(part))

    def missing_on(self, text):
        """The paths and identifiers on a page that aren't there, each once."""
        rest = FENCED.sub("", text)
        blocks = [*FENCED.findall(text), *(("", line) for line in INDENTED.findall(rest))]
        missing = {}
        for language, code in blocks:
            missing.update(dict.fromkeys(self.paths_missing_in(code)))
            if language == "rust":
                missing.update(dict.fromkeys(self.words_missing_in(COMMENT[".rt"].sub("", code))))
        for code in QUOTED.findall(rest):
            missing.update(dict.fromkeys(self.paths_missing_in(code)))
            missing.update(dict.fromkeys(self.words_missing_in(code)))
        return missing
