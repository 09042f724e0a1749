"""What the tools share: where the repository and rt are, what crates.txt says, a crate's files and its tests."""
import argparse
import os
import re
import shutil

TOP = os.path.dirname(os.path.dirname(os.path.realpath(__file__)))
RT = os.environ.get("rt") or shutil.which("rt") or "/opt/rattle/bin/rt"
# The folders of a crate that a build or a proof reads.
PARTS = ("src", "specs", "proofs")
TEST = re.compile(r"^\s*#\[test\]", re.M)


def parser_of(doc):
    """A parser of the words of a tool by the tool's own text, which --help prints. Wrong words end the tool with 2."""
    first, usage, *rest = doc.strip().split("\n\n")
    how = {"formatter_class": argparse.RawDescriptionHelpFormatter, "allow_abbrev": False}
    return argparse.ArgumentParser(usage=usage[len("usage: ") :].replace("%", "%%"), description=first, epilog="\n\n".join(rest), **how)


def listed(top=TOP):
    """The line of each crate in the crates.txt of a repository, by its name; none if it has no such file."""
    lines = {}
    if not os.path.isfile(f"{top}/crates.txt"):
        return lines
    with open(f"{top}/crates.txt", encoding="utf-8") as file:
        for line in file:
            head, colon, _ = line.partition(":")
            if colon and not line.startswith("#"):
                lines[head.split()[0]] = line.strip()
    return lines


def uses(line):
    """The libraries that a line of crates.txt names."""
    return line.partition(":")[2].split()


def graph(top=TOP):
    """The crates in the order of crates.txt, each with the repository's crates that its line names."""
    lines = listed(top)
    return {name: [one for one in uses(line) if one in lines] for name, line in lines.items()}


def with_all_below(crates, names):
    """These crates of a graph and all below them, in the order of the graph."""
    wanted, waiting = set(), list(names)
    while waiting:
        name = waiting.pop()
        if name in crates and name not in wanted:
            wanted.add(name)
            waiting += crates[name]
    return [name for name in crates if name in wanted]


def below(crate, top=TOP):
    """The lines of a crate and of all the repository's crates below it, by their names."""
    lines = listed(top)
    return {name: lines[name] for name in with_all_below(graph(top), [crate])}


def longest_chain(crates, cost):
    """The crates of a graph that wait for one another and cost the most together, the lowest first, and that cost."""
    best = {}

    def chain(name):
        if name not in best:
            under = max((chain(one) for one in crates[name]), key=lambda found: found[1], default=([], 0))
            best[name] = under[0] + [name], under[1] + cost.get(name, 0)
        return best[name]

    return max(map(chain, crates), key=lambda found: found[1], default=([], 0))


def files_of(crate, parts=PARTS, top=TOP):
    """The files of a crate, each by its path in the folder of the crate, in the same order each time."""
    folder, found = f"{top}/crates/{crate}", []
    for part in parts:
        for at, folders, names in os.walk(f"{folder}/{part}"):
            folders.sort()
            found += [os.path.relpath(f"{at}/{name}", folder) for name in sorted(names)]
    return found


def texts_of(crate, parts=PARTS, top=TOP):
    """The text of each file of a crate, by its path in the folder of the crate."""
    texts = {}
    for path in files_of(crate, parts, top):
        with open(f"{top}/crates/{crate}/{path}", encoding="utf-8") as file:
            texts[path] = file.read()
    return texts


def sources_of(crate, top=TOP):
    """The text of each source of a crate, by its path in the folder of the crate."""
    return {path: text for path, text in texts_of(crate, ("src",), top).items() if path.endswith(".rt")}


def has_tests(crate, top=TOP):
    """Whether a source of the crate has a test."""
    return any(map(TEST.search, sources_of(crate, top).values()))
