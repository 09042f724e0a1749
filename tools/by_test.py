"""Edits whose judge is a test, for what no clause says: the test has to fail with the edit, and to pass without it.

Such an edit has this line in the place of the line function:
    test: CRATE NAME  the test that has to fail; CRATE is the edited crate or one above
It is tried on a copy of the sources by `rt try --test`, which proves nothing. A run takes a minute or two.
"""
import os
import re
import shutil
import subprocess
import sys
import time
from concurrent.futures import ThreadPoolExecutor

sys.dont_write_bytecode = True
import edits
import refusals
from repository import PARTS, RT, TOP, listed, sources_of, with_all_below

# How a test ended, and the indented lines that say why.
RESULT = re.compile(r"^test (\S+) \.\.\. (\S+)((?:\n[ \t].*)*)", re.MULTILINE)


def wrong_with(edit, crates):
    """What is wrong with the test that an edit names; nothing where all is right."""
    crate, name = edit.test
    if edit.crate not in with_all_below(crates, [crate]):
        return f"its test is of no crate above: {crate}"
    if not any(re.search(rf"^ *#\[test\]\n *fn {re.escape(name)}\(", text, re.MULTILINE) for text in sources_of(crate, TOP).values()):
        return f"{crate} has no test {name}"
    return ""


def verdict_of(said, crate, name):
    """What a run of the tests of a crate with this output says of an edit that the test `name` has to refuse."""
    found = {result: why for test, result, why in RESULT.findall(said) if test.split("::")[-1] == name}
    if "FAILED" in found:
        late = ", which doesn't end in time" if "no-answer" in found["FAILED"] else ""
        return refusals.Verdict(refusals.REFUSED, f"the test {name} of {crate}{late}")
    if found:
        return refusals.Verdict(refusals.NOT_REFUSED, f"by the test {name} of {crate}")
    lines = [line for line in said.split("\n") if line.strip()]
    errors = [line for line in lines if "error" in line]
    return refusals.Verdict(refusals.BAD, (errors or lines or ["the run said nothing"])[0][: refusals.LINE_LENGTH])


def fill(root, crates, crate):
    """Copies the sources of a crate and of all below it to a root of their own."""
    below, lines = with_all_below(crates, [crate]), listed(TOP)
    for name in below:
        for part in PARTS:
            if os.path.isdir(f"{TOP}/crates/{name}/{part}"):
                shutil.copytree(f"{TOP}/crates/{name}/{part}", f"{root}/crates/{name}/{part}")
    shutil.copy2(f"{TOP}/HANDLES", root)
    with open(f"{root}/crates.txt", "w", encoding="utf-8") as file:
        file.write("".join(f"{lines[name]}\n" for name in below))


def run(root, crate, name=""):
    """What a run of the tests of a crate with this in their names says."""
    words = [RT, "try", "--test", *(["--", name] if name else [])]
    how = {"stdin": subprocess.DEVNULL, "stdout": subprocess.PIPE, "stderr": subprocess.STDOUT}
    return subprocess.run(words, cwd=f"{root}/crates/{crate}", text=True, errors="replace", check=False, **how).stdout


def try_edit(root, crates, edit):
    """The verdict on an edit, by a run in a root that is made for it, and what the run said."""
    crate, name = edit.test
    fill(root, crates, crate)
    texts, wrong = edits.edited(edit, f"{root}/crates/{edit.crate}")
    for path, text in texts.items():
        with open(f"{root}/crates/{edit.crate}/{path}", "w", encoding="utf-8") as file:
            file.write(text)
    said = "" if wrong else run(root, crate, name)
    return (refusals.Verdict(refusals.BAD, wrong) if wrong else verdict_of(said, crate, name)), said


def failing_without(root, crates, crate, names):
    """Which of these tests of a crate don't pass without an edit."""
    fill(root, crates, crate)
    said = run(root, crate)
    return [name for name in names if verdict_of(said, crate, name).kind != refusals.NOT_REFUSED]


def try_all(copy, wanted, crates, jobs, keep_said):
    """Tries edits side by side, and gives the labels of those that no test refuses."""
    tests = {}
    for edit in wanted:
        tests.setdefault(edit.test[0], set()).add(edit.test[1])
    others = []

    def timed(name, how, *words):
        root, began = os.path.join(copy, "tested", name), time.monotonic()
        shutil.rmtree(root, ignore_errors=True)
        found = how(root, crates, *words)
        shutil.rmtree(root, ignore_errors=True)
        return found, time.monotonic() - began

    def try_crate(crate):
        failing, seconds = timed(crate, failing_without, crate, sorted(tests[crate]))
        print(f"slips: {crate} {'fails without an edit: ' + ' '.join(failing) if failing else 'passes without an edit'} ({seconds:.0f} s)", flush=True)
        others.extend(edit.label for edit in wanted if edit.test[0] == crate and edit.test[1] in failing)

    def try_one(edit):
        (verdict, said), seconds = timed(f"{edit.crate}.{edit.name}", try_edit, edit)
        keep_said(edit, said)
        print(f"{edit.label}: {verdict} ({seconds:.0f} s)", flush=True)
        if not verdict.is_refused:
            others.append(edit.label)

    with ThreadPoolExecutor(max_workers=jobs) as pool:
        for done in [*[pool.submit(try_crate, crate) for crate in tests], *[pool.submit(try_one, edit) for edit in wanted]]:
            done.result()
    return sorted(set(others))
