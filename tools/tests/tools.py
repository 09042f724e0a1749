"""What tests of the tools share: a tool as a module, and a small repository in a folder that goes when the test ends."""
import importlib.machinery
import importlib.util
import os
import sys
import tempfile
from unittest import mock

TOOLS = os.path.dirname(os.path.dirname(os.path.realpath(__file__)))
sys.path.insert(0, TOOLS)


def tool(name):
    """A tool of tools/, or a command beside it as ../NAME, as a module whose main doesn't run."""
    loader = importlib.machinery.SourceFileLoader(f"the_{os.path.basename(name)}", f"{TOOLS}/{name}")
    module = importlib.util.module_from_spec(importlib.util.spec_from_loader(loader.name, loader))
    loader.exec_module(module)
    return module


def write(folder, files):
    """Writes texts to files below a folder, by their paths in it. A text that begins with `#!` makes a program."""
    for path, text in files.items():
        os.makedirs(os.path.dirname(f"{folder}/{path}"), exist_ok=True)
        with open(f"{folder}/{path}", "w", encoding="utf-8") as file:
            file.write(text)
        if text.startswith("#!"):
            os.chmod(f"{folder}/{path}", 0o755)


def scratch(test, files=None):
    """Makes a folder with these files, as long as a test runs, and returns its path."""
    folder = tempfile.TemporaryDirectory(prefix=f"{test.id().split('.')[0]}-")
    test.addCleanup(folder.cleanup)
    write(folder.name, files or {})
    return folder.name


def stand_in(test, module, **values):
    """Puts values in the place of names of a module, as long as a test runs."""
    patched = mock.patch.multiple(module, **values)
    patched.start()
    test.addCleanup(patched.stop)
