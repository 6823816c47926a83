"""The texts of the repository, each read once, and what is made of them, each made once. What is made remembers which
texts it read, so if one text is changed, only what read it is made again."""
import contextlib
import functools
import importlib.machinery
import importlib.util
import os
import re
import sys

TOP = os.path.normpath(f"{os.path.dirname(os.path.abspath(__file__))}/..")
texts = {}
made = {}
# What is being made reads these, the innermost last.
reading = []


def text_of(path):
    """The text of a file, by its path below the repository's top."""
    path = os.path.normpath(path)
    if reading:
        reading[-1].add(path)
    if path not in texts:
        with open(f"{TOP}/{path}", encoding="utf-8", errors="surrogateescape") as it:
            texts[path] = it.read()
        if found := re.search("[\udc80-\udcff]", texts[path]):
            refuse(path, texts[path].count("\n", 0, found.start()) + 1, "a byte here is no UTF-8")
    return texts[path]


def refuse(path, line, what):
    """Ends the run with what is wrong in a line of a file."""
    sys.exit(f"tools/tables: {path}:{line}: {what}")


def line_of(path, text):
    """The number of the last line in which the text begins, and 1 if it stands nowhere."""
    whole = text_of(path)
    return whole.count("\n", 0, max(0, whole.rfind(text))) + 1


def put(path, text):
    """From now on the file has that text: what was made of another is made again."""
    texts[path] = text
    for key in [key for key, (_, read) in made.items() if path in read]:
        del made[key]


def write_table(page, name, text):
    """Writes a table into a page, where it stands between marks."""
    whole, found = re.subn(rf"(<!-- {name} -->\n)(.*?)(?=<!-- end -->\n)", lambda it: f"{it[1]}{text}\n", text_of(page), flags=re.S)
    if found != 1:
        sys.exit(f"{page} has no place for the table of {name}")
    with open(f"{TOP}/{page}", "w", encoding="utf-8") as it:
        it.write(whole)


def make(function, args):
    """Keeps an answer. What ends with a mistake has read its texts too."""
    reading.append(set())
    try:
        found = function(*args)
        made[function, args] = list(found) if hasattr(found, "__next__") else found, reading[-1]
    finally:
        read = reading.pop()
        if reading:
            reading[-1].update(read)


def kept(function):
    """The function with its answers kept, those of a generator as a list. It reads texts by `text_of` alone."""

    @functools.wraps(function)
    def answer(*args):
        if (function, args) not in made:
            make(function, args)
        found, read = made[function, args]
        if reading:
            reading[-1].update(read)
        return found

    return answer


@contextlib.contextmanager
def changed(path, text):
    """Inside of it the file has that text."""
    before = texts[path], dict(made)
    put(path, text)
    yield
    texts[path] = before[0]
    made.clear()
    made.update(before[1])


def load(path):
    """A script as a module."""
    name = os.path.basename(path).removesuffix(".py")
    loader = importlib.machinery.SourceFileLoader(name, f"{TOP}/{path}")
    module = importlib.util.module_from_spec(importlib.util.spec_from_loader(name, loader))
    loader.exec_module(module)
    return module
