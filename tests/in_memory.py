"""Runs over files in memory, and how the program ends over the same files on disk.

The files of a case are those that its arguments ask for, and no others.
"""

import collections
import os
import random

import driver
import hostile_bytes
import stored_cases
from tables import FORMATS

# Arguments and names are bytes. The end is a status, the output and the errors.
Case = collections.namedtuple("Case", "name arguments files ended")
FORMS = [*(["--format", it] for it in FORMATS), ["--explain"], ["--lint"]]
CHANGED = 300  # files


def case(asked, program, words, folder=driver.HOME):
    words = [os.fsencode(it) for it in words]
    paths = {it: os.path.join(os.fsencode(folder), it) for it in asked(words)}
    files = {it: driver.read(path) for it, path in paths.items() if os.path.isfile(path) and not path.startswith(b"/proc")}
    return Case(f"{words} in memory", words, files, driver.start(program, words, folder))


def stored(asked):
    """The stored runs that read files alone."""
    for it in stored_cases.cases():
        if not it.link and not any(b"/dev/" in word for word in it.arguments):
            files = {os.fsencode(name): text if isinstance(text, bytes) else text.encode() for name, text in it.files.items()}
            files = {name: files[name] for name in asked(it.arguments) if name in files}
            yield Case(f"tests/runs/{it.page}.md in memory: {it.name}", it.arguments, files, (it.status, it.stdout, it.stderr))


def changed_files(room, seed, forms):
    """Writes examples to a folder, one after another, changed at a byte or cut off there. Yields the arguments of a run of each."""
    for change in random.Random(seed).sample(list(hostile_bytes.changes()), CHANGED):
        made = hostile_bytes.changed(change)
        driver.write(room, made.files)
        yield [*forms[change.number % len(forms)], *(it for option in made.options for it in option), made.source]
