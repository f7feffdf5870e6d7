"""The package of bindings/python/ against the program: the stored runs over files in memory, results, faults, arguments, types, threads,
missing libraries, refused memory, the wheel and the command that it installs, and what the pages on Python and pytest show."""

import concurrent.futures
import contextlib
import ctypes
import functools
import json
import os
import pickle
import re
import subprocess
import sys
import time
import types
import typing
import unittest.mock

import blocks
import calling
import driver
import in_memory
import pages
import gherkin_run
from calling import PACKAGE
from gherkin_run import Source, explain, lint, run, version
from checks import Checks

PAINT = os.path.join(driver.EXAMPLES, "paint.feature")
MODULE = [sys.executable, "-m", "gherkin_run"]
LIBRARY, HOOKS = "examples/default.steps", "examples/hooks.hooks"


@functools.cache
def interpreter():
    """A Python that has pytest, if there is one."""
    paths = [os.path.join(it, "python3") for it in os.environ.get("PATH", "").split(":") if it]
    found = [sys.executable, *filter(os.path.exists, paths)]
    return next((it for it in found if driver.start(it, ["-c", "import pytest"])[0] == 0), None)


def ended(function="run", **options):
    """The end of a call as the program's: its status, standard output and standard error, without the program's name."""
    try:
        result = getattr(gherkin_run, function)(**options)
    except gherkin_run.Fault as fault:
        # A run of the program prints no hint.
        text = fault.args[0] if function == "run" else fault
        return fault.status, b"", f"{text}\n".encode()
    return result.status, result.text.encode(), b""


def fault_of(function="run", **given):
    """The text, status, file, line, reason and hint of the fault of a call, after it was pickled."""
    try:
        getattr(gherkin_run, function)(**given)
    except gherkin_run.Fault as fault:
        again = pickle.loads(pickle.dumps(fault))
        text = f"{again.args[0]}\n{again.hint}" if again.hint else again.args[0]
        assert str(again) == text, (str(again), text)
        return [again.args[0], again.status, again.file, again.line, again.reason, again.hint]
    return [None] * 6


@contextlib.contextmanager
def other_library(path):
    """Lets the package load another shared library."""
    gherkin_run.library.loaded.cache_clear()
    with unittest.mock.patch.dict(os.environ, {"GHERKIN_RUN_LIBRARY": path}):
        yield ctypes.CDLL(path)
    gherkin_run.library.loaded.cache_clear()


class Package(Checks):
    """Tests that leave nothing in the folder for temporary files."""

    @classmethod
    def setUpClass(cls):
        super().setUpClass()
        os.chdir(driver.HOME)
        temporary = os.path.join(cls.room, "temporary")
        os.mkdir(temporary)
        patch = unittest.mock.patch.dict(os.environ, {"TMPDIR": temporary})
        patch.start()
        cls.addClassCleanup(patch.stop)

    def tearDown(self):
        self.check_list("left in TMPDIR", os.listdir(os.path.join(self.room, "temporary")))


class InMemory(Package):
    def test_stored_runs(self):
        asked = calling.Library(os.path.join(calling.DIST, "libgherkin_run.so")).asked
        for case in in_memory.stored(asked):
            words = [it.decode("utf-8", "surrogateescape") for it in case.arguments]
            found = gherkin_run.library.call(words, {name.decode("utf-8", "surrogateescape"): it for name, it in case.files.items()})
            self.compare(case.name, found[:3], case.ended)

    def test_refused_growths(self):
        self.needs("cc")
        source = gherkin_run.Source("x", driver.read(PAINT))
        path = calling.counted(self.room)
        with other_library(path):
            for function in ("run", "explain", "lint"):
                (whole, _), *found = calling.Counted(path).refusals(lambda: ended(function, features=source))
                self.unless(f"only {len(found)} growths of {function}", len(found) > 20)
                for number, (made, left) in enumerate(found, 1):
                    holds = made in (whole, (4, b"", b"out of memory\n")) or made[0] == 4 and made[1] and not made[2]
                    self.unless(f"{function} with growth {number} refused, and {left} blocks left", holds and left == 0, made)


@pages.tests("package.md")
class Functions(Package):
    def as_program(self, function, words, **given):
        """Says whether a call ends as the program with these words."""
        wanted = driver.start(self.program, [*words, PAINT, PAINT])
        return driver.trouble(function, ended(function, features=[PAINT, PAINT], **given), wanted) or "as the program"

    def fault(self, **given):
        """The fault of a run, and of an explanation, where the name of a file is escaped."""
        found = fault_of("run", **given)
        shown = [it.replace("\0", "\\u{0}") if isinstance(it, str) else it for it in found]
        return found[:-1] if shown == fault_of("explain", **given) else "another fault if it is explained"

    def raises(self, call=None, **given):
        """The name of the exception of a call, or of a run."""
        try:
            call(**given) if call else gherkin_run.run(**{"features": PAINT, **given})
        except Exception as error:  # pylint: disable=broad-except
            return type(error).__name__

    def test_threads(self):
        def counted(number):
            count = number % 40
            report = gherkin_run.run(gherkin_run.Source("t", "Feature: t\n" + "Scenario: s\nGiven it passes\n" * count), format="json")
            return report.data["summary"]["scenarios"]["passed"] == count

        def named(number):
            text = gherkin_run.run(gherkin_run.Source("t", f"Feature: {number % 8}\n" + "Scenario: s\nGiven it passes\n" * 100)).text
            return text.startswith(f"Feature: {number % 8} ... passed\n")

        with concurrent.futures.ThreadPoolExecutor(8) as pool:
            for number, holds in enumerate([*pool.map(counted, range(200)), *pool.map(named, range(1000))]):
                self.unless(f"run {number} in a thread gives another report", holds)

    def misfits(self, value, kind, place="data"):
        """The places in JSON data that don't fit a type."""
        if hasattr(kind, "__required_keys__"):
            keys = typing.get_type_hints(kind)
            if not kind.__required_keys__ <= value.keys() <= keys.keys():
                yield f"{place} has the keys {sorted(value)}"
            for key in value.keys() & keys.keys():
                yield from self.misfits(value[key], keys[key], f"{place}.{key}")
        elif typing.get_origin(kind) is list:
            for item in value:
                yield from self.misfits(item, *typing.get_args(kind), place)
        elif value not in typing.get_args(kind) if typing.get_origin(kind) is typing.Literal else type(value) is not kind:
            yield f"{place} is {value!r}"


def programs():
    """The Python that runs this, as a command of python.md."""
    return {"python": f'#!/bin/sh\nexec {sys.executable} "$@"\n'}


@pages.tests("python.md", programs=programs)
class Environment(Package):
    def test_time(self):
        least = 1.0
        for _ in range(100):
            before = time.perf_counter()
            gherkin_run.run(gherkin_run.Source("a", driver.feature("Given it passes")))
            least = min(least, time.perf_counter() - before)
        self.unless(f"a run of a scenario takes {1000 * least:.2f} ms", least < 0.0005)


@pages.tests("wheel.md")
class Wheel(Package):
    def both(self, *words, **more):
        """Says whether the command of the package ends as the program."""
        made, wanted = (driver.start(it[0], [*it[1:], *words], **more) for it in (MODULE, [self.program]))
        return driver.trouble(f"{words}", made, wanted) or "the same"

    def made(self, name):
        """Makes the wheel in a new folder, and returns its path."""
        os.mkdir(os.path.join(self.room, name))
        status, stdout, stderr = driver.start(sys.executable, [os.path.join(PACKAGE, "make_wheel.py"), os.path.join(self.room, name)], self.room)
        self.compare("make_wheel.py", (status, b"", stderr), (0, b"", b""))
        return stdout.decode().strip()


class Pages(Package):
    """What docs/guide/from_python.md and pytest.md show.

    A block with a name, as `gherkin NAME`, is a file. A `python` block without a name is a program, and the `text` block
    right below it what that prints, if it prints anything. Other `text` blocks have commands, each with what it prints."""

    # Lets a page write `pytest`, as if the package were installed.
    PYTEST = '#!/bin/sh\nCOLUMNS=80 exec {python} -m pytest -p gherkin_run.pytest_plugin -p no:cacheprovider --ignore=examples "$@"\n'

    def shown_runs(self, page, folder):
        """Each run that a page shows: its name, its command, and what it prints. Writes the files above it first."""
        found = list(blocks.blocks(driver.read(os.path.join(driver.HOME, "docs", "guide", page)).decode()))
        for block, below in zip(found, [*found[1:], None]):
            if block.name:
                driver.write(folder, {block.name: block.text})
            elif block.kind == "python":
                is_output = below and below.kind == "text" and not below.text.startswith("$ ")
                yield block.text, [sys.executable, "-c", block.text], below.text if is_output else ""
            elif block.kind == "text":
                for command, shown in blocks.commands(block):
                    yield command.decode(), ["sh", "-c", command], shown.decode()

    def test_pages(self):
        python = interpreter()
        for page in ("from_python.md", "pytest.md"):
            folder = os.path.join(self.room, page)
            driver.write_program(os.path.join(folder, "bin", "pytest"), self.PYTEST.format(python=python))
            for name in ("examples", "bindings"):
                os.symlink(os.path.join(driver.HOME, name), os.path.join(folder, name))
            environment = {**os.environ, "PATH": f"{folder}/bin:{os.environ['PATH']}"}
            for name, command, shown in self.shown_runs(page, folder):
                if python or not name.startswith("pytest"):
                    printed = driver.start(command[0], command[1:], folder, environment, stderr=subprocess.STDOUT)[1]
                    # The time that pytest measured differs.
                    found = re.sub(r"\bin \d\.\d\ds\b", "in 0.01s", printed.decode())
                    self.unless(f"docs/guide/{page}: {name}\nprints\n{found}\nand not\n{shown}", found == shown)
