"""Tests that are blocks of pages: commands of a shell over the files above them, and sessions of Python.

In a `console` block, commands run in a folder with the files. A `pycon` block is a session for the standard library's
doctest: its names are those of the test's module, of the test itself and of modules of the standard library, and
`files`, the files above it by their names.
Each value that a line has to print is a check.
"""

import ast
import doctest
import importlib.util
import os
import re
import sys
import traceback
import unittest

import blocks
import driver

TESTS = os.path.join(driver.HOME, "tests")


def lay(folder, files, programs):
    """Makes a folder with these files, the program as `run`, programs to call by their names, the examples, and `temporary`."""
    driver.write(os.path.join(folder, "bin"), programs, 0o755)
    driver.write(os.path.join(folder, "temporary"), {})
    driver.write(folder, files)
    for name, text in files.items():
        os.chmod(os.path.join(folder, name), 0o755 if text.startswith(b"#!") else 0o644)
    driver.write_program(os.path.join(folder, "run"), f'#!/bin/sh\nexec "{driver.program()}" "$@"\n')
    os.symlink(driver.EXAMPLES, os.path.join(folder, "examples"))


def troubles(folder, block, shows_statuses):
    environment, ended = {**os.environ, "TMPDIR": os.path.join(folder, "temporary"), "PATH": f"{folder}/bin:{os.environ['PATH']}"}, 0
    commands = blocks.commands(block)
    for (command, wanted), following in zip(commands, [*(it for it, _ in commands[1:]), b""]):
        if command == b"echo $?":
            yield driver.unless(f"status {ended}, and not {wanted.decode()}", wanted == b"%d\n" % ended)
            continue
        ended, out, err = driver.start("sh", ["-c", command], folder, environment, patience=300)
        wanted = (ended, b"", wanted) if ended in (2, 3) else (ended, wanted, b"")
        left = os.listdir(environment["TMPDIR"])
        name = command.decode("utf-8", "backslashreplace")
        yield driver.trouble(name, (ended, out, err), wanted) or driver.unless(f"{name} leaves {left}", not left) or \
            driver.unless(f"{name} ends with {ended}", not shows_statuses or ended == 0 or following == b"echo $?")


def values(source):
    """How many values a line of a session shows."""
    shown = getattr(ast.parse(source).body[0], "value", None)
    return len(shown.elts) if isinstance(shown, ast.Tuple) else 1


class Session(doctest.DocTestRunner):
    """Runs a session, and counts a check for each value that a line of it has to print."""

    def __init__(self, checks):
        super().__init__(verbose=False)
        self.checks = checks

    def report_success(self, out, test, example, got):
        self.checks.check_all([""] * values(example.source) if example.want else [])

    def report_failure(self, out, test, example, got):
        self.checks.check(f"{test.name}: {example.source}prints\n{got}and not\n{example.want}")

    def report_unexpected_exception(self, out, test, example, exc_info):
        if issubclass(exc_info[0], unittest.SkipTest):
            raise exc_info[1]
        self.checks.check(f"{test.name}: {example.source}{''.join(traceback.format_exception(*exc_info))}")


def modules_in(text):
    """The modules that a session uses: of the standard library, driver and tables."""
    names = set(re.findall(r"\b(\w+)\.\w", text)) & {*sys.stdlib_module_names, "driver", "tables"}
    return {it: importlib.import_module(it) for it in names}


def run_session(checks, name, files, text):
    own = {it: getattr(checks, it) for it in set(dir(checks)) - set(dir(unittest.TestCase))}
    texts = {it: os.fsdecode(text) for it, text in files.items()}
    names = {**modules_in(text), **vars(sys.modules[type(checks).__module__]), **own, "files": texts}
    Session(checks).run(doctest.DocTestParser().get_doctest(text, names, name, None, 0))


def tests(*pages, programs=dict, shows_statuses=False):
    """Adds a test for each block of some pages to a class. A function returns the programs that it may call. A page may show each
    status that isn't 0."""
    def test_of(name, files, block):
        def test(self):
            if block.kind == "pycon":
                run_session(self, name, files, block.text)
                return
            folder = os.path.join(self.room, name)
            lay(folder, files, programs())
            self.check_all(troubles(folder, block, shows_statuses))
        return test

    def added(test_class):
        for page in pages:
            for heading, files, block in blocks.runs(driver.read(os.path.join(TESTS, page)).decode()):
                name = "_".join(["test", *re.findall("[a-z0-9]+", f"{os.path.basename(page).removesuffix('.md')} {heading}".lower())])
                name += f"_{len(vars(test_class))}" * hasattr(test_class, name)
                setattr(test_class, name, test_of(name, files, block))
        return test_class
    return added
