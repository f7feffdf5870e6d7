"""The stored runs, as the pages of tests/runs/ and others show them. tests/runs/README.md describes their form."""

import collections
import os
import re
import shlex

import blocks
import driver

RUNS = os.path.join(driver.HOME, "tests", "runs")
# A run: where it is, what it reads, what comes out, and its link's target.
Case = collections.namedtuple("Case", "page name files arguments status stdout stderr link")


def cases(*others):
    """The runs of all pages of tests/runs/, in order, or those of other pages of tests/."""
    for page in others or sorted(set(os.listdir(RUNS)) - {"README.md"}):
        for name, files, block in blocks.runs(driver.read(os.path.join(RUNS, "..", page) if others else os.path.join(RUNS, page)).decode()):
            yield case(page.removesuffix(".md"), name, files, blocks.commands(block))


def case(page, name, files, commands):
    arguments, printed, status, link = None, {}, 0, ""
    for command, below in commands:
        command = command.decode("utf-8", "surrogateescape")
        if command.startswith("gherkin_run"):
            words = shlex.split(command.removesuffix(" 2> stderr"))[1:]
            arguments, printed["stdout"] = [it.encode("utf-8", "surrogateescape") for it in words], below
        elif command == "echo $?":
            status = int(below)
        elif command == "cat stderr":
            printed["stderr"] = below
        else:
            link = re.fullmatch(r"ln -s (\S+) link\.feature", command)[1]
    return Case(page, name, files, arguments, status, printed["stdout"], printed.get("stderr", b""), link)


def lay(found, folder):
    driver.write(folder, found.files)
    if found.link:
        os.symlink(found.link, os.path.join(folder, "link.feature"))

