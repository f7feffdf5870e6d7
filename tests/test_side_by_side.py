"""The pairs of tests/side_by_side/ and the suites that were taken over, run by this program and by behave 1.2.6.

The pages of tests/side_by_side/ show the files of the pairs, and commands with what they say; their README says how.
The suites are folders, each with its commands in a file `says`.
"""

import collections
import os
import re
import shlex
import shutil
import subprocess
import sys

import blocks
import driver
from checks import Checks

PAIRS = os.path.join(driver.HOME, "tests", "side_by_side")
SUITES = ("examples/from_behave/", "examples/from_cucumber/")
LEAKS = os.path.join(driver.HOME, "examples", "leaks")
# behave's steps, as the README shows them.
STEPS = blocks.shown("side_by_side/README.md")["steps.py"]
COUNTS = re.compile(r"\d+ (features?|scenarios?|steps?) passed, ")
# The pages that link to pairs.
LINKED = re.compile(r"\]\((?:\.\./)+tests/side_by_side/([a-z_]+\.md#[a-z0-9-]+)\)")
PAGES = ("docs/guide/behave.md", "docs/guide/cucumber.md")
# behave's own settings: nothing of the machine changes what is said.
QUIET = ["--no-capture", "--no-color", "--no-timings", "--format=plain"]


def pairs(room):
    """The commands of the pairs and the suites: the folder in which each is laid out, its name, words, and what it says."""
    for folder, name, block in laid(room):
        for command, below in blocks.commands(block):
            yield folder, name, shlex.split(command.decode()), below.decode().splitlines()


def laid(room):
    """Lays out the pairs as behave wants them, with the steps in a folder of theirs, and the suites."""
    for page in sorted(os.listdir(PAIRS)):
        for heading, files, block in blocks.runs(driver.text(os.path.join(PAIRS, page))):
            folder = os.path.join(room, f"{page.removesuffix('.md')}.{heading.replace(' ', '_')}")
            own = {"steps/own.py" if it == "steps.py" else it: text for it, text in files.items()}
            driver.write(folder, {**own, "steps/steps.py": STEPS})
            yield folder, f"tests/side_by_side/{page}: {heading}", block
    for name in (os.path.dirname(it) for it in driver.repository_files() if it.startswith(SUITES) and it.endswith("/says")):
        folder = shutil.copytree(os.path.join(driver.HOME, name), os.path.join(room, name.replace(os.sep, ".")))
        yield folder, name, blocks.Block(0, "console", "", driver.text("says", folder))


def said_of(status, printed):
    """What a run says: its counts of features, scenarios and steps, or else its last line, and its status."""
    lines = [it for it in printed.decode("utf-8", "backslashreplace").splitlines() if it.strip()]
    counts = [it for it in lines if COUNTS.match(it)]
    return (counts or lines[-1:]) + [f"status {status}"]


class Pairs:
    """The tests of both programs. WHO is the one whose commands are run."""

    def pair_trouble(self, job):
        folder, name, words, wanted = job
        found = self.said(folder, words[1:])
        shown = ["  says", *(f"    {it}" for it in found), "  and not", *(f"    {it}" for it in wanted)]
        return "" if found == wanted else "\n".join([f"{name}: {shlex.join(words)}", *shown])

    def test_pairs(self):
        jobs = [it for it in pairs(self.room) if it[2][0] == self.WHO]
        self.check_all(driver.on_all_processors(self.pair_trouble, jobs))

    def test_leaks(self):
        options = [] if self.WHO == "behave" else ["--stored"]
        ended = driver.start(sys.executable, [os.path.join(LEAKS, "show.py"), *options, self.program], patience=300)
        self.compare("examples/leaks/show.py", ended, (0, driver.read(os.path.join(LEAKS, "result.txt")), b""))


class SideBySide(Pairs, Checks):
    WHO = "gherkin_run"

    def said(self, folder, words):
        status, printed, fault = driver.start(self.program, words, folder)
        return said_of(status, printed + fault)

    def test_no_pair_is_linked_twice(self):
        """test_documents finds links to pairs that are missing."""
        linked = [it for page in PAGES for it in LINKED.findall(driver.text(page))]
        counts = collections.Counter(linked)
        self.check_list("links", (f"the pages link {count} times to {it}" for it, count in counts.items() if count > 1))


class WithBehave(Pairs, Checks):
    WHO = "behave"
    NEEDS = ("behave",)

    @classmethod
    def setUpClass(cls):
        super().setUpClass()
        if driver.start("behave", ["--version"])[1] != b"behave 1.2.6\n":
            cls.leave_out("there is no behave 1.2.6")

    def said(self, folder, words):
        environment = {**os.environ, "HOME": folder, "PYTHONDONTWRITEBYTECODE": "1"}
        status, printed, _ = driver.start("behave", [*QUIET, *words], folder, environment, stderr=subprocess.STDOUT)
        return said_of(status, printed.replace(folder.encode() + b"/", b""))
