"""Suites that examples/spread.sh runs in parts, compared with one run over all their files.

The bytes, the faults and the status have to be the same: with parts of all sizes, with jobs that are killed, on several
machines, with words and names that a shell or GNU parallel would expand, and with variables in the environment. Nothing
may be left over, also when a signal ends the script. A command in place of ssh runs here what it is given.
"""

import os

import blocks
import driver
import pages
from checks import Checks
from ready import begin, is_running  # pylint: disable=unused-import

PROGRAM = driver.program()
SPREAD = os.path.join(driver.EXAMPLES, "spread.sh")
PATIENCE = 300  # seconds: the script starts many programs, also while proofs have the processors
PASSES = "Feature: f\n  Scenario: s\n    Given it passes\n"
TEN = {f"{number}.feature": f"Feature: {number} \x7f \"x\" \\ \x01\n  @t{number}\n  Scenario: a\n    Given it passes\n  Scenario: b\n"
                            "    Given it passes\n" for number in range(10, 20)}
# The files of the page of runs, which other tests use, too.
SHOWN = blocks.shown("recipes/spread_runs.md")
SUITE = {**TEN, **{name: text for name, text in SHOWN.items() if name.endswith(".feature")}}
FILES = sorted(SUITE)


class Place:
    """A folder for runs of the script, with programs and what they note, a home, and a folder for temporary files."""

    def __init__(self, folder, suite, files):
        self.folder, self.suite = folder, suite
        driver.write(folder, {name: text for name, text in files.items() if text.startswith("#!")}, 0o755)
        for name in ("home", "temporary"):
            os.mkdir(self.path(name))

    def path(self, name):
        return os.path.join(self.folder, name)

    def environment(self, **more):
        """A program in the folder may be called by its name. A variable is left out if None is given for it."""
        own = {"PROGRAM": PROGRAM, "PLACE": self.folder, "HOME": self.path("home"), "TMPDIR": self.path("temporary"),
               "PATH": self.folder + ":" + os.environ["PATH"]}
        return {name: it for name, it in {**os.environ, **own, **more}.items() if it is not None}

    def spread(self, *words, program=SPREAD, folder=None, **more):
        """Runs the script, or a shell that does. Returns its status and what it printed, with what it left over."""
        ended = driver.start(program, words, folder or self.suite, self.environment(**more), patience=PATIENCE)
        left = self.left(more.get("TMPDIR") or "temporary")
        return (*ended[:2], ended[2] + f"left over: {left}\n".encode()) if left else ended

    def left(self, temporary="temporary"):
        """What is in the home and among the temporary files."""
        places = [self.path("home"), self.path(temporary)]
        return [it for place in places if os.path.isdir(place) for it in os.listdir(place)]

    def noted(self, name, end="\n"):
        return os.fsdecode(driver.read(self.path(name))).split(end)[:-1] if os.path.exists(self.path(name)) else []


@pages.tests("recipes/spread.md", "recipes/spread_jobs.md", "recipes/spread_runs.md")
class Spread(Checks):
    NEEDS = ("parallel", "bash")

    @classmethod
    def setUpClass(cls):
        super().setUpClass()
        cls.suite, cls.suite_files = os.path.join(cls.room, "suite"), SUITE
        driver.write(cls.suite, {**SUITE, **SHOWN})

    def place(self, files=()):
        return Place(self.new_folder(), self.suite, dict(files))

    def each(self, work, cases):
        for found in driver.on_all_processors(lambda case: list(work(case)), cases):
            self.check_all(found)

    def whole(self, *options, files=FILES, folder=None):
        return driver.start(PROGRAM, [*options, "--format", "json", "--", *files], folder or self.suite)
