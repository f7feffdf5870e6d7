"""A fresh clone is ready to run: what ./run does there and elsewhere, and what ./test and .ci/run count, as ready.md and building.md
show it.

Each test works on a copy of the repository as a clone has it. If ./run builds, it finds a stand-in for the command rt.
"""

import os
import shutil

import driver
import pages
from checks import Checks
from ready import EXAMPLE, SOURCE, Clone, as_nobody, is_running  # pylint: disable=unused-import

REPORT = driver.read(os.path.join(driver.EXAMPLES, "first.report"))
NO_RT = 70, "", "run: no program here was built from these sources, and building a program needs the command rt of the Rattle toolchain"


class OnClone(Checks):
    """Tests on a clone, in which nothing may be left."""

    def setUp(self):
        self.clone = Clone(self.new_folder())

    def tearDown(self):
        self.same("what is left", self.clone.left(), [])
        shutil.rmtree(self.clone.room)

    def ran(self, *words, **more):
        """What ./run gives: `the report` of the example, or else its status, what it prints, and its last line on standard error."""
        status, out, err = self.clone.run(*words, **more)
        return "the report" if (status, out, err) == (0, REPORT, b"") else (status, out.decode(), (err.decode().splitlines() or [""])[-1])


@pages.tests("ready.md")
class Running(OnClone):
    pass


@pages.tests("building.md")
class Building(OnClone):
    pass
