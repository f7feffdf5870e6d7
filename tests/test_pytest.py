"""The pytest plugin of bindings/python/: pytest.md, control characters, an unpacked wheel, two processes, and scenarios run together."""

import os
import subprocess

import calling  # pylint: disable=unused-import
import driver
import pages
from checks import Checks
from test_python import interpreter


def programs():
    """The commands of pytest.md: pytest with the plugin, and the same Python."""
    python = interpreter()
    return {"pytest": f'#!/bin/sh\nCOLUMNS=80 exec {python} -m pytest -p gherkin_run.pytest_plugin --ignore=examples "$@"\n',
            "python": f'#!/bin/sh\nexec {python} "$@"\n'}


@pages.tests("pytest.md", programs=programs)
class Plugin(Checks):
    @classmethod
    def setUpClass(cls):
        super().setUpClass()
        cls.python = interpreter()
        if cls.python is None:
            cls.leave_out("there is no python3 with pytest")

    def pytest(self, files, *words, **environment):
        """Runs pytest in a new folder with these files. Returns its status and what it prints."""
        folder = self.new_folder()
        driver.write(folder, files)
        done = subprocess.run([self.python, "-m", "pytest", *words], cwd=folder, capture_output=True, timeout=2 * driver.PATIENCE, check=False,
                              env={**os.environ, "COLUMNS": "80", **environment})
        return done.returncode, (done.stdout + done.stderr).decode("utf-8", "surrogateescape")
