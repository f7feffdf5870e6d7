"""packaging/: the man page and the completions, against the help of the program, its runs and the shells, as share.md shows it."""

import os
import re

import driver
import pages
import tables
from checks import Checks
from driver import EXAMPLES, HOME

SHARE = os.path.join(HOME, "packaging")
# A value of each option that has one.
VALUES = {f"--{it.name}": tables.VALUES[it.value] for it in tables.OPTIONS if it.value}


@pages.tests("share.md")
class Share(Checks):
    @classmethod
    def setUpClass(cls):
        super().setUpClass()
        help_text = driver.start(driver.program(), ["--help"])[1].decode()
        # Each option's short spelling, if any, its long one, and its value, if any.
        cls.options = [it.groups() for it in re.finditer(r"^ +(?:(-\w), )?(--[a-z-]+)(?: <([^>]+)>)?(?: .*)?$", help_text, re.MULTILINE)]
        assert len(cls.options) > 10, help_text
        cls.spellings = sorted(it for short, long, _ in cls.options for it in (short, long) if it)
        cls.valued = [long for _, long, value in cls.options if value]
        cls.of_files = [long for _, long, value in cls.options if value == "FILE"]
        cls.formats = re.search(r"--format .* as ([a-z, ]+) \[", help_text)[1].replace(",", "").replace(" or ", " ").split()
        cls.man, cls.zsh, cls.fish = (driver.read(os.path.join(SHARE, it)).decode() for it in ("gherkin_run.1", "_gherkin_run", "gherkin_run.fish"))
        cls.sections = dict(re.findall(r"^\.SH (.*)\n((?:(?!\.SH ).*\n)*)", cls.man, re.MULTILINE))

    def status(self, *words, **more):
        return driver.start(self.program, words, EXAMPLES, **more)[0]

    def read_by(self, reader, *words):
        """The status of a reader of the man page, what it says, and whether it shows the page."""
        status, out, said = driver.start(reader, [*words, os.path.join(SHARE, "gherkin_run.1")], environment={**os.environ, "LC_ALL": "C"})
        return status, said, b"run the scenarios of Gherkin feature files" in out and b"--no-skipped" in out
