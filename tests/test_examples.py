"""Each example prints what is stored beside it: NAME.report, NAME.fault and NAME.status. So does examples/checks/."""

import os

import driver
from checks import Checks


def stored(name, kind):
    """What is stored beside an example, or nothing."""
    path = os.path.join(driver.EXAMPLES, f"{name}.{kind}")
    return driver.read(path) if os.path.exists(path) else b""


class Examples(Checks):
    def test_output(self):
        for arguments in driver.examples():
            name = os.path.basename(arguments[-1]).removesuffix(".feature")
            wanted = int(stored(name, "status")), stored(name, "report"), stored(name, "fault")
            self.compare(arguments[-1], driver.start(self.program, arguments), wanted)

    def test_checks(self):
        """The script of examples/checks/, whose programs write what they should, or don't. It leaves no temporary file."""
        for name, words, status in (("passing", [], 0), ("failing", ["-r"], 1)):
            ended = driver.start("examples/checks/check.sh", [self.program, *words], environment={**os.environ, "TMPDIR": self.room})
            self.compare(name, ended, (status, stored(f"checks/{name}", "report"), b""))
            self.same(f"what {name} leaves", os.listdir(self.room), [])
