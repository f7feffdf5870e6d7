"""What all test modules share: a class of tests with the program, a folder, and checks that are counted.

A test is a method of a class of `Checks`. It makes checks, each a trouble: a text that says what is wrong, or nothing.
It goes on after one that fails. The last line that is printed is 'N passed, M failed', the counts of all checks.
"""

import atexit
import collections
import os
import shutil
import tempfile
import unittest

import driver

# unittest doesn't print the lines of such a module.
__unittest = True
COUNTS = collections.Counter()


@atexit.register
def print_counts():
    """Prints the counts of all checks, if any was made."""
    if COUNTS:
        print(f"{COUNTS['passed']} passed, {COUNTS['failed']} failed", flush=True)


class Checks(unittest.TestCase):
    """Tests of one subject.

    They have a `room`, a folder that is removed at the end, and the `program` that is tested. They are left out, with a
    word, if a tool of NEEDS is missing. Of many troubles only the first MOST_SHOWN are printed whole."""

    NEEDS = ()
    MOST_SHOWN = 20

    @classmethod
    def setUpClass(cls):
        cls.needs(*cls.NEEDS)
        folder = tempfile.TemporaryDirectory(ignore_cleanup_errors=True)
        cls.addClassCleanup(folder.cleanup)
        cls.room = os.path.realpath(folder.name)
        os.chmod(cls.room, 0o755)

    @classmethod
    def new_folder(cls):
        """Makes a folder in the room, which other users can enter, too."""
        folder = tempfile.mkdtemp(dir=cls.room)
        os.chmod(folder, 0o755)
        return folder

    @classmethod
    def needs(cls, *tools):
        """Leaves out the tests of this class, or the one that runs, if one of these commands is missing."""
        missing = [it for it in tools if not shutil.which(it)]
        if missing:
            cls.leave_out(f"there is no {' and no '.join(missing)}")

    @classmethod
    def leave_out(cls, reason):
        print(f"{cls.__module__}: {cls.__name__} is left out: {reason}", flush=True)
        COUNTS["passed"] += 0
        raise unittest.SkipTest(reason)

    @property
    def program(self):
        return driver.program()

    def check(self, trouble):
        """Counts a check, which fails if something is wrong. The test goes on."""
        COUNTS["failed" if trouble else "passed"] += 1
        if trouble:
            with self.subTest():
                self.fail(trouble if COUNTS["failed"] <= self.MOST_SHOWN else trouble.split("\n", 1)[0][:100])

    def unless(self, trouble, holds, *shown):
        """Counts a check, which fails with a trouble unless something holds."""
        self.check(driver.unless(trouble, holds, *shown))

    def same(self, what, found, wanted):
        self.check("" if found == wanted else f"{what}: {driver.cut(repr(found))}\n    and not {driver.cut(repr(wanted))}")

    def compare(self, name, ended, wanted):
        """Counts a check, which fails unless a run ended as wanted. Both are a status and the bytes on two streams."""
        self.check(driver.trouble(name, ended, wanted))

    def check_all(self, troubles):
        for found in troubles:
            self.check(found)

    def check_list(self, name, found):
        """Counts one check, which fails if anything was found."""
        found = list(found)
        self.check("\n".join([f"{name}:", *(f"  {it}" for it in found)]) if found else "")


class Refusing(Checks):
    """Tests with the library of refuse.c, which refuses memory and fails calls, in the room."""

    @classmethod
    def setUpClass(cls):
        super().setUpClass()
        driver.build_shim(cls.room)

    def limited(self, arguments, folder, **limits):
        """How the program ends that is limited by that library."""
        return driver.start(self.program, arguments, folder, driver.limited(self.room, **limits))
