"""The shape of the crates' sources, calls of public functions, what tables are written into, and edits that must be refused."""

import calls
import driver
import edited
import edits
import pages
import shape
import tables
from checks import Checks


class Shape(Checks):
    def test_limits(self):
        limits = dict(line.split() for line in driver.text("tests/shape.limits").splitlines())
        for check in shape.CHECKS:
            name, count = check.__name__, len(list(check()))
            advice = "fix what is new, which tests/shape.py prints, or lower the limit"
            self.same(f"{name} in tests/shape.limits ({advice})", str(count), limits.pop(name, None))
        self.check_list("limits of nothing", limits)

    def test_each_public_function_is_called(self):
        self.check_all(calls.troubles())


class Tables(Checks):
    def test_all_rows_are_read(self):
        self.check_all(tables.unread())

    def test_written_files_are_up_to_date(self):
        self.check_all(tables.not_up_to_date())

    def test_changes_are_seen(self):
        """In a copy, a change of a table is found, and written into each file that repeats it."""
        self.check_all(tables.unseen(*it) for it in tables.CHANGES)

    def test_numbers_of_edits(self):
        self.check_all(tables.miscounted())


@pages.tests("edits.md")
class Edits(Checks):
    def test_numbers(self):
        """No edit is lost."""
        self.same(f"{edits.NUMBERS} (to drop an edit, lower its number)", edits.lines_of(edits.NUMBERS), [edits.count(it) for it in edited.crates()])

    def test_edits_fit(self):
        """Each edit has its lines, changes the code as it is, and names a clause that depends on what it changes."""
        self.check_all(it for crate in edited.crates() for it in edited.troubles(crate))
