"""A standard output that fails.

Reports in each format, explanations and findings go to an output that takes one byte a call, and to one that fails, is
interrupted or takes nothing at call 1, 2, 3, .. If every byte is taken in the end, the run ends as always. Otherwise it
ends with status 3 and 'gherkin_run: cannot write', with exactly those bytes written that were taken before: so no call
comes after one that failed, and each piece of the report is written by one call.
"""

import errno
import os

import driver
import stored_cases
from checks import Refusing
from reports import Ample, in_json
from tables import FORMATS

BYTES_TRIED = 4096  # of a report that is longer only the pieces are
# Errors of a call; 0 is none, where the call takes no byte.
PIECE_ERRORS = (0, errno.EIO, errno.EINTR)
BYTE_ERRORS = (0, errno.EIO, errno.ENOSPC, errno.EINTR)


class FailingWrites(Refusing):
    def beginnings(self, arguments, folder, ended):
        """What was written before each piece that isn't empty. A report has the pieces of its features."""
        if {"--explain", "--lint"}.isdisjoint(arguments):
            ample = Ample(arguments, ended, driver.start(self.program, in_json(arguments), folder))
            return [before for before, piece in zip(ample.beginnings, ample.pieces) if piece]
        found = []
        while (before := self.limited(arguments, folder, WRITE_FAILS=len(found) + 1, WRITE_ERROR=errno.EIO)[1]) != ended[1]:
            if not ended[1].startswith(before) or found and len(before) <= len(found[-1]):
                raise ValueError(f"{arguments}: before piece {len(found) + 1} was written {before}")
            found.append(before)
        return found

    def limits(self, beginnings, everything):
        """The limits of each run, and what is written with them: whole pieces, or single bytes."""
        for piece in (1, 7):
            yield {"WRITE_PIECE": piece}, everything
        for number, before in enumerate(beginnings, 1):
            for error in PIECE_ERRORS:
                yield {"WRITE_FAILS": number, "WRITE_ERROR": error}, before
        # No call is left to fail.
        yield {"WRITE_FAILS": len(beginnings) + 1, "WRITE_ERROR": errno.EIO}, everything
        if len(everything) <= BYTES_TRIED:
            for number in range(1, len(everything) + 2):
                error = BYTE_ERRORS[number % len(BYTE_ERRORS)] if number <= len(everything) else errno.EIO
                yield {"WRITE_PIECE": 1, "WRITE_FAILS": number, "WRITE_ERROR": error}, everything[:number - 1]

    def troubles(self, arguments, folder):
        """What is wrong with each run, or nothing."""
        ample = driver.start(self.program, arguments, folder)
        for limits, written in self.limits(self.beginnings(arguments, folder, ample), ample[1]):
            wanted = ample if written == ample[1] else (3, written, b"gherkin_run: cannot write\n")
            yield driver.trouble(f"{arguments}, with {limits}", self.limited(arguments, folder, **limits), wanted)

    def try_all(self, options, is_report):
        cases = []
        for run in stored_cases.cases("failing_writes.md"):
            arguments = [*options, *map(os.fsdecode, run.arguments)]
            if is_report == {"--explain", "--lint"}.isdisjoint(arguments):
                cases.append((arguments, os.path.join(self.room, "_".join([*run.name.split(), *options]))))
                stored_cases.lay(run, cases[-1][1])
        for troubles in driver.on_all_processors(lambda case: list(self.troubles(*case)), cases):
            self.check_all(troubles)

    def test_reports(self):
        for style in FORMATS:
            self.try_all(["--format", style], True)

    def test_explanations_and_findings(self):
        self.try_all([], False)
