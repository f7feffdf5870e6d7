"""Files that can't be opened or read, and which files are opened.

A library, hooks and two feature files, of which each in turn can't be opened, for each of some reasons, and whose
reading fails at call 1, 2, 3, .. The run ends with status 3 and names that file; where opening one is refused memory,
with status 4. Files that give one byte a call, or seven, are read as always, and a file ends where a call gives no
byte. Which files are opened, and in which order, is seen as opened.md says.
"""

import errno
import os
import re
import tempfile

import blocks
import driver
import pages
import tables
from checks import Refusing

PIECE = 16_384  # bytes, as the program reads them
# The files that opened.md shows, and those of the runs below, in the order in which the program reads them.
SHOWN = next(blocks.runs(driver.text("tests/opened.md")))[1]
FILES = {it: SHOWN[it] for it in ("l.steps", "h.hooks", "a.feature", "b.feature")}
SUITE = ["--library", "l.steps", "--hooks", "h.hooks"]
ARGUMENTS = [*SUITE, "a.feature", "b.feature"]
OPEN_REASONS = (errno.EPERM, errno.ENOENT, errno.EIO, errno.ENXIO, errno.EACCES, errno.EBUSY,
                errno.ENODEV, errno.ENOTDIR, errno.EISDIR, errno.EINVAL, errno.ENFILE, errno.EMFILE,
                errno.ETXTBSY, errno.ENAMETOOLONG, errno.ELOOP, errno.EOVERFLOW, errno.ESTALE,
                errno.EAGAIN, errno.ETIMEDOUT, errno.ENOSPC, errno.EROFS, errno.EDQUOT, errno.EFBIG)
READ_REASONS = (errno.EIO, errno.EINTR, errno.EAGAIN, errno.EISDIR, errno.ENOMEM)
# The words of each option that names no file, and has no test of its own.
OPTIONS = [tables.given(it) for it in tables.OPTIONS if it.beside_report and it.name != "format" and not re.search("FILE|PATH", it.value)]


def unread(name):
    """How a run ends where this file can't be read, and the files that are opened."""
    return (3, b"", f"gherkin_run: {name}: cannot read\n".encode()), list(FILES)[:list(FILES).index(name) + 1]


@pages.tests("opened.md")
class FailingReads(Refusing):
    @classmethod
    def setUpClass(cls):
        super().setUpClass()
        cls.folder = os.path.join(cls.room, "whole")
        driver.write(cls.folder, SHOWN)
        cls.ample = driver.start(driver.program(), ARGUMENTS, cls.folder)

    def noted(self, arguments, **limits):
        """How a run ends, and the names of the files that it opens. Its runtime may open such outside of the folder."""
        with tempfile.NamedTemporaryFile(dir=self.room) as log:
            ended = self.limited(arguments, self.folder, OPEN_LOG=log.name, **limits)
            return ended, [it for it in log.read().decode().split("\n")[:-1] if os.path.commonpath(
                [os.path.normpath(os.path.join(self.folder, it)), self.folder]) == self.folder]

    def trouble(self, limits, wanted, opened=tuple(FILES)):
        ended, noted = self.noted(ARGUMENTS, **limits)
        found = driver.trouble(f"with {limits}", ended, wanted)
        return found if noted == list(opened) else f"{found or limits}\n  opened {noted}, and not {list(opened)}"

    def try_all(self, runs):
        """Checks runs, each as what `trouble` is called with."""
        self.check_all(driver.on_all_processors(lambda it: self.trouble(*it), runs))

    def test_ample(self):
        self.unless(f"with files that don't fail: {self.ample}", self.ample[0] == 0 and not self.ample[2])

    def opened(self, *arguments):
        """The status of a run that prints what it does without the log, and the names of the files that it opens."""
        ended, noted = self.noted(arguments)
        self.compare(f"{arguments} with a log", ended, driver.start(self.program, arguments, self.folder))
        return " ".join([str(ended[0]), *noted])

    def test_unopened(self):
        self.try_all(({"OPEN_FAILS": name, "OPEN_ERROR": reason}, *unread(name))
                     for name in FILES for reason in OPEN_REASONS)
        out_of_memory = 4, b"", b"gherkin_run: out of memory\n"
        self.try_all(({"OPEN_FAILS": name, "OPEN_ERROR": errno.ENOMEM}, out_of_memory, unread(name)[1]) for name in FILES)

    def test_read(self):
        """A call of read fails, or gives few bytes."""
        # Each piece is a call, and so is the end of a file.
        each = [name for name, text in FILES.items() for _ in range(-(-len(text) // PIECE) + 1)]
        self.try_all(({"READ_FAILS": number, "READ_ERROR": reason}, *unread(name))
                     for number, name in enumerate(each, 1) for reason in READ_REASONS)
        harmless = {"READ_PIECE": 1}, {"READ_PIECE": 7}, {"READ_FAILS": len(each) + 1, "READ_ERROR": errno.EIO}
        self.try_all((limits, self.ample) for limits in harmless)

    def test_ends(self):
        """Each file, read byte by byte, ends before its last byte. Each run ends as one whose file has these bytes."""
        before = 0
        for name, text in FILES.items():
            for length in range(0, len(text), max(1, len(text) // 20)):
                folder = os.path.join(self.room, f"{name}-{length}")
                driver.write(folder, {**FILES, name: text[:length]})
                wanted = driver.start(self.program, ARGUMENTS, folder)
                self.check(self.trouble({"READ_PIECE": 1, "READ_FAILS": before + length + 1}, wanted))
            before += len(text) + 1
