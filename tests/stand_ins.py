"""Commands that stand in for those that a script calls, count how often any of them was called, and stop the script at a call.

A script gets them by PATH. It is started by BEGIN, with CALLS, the path of the count, AT, the number of the call that
stops it, and HOW: the command fails, or first sends TERM (`ends`) or KILL (`dies`) to the script. The commands of a
pipe run at the same time; each takes the next number that is free.
"""

import glob
import shutil

import blocks
import driver

BEGIN = 'PID=$$ exec "$0" "$@"'
# As install.md shows it.
STEP = blocks.shown("install.md")["step"]


def make(folder, names):
    driver.write(folder, {it: STEP.replace("%s", shutil.which(it)) for it in names}, 0o755)


def notes(calls):
    """The files that note one call each, beside the count."""
    return glob.glob(glob.escape(calls) + ".[0-9]*")
