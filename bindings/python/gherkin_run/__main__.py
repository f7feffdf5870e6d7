"""The program itself: python3 -m gherkin_run [OPTION].. FILE.."""

from __future__ import annotations

import os
import signal
import sys
from typing import NoReturn

from gherkin_run.library import built


def main() -> NoReturn:
    """Becomes the program, with the arguments of this process."""
    # Python ignores these signals, and a process keeps what it ignores.
    for number in (signal.SIGPIPE, signal.SIGXFSZ):
        signal.signal(number, signal.SIG_DFL)
    program = built("gherkin_run")
    try:
        os.execv(program, ["gherkin_run", *sys.argv[1:]])
    except OSError as error:
        error.filename = program
        raise


if __name__ == "__main__":
    main()
