"""A clone of the repository, and a stand-in for the command rt, which proves nothing: it takes a moment for each crate,
and 'builds' a program that says which it is.
"""

import glob
import os
import shutil
import signal
import subprocess
import tempfile

import blocks
import driver
from driver import HOME

EXAMPLE = "examples/first.feature"
SOURCE = "crates/gk_gherkin/src/lib.rt"
# The commands that ./run may count on, and one for the stand-in.
COMMANDS = ("awk cat chmod cp cut dirname du find mkdir mktemp mv python3 readlink rm sh sha256sum sort tail touch "
            "xargs sleep").split()
# What stays in out/.
KEPT = "fits lock logs gherkin_run gherkin_run.kit gherkin_run.libraries gherkin_run.sha256 gherkin_run.sources".split()
# In place of rt, as building.md shows it.
STAND_IN = blocks.shown("building.md")["rt"]


class Clone:
    """A copy of the repository as a clone has it, but for the stored runs and edits, and the ways to run it."""

    def __init__(self, room):
        self.room, self.folder = room, os.path.join(room, "a clone")
        shutil.copytree(HOME, self.folder, copy_function=shutil.copy,
                        ignore=shutil.ignore_patterns(".git", "out", "runs", "must-fail", "__pycache__"))
        # What a script leaves behind is seen here.
        self.calls, self.temporary = os.path.join(room, "calls"), os.path.join(room, "temporary")
        os.mkdir(self.temporary)
        os.chmod(self.temporary, 0o1777)

    def path(self, name):
        return os.path.join(self.folder, name)

    def commands(self, with_rt, **begun):
        """A folder with the commands that ./run counts on, and maybe the stand-in for rt. Some may begin with lines of a shell."""
        folder = tempfile.mkdtemp(dir=self.room)
        os.chmod(folder, 0o755)
        for name in {*COMMANDS} - {*begun}:
            os.symlink(shutil.which(name), os.path.join(folder, name))
        own = {name: f'#!/bin/sh\n{lines}\nexec {shutil.which(name)} "$@"\n' for name, lines in begun.items()}
        driver.write(folder, {**own, "rt": STAND_IN} if with_rt else own, 0o755)
        return folder

    def start(self, *words, with_rt=False, script="./run", folder=None, user=None, **more):
        """Begins ./run or another script with these words, from the top of the clone or another folder."""
        settings = {"PATH": self.commands(with_rt), "CALLS": self.calls, "TMPDIR": self.temporary, **more}
        return begin([script, *words], folder or self.folder, settings, user)

    def run(self, *words, **more):
        process = self.start(*(words or [EXAMPLE]), **more)
        out, err = process.communicate(timeout=60)
        return process.returncode, out, err

    def left(self):
        """What scripts that have ended left in out/ or in the folder for temporary files."""
        in_out = os.listdir(self.path("out")) if os.path.isdir(self.path("out")) else []
        return os.listdir(self.temporary) + [it for it in in_out if it not in KEPT]

    def ended(self, name, *words, at, by=signal.SIGTERM):
        """Ends a script by a signal while it reads the sources: its status. `at` begins a name in out/."""
        process = self.start(*words, script=self.path(name), PATH=self.commands(True, sha256sum="sleep 0.5"))
        driver.wait_until(lambda: process.poll() is not None or glob.glob(self.path(f"out/{at}*")))
        process.send_signal(by)
        process.communicate(timeout=60)
        return process.returncode

    def change(self, name=SOURCE):
        """Changes the end of a file, and leaves its time as it was."""
        was = os.stat(self.path(name))
        with open(self.path(name), "ab") as file:
            file.write(b"\n")
        os.utime(self.path(name), ns=(was.st_atime_ns, was.st_mtime_ns))

    def called(self):
        return driver.read(self.calls).decode().splitlines() if os.path.exists(self.calls) else []

    def put_program(self, text):
        """Puts another program into dist/, with its sum."""
        driver.write(self.path("dist"), {"gherkin_run": text})
        subprocess.run("sha256sum gherkin_run > gherkin_run.sha256", shell=True, cwd=self.path("dist"), check=True)


def begin(command, folder, settings, user=None, **more):
    """Begins a command in a session, which signals end also where these tests run in the background."""
    def as_from_a_terminal():
        for number in (signal.SIGINT, signal.SIGTERM, signal.SIGHUP):
            signal.signal(number, signal.SIG_DFL)
    return subprocess.Popen(command, cwd=folder, env=settings, stdin=subprocess.DEVNULL, stdout=subprocess.PIPE,
                            stderr=subprocess.PIPE, user=user, group=user, start_new_session=True,
                            preexec_fn=as_from_a_terminal, **more)


def as_nobody():
    """The user to run as where nothing is to be written: permissions bind everybody but root."""
    return 65534 if os.geteuid() == 0 else None


def is_running(pid):
    """Whether a process is there, and isn't only to be waited for."""
    try:
        return b") Z " not in driver.read(f"/proc/{pid}/stat")
    except OSError:
        return False
