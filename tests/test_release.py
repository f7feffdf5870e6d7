"""./release in a copy of the repository, with a stand-in for the toolchain that builds the libraries in a moment.

Whatever fails, dist/ and bindings/web/ are either as they were or as a whole release makes them, nothing is left in out/ or in the
folder for temporary files, and one line says why.
"""

import contextlib
import os
import shutil

import blocks
import driver
import pages
import ready
import stand_ins
from checks import Checks

RELEASED = ("dist", "bindings/web")
VERSION = driver.text("packaging/version").strip()
WHEEL = f"dist/gherkin_run-{VERSION}-py3-none-manylinux_2_34_x86_64.whl"
# The commands that ./release and what it calls change files with, those that read, and others.
CHANGING = "chmod cp dpkg-deb ln mkdir mktemp mv python3 rm".split()
READING = "cat cut find readlink sha256sum sort".split()
OTHERS = "basename date env grep gzip head install ln md5sum nproc sed tar tr uname wc".split()


class Released(Checks):
    NEEDS = ("dpkg-deb",)

    @classmethod
    def setUpClass(cls):
        super().setUpClass()
        cls.clone = ready.Clone(cls.room)
        cls.clone.change()
        assert cls.clone.run(with_rt=True)[0] == 0
        # Otherwise the page would be the same.
        page = "bindings/web/source/page.html"
        driver.write(cls.clone.folder, {page: driver.text(page) + "<!-- another page -->\n"})
        cls.commands, kit = cls.clone.commands(False), os.path.join(cls.room, "a `touch made` \"kit's\" $(touch made)")
        for name in OTHERS:
            os.symlink(shutil.which(name), os.path.join(cls.commands, name))
        # The stand-ins for the programs of the toolchain.
        driver.write(kit, {**blocks.shown("release.md"), "bin/rt": ready.STAND_IN}, 0o755)
        os.symlink(os.path.join(kit, "bin/rt"), os.path.join(cls.commands, "rt"))
        # In place of the check of edits: it says that one wasn't tried if a variable does.
        driver.write_program(cls.clone.path("tests/edits.py"), '#!/bin/sh\n[ -z "${UNTRIED:-}" ]\n')
        stand_ins.make(os.path.join(cls.room, "all"), CHANGING + READING)
        stand_ins.make(os.path.join(cls.room, "changing"), CHANGING)
        cls.kept = cls.copied("kept")
        cls.before = cls.state()
        cls.first = cls.release()
        cls.after, cls.new = cls.state(), cls.copied("new")
        cls.put_back()

    @classmethod
    def copied(cls, name):
        for it in RELEASED:
            shutil.copytree(cls.clone.path(it), os.path.join(cls.room, name, it))
        return os.path.join(cls.room, name)

    @classmethod
    def state(cls):
        """The files of both folders, with their permissions."""
        return {f"{folder}/{it}": found for folder in RELEASED for it, found in driver.tree(cls.clone.path(folder)).items()
                if found[1] is not None and "__pycache__" not in it}

    @classmethod
    def put_back(cls):
        """Makes both folders as they were before the first release, and removes what one left."""
        for it in cls.clone.left():
            for folder in (cls.clone.path("out"), cls.clone.temporary):
                shutil.rmtree(os.path.join(folder, it), ignore_errors=True)
        for name in RELEASED:
            shutil.rmtree(cls.clone.path(name), ignore_errors=True)
            shutil.copytree(os.path.join(cls.kept, name), cls.clone.path(name))

    @classmethod
    def release(cls, *words, at=0, how="fails", steps="all", umask=0o022, script="./release", **more):
        """Runs ./release, or another script: its status, what it says on both streams, and how many steps it took."""
        calls = os.path.join(cls.room, "steps taken")
        for it in stand_ins.notes(calls):
            os.remove(it)
        driver.write(cls.room, {"steps taken": "0\n"})
        # The stand-in for the toolchain notes its calls in the same variable.
        settings = {"PATH": f"{os.path.join(cls.room, steps)}:{cls.commands}", "CALLS": calls, "AT": str(at), "HOW": how, "TMPDIR": cls.clone.temporary, **more}
        command = ["sh", "-c", stand_ins.BEGIN, script, *words]
        process = ready.begin(command, cls.clone.folder, settings, umask=umask, text=True, errors="replace")
        printed = process.communicate(timeout=2 * driver.PATIENCE)
        return process.returncode, *printed, len(stand_ins.notes(calls))

    def tearDown(self):
        self.put_back()

    def refused(self, **more):
        """The line by which ./release fails, if it changes nothing."""
        before = self.state()
        status, _, said, _ = self.release(**more)
        holds = status == 1 and said.count("release: ") == 1 and self.state() == before and not self.clone.left()
        return said.splitlines()[-1] if holds else (status, said, self.clone.left())

    @contextlib.contextmanager
    def moved(self, name):
        """Keeps a file or a folder of the clone away. Another one may take its place."""
        path, away = self.clone.path(name), os.path.join(self.new_folder(), "away")
        os.rename(path, away)
        yield driver.contents(away)
        shutil.rmtree(path, ignore_errors=True)
        os.rename(away, path)


class Stopped(Released):
    def check_each_step(self, how, steps):
        """Checks that a release that is stopped at any of these steps leaves everything as before, or makes all of it new."""
        count = self.release(steps=steps)[3]
        self.put_back()
        for at in range(1, count + 1):
            status, _, said, _ = self.release(at=at, how=how, steps=steps)
            last = (said.splitlines() or [""])[-1]
            # The last step removes what the script itself made.
            left = [it for it in self.clone.left() if at < count or not it.startswith("release.")]
            holds = self.state() == self.after if status == 0 else (
                self.state() == self.before and last.startswith("release: ") and said.count("release: ") == 1)
            self.unless(f"a release that {how} at step {at} of {count}", holds and not left, status, said, *left)
            self.put_back()

    def test_failures(self):
        self.check_each_step("fails", "all")

    def test_signals(self):
        # A signal at a command that only reads leaves what one at the next command leaves.
        self.check_each_step("ends", "changing")


@pages.tests("release.md")
class Release(Released):
    pass
