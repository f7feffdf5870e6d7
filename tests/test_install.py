"""./install: what it puts in and takes out, what it refuses, and what it leaves if it fails or is stopped.

Most tests install small copies of the repository, in two versions: the second has one file more, one file less, and other
contents.
"""

import collections
import os
import shutil

import blocks
import driver
import pages
import stand_ins
from checks import Checks
from driver import HOME
from ready import as_nobody, begin  # pylint: disable=unused-import

LIST = "share/gherkin_run/installed"
DOC = "share/doc/gherkin_run"
COPY = ".gherkin_run-new"
# The commands that change files.
CHANGING = ["install", "ln", "mkdir", "mv", "rm", "rmdir"]
# The files that are installed, and where the repository has them.
INSTALLED = {
    "include/gherkin_run.h": "bindings/c/gherkin_run.h", "lib/libgherkin_run.so": "dist/libgherkin_run.so",
    "lib/libgherkin_run.a": "dist/libgherkin_run.a", "lib/pkgconfig/gherkin_run.pc": "packaging/gherkin_run.pc",
    "share/man/man1/gherkin_run.1": "packaging/gherkin_run.1",
    "share/bash-completion/completions/gherkin_run": "packaging/gherkin_run.bash",
    "share/zsh/site-functions/_gherkin_run": "packaging/_gherkin_run",
    "share/fish/vendor_completions.d/gherkin_run.fish": "packaging/gherkin_run.fish",
    **{f"{DOC}/{it}": it for it in ("LICENSE-MIT", "LICENSE-APACHE", "LICENSES-OTHERS", "docs/FAULTS.md")},
}
Ended = collections.namedtuple("Ended", "status out said calls left")


def make_repository(folder, version):
    """Makes a small repository that has all that ./install needs."""
    names = {*INSTALLED.values(), "docs/guide/start.md", "examples/my file.feature",
             "examples/more/new.feature" if version == "second" else "examples/less/old.feature"}
    driver.write(folder, {it: f"{it} {version}\n" for it in names}, 0o644)
    driver.write(folder, {"install": driver.read(os.path.join(HOME, "install")), "program": f"#!/bin/sh\necho {version}\n",
                          "run": '#!/bin/sh\necho "${0%/*}/program"\n'}, 0o755)
    return folder


def files_of(tree):
    """The files of a tree. Of the list, whose other lines differ for each folder, the lines of files."""
    found = {it: own for it, own in tree.items() if own[1] is not None}
    if LIST in found:
        found[LIST] = sorted(it for it in found[LIST][1].splitlines() if it.startswith(b"file "))
    return found


def files_in(folder):
    return files_of(driver.tree(folder))


def made_lines(folder):
    """The lines of a list that say which folders are a folder and those in it."""
    return driver.start("stat", ["-c", "made %i-%.W", *(at for at, _, _ in os.walk(folder))])[1]


class Copies(Checks):
    """Tests with both copies, and with what each installs."""

    @classmethod
    def setUpClass(cls):
        super().setUpClass()
        cls.first, cls.second = (make_repository(os.path.join(cls.room, it), it) for it in ("first", "second"))
        stand_ins.make(os.path.join(cls.room, "changing"), CHANGING)
        stand_ins.make(os.path.join(cls.room, "folders"), ["mkdir"])
        cls.earlier, alone = cls.place(), cls.place()
        for repository, folder in ((cls.first, cls.earlier), (cls.second, alone)):
            cls.run_install(repository, folder)
        cls.old, cls.alone = driver.tree(cls.earlier), driver.tree(alone)

    @classmethod
    def place(cls, earlier=None):
        """A folder to install into, in a folder where nothing else is, with a copy of what is installed in another one, as if
        ./install had made its folders."""
        folder = os.path.join(cls.new_folder(), "prefix")
        if earlier:
            shutil.copytree(earlier, folder, symlinks=True)
            files = [it for it in driver.read(os.path.join(folder, LIST)).splitlines(keepends=True) if it.startswith(b"file ")]
            driver.write(folder, {LIST: b"".join(files) + made_lines(folder)})
        return folder

    @classmethod
    def start(cls, repository, *words, at=0, how="fails", steps=None, umask=0o022, user=None, folder=None, first="", **more):
        """Begins ./install, which may be stopped at a step. `first` is a line of a shell that runs before."""
        own = cls.new_folder()
        driver.write(own, {"calls": "0\n"})
        os.mkdir(os.path.join(own, "empty"))
        os.chmod(os.path.join(own, "empty"), 0o777)
        path = f"{os.path.join(cls.room, steps)}:{os.environ['PATH']}" if steps else os.environ["PATH"]
        settings = {"PATH": path, "CALLS": os.path.join(own, "calls"), "AT": str(at), "HOW": how,
                    "TMPDIR": os.path.join(own, "empty"), **more}
        command = ["sh", "-c", first + stand_ins.BEGIN, os.path.join(repository, "install"), *words]
        process = begin(command, folder, settings, user, umask=umask, text=True)
        process.room = own
        return process

    @classmethod
    def run_install(cls, repository, *words, **more):
        process = cls.start(repository, *words, **more)
        out, said = process.communicate(timeout=driver.PATIENCE)
        calls = len(stand_ins.notes(os.path.join(process.room, "calls")))
        left = os.listdir(os.path.join(process.room, "empty"))
        shutil.rmtree(process.room)
        return Ended(process.returncode, out, said, calls, left)

    def is_new(self, folder):
        """Whether the second version is installed whole, and nothing else."""
        return files_in(folder) == files_of(self.alone)

    def has_all(self, folder):
        """Whether the second version is installed, perhaps beside other files."""
        found = driver.tree(folder)
        return all(found.get(it) == own for it, own in self.alone.items() if it != LIST)

    def ends_well(self, folder):
        """Whether another ./install completes the work, and --remove removes all files."""
        return self.run_install(self.second, folder).status == 0 and self.is_new(folder) and (
            self.run_install(self.second, "--remove", folder).status == 0 and not files_in(folder))

    def waits(self, process, folder):
        """Whether a call that hasn't ended waits for the lock of a folder, once it does."""
        def is_waiting():
            try:
                with open(f"/proc/{process.pid}/task/{process.pid}/children", encoding="utf-8") as children:
                    return any(os.readlink(f"/proc/{it}/exe").endswith("/flock") and os.path.samefile(f"/proc/{it}/fd/9", folder)
                               for it in children.read().split())
            except OSError:  # one of them has just ended
                return False
        driver.wait_until(lambda: process.poll() is not None or is_waiting())
        return process.poll() is None

    def make_victim(self, folder):
        """Makes a folder of which nothing may be removed, beside PREFIX."""
        victim = os.path.join(os.path.dirname(folder), "victim")
        driver.write(victim, {"keep": "keep\n"})
        os.mkdir(os.path.join(victim, "empty"))
        return victim

    def put_link(self, folder, name, target):
        os.makedirs(os.path.join(folder, os.path.dirname(name)), exist_ok=True)
        os.symlink(target, os.path.join(folder, name))


@pages.tests("install.md")
class PutIn(Copies):
    """What is put in and taken out, and what is refused."""

    def refused(self, *words, files=(), links=(), folder=None, repository=None, **more):
        """The line by which a call ends with status 1, with PREFIX in place of the folder, where it has written these files and
        links before. Says so if anything is changed or left."""
        folder = folder or self.place()
        driver.write(os.path.dirname(folder), {f"prefix/{name}": text for name, text in dict(files).items()})
        for name, target in dict(links).items():
            self.put_link(folder, name, target)
        before = driver.tree(os.path.dirname(folder))
        ended = self.run_install(repository or self.second, *(it.replace("PREFIX", folder) for it in words), **more)
        holds = ended.status == 1 and ended.said.count("\n") == 1 and not ended.left and driver.tree(os.path.dirname(folder)) == before
        return ended.said.rstrip("\n").replace(folder, "PREFIX") if holds else ended


class Stopped(Copies):
    """Calls that are stopped by a failure or a kill at each command that changes files, or by a signal at each that makes a folder."""

    def check_each_step(self, how, steps, earlier, *words):
        count = self.run_install(self.second, *words, self.place(earlier), steps=steps).calls
        holds_of = {"fails": self.can_be_removed, "ends": self.changes_nothing,
                    "dies": self.can_be_removed_again if words else self.can_be_completed}[how]

        def tried(at):
            folder = self.place(earlier)
            before = driver.tree(folder)
            ended = self.run_install(self.second, *words, folder, at=at, how=how, steps=steps)
            return self.leaves_old_or_new(folder, ended, earlier, words) and holds_of(folder, ended, before)

        for at, holds in enumerate(driver.on_all_processors(tried, range(1, count + 1)), 1):
            self.unless(f"./install {' '.join(words)} over {earlier} that {how} at step {at} of {count}", holds)

    def leaves_old_or_new(self, folder, ended, earlier, words):
        """Whether each path has its old or its new file, and the list names all of them."""
        found, old, new = files_in(folder), files_of(self.old) if earlier else {}, {} if words else files_of(self.alone)
        is_complete = all(found.get(it) == own for it, own in new.items() if it != LIST)
        is_known = all(it == LIST or it.endswith(COPY) or own in (old.get(it), new.get(it)) for it, own in found.items())
        listed = {os.fsdecode(it.removeprefix(b"file ")) for it in found.get(LIST, [f"file {LIST}".encode()])}
        return is_known and (is_complete or set(old) <= set(found)) and {it.removesuffix(COPY) for it in found} <= listed and (
            ended.status != 0 or is_complete)

    def can_be_removed(self, folder, ended, before):
        """Whether one line says why it failed, and --remove removes all that there is, but for a folder that couldn't be removed."""
        is_unchanged, is_listed = driver.tree(folder) == before, os.path.exists(os.path.join(folder, LIST))
        is_said = ended.said.startswith("install: ") and ended.said.count("\n") == 1 and (is_unchanged or "; call ./install again" in ended.said)
        is_removed = (self.run_install(self.second, "--remove", folder).status == 0) == is_listed and not files_in(folder)
        return is_removed and (ended[:3:2] == (0, "") or ended.status == 1 and is_said and not os.path.exists(folder))

    def can_be_completed(self, folder, _ended, _before):
        return self.ends_well(folder)

    def can_be_removed_again(self, folder, _ended, _before):
        """Whether another --remove completes this one. Without a list, only the folders on its path may be left."""
        if not os.path.exists(os.path.join(folder, LIST)):
            return set(driver.tree(folder)) <= {"share", "share/gherkin_run"}
        return self.run_install(self.second, "--remove", folder).status == 0 and not os.path.exists(folder)

    def changes_nothing(self, folder, ended, before):
        return ended.status == 1 and ended.said == "" and driver.tree(folder) == before and os.path.exists(folder) == bool(before)

    def test_failures(self):
        self.check_each_step("fails", "changing", None)
        self.check_each_step("fails", "changing", self.earlier)
        self.check_each_step("fails", "changing", self.earlier, "--remove")

    def test_kills(self):
        self.check_each_step("dies", "changing", None)
        self.check_each_step("dies", "changing", self.earlier)

    def test_kills_of_removals(self):
        self.check_each_step("dies", "changing", self.earlier, "--remove")

    def test_signals(self):
        self.check_each_step("ends", "folders", None)
        self.check_each_step("ends", "folders", self.earlier)


@pages.tests("installing.md")
class Whole(Checks):
    """The repository itself, installed by the commands of docs/guide/installing.md as they are printed."""

    def setUp(self):
        self.top, self.home = self.new_folder(), self.new_folder()
        self.shown = blocks.shown("../docs/guide/installing.md")
        os.symlink(os.path.join(HOME, "install"), os.path.join(self.top, "install"))

    def shell(self, text, *words, shell="sh", **more):
        """Runs commands with a user's own folder, from a folder that has ./install."""
        return driver.start(shell, [*words, "-c", text], self.top, {**os.environ, "HOME": self.home, **more})

    def trouble_of(self, prefix, ended):
        """What is wrong after an installation, or nothing: a file that is missing, or an example that doesn't run beside them."""
        prefix = os.path.join(self.home, prefix)
        program = driver.start(os.path.join(HOME, "run"), ["--which"])[1].decode().rstrip("\n")
        wanted = {"bin/gherkin_run": driver.read(program), **{it: driver.read(os.path.join(HOME, own)) for it, own in INSTALLED.items()}}
        for part in ("examples", "docs/guide"):
            wanted |= {f"{DOC}/{part}/{it}": text for it, (_, text) in driver.tree(os.path.join(HOME, part)).items()
                       if text is not None and "__pycache__" not in it}
        wrong = [it for it, text in wanted.items() if not os.path.exists(path := os.path.join(prefix, it)) or driver.read(path) != text]
        report = driver.start(os.path.join(prefix, "bin/gherkin_run"), ["examples/first.feature"], os.path.join(prefix, DOC))
        return driver.unless("not all is installed", ended[0] == 0 and not wrong, ended, *wrong) or driver.trouble(
            "its example", report, (0, driver.read(os.path.join(driver.EXAMPLES, "first.report")), b""))
