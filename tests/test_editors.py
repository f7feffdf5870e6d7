"""The problem matchers of examples/editors, and vim, find the places that editors.md says."""

import json
import os
import re
import shlex
import subprocess

import blocks
import driver
from checks import Checks

EDITORS = os.path.join(driver.HOME, "examples", "editors")
# The ends of lines of an explanation that end with `memory` if memory runs out there.
ENDS = (r"\.\.\. undefined", r"\.\.\. failed: .+", r"\.\.\. failed")
# Writes the places of vim's quickfix list.
PLACES = ("call writefile(map(filter(getqflist(), 'v:val.valid'), 'json_encode([bufname(v:val.bufnr), v:val.lnum])'), "
          "'places')\nqall!\n")


def matched(name, text, arguments):
    """The places that the problem matchers of a file find in a text, in order: each line is for the first that fits. In a
    file of tasks they are those of the task for these arguments."""
    document = json.loads(driver.read(os.path.join(EDITORS, name)))
    found = document.get("problemMatcher") or document["tasks"]["--lint" in arguments]["problemMatcher"]
    patterns = [it["pattern"][0] if isinstance(it["pattern"], list) else it["pattern"] for it in found]
    places = []
    for line in text.splitlines():
        fits = [(it, re.search(it["regexp"], line)) for it in patterns]
        places += [(fit[it["file"]], int(fit[it["line"]])) for it, fit in fits if fit][:1]
    return places


def in_vim(script, folder, environment=None):
    """The places in vim's quickfix list after a script."""
    driver.write(folder, {"script.vim": f"{script}\n{PLACES}"})
    driver.start("vim", ["-es", "-N", "-u", "NONE", "-S", "script.vim"], folder, environment)
    return [tuple(json.loads(it)) for it in driver.read(os.path.join(folder, "places")).splitlines()]


class Places(Checks):
    """What the program prints, and the places that an editor has to find there."""

    @classmethod
    def setUpClass(cls):
        super().setUpClass()
        cls.texts = []
        for _, files, block in blocks.runs(driver.text("tests/editors.md")):
            driver.write(cls.room, files)
            (command, below), = blocks.commands(block)
            arguments = shlex.split(command.decode())[1:]
            printed = driver.start(driver.program(), arguments, cls.room, stderr=subprocess.STDOUT)[1].decode()
            places = (it.rpartition(":") for it in below.decode().splitlines())
            cls.texts.append((arguments, printed, [(name, int(line)) for name, _, line in places]))
        arguments, text, wanted = cls.texts[0]
        cls.texts += [(arguments, re.sub(f"{end}$", "... memory", text, flags=re.MULTILINE), wanted) for end in ENDS]

    def compare(self, editor, places):
        """Checks the places that an editor finds in each text."""
        for arguments, text, wanted in self.texts:
            found = places(text, arguments)
            self.unless(f"{editor} finds {found} in {arguments}, and not {wanted}: {text}", found == wanted)


class Matchers(Places):
    def test_tasks(self):
        self.compare("tasks.json", lambda text, arguments: matched("tasks.json", text, arguments))
        tasks = json.loads(driver.read(os.path.join(EDITORS, "tasks.json")))["tasks"]
        words = [it["args"] for it in tasks]
        self.unless(f"tasks.json runs {words}: a matcher finds only names from the workspace on, and none may be an option",
                    words == [["--explain", "--", "${relativeFile}"], ["--lint", "--", "${relativeFile}"]])
        self.same("how the tasks are started, no shell", [it["type"] for it in tasks], ["process"] * 2)
        folders = [it["fileLocation"] for task in tasks for it in task["problemMatcher"]]
        self.same("the folders of the names", folders, [["relative", "${workspaceFolder}"]] * 4)

    def test_problem_matcher(self):
        self.compare("problem_matcher.json", lambda text, arguments: matched("problem_matcher.json", text, arguments))


class Vim(Places):
    NEEDS = ("vim",)

    def test_compilers(self):
        def places(text, arguments):
            driver.write(self.room, {"printed": text})
            compiler = "gherkin_lint.vim" if "--lint" in arguments else "gherkin_run.vim"
            return in_vim(f"set nocompatible\nsource {EDITORS}/{compiler}\ncgetfile printed", self.room)
        self.compare("vim", places)

    def test_page(self):
        """The blocks for Vim of docs/guide/editors.md, which the compilers repeat, in a file whose name could be an option or a command."""
        name, pages = "-h $(touch made) b's.feature", blocks.texts("editors.md", "vim")
        os.link(os.path.join(self.room, "a.feature"), os.path.join(self.room, name))
        home = os.path.join(self.room, "home")
        os.makedirs(os.path.join(home, "bin"))
        os.symlink(self.program, os.path.join(home, "bin", "gherkin_run"))
        settings = {**os.environ, "HOME": home, "PATH": f"{home}/bin:{os.environ['PATH']}"}
        subprocess.run(["sh", "-eu", "-c", *blocks.texts("editors.md", "sh")], cwd=driver.HOME, env=settings, check=True)
        found = [in_vim(f"execute 'edit' fnameescape({json.dumps(name)})\n{it}", self.room, settings) for it in pages]
        wanted = [[(name, line) for line in (4, 6, 7, 9, 10)], [(name, 7)]]
        self.unless(f"vim finds {found} as docs/guide/editors.md says, and not {wanted}", found == wanted)
        self.unless("vim runs a file's name", not os.path.exists(os.path.join(self.room, "made")))
        repeated = [re.findall('(?m)^"     (:.*\n)', driver.read(os.path.join(EDITORS, it)).decode()) for it in ("gherkin_run.vim", "gherkin_lint.vim")]
        self.same("what the compilers say to type", ["".join(it) for it in repeated], pages)
