"""Checks of a crate by `rt check`: what they say of its goals, and copies of the crate with other code."""

import contextlib
import os
import re
import shutil
import signal
import subprocess
import sys
import tempfile
import threading
import time

import driver
import edited
from edited import HOME, build

# The line of a function; the note on an open goal, and what more is said of it; and a proof that isn't accepted, and why.
LINE = re.compile(r"fn (\S+): (.*)")
NOTE = re.compile(r"note: src/\S+ it is not proved that .*?\(`([^`]+)`\)(.*)")
PROOF = re.compile(r"(?:\./)?proofs/(\S+)/Answers\.antt:\d+:\d+: error: `([^`]*)`: (.*)")
# How the prover says that it met one of its limits, and that a proof names what isn't there.
LIMIT = re.compile(r"\blimits?\b|may hold|gave up|broke off|could not tell|ran out of")
GONE = re.compile(r"has no field|is not in scope|has no `|was not admitted")
# What is known of a goal. It is open if the prover's search ends without a proof of it. Or the prover only met a limit, a proof
# only names what went, or it no longer fits.
OPEN, AT_LIMIT, NAMES, UNFIT = "open", "a limit", "a name that went", "a proof that no longer fits"


class Said:
    """What a check said: whether the crate is proved, and of each function its line, and its goals with what is known of them."""

    def __init__(self, crate, status, text):
        self.is_proved, self.lines, self.goals, goals = status == 0, {}, {}, {}
        # The functions at whose proofs the prover met a limit.
        self.limited = set()
        for line in text.splitlines():
            function, note, proof = LINE.match(line), NOTE.match(line), PROOF.match(line)
            if proof:
                self.take(symbol(crate, proof[1]), proof[2], proof[3])
            elif note:
                goals[note[1]] = AT_LIMIT if LIMIT.search(note[2]) else OPEN
            elif function:
                self.lines[function[1]] = function[2]
                self.goals.setdefault(function[1], {}).update(goals)
                goals = {}

    def take(self, name, goal, why):
        """Takes in that a proof of a goal isn't accepted. Of several reasons the worst counts."""
        kind = AT_LIMIT if LIMIT.search(why) else NAMES if GONE.search(why) else UNFIT
        if kind == AT_LIMIT:
            self.limited.add(name)
        goals = self.goals.setdefault(name, {})
        goals[goal] = kind if goals.get(goal, UNFIT) == UNFIT else goals[goal]

    def names(self, code, function):
        """The names of a function in the lines of a check. A method is in the module of its type, and that of a trait is after the
        names of both: the trait's comes after the type and what that is of."""
        trait, owner = function.owner or ("", "")
        module = [it for it in function.path[4:-3].split("/") if it not in ("lib", "main")]
        within = rf"(?:\w+::)*{owner}" + rf"\w*{trait}" * bool(trait) if owner else "::".join(module)
        name = re.compile("::".join(filter(None, [code.name, within, function.name])))
        return [it for it in self.goals if name.fullmatch(it)]

    def goals_of(self, code, function):
        """The goals of a function that aren't proved, each with what is known of it."""
        return {goal: kind for it in self.names(code, function) for goal, kind in self.goals[it].items()}

    def unfit(self, code, functions):
        """The goals of functions whose proofs no longer fit, each after the name of its function. If the prover met a limit at a
        proof of a function, there are none: then it can't judge the others."""
        return [(name, goal) for it in functions for name in self.names(code, it) if name not in self.limited
                for goal, kind in self.goals[name].items() if kind == UNFIT]

    def renew(self, goals, later):
        """Puts what a later check said of some goals or of parts of them, without their proofs, in place of what is known of them."""
        for name, goal in goals:
            if name in later.lines:
                del self.goals[name][goal]
                self.goals[name].update({it: kind for it, kind in later.goals[name].items() if f"{it}-".startswith(f"{goal}-")})


def symbol(crate, folder):
    """The name of the function whose proofs are in a folder of proofs/."""
    return "::".join([crate, *folder.split("/")])


def proofs_of(name):
    """The file of the proofs of a function's goals."""
    return "/".join(["proofs", *name.split("::")[1:], "Answers.antt"])


def copy(name, home, room):
    """Copies a crate and those below it, with the work that checks kept."""
    def one(path, to):
        # A check replaces such files, and changes none.
        with contextlib.suppress(OSError):
            return os.link(path, to) if path.endswith(".oantt") or "/out/rlib/" in path else shutil.copy2(path, to)
        return shutil.copy2(path, to)

    def left_out(at, names):
        # What checks kept of the crates below it is in their libraries.
        lower = {"incremental"} if at.endswith("/out") and at != os.path.join(build.crate(name, home), "out") else set()
        return {*names} & ({"must-fail"} if at == os.path.join(home, "crates", os.path.basename(at)) else lower)

    lower = build.below(build.listed_crates(), name)
    for it in lower:
        shutil.copytree(build.crate(it, home), build.crate(it, room), copy_function=one, ignore=left_out)
    uses = "".join(it for it in build.lines_of_crates() if build.name_in(it) in lower)
    driver.write(room, {"HANDLES": driver.text("HANDLES"), "crates.txt": uses})


class Checks:
    """Runs checks, some side by side, and says on standard error how long each took."""

    def __init__(self, jobs):
        self.slots, self.running, self.is_ended = threading.BoundedSemaphore(jobs), set(), False
        self.words = ["check", "--jobs", str(max(driver.processors() // jobs, 1))]
        for number in (signal.SIGHUP, signal.SIGINT, signal.SIGTERM):
            signal.signal(number, interrupted)

    def end(self):
        """Ends what runs. Nothing begins afterwards."""
        self.is_ended = True
        for process in [*self.running]:
            with contextlib.suppress(ProcessLookupError):
                os.killpg(process.pid, signal.SIGKILL)

    def run(self, crate, folder, what):
        """What a check says of the crate in a folder."""
        began = time.monotonic()
        status, said = self.start(folder)
        if status < 0:
            # Most likely it was killed for memory.
            status, said = self.start(folder)
        print(f"edits: {crate}: {what}, {time.monotonic() - began:.0f} s", file=sys.stderr, flush=True)
        if status not in (0, 1, 3):
            raise SystemExit(f"edits: rt check of {crate} stopped with status {status}: {said[-300:].strip()}")
        return Said(crate, status, said)

    def start(self, folder):
        if self.is_ended:
            raise SystemExit(1)
        with subprocess.Popen(["rt", *self.words], cwd=folder, stdin=subprocess.DEVNULL, stdout=subprocess.PIPE,
                              stderr=subprocess.STDOUT, text=True, errors="replace", start_new_session=True) as process:
            self.running.add(process)
            said = process.communicate()[0]
            self.running.discard(process)
        return process.returncode, said


def interrupted(number, _):
    raise SystemExit(128 + number)


class Proved:
    """A crate that is proved as it is, in a room of its own from which each copy is made."""

    def __init__(self, name, checks, room):
        self.name, self.checks, self.room = name, checks, room
        # In place, so that what this proves of the crate and of those below it is kept for the next trial.
        with checks.slots:
            self.said = checks.run(name, build.crate(name), "as it is")
            if not self.said.is_proved:
                raise SystemExit(f"edits: {name} isn't proved as it is; rt check says more")
        copy(name, HOME, room)
        self.code = edited.Crate(name, room)

    @contextlib.contextmanager
    def changed(self, texts):
        """A copy with other texts, once no other check is in the way."""
        with self.checks.slots, tempfile.TemporaryDirectory() as room:
            copy(self.name, self.room, room)
            driver.write(build.crate(self.name, room), texts)
            yield Changed(self, build.crate(self.name, room))


class Changed:
    """A copy of a crate that is changed."""

    def __init__(self, proved, folder):
        self.proved, self.folder = proved, folder

    def check(self, what):
        return self.proved.checks.run(self.proved.name, self.folder, what)

    def drop(self, names, is_dropped):
        """Takes proofs of goals out of the files of some functions, by the function and the goal."""
        for name in {*names}:
            path = proofs_of(name)
            if os.path.exists(os.path.join(self.folder, path)):
                head, *proofs = driver.text(path, self.folder).rstrip().split("\n\n")
                goals = [re.search(r"^pub (\S+) :", it, re.M) for it in proofs]
                kept = [it for it, goal in zip(proofs, goals) if not (goal and is_dropped(name, goal[1]))]
                os.remove(os.path.join(self.folder, path))
                driver.write(self.folder, {path: "\n\n".join([head, *kept]) + "\n"})
