"""Each growth of memory is refused, one after another.

Each example, and each run of refused_memory.md, refused_hooks.md and refused_rules.md, is run with its growth 1, 2, 3,
.. refused, until a run meets no refusal. Each run has to end by itself, in one of four ways:

- `stopped`: with status 4, 'gherkin_run: out of memory' on standard error, and on standard output the beginning of the
  report with ample memory, up to the end of a feature's part;
- `marked`: with status 4, nothing on standard error, and the report with ample memory except one mark: a step, or the
  hooks and cleanups of a scenario, a rule, a feature or the run, are memory; what wasn't reached then is untested, and
  the verdicts and counts follow;
- `unharmed`: as with ample memory, to the last byte. The standard library asks for room for a whole list at once if it
  can guess its length; if that is refused it asks for less, and the run goes on. So the growth after the refused one
  has to be of no more bytes;
- `told`: as with ample memory, a fault, if the growth was one of the last. The program makes the line of a fault in
  memory to write it at once, and writes it piece by piece if there is no room.

In each case some run has to stop as each piece of the report is made, when those before it are written. A page may show
a report with which some run has to end. Some are run with --explain, too: then the beginning of the explanation is
written, or one event of it is memory, or it is as with ample memory.
"""

import collections
import itertools
import os
import re

import driver
import stored_cases
import tables
from checks import Refusing
from reports import MEMORY, Ample, in_json

PAGES = ("refused_memory.md", "refused_hooks.md", "refused_rules.md")
# The runs that are explained, too.
EXPLAINED = ["Two files and all options", "Each action", "Hooks of all kinds", "A scenario that skips itself",
             "A run that doesn't begin", "A cleanup after a refused table", "A run that stops", "Rules whose hooks fail"]
# How often the line of a fault grows, at most.
LAST = 8
# The stored runs of what is found before a run.
LINTED = ["Each finding", "Several files", "A fault in each of many files"]


def options_named_nowhere():
    """The run of two files with each option that no run of PAGES names."""
    cases = list(stored_cases.cases(*PAGES))
    named = {os.fsdecode(word) for it in cases for word in it.arguments}
    two = next(it for it in cases if it.name == "Two files")
    for option in tables.OPTIONS:
        if option.beside_report and f"--{option.name}" not in named | {"--explain", "--lint"}:
            yield f"{two.name} and --{option.name}", ([*tables.given(option), *map(os.fsdecode, two.arguments)], two.files, "")


def scenarios_of_built_in_steps():
    """A scenario for each built-in step, with a doc string below those that end with a colon."""
    values = {"n:d": "1", "step": "it passes"}
    for step in tables.STEPS:
        text = re.sub(r"\{([^}]*)\}", lambda it: values.get(it[1], "x"), step.text)
        yield f"Scenario: {text}\nGiven {text}\n" + '"""\nx\n"""\n' * text.endswith(":")


def shown_runs():
    """The runs of PAGES by their names: the arguments, the files, and a report with which some run has to end, or
    nothing. Options that no page names and the built-in steps are tried, too. A part that has several pieces is written in
    each format."""
    for it in stored_cases.cases(*PAGES):
        yield it.name, (list(map(os.fsdecode, it.arguments)), it.files, it.stdout.decode())
    yield from options_named_nowhere()
    yield "Each built-in step", (["a.feature"], {"a.feature": "Feature: f\n" + "".join(scenarios_of_built_in_steps())}, "")
    long = next(it for it in stored_cases.cases("failing_writes.md") if it.name == "A part of several pieces")
    for form in tables.FORMATS:
        yield f"{long.name} as {form}", (["--format", form, *map(os.fsdecode, long.arguments)], long.files, "")


RUNS = dict(shown_runs())


# A run, and what it does with ample memory.
Case = collections.namedtuple("Case", "name arguments folder ample")


class AmpleText:
    """What a run with --explain or --lint does with ample memory, and how a run with a refused growth ends beside it."""

    # It is no report, and its pieces aren't worked out.
    beginnings = pieces = ()

    def __init__(self, ended, is_explained):
        self.ended, self.is_explained = ended, is_explained

    def is_read_well(self):
        """Whether an explanation ends with the counts of a report, or something is found, or several files don't read."""
        status, printed, complained = self.ended
        if self.is_explained:
            return complained == b"" and re.search(rb"(?m)^\d+ steps? passed, ", printed) is not None
        is_found, is_unread = complained == b"" and printed != b"", printed == b"" and complained.count(b"gherkin_run: ") > 1
        return (status, is_found, is_unread) in ((1, True, False), (3, False, True))

    def ending(self, ended):
        """How a run ends: as one of ENDINGS but the last, or nothing where it ends otherwise.

        What is found is written as one piece, or not at all. A run that is marked explains the one section, or the one
        scenario, in which an event is marked."""
        status, printed, complained = ended
        if ended == self.ended:
            return "unharmed"
        if (status, complained) == (4, MEMORY):
            return "stopped" if (self.ended[1] if self.is_explained else b"").startswith(printed) else None
        events = re.findall(rb"(?m)^  \S.* \.\.\. memory$", printed)
        closing = printed.rpartition(b"\n\n")[2]
        is_marked = self.is_explained and (status, complained) == (4, b"") and len(events) == 1 and b" memory" in closing
        return "marked" if is_marked else None


ENDINGS = ("stopped", "marked", "unharmed", "told", "unmet", "before")


class OfGrowths(Refusing):
    """The tests of both programs."""

    def start(self, arguments, folder, environment=None):
        return driver.start(self.program, arguments, folder, environment)

    def in_json(self, arguments, folder):
        return self.start(in_json(arguments), folder)

    def ending(self, case, number):
        """How the run ends whose growth of a number is refused, and what was written.

        The first is one of ENDINGS. An ending that isn't allowed is said in words."""
        log = os.path.join(self.room, f"met.{number % 64}.{os.getpid()}")
        if os.path.exists(log):
            os.remove(log)
        ended = self.start(case.arguments, case.folder, driver.limited(self.room, REFUSE=number, REFUSE_LOG=log))
        met = driver.read(log).strip() if os.path.exists(log) else b"ended by a signal"
        ending = "before" if ended == NOT_BEGUN else case.ample.ending(ended)
        if ending == "before" or met == b"retried" and ending or met == b"met" and ending in ("stopped", "marked"):
            return ending, ended[1]
        if ending == "unharmed" and (met == b"unmet" or met == b"met" and ended[2]):
            return "unmet" if met == b"unmet" else "told", ended[1]
        return f"{case.name}, growth {number} refused: {met.decode()}, {ended}", ended[1]

    def endings(self, case):
        """How each run ends, up to the first that meets no refusal."""
        told = []
        for first in itertools.count(1, 64):
            numbers = range(first, first + 64)
            for refused, ending in zip(numbers, driver.on_all_processors(lambda it: self.ending(case, it), numbers)):
                yield ending
                if ending[0] == "told":
                    told.append(refused)
                if ending[0] == "unmet":
                    yield from ((f"{case.name}, growth {it} refused: no trace", b"") for it in told if it < refused - LAST)
                    return

    def try_case(self, name, arguments, folder):
        """Makes all runs of a case: what the one with ample memory does, how the others ended, and what each ending wrote."""
        ended = self.start(arguments, folder)
        if {"--explain", "--lint"} & {*arguments}:
            ample = AmpleText(ended, "--explain" in arguments)
        else:
            ample = Ample(arguments, ended, self.in_json(arguments, folder))
        self.unless(f"{name}: its rows give other counts or statuses", ample.is_read_well(), ended)
        endings, written = [], collections.defaultdict(set)
        for ending, printed in self.endings(Case(name, arguments, folder, ample)):
            self.check("" if ending in ENDINGS else ending)
            endings.append(ending)
            written[ending].add(printed)
        _, _, seen = RUNS.get(name, ("", "", ""))
        if seen:
            self.unless(f"{name}: no run ended with\n{seen}", seen.encode() in written["marked"])
        return ample, endings, written


class RefusedMemory(OfGrowths):
    def try_run(self, name, arguments, files=None):
        """Tries a run over files in a folder of its own, or from the top of the repository."""
        folder = driver.HOME if files is None else os.path.join(self.room, name.replace(" ", "_"))
        driver.write(folder, files or {})
        ample, endings, written = self.try_case(name, arguments, folder)
        self.unless(f"{name}: no run stopped", "stopped" in endings)
        # Each piece is made when those before it are written, so some run ends at each of them.
        for before in (it for it, piece in zip(ample.beginnings, ample.pieces) if piece):
            self.unless(f"{name}: no run stopped after {len(before)} bytes, where a piece is made",
                        before in written["stopped"])

    def test_examples(self):
        for arguments in driver.examples():
            self.try_run(arguments[-1], arguments)

    def test_findings(self):
        for case in stored_cases.cases():
            if case.page.startswith("lint") and case.name in LINTED:
                self.try_run(case.name, [it.decode() for it in case.arguments], case.files)


def add_test(name, *run):
    words = "_".join(re.findall("[a-z0-9]+", name.lower()))
    setattr(RefusedMemory, f"test_{words}", lambda self: self.try_run(name, *run))


for _name, (_arguments, _files, _) in RUNS.items():
    add_test(_name, _arguments, _files)
    if _name in EXPLAINED:
        add_test(f"{_name}, --explain", ["--explain", *_arguments], _files)


# ---- inside of the libraries

BUILT = os.path.join(driver.HOME, "crates", "gk_refusals", "out", "gk_refusals")
FEATURE, HOOKS = "a.feature", "h.hooks"
# Runs of tests/refused_memory.md and tests/refused_rules.md, of one feature file and at most a hooks file.
HOOKS_OF_TAGS = "Hooks of tags"
# No step and no hook of a tag is run in it, so nothing has to be marked.
NOT_BEGUN_FEATURE = "Hooks of tags of a feature that isn't begun"
NAMES = (
    "Files of a feature that a scenario takes away",
    "A cleanup after a refused table",
    "A number of a feature",
    "Cleanups, the last first",
    HOOKS_OF_TAGS,
    "Three scenarios that do the same",
    "A layer for each rule",
)
NOT_BEGUN = 4, b"", b"not begun\n"
# What the program writes of a sandbox with nothing in it and no layer open.
EMPTY = b"depth 0, recorded 0, files [], variables [], values []\n"
# What is written if a file is removed in a layer: the results of the removal and of the change after it, whether the file was
# there then, and that it is there again after the layer, and the file that was put in the layer isn't. In the order in which
# growths are refused: in the removal, after it, nowhere.
REMOVED = [f"removal {removal}, next {following}\nin the layer {is_there}\nafter it Some(\"one\") None\ndepth 0, recorded 0\n".encode()
           for removal, following, is_there in (("Err(Memory)", "Ok(())", "true"), ("Ok(())", "Err(Memory)", "false"),
                                                ("Ok(())", "Ok(())", "false"))]


# What the calls come to that no run of the program makes, and what each comes to if memory is refused in it.
CALLS = {
    b"read_lines Ok(4)": [b"read_lines Err(Memory)"],
    b"expand Ok(1)": [b"expand Err(Memory)"],
    b"run_case Ok(Passed)": [b"run_case Ok(Memory)", b"run_case Err(NoRoom)"],
    b"run_feature Ok(Passed)": [b"run_feature Ok(Memory)", b"run_feature Err(NoRoom)"],
    b"part Ok(168)": [b"part Err(AllocError)"],
    # In its beginning, in its feature, and at its end.
    b"suite Ok(Passed), Passed": [b"suite Ok(Untested), Memory", b"suite Ok(Memory), Passed", b"suite Err(NoRoom), Passed",
                                  b"suite Ok(Passed), Memory"],
}


class RefusedInside(OfGrowths):
    """The test program of crates/gk_refusals runs through `run_suite`.

    After a run no layer of the sandbox is open, no change is recorded, and its listing is empty. If the growth is
    refused before the run begins, nothing is run. A file that is removed in a layer is there after it, whichever growth
    was refused. Of the calls that no run of the program makes, only the one in which memory was refused says so."""

    @property
    def program(self):
        return os.environ.get("GHERKIN_REFUSALS") or BUILT

    @classmethod
    def setUpClass(cls):
        super().setUpClass()
        if "GHERKIN_REFUSALS" not in os.environ and not os.path.exists(BUILT):
            cls.leave_out("rt run in crates/gk_refusals builds its program")

    def start(self, arguments, folder, environment=None):
        """Runs the program, and answers what gherkin_run would have ended with.

        Where the sandbox isn't empty afterwards, or the status isn't that of the answer, it is what
        the program said, which no run of gherkin_run ends with."""
        status, printed, err = super().start(arguments, folder, environment)
        said = {b"Ok(%d)\n" % status if isinstance(status, int) else b"": b"", b"Err(Memory)\n": MEMORY}
        is_empty = err.endswith(EMPTY) and err.removesuffix(EMPTY) in said
        return status, printed, said[err.removesuffix(EMPTY)] if is_empty else err

    def in_json(self, arguments, folder):
        """The report of gherkin_run itself."""
        hooks = ["--hooks", HOOKS] if HOOKS in arguments else []
        return driver.start(driver.program(), ["--format", "json", *hooks, FEATURE], folder)

    def try_inside(self, name, files):
        folder = os.path.join(self.room, re.sub(r"\W+", "_", name))
        driver.write(folder, files)
        arguments = [it for it in (FEATURE, HOOKS) if it in files]
        self.assertEqual(len(arguments), len(files), name)
        ample, endings, written = self.try_case(name, arguments, folder)
        self.unless(f"{name}: with ample memory it ended with {ample.ended}", ample.report is not None)
        # Growths are refused in their order, so all that come before the run have lower numbers.
        begun = itertools.dropwhile(lambda it: it not in ("stopped", "marked"), endings)
        self.unless(f"{name}: a later run wasn't begun", "before" not in begun)
        if name != NOT_BEGUN_FEATURE:
            self.unless(f"{name}: no run ended with a mark of memory", written["marked"])

    def test_runs(self):
        for name in NAMES:
            self.try_inside(name, RUNS[name][1])

    def test_hook_before_the_feature_fails(self):
        files = RUNS[HOOKS_OF_TAGS][1]
        self.try_inside(NOT_BEGUN_FEATURE, {**files, HOOKS: b"before_feature:\nGiven it fails\n" + files[HOOKS]})

    def test_single_calls(self):
        log, found = os.path.join(self.room, "calls.log"), set()
        for number in itertools.count(1):
            status, printed, said = driver.start(self.program, ["calls"], self.room,
                                                 driver.limited(self.room, REFUSE=number, REFUSE_LOG=log))
            is_met = driver.read(log) != b"unmet\n"
            if is_met and (status, printed, said) == NOT_BEGUN:
                self.check("")
                continue
            changed = [(call, it) for call, it in zip(CALLS, said.splitlines()) if call != it]
            is_well = (status, printed, said.count(b"\n")) == (0, b"", len(CALLS)) and len(changed) <= is_met
            self.unless(f"calls, growth {number} refused: {said}", is_well and all(it in CALLS[call] for call, it in changed))
            found.update(it for _, it in changed)
            if not is_met:
                break
        self.same("what calls come to in which memory was refused", sorted(found), sorted(sum(CALLS.values(), [])))

    def test_removed_file(self):
        log, found = os.path.join(self.room, "removed.log"), []
        for number in itertools.count(1):
            ended = driver.start(self.program, [], self.room, driver.limited(self.room, REFUSE=number, REFUSE_LOG=log))
            is_met = driver.read(log) != b"unmet\n"
            if is_met and ended == NOT_BEGUN:
                self.check("")
                continue
            is_well = ended[:2] == (0, b"") and ended[2] in (REMOVED if is_met else REMOVED[2:])
            self.unless(f"a file is removed, growth {number} refused: {ended}", is_well)
            # A refused growth that was a guess is asked for again, and harms nothing.
            found += [] if is_met and ended[2] == REMOVED[2] else [ended[2]]
            if not is_met:
                break
        in_order = [it for it, _ in itertools.groupby(found)]
        self.same("the results if a file is removed in a layer", in_order, REMOVED)
