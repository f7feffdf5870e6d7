"""Runs the program on files that nobody would write.

- Random bytes, and random lines that look like Gherkin, like a library or like a hooks file.
- The lines of all examples, libraries and hooks files mixed: two files' lines in turn, and random lines of all of them.
- Random options.
- Each example whole; each prefix of its feature file, of its library and of its hooks file; each of these files with
  one byte changed, at every place, to a byte of a list, in turn. These aren't random, and tests/search.py leaves them out.

Each of these runs is made with a report of one format, plain, as progress or as JSON, and some with the flags of a
run, such as --stop. It has to end with status 0 or 1, the report that follows from one in JSON of the same run, whose
counts are those of its rows, and nothing on standard error; or with status 3, nothing on standard output and one line on
standard error; or, if options are hostile, with status 2 and nothing on standard output.
"""

import collections
import functools
import itertools
import os
import re

import driver
import search
from generator import BYTES, Maker
from reports import Report, in_json, style_of
from tables import FLAGS, FORMATS, RUN_FLAGS, VALUED

COUNT = 2400  # random cases
OWN_STYLE = {"--format", *RUN_FLAGS}
STYLES = [[("--format", it)] for it in FORMATS] + [[]]
RUN_OPTIONS = [*(it for flag in RUN_FLAGS for it in ([flag], [])), RUN_FLAGS]
# Words of options: those of the program that print a report or the help, and others.
OPTIONS = [
    *VALUED, *(it for it in FLAGS if it not in ("--explain", "--lint")), *FORMATS, *(f"--format={it}" for it in FORMATS),
    "--hooks=h.hooks", "h.hooks", "--", "-", "@a", "~@a,b", "@", ",", "a b", "0", "1", "4294967295", "4294967296",
    "A=b", "=", "A", "A=a.feature", "a.feature", "l.steps", "no", "", "--tags=@a", "--tags=", "--env=A=b=c", "--line=3",
    "--help", "--x", "\u00e9", "--library=l.steps", "\udcff", "xml", "--format=", "--stop=x",
]
# What the random options and the random hooks run.
OPTION_FILES = {
    "a.feature": b"@a\nFeature: f\nScenario: s\nGiven it passes\n",
    "l.steps": b"step it passes => pass\n",
    "h.hooks": b"before_all:\nGiven it passes\n",
}
PASSING = OPTION_FILES["a.feature"].replace(b"Sc", b"@a\nSc") + b"@a\nRule: r\nScenario: t\nGiven it passes\n"

# Options, each with its argument, the feature file, the files by their names, and whether the options may be refused.
Case = collections.namedtuple("Case", "options source files may_be_refused", defaults=(False,))
# A case of an example: its number, which example, which of its files is changed, where, and to which byte, or cut.
Change = collections.namedtuple("Change", "number example file place byte")


# ---- the examples, whole and changed

@functools.cache
def examples():
    """The options, the feature file and the files of each example. They are beside each other."""
    found = []
    for arguments in driver.examples():
        paths = [it for it in arguments if it.startswith("examples/")]
        files = {os.path.basename(it): driver.read(os.path.join(driver.HOME, it)) for it in paths}
        *own, source = [os.path.basename(it) if it in paths else it for it in arguments]
        rest = iter(own)
        found.append(([(it, next(rest)) if it in VALUED else (it,) for it in rest], source, files))
    return found


def changes():
    """The changes of all examples, with the example itself first."""
    numbers, turn = itertools.count(), itertools.cycle(BYTES)
    for example, (_, _, files) in enumerate(examples()):
        yield Change(next(numbers), example, None, 0, None)
        for file, text in files.items():
            for place in range(len(text)):
                yield Change(next(numbers), example, file, place, None)
                yield Change(next(numbers), example, file, place, next(turn))


def changed(change):
    options, source, files = examples()[change.example]
    if change.file:
        text, place = files[change.file], change.place
        rest = b"" if change.byte is None else bytes([change.byte]) + text[place + 1:]
        files = {**files, change.file: text[:place] + rest}
    return Case(options, source, files)


# ---- random cases

@functools.cache
def example_lines():
    """The lines of each feature file, library and hooks file of the examples, by its name."""
    names = sorted(it for it in os.listdir(driver.EXAMPLES) if it.endswith((".feature", ".steps", ".hooks")))
    return {it: driver.read(os.path.join(driver.EXAMPLES, it)).splitlines(keepends=True) for it in names}


def mixed(generator):
    """Lines of one file mixed into another's."""
    chance, texts = generator.chance, example_lines()
    one = texts[chance.choice([it for it in texts if it.endswith(".feature")])]
    other = texts[chance.choice(list(texts))]
    lines = list(one)
    if chance.random() < 0.25:
        lines = [line for pair in zip(one, other) for line in pair]
    else:
        for _ in range(chance.randrange(1, 4)):
            lines.insert(chance.randrange(len(lines) + 1), chance.choice(other))
    files = {"a.feature": b"".join(lines)}
    if chance.random() < 0.5:
        return Case([], "a.feature", files)
    libraries = [line for it, own in texts.items() if it.endswith(".steps") for line in own]
    library = chance.sample(libraries, chance.randrange(len(libraries)))
    return Case([("--library", "l.steps")], "a.feature", {**files, "l.steps": b"".join(library)})


def random_case(generator, kind):
    """Mixed lines, random bytes, or random lines: of a feature file and of a library, of hooks, or options before a file."""
    if kind == "mixed":
        return mixed(generator)
    if kind == "bytes":
        return Case([], "a.feature", {"a.feature": generator.bytes(400)})
    if kind == "lines":
        files = {"a.feature": b"Feature: f\n" + generator.lines(".feature", 12), "l.steps": generator.lines(".steps", 6)}
        return Case([("--library", "l.steps")] if generator.is_own else [], "a.feature", files)
    if kind == "hooks":
        return Case([("--hooks", "h.hooks")], "a.feature", {"h.hooks": generator.lines(".hooks", 10), "a.feature": PASSING})
    options = generator.chance.choices(OPTIONS, k=generator.chance.randrange(6))
    return Case([(it,) for it in options], "a.feature", OPTION_FILES, may_be_refused=True)


KINDS = ("mixed", "bytes", "mixed", "lines", "hooks", "options")


# ---- how a run ends

def has_ended_well(case, runs, arguments, status, out, err):
    if status in (0, 1):
        is_help = case.may_be_refused and status == 0 and b"Usage:" in out
        return not err and (is_help or is_report(runs, arguments, status, out))
    if status == 3:
        return not out and re.fullmatch(rb"gherkin_run: [^\n]*\n", err) is not None
    return case.may_be_refused and status == 2 and not out and bool(err)


def is_report(runs, arguments, status, text):
    """Whether a text is the report of a run with that status, by what the same run says in JSON."""
    style, words = style_of(arguments), in_json(arguments)
    ended = (status, text, b"") if words == arguments else runs.run(words)
    try:
        report = Report.of(ended[1])
    except ValueError:
        return False
    return (ended[0], ended[2], report.status(), report.text(style)) == (status, b"", status, text)


# ---- cases

def case(key):
    """A case. It has options for the report and the run in turn, unless these are hostile, or an example has some."""
    if isinstance(key, Change):
        made, turn = changed(key), key.number
    else:
        # Kinds of cases take turns, so the options change more slowly.
        turn, kind = divmod(key, len(KINDS))
        made = random_case(Maker(turn), KINDS[kind])
    if made.may_be_refused or OWN_STYLE & {it for option in made.options for it in option}:
        return made
    added = STYLES[turn % len(STYLES)] + [(it,) for it in RUN_OPTIONS[turn % len(RUN_OPTIONS)]]
    return made._replace(options=[*added, *made.options])


def troubles(case, runs):
    runs.write(case.files)
    arguments = [*(it for option in case.options for it in option), case.source]
    status, out, err = runs.run(arguments)
    yield "" if has_ended_well(case, runs, arguments, status, out, err) else f"status {status}\n  {out}\n  {err}"


TESTER = search.Tester(COUNT, case, troubles, changes)
