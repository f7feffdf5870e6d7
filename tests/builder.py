"""Marked texts, and runs of them, with what has to come out.

A marked text is a feature file in which each step that a report has ends with its status, such as ` ... passed`. The
heading of a scenario or a rule may end with the status of its hooks and cleanups, or that of a scenario with `untested`.
Steps that would pass or fail are skipped after one that doesn't pass.

`Run` has marked texts, other files and options. What has to come out follows from the marks, in each format of
tests/reports.py, or is given where no report is printed.
"""

import collections
import functools
import os
import re
import shlex

import blocks
import driver
from reports import Case, Feature, Report, Row, Rule, Style, explanation
from tables import FORMATS, VALUED

PATIENCE = 120  # seconds
HEADINGS = ("Feature", "Rule", "Background", "Scenario", "Example", "Scenario Outline", "Examples")
STATUS = re.compile("passed|failed.*|skipped|undefined|untested")
# The status of a scenario in which something has one, if nothing has one of those before.
JUDGED = (("untested", "untested"), ("failed", "failed"), ("undefined", "failed"), ("skipped", "skipped"))
# A part of a feature that has a heading: the mark of that, its steps, and the rows of its examples, each with its line.
Section = collections.namedtuple("Section", "keyword name line mark steps rows")


def fixes():
    """The fix of each fault in docs/FAULTS.md, up to an example or the end of its first sentence, without marks of code and links."""
    for entry in driver.text("docs/FAULTS.md").split("\n### ")[1:]:
        names, _, rest = entry.partition("\n")
        fix = re.search(r"\*\*Fix:\*\* ((?:`[^`]*`|[^`:.])*)", re.sub(r"\[([^]]*)\]\([^)]*\)", r"\1", rest))
        for name in re.findall("`([^`]*)`", names) if fix else ():
            yield name, fix[1].replace("`", "").replace("\n", " ")


# What --explain and --lint say of a fault, below its line.
HINTS = dict(fixes())


def scenario(*steps, name="s", keyword="Scenario"):
    """The marked text of a scenario. The steps are texts, with marks or passing."""
    return "\n".join([f"{keyword}: {name}", *(f"Given {it if ' ... ' in it else f'{it} ... passed'}" for it in steps), ""])


def quoted(text):
    """The lines of a doc string with a text. An empty text has no line."""
    return "\n".join(['"""', *([text] if text else []), '"""'])


# ---- reading marked texts

def parted(marked):
    """A line without its mark, and the mark."""
    line, found, status = marked.rpartition(" ... ")
    return (line, status) if found and STATUS.fullmatch(status) else (marked, "")


def unmarked(text):
    return "\n".join(parted(it)[0] for it in text.split("\n"))


def sections(text):
    """The parts of a marked text that have headings."""
    found = []
    for number, marked in enumerate(text.split("\n"), 1):
        line, mark = parted(marked)
        line = line.strip(" \t")
        keyword, colon, rest = line.partition(":")
        if colon and keyword in HEADINGS:
            found.append(Section(keyword, rest.strip(" \t"), number, mark or "passed", [], []))
        elif mark:
            steps, (keyword, _, rest) = found[-1].steps, line.partition(" ")
            is_over = mark.startswith(("passed", "failed")) and steps and steps[-1].status not in ("passed", "untested")
            steps.append(Row(keyword, number, rest, "skipped" if is_over else mark))
        elif line.startswith("|") and found[-1].keyword == "Examples":
            found[-1].rows.append((number, [it.strip(" \t") for it in line[1:-1].split("|")]))
    return found


def case(section, rows):
    """A scenario with these rows."""
    statuses = {section.mark, *(it.status.split(":")[0] for it in rows)}
    judged = next((given for status, given in JUDGED if status in statuses), "passed")
    around = "passed" if section.mark == "untested" else section.mark
    return Case(section.keyword, section.name, section.line, judged, rows, around)


def filled(steps, header, cells):
    """The rows of an outline's steps, with the cells of a row of examples in place of the names of its columns."""
    if not any("<" in it.text for it in steps):
        return steps
    texts = dict(zip(header, cells))
    return [it._replace(text=re.sub("<([^<>]*)>", lambda name: texts.get(name[1], name[0]), it.text)) for it in steps]


def outlined(outline, number, examples):
    """The scenarios of an outline from its examples of this number."""
    for place, (line, cells) in enumerate(examples.rows[1:], 1):
        name = f"{outline.name} -- @{number}.{place} {examples.name}".rstrip(" ")
        yield case(outline._replace(name=name, line=line), filled(outline.steps, examples.rows[0][1], cells))


def feature_of(text, source):
    """The feature that a report has of a marked text, or None if it has no heading of one."""
    found, cases, rules, backgrounds = None, [], [], [[], []]
    for it in sections(text):
        if it.keyword == "Feature":
            found = it
        elif it.keyword == "Rule":
            rules.append(Rule(it.line, it.mark))
            backgrounds[1] = []
        elif it.keyword == "Background":
            backgrounds[bool(rules)] = it.steps
        elif it.keyword == "Scenario Outline":
            outline, tables = it, 0
        elif it.keyword == "Examples":
            tables += 1
            cases += outlined(outline, tables, it)
        else:
            cases.append(case(it, [*backgrounds[0], *backgrounds[1], *it.steps]))
    return Feature(source, found.name, found.line, cases, rules=rules) if found else None


# ---- runs

class Run:
    """What is run, and what has to come out.

    The features are the marked text of a.feature, or marked texts by their paths. What has to come out is a report or an
    explanation of them, unless a `fault` or another text on standard error is given, or what is `printed`. The other files
    come in place of theirs if they have the same names. Without `formats` its caller decides in which it is tried. Format
    None leaves out the option."""

    def __init__(self, features, files=None, options=(), sources=None, fault="", err="", printed=None, status=3, formats=None):
        self.features = {"a.feature": features} if isinstance(features, str) else features
        self.files = {**{os.path.normpath(it): unmarked(text) for it, text in self.features.items()}, **(files or {})}
        self.options, self.sources = list(options), list(self.features) if sources is None else sources
        self.err = f"gherkin_run: {fault}\n" if fault else err
        self.printed, self.status = printed, status
        self.formats = formats if printed is None and not {"--explain", "--lint"} & set(self.options) else [None]

    def arguments(self, style):
        return [*(["--format", style] if style else []), *self.options, *self.sources]

    @functools.cached_property
    def report(self):
        found = {it: feature_of(text, it) for it, text in self.features.items()}
        return Report([found[it] for it in self.sources if found.get(it)])

    def trouble(self, folder, style, name=""):
        """What is wrong with the run in a folder of its own, or nothing."""
        driver.write(folder, self.files)
        arguments = self.arguments(style)
        ended = driver.start(driver.program(), arguments, folder, patience=PATIENCE)
        return driver.trouble(name or f"arguments {arguments}", ended, self.wanted(style))

    def wanted(self, style):
        if self.err or self.printed is not None:
            return self.status, (self.printed or "").encode(), self.err.encode()
        report = self.report
        if "--explain" in self.options:
            # All entries of l.steps are equally near to an undefined step.
            first = self.files.get("l.steps", "").partition(" => ")[0]
            return report.status(), explanation(report, first).encode(), b""
        return report.status(), report.text(Style(style or "plain", "--no-skipped" in self.options)), b""


# ---- runs that are blocks of pages

# An expression in an escape, as a text or as a number of texts; and a mark that depends on the size `n`.
EXPRESSION = re.compile(r'\\\{([a-z"(][^*}]*)([*}])')
MARK = re.compile(r" \.\.\. (.*; over .*)")


def expanded(template, names):
    """A text of a block, with the escapes of tests/runs/README.md. Expressions with these names may be its numbers and texts."""
    def status(mark):
        known = [it for over, it in re.findall(r"(?:^|; over (\d+) )([^;]*)", mark[1]) if names["n"] > int(over or -1)]
        return f" ... {known[-1]}"

    def value(found):
        value = str(eval(found[1], dict(names)))  # pylint: disable=eval-used
        return f"\\{{{value}*" if found[2] == "*" else value.replace("\\", "\\\\")

    return blocks.unescaped(EXPRESSION.sub(value, MARK.sub(status, template))).decode()


def files_of_block(files, block, words, names):
    """The files that the words of a command name, and a, with their texts. A # in a name makes a file for each number up to `n`."""
    for name, text in files.items():
        if "#" in name and name in block.text:
            for number in map(str, range(1, names["n"] + 1)):
                yield name.replace("#", number), expanded(text.decode().replace("#", number), names)
        name = expanded(name, names)
        if name == "a" or any(name in it for it in words):
            yield name, expanded(text.decode(), names)


def run_of_block(files, block, names):
    """A run that a block shows: its formats, if any, its command, what is printed if that is no report, and its status."""
    formats = re.search("(?m)^[^#$]*in (.*)", block.text.partition("$ ")[0])
    (command, printed), *status = blocks.commands(block)
    words, printed = shlex.split(expanded(command.decode(), names))[1:], expanded(printed.decode(), names)
    files = dict(files_of_block(files, block, words, names))
    is_source = [os.path.normpath(it) in files and before not in VALUED for before, it in zip(["", *words], words)]
    first = is_source.index(True) if any(is_source) else len(words)
    features = {it: files.pop(os.path.normpath(it)) for it in dict.fromkeys(words[first:]) if os.path.normpath(it) in files}
    is_fault = printed.startswith(("gherkin_run: ", "error: "))
    return Run(features, files, words[:first], words[first:], err=printed if is_fault else "",
               printed=printed if printed and not is_fault else None, status=int(status[0][1]) if status else 3,
               formats=re.findall("|".join(FORMATS), formats[1]) if formats else None)


def troubles(room, runs):
    """What is wrong with each of some runs in each of its formats, or nothing."""
    def trouble(numbered):
        number, (run, style) = numbered
        name = f"{run.arguments(style)}, {list(run.files.values())[-1:]}"
        return run.trouble(os.path.join(room, str(number)), style, driver.cut(name))

    return driver.on_all_processors(trouble, enumerate((run, style) for run in runs for style in run.formats or [None]))
