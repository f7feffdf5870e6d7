"""What each row of the tables of options and actions refuses, and what --lint says of each fault, with texts by rule.

The texts are those of clap, of a library's faults and of docs/FAULTS.md. The stored runs of usage.md, usage_explain_lint.md,
library_fields.md and lint_faults.md have one case of each kind, written by hand.
"""

import os
import re

import driver
import stored_cases
import tables
from builder import HINTS
from checks import Checks

FEATURE = "Feature: one\n  Scenario: first\n    Given it passes\n"
USAGE = "\nUsage: gherkin_run [OPTIONS] <FILE>...\n"
HELP = "\nFor more information, try '--help'.\n"
KINDS = {"n": ":d"}
# Faults of which --lint says more than the fix in docs/FAULTS.md.
WITH_CAUSES = ("unexpected line", "unknown action", "missing field", "wrong kind of field", "ambiguous with an earlier line")
FAULT = re.compile(r"gherkin_run: .*:\d+: (.*)\n")
# What --lint escapes in the name of a file.
COMMAND = re.compile(r"##([A-Za-z]*)\[")


def named(option):
    """An option as clap names it, with its value."""
    return f"--{option.name} <{option.value}>" if option.value else f"--{option.name}"


def given(option):
    return "=".join(tables.given(option))


def pattern(fields, other=""):
    """A pattern with these fields. The field `other` is of the kind that it should not be."""
    kinds = {it: ("" if it in KINDS else ":d") if it == other else KINDS.get(it, "") for it in fields}
    return " and ".join(f'"{{{it}{kind}}}"' for it, kind in kinds.items()) or "nothing"


class ByRule(Checks):
    def setUp(self):
        driver.write(self.room, {"a.feature": FEATURE})

    def refuses(self, words, status, text):
        ended = driver.start(self.program, [*words, "a.feature"], self.room)
        self.compare(" ".join(words), ended, (status, b"", text.encode()))

    def test_options_given_twice(self):
        for it in tables.OPTIONS:
            if it.takes in ("Nothing", "Text"):
                self.refuses([given(it)] * 2, 2, f"error: the argument '{named(it)}' cannot be used multiple times\n{USAGE}{HELP}")

    def test_options_without_value(self):
        for it in tables.OPTIONS:
            if it.value:
                text = f"error: a value is required for '{named(it)}' but none was supplied\n{HELP}"
                ended = driver.start(self.program, ["a.feature", f"--{it.name}"], self.room)
                self.compare(f"--{it.name} without a value", ended, (2, b"", text.encode()))

    def test_flags_with_value(self):
        for it in tables.OPTIONS:
            if not it.value:
                usage = f"\nUsage: gherkin_run --{it.name} <FILE>...\n"
                text = f"error: unexpected value 'yes' for '--{it.name}' found; no more were expected\n{usage}{HELP}"
                self.refuses([f"--{it.name}=yes"], 2, text)

    def test_options_that_clash(self):
        for name, others in tables.written.EXCLUDED.items():
            lint = ["--lint"] if name == "no-steps" else []
            for it in others:
                # --explain and --lint exclude each other, and --explain is named first.
                first, second = (it.name, name) if it.name == "explain" else (name, it.name)
                text = f"error: the argument '--{first}' cannot be used with '--{second}'\n{USAGE}{HELP}"
                self.refuses([*lint, f"--{name}", given(it)], 2, text)
                self.refuses([given(it), f"--{name}", *lint], 2, text)

    def test_options_that_need_another(self):
        for it in tables.OPTIONS:
            if not it.beside_report:
                self.refuses([f"--{it.name}"], 2, f"error: the argument '--{it.name}' needs '--lint'\n{USAGE}{HELP}")

    def library_refuses(self, entry, fault):
        driver.write(self.room, {"lib.steps": f"{entry}\n"})
        self.refuses(["--library=lib.steps"], 3, f"gherkin_run: lib.steps:1: {fault}\n")

    def test_missing_fields(self):
        for action in tables.ACTIONS:
            # A step without the field `text` takes its doc string.
            for field in set(action.uses) - {"text"}:
                fields = [it for it in action.uses if it != field]
                self.library_refuses(f"step {pattern(fields)} => {action.name}", "missing field")

    def test_fields_of_the_wrong_kind(self):
        for action in tables.ACTIONS:
            for field in action.uses:
                self.library_refuses(f"step {pattern(action.uses, field)} => {action.name}", "wrong kind of field")


class Hints(Checks):
    """What --lint says of each fault of a stored run: the fault, its line, and the fix of docs/FAULTS.md."""

    def faults(self):
        """The stored runs that end with a fault of a line, each with the fault. They are without --lint, and could be with it."""
        left_out = {"--lint", *tables.REFUSED_BY_LINT}
        for case in stored_cases.cases():
            fault = FAULT.fullmatch(case.stderr.decode(errors="replace"))
            if case.status == 3 and fault and left_out.isdisjoint(map(os.fsdecode, case.arguments)):
                yield case, fault

    def linted(self, number, case):
        """What --lint says of the files of a stored run, as lines."""
        folder = os.path.join(self.room, str(number))
        stored_cases.lay(case, folder)
        ended = driver.start(self.program, ["--lint", *map(os.fsdecode, case.arguments)], folder)
        return ended[2].decode(errors="replace").split("\n")

    def test_each_fault(self):
        hints = set()
        for number, (case, fault) in enumerate(self.faults()):
            lines = self.linted(number, case)
            name = f"--lint of {case.page}.md, {case.name}"
            begin = COMMAND.sub(r"##\1\\u{5b}", fault[0].removesuffix("\n"))
            self.unless(f"{name} lacks {begin}: {lines}", begin in lines)
            if fault[1] not in WITH_CAUSES and begin in lines:
                self.same(name, lines[lines.index(begin) + 2:][:1], [f"    {HINTS[fault[1]]}"])
                hints.add(fault[1])
        self.unless(f"only {hints} have hints", len(hints) >= 10)
