"""Random texts, names, steps, features, suites and bytes, by a seed: what the random testers of tests/ are made of.

Lists, dicts and named tuples are the parts of a suite, so that tests/search.py can drop each of them: a step with its
block is one part, and what is left is read as well as before.
"""

import collections
import os
import random
import re

import blocks
import driver

TAGS = ["@a", "@b", "@c"]
FILES = ["f", "g"]
KEYS = ["v", "w"]  # of variables and values
NUMBERS = [0, 1, -3, 7, 2**63 - 1]
TEXTS = ["x", "yy", "y z", "1", "-7", "9223372036854775807"]
LONG_TEXTS = [*TEXTS, "\u00fc" * 40, "l" * 3000]
NAMES = ["a", "b", "c", "d e", "\u00e9", "n" * 255]
BAD_NAME = "n" * 256
KEYWORDS = ("Given", "When", "Then", "And", "But", "*")
# The sections from the run inwards, as hooks call them.
SECTIONS = ["all", "feature", "rule", "scenario"]

# The built-in library, and one that a suite may have.
DEFAULT = driver.read(os.path.join(driver.EXAMPLES, "default.steps")).decode()
SHOWN = {it.name: blocks.bytes_of(it).decode() for it in blocks.blocks(driver.read(os.path.join(driver.HOME, "tests", "random.md")).decode())}
LIBRARY = SHOWN["own.steps"]


def entries(library):
    """The actions of a library's entries, each with the text of its steps, in order.

    A text has `{file}` in place of a file's name, `{key}` for that of a variable or a value, and `{number}`."""
    for line in library.splitlines():
        text, action = line.partition(" ")[2].split(" => ")
        yield action, text.replace("{name}", "{file}" if "file" in action else "{key}").replace("{n:d}", "{number}")


def table(library, unknown):
    """The texts of steps by their actions, with `write_block` for a file's text in a block, and one that is undefined."""
    is_block = {text: action == "write_file" and "{text}" not in text for action, text in entries(library)}
    return {"write_block" if is_block[text] else action: text for action, text in entries(library)} | {"nothing": unknown}


BUILT_IN, OWN = table(DEFAULT, "nothing knows {file}"), table(LIBRARY, "what {file}")
WITH_BLOCKS = ("write_block", "write_files")
# Steps that usually pass, and make what others work on.
CHANGING = ("write_file", "set_env", "set_value", "set_number", "pass", "file_exists", "at_cleanup")
# Steps that pass one after another: the first two make what the next two change.
PASSING = ("write_file", "set_value", "append_file", "add_number", "pass")

# A feature or a rule, whose background is None if it has none; a scenario, whose examples are None if it is no outline; and
# examples. A step is the tuple of its lines.
Part = collections.namedtuple("Part", "tags heading background scenarios")
Scenario = collections.namedtuple("Scenario", "tags heading steps examples")
Examples = collections.namedtuple("Examples", "tags rows")
# Feature files and hooks by their names, the lines of a library, options, texts of tags, and the options with some of these.
Suite = collections.namedtuple("Suite", "features hooks library options texts choices")

# The bytes that take the place of others: no text, line ends, blanks, the marks of Gherkin and of patterns, and the
# beginnings and middles of longer characters.
BYTES = b'\x00\xff\n\r\t :#@*|"`\\<>{}=~,\xc3\xa9\xef\x80'
# Lines of each kind of file.
LINES = {it: SHOWN[it].split("\n")[:-1] for it in (".feature", ".steps", ".hooks")}


def first_given(steps):
    """The same steps where others precede them: the first has the type that it had at the beginning."""
    if not steps:
        return steps
    keyword, _, text = steps[0][0].partition(" ")
    return [(f"Given {text}", *steps[0][1:]), *steps[1:]] if keyword in ("And", "But", "*") else steps


def lines_of(steps):
    return [line for step in steps for line in step]


def text_of(parts):
    lines = []
    for tags, heading, background, scenarios in parts:
        lines += [*tags, heading, *([] if background is None else ["Background:", *lines_of(background)])]
        for tags_of_scenario, own, steps, examples in scenarios:
            lines += [*tags_of_scenario, own, *lines_of(steps)]
            lines += [*examples.tags, "Examples: e", "| name | row |", *examples.rows] if examples else []
    return "\n".join(lines) + "\n"


def text_of_hooks(hooks):
    return "".join("\n".join([f"{name}:", *lines_of(steps), ""]) for name, steps in hooks.items())


def holds(text, tags):
    """Whether a text of tags holds of a set of tags: as Python reads it, with True or False for each tag."""
    words = text.replace("~", " not ").replace(",", " or ")
    return eval(re.sub(r"@?\b([abc])\b", lambda it: str(f"@{it[1]}" in tags), words))  # pylint: disable=eval-used


class Maker:
    """Makes the parts of suites by chance. With an odd seed they have the steps of their own library."""

    def __init__(self, seed):
        self.chance = random.Random(seed)
        self.is_own = seed % 2 == 1
        self.table = OWN if self.is_own else BUILT_IN
        self.actions = [it for it in self.table if it not in WITH_BLOCKS] + ["pass", "pass", "at_cleanup"]
        self.changing = [it for it in CHANGING if it in self.table] + ["pass"]

    # ---- texts and steps

    def word(self, kind):
        if kind == "step":
            return self.text()
        words = {"file": FILES, "to": ["g"], "key": KEYS, "text": TEXTS, "number": NUMBERS}
        return str(self.chance.choice(words[kind]))

    def text(self):
        action = self.chance.choice(self.actions if self.chance.random() < 0.3 else self.changing)
        return re.sub(r"\{(\w+)\}", lambda it: self.word(it[1]), self.table[action])

    def step(self):
        """A step, some with a block."""
        chance, kind = self.chance, self.chance.random()
        if kind < 0.08:
            block = ('"""', chance.choice(["one", "two\n  three"]), '"""')
            return ("Given " + self.table["write_block"].format(file="f"), *block)
        if kind < 0.13:
            rows = [f"| {chance.choice([*FILES, ''])} | {chance.choice(TEXTS)} |" for _ in range(chance.randrange(3))]
            return ("When " + self.table["write_files"], "| name | text |", *rows)
        block = ('"""', "a block", '"""') if kind < 0.16 else ()
        return (f"{chance.choice(KEYWORDS)} {self.text()}", *block)

    def steps(self, most):
        return [self.step() for _ in range(self.chance.randrange(most + 1))]

    def checks(self):
        """Texts of steps of which each passes if something is what it says."""
        texts = [("value_is", {"key": "v", "text": str(number)}) for number in range(1, 6)]
        texts += [("file_is", {"file": "f", "text": "x" * number}) for number in range(1, 6)]
        return [self.table[action].format(**words) for action, words in texts]

    def passing(self):
        """Texts of the steps of PASSING."""
        words = {"file": "f", "key": "v", "number": 1}
        return [self.table[it].format(text="1" if it == "set_value" else "x", **words) for it in PASSING]

    # ---- texts of tags

    def tags(self):
        tags = [it for it in TAGS if self.chance.random() < 0.2]
        return [" ".join(tags)] if tags else []

    def joined(self, *parts):
        """Parts of an expression. Between them are blanks, or none if one has a parenthesis there."""
        text = parts[0]
        for part in parts[1:]:
            may_be_none = text.endswith(("(", ")")) or part.startswith(("(", ")"))
            text += self.chance.choice(["", " "] if may_be_none else [" ", " ", "\t", "  "]) + part
        return text

    def several(self, operator, make, depth):
        """Some parts with an operator between them."""
        texts = [make(depth) for _ in range(self.chance.choice([1, 1, 2, 3]))]
        return self.joined(texts[0], *(it for text in texts[1:] for it in (operator, text)))

    def expression(self, depth=3):
        return self.several("or", self.term, depth)

    def term(self, depth):
        return self.several("and", self.factor, depth)

    def factor(self, depth):
        """A tag, a negation, or an expression in parentheses."""
        kind = self.chance.random() if depth else 1
        if kind < 0.3:
            return self.joined("(", self.expression(depth - 1), ")")
        return self.joined("not", self.factor(depth - 1)) if kind < 0.6 else self.chance.choice(TAGS)

    def alternatives(self):
        """A text of the old form."""
        chosen = [(self.chance.choice(["", "~"]), self.chance.choice(TAGS)) for _ in range(2)]
        return ",".join(tilde + tag[self.chance.randrange(2):] for tilde, tag in chosen)

    # ---- features, hooks and suites

    def scenario(self, name):
        chance = self.chance
        if chance.random() < 0.75:
            return Scenario(self.tags(), f"Scenario: {name}", self.steps(5), None)
        rows = [f"| {chance.choice(FILES)} | {row} |" for row in range(chance.randrange(1, 4))]
        step = "Then " + self.table["file_is"].format(file="<name>", text="<row>")
        return Scenario(self.tags(), f"Scenario Outline: {name} <row>", [*self.steps(3), (step,), *self.steps(1)],
                        Examples(self.tags(), rows))

    def part(self, heading, name):
        """A part with this heading, whose scenarios have names that begin like that."""
        background = self.steps(2) if self.chance.random() < 0.4 else None
        scenarios = [self.scenario(f"{name}{number}") for number in range(self.chance.randrange(5))]
        return Part(self.tags(), heading, background, scenarios)

    def feature(self, name):
        """A feature's part, and those of its rules."""
        rules = range(self.chance.choice([0, 0, 1, 2, 3]))
        return [self.part(f"Feature: {name}", f"{name} "), *(self.part(f"Rule: r{it}", f"{name} r{it} ") for it in rules)]

    def hooks(self):
        """The steps of hooks by their names, such as `before_rule` and `after_tag @a`; most are missing."""
        kinds = [*SECTIONS, *(f"tag {it}" for it in TAGS)]
        names = [f"{when}_{kind}" for when in ("before", "after") for kind in kinds]
        chosen = [it for it in names if self.chance.random() < 0.3]
        hooks = {it: [self.hook_step(it), self.hook_step(it)] for it in chosen}
        if self.chance.random() < 0.6:
            first = [(f"Given {it}",) for it in self.passing()[:2]]
            hooks["before_feature"] = [*first, *hooks.get("before_feature", [])]
        return hooks

    def hook_step(self, name):
        """Usually a step that passes or registers one that does, so that something runs. A hook after something may check
        what is there."""
        kind = self.chance.random()
        if kind < 0.15:
            return self.step()
        may_fail = name.startswith("after") and self.chance.random() < 0.4
        step = self.chance.choice(self.checks() if may_fail else self.passing())
        return ("Given " + (self.table["at_cleanup"].format(step=step) if kind < 0.35 else step),)

    def suite(self):
        names = [f"f{number}" for number in range(1, self.chance.randrange(2, 5))]
        features = {f"{name[1:]}.feature": self.feature(name) for name in names}
        library = LIBRARY.splitlines() if self.is_own else []
        options = [("--env", "v=x")] if self.chance.random() < 0.3 else []
        hooks = self.hooks()
        texts = [self.expression(), self.expression(), self.alternatives()]
        texts = self.chance.sample(texts, self.chance.randrange(1, 3))
        choices = [("--tags", it) for it in texts] if self.chance.random() < 0.4 else []
        return Suite(features, hooks, library, options, texts, choices)

    # ---- lines and bytes of which a file need not be read

    def lines(self, ending, most):
        """Random lines of a kind of file. Their line ends differ."""
        lines = self.chance.choices(LINES[ending], k=self.chance.randrange(most))
        return b"".join(it.encode() + (b"\r\n" if self.chance.random() < 0.1 else b"\n") for it in lines)

    def bytes(self, most):
        return self.chance.randbytes(self.chance.randrange(1, most))
