"""Compares random changes of files, variables and values with plain maps.

A case changes the layers of the run, of features, of rules and of scenarios. Between the changes every name is checked
against maps that a few lines of Python keep, and the report has to be the one that these maps give. After the end of each
layer all is as before. Then the same with a random growth of memory refused: a run has to end in one of the three ways of
test_refused_memory.py.
"""

import collections
import random

import driver
import search
from builder import Run, quoted, unmarked
from generator import BAD_NAME, BUILT_IN, LONG_TEXTS, NAMES
from reports import Ample, in_json
from tables import FORMATS

COUNT = 132  # cases
LARGE = 11  # each case of so many changes some 40 names, often
CHANGES = 40  # in a scenario of another case, at most
REFUSALS = 12  # runs of a case with a growth refused
MANY_NAMES = [*NAMES, *(f"name {number}" for number in range(40 - len(NAMES)))]
OUTSIDE = {"a": "from outside", "name 0": "0", "name 39": "x=y", "left": "alone"}
PUTS = {"write_file": "files", "write_block": "files", "set_env": "env", "set_value": "values"}
TAKES = {"remove_file": "files", "remove_env": "env", "delete_value": "values"}
ACTIONS = ["write_file", "set_env", "set_value", *PUTS, *TAKES, "append_file", "rename_file", "write_files", "add_number"]

# A change: what is done, the name, and the text, the other name, the number or the rows that it takes.
Change = collections.namedtuple("Change", "action name more")
# A case: the names that are checked, the changes of the run's, a feature's and a rule's layer, and those of scenarios.
Case = collections.namedtuple("Case", "seed names all feature rule scenarios")


class World:
    """Files, variables and values as plain maps, those of values one for each layer."""

    def __init__(self, names, env=()):
        self.names, self.begun = names, []
        self.files, self.env, self.values = {}, dict(env), collections.ChainMap()

    def begin(self):
        self.begun.append((dict(self.files), dict(self.env)))
        self.values = self.values.new_child()

    def end(self):
        """Ends the innermost layer. All is as it was at its beginning."""
        self.files, self.env = self.begun.pop()
        self.values = self.values.parents

    def change(self, change):
        """Carries out a change. Returns the reason if it fails."""
        action, name, more = change
        if action == "write_files":
            return self.write_files(more)
        if action in PUTS:
            getattr(self, PUTS[action])[name] = f"{more}\n{more}" if action == "write_block" else more
            return None
        maps = getattr(self, TAKES.get(action, "values" if action == "add_number" else "files"))
        if name not in maps:
            return "absent"
        if action in TAKES:
            # A value is deleted only in the layer in which it was set.
            return "other layer" if getattr(maps, "maps", [maps])[0].pop(name, None) is None else None
        return {"append_file": self.append, "rename_file": self.rename, "add_number": self.add}[action](name, more)

    def write_files(self, rows):
        for name, text in rows:
            if name == BAD_NAME:
                return "bad name"
            self.files[name] = text
        return None

    def append(self, name, text):
        self.files[name] += text

    def rename(self, name, to):
        if to == BAD_NAME:
            return "bad name"
        self.files[to] = self.files[name]
        if name != to:
            del self.files[name]
        return None

    def add(self, name, more):
        if not self.values[name].lstrip("-").isdigit():
            return "not a number"
        total = int(self.values[name]) + more
        if not -2**63 <= total < 2**63:
            return "out of range"
        self.values[name] = str(total)
        return None

    def carries_out(self, change):
        """Carries out a change, unless it fails. Returns whether it was carried out."""
        before = dict(self.files), dict(self.env), dict(self.values.maps[0])
        if self.change(change) is None:
            return True
        self.files, self.env, self.values.maps[0] = before
        return False

    def checks(self, keyword="Then"):
        """Steps that pass if each name has what it has here."""
        for name in self.names:
            if name in self.files:
                yield f'{keyword} the file "{name}" should be: ... passed\n{quoted(self.files[name])}'
            else:
                yield f"{keyword} {BUILT_IN['file_absent'].format(file=name)} ... passed"
            for maps, noun in ((self.env, "env"), (self.values, "value")):
                step = BUILT_IN[f"{noun}_is" if name in maps else f"{noun}_absent"]
                yield f"{keyword} {step.format(key=name, text=maps.get(name))} ... passed"


def random_change(chance, world):
    """A change. Its name is usually one that exists, if it needs one."""
    action, names = chance.choice(ACTIONS), world.names
    if action == "write_files":
        rows = [(chance.choice([*names, *names[:2]] + [BAD_NAME] * (chance.random() < 0.1)), chance.choice(LONG_TEXTS))
                for _ in range(chance.randrange(4))]
        return Change(action, "", rows)
    maps = world.env if action == "remove_env" else world.values if action in ("delete_value", "add_number") else world.files
    may_exist = action not in PUTS and maps and chance.random() < 0.97
    name = chance.choice(sorted(maps) if may_exist else names)
    if action == "rename_file":
        return Change(action, name, chance.choice(names if chance.random() < 0.95 else [BAD_NAME]))
    return Change(action, name, chance.choice([0, 1, -3, 2**63 - 1] if action == "add_number" else LONG_TEXTS))


def step_of(change, reason=None):
    """The step of a change, which may fail for a reason."""
    action, name, more = change
    text = BUILT_IN[action].format(file=name, key=name, text=more, to=more, number=more)
    lines = [f"When {text} ... {f'failed: {reason}' if reason else 'passed'}"]
    if action == "write_block":
        lines.append(quoted(f"{more}\n{more}"))
    if action == "write_files":
        lines += ["| name | text |", *(f"| {own} | {text} |" for own, text in more)]
    return "\n".join(lines)


def changes_of_layer(chance, world, count, may_fail=False):
    """So many changes of a layer that begins. Where one may fail, there is one more after it at most."""
    world.begin()
    changes, has_failed = [], False
    while len(changes) < count and not has_failed:
        change = random_change(chance, world)
        is_done = world.carries_out(change)
        has_failed = may_fail and not is_done
        changes += [change] * (is_done or has_failed)
    return [*changes, *[random_change(chance, world)] * has_failed]


def steps_of(world, changes, may_fail=False):
    """The steps of changes and of checks between them. Where none may fail, those that would are left out."""
    between = 1 if len(world.names) <= len(NAMES) else 20
    yield from world.checks("Given")
    for number, change in enumerate(changes, 1):
        if may_fail or world.carries_out(change):
            yield step_of(change, world.change(change) if may_fail else None)
        if number % between == 0:
            yield from world.checks()
    yield from world.checks()


def hooks_of(world, name, changes):
    """Hooks around a section whose layer begins: one changes it, the other checks that all is there again."""
    world.begin()
    return [f"before_{name}:", *steps_of(world, changes), f"after_{name}:", *world.checks()]


def scenarios_of(world, scenarios):
    """Scenarios, each with a layer that ends with it. That of number 1 fails."""
    for number, changes in enumerate(scenarios):
        world.begin()
        yield from (f"Scenario: s{number}", *steps_of(world, changes, may_fail=True))
        yield from ["Given it fails ... failed: fail step"] * (number == 1)
        world.end()


def run_of(case):
    """A run whose hooks change the layers of the run, of the features and of the rules, and check after them that all is there
    again. What the scenarios of the first feature and of its first rule did changes nothing in those after them. A scenario
    of no rule finds what the feature's hook left."""
    world = World(case.names, OUTSIDE)
    hooks = [*hooks_of(world, "all", case.all), *hooks_of(world, "feature", case.feature)]
    first = ["Feature: a", *scenarios_of(world, [*case.scenarios[:1], ()])]
    second = ["Feature: b", *scenarios_of(world, [()])]
    hooks += hooks_of(world, "rule", case.rule)
    first += ["Rule: one", *scenarios_of(world, case.scenarios[1:])]
    second += ["Rule: one", *scenarios_of(world, [()] * 3)]
    rest = ["Rule: two", *scenarios_of(world, [()] * 2), ""]
    features = {"a.feature": "\n".join(first + rest), "b.feature": "\n".join(second + rest)}
    options = ["--hooks", "h.hooks", *(f"--env={name}={text}" for name, text in OUTSIDE.items())]
    return Run(features, {"h.hooks": unmarked("\n".join([*hooks, ""]))}, options)


# ---- cases

def case(seed):
    """A case, with few names and scenarios that may fail, or with many names and changes of each layer."""
    chance, is_small = random.Random(seed), seed % LARGE > 0
    world = World(NAMES if is_small else MANY_NAMES, OUTSIDE)
    outer, inner, own = (chance.randrange(6) for _ in range(3)) if is_small else (300, 200, 200)
    counts = [chance.randrange(CHANGES) for _ in range(20)] if is_small else [300] * 4
    layers, scenarios = [changes_of_layer(chance, world, it) for it in (outer, inner)], []
    for number, count in enumerate(counts):
        if number == 1:
            layers.append(changes_of_layer(chance, world, own))
        scenarios.append(changes_of_layer(chance, world, count, is_small))
        world.end()
    return Case(seed, world.names, *layers, scenarios)


def troubles(case, runs):
    """What is wrong with each run of a case: as it is, in one of the formats, and with growths of memory refused."""
    name, chance, run = f"changes of seed {case.seed}", random.Random(case.seed), run_of(case)
    runs.write(run.files)
    yield driver.trouble(name, runs.run(run.arguments(None)), run.wanted(None))
    styled = run.arguments(FORMATS[case.seed % len(FORMATS)])
    ample = Ample(styled, runs.run(styled), runs.run(in_json(styled)))
    yield "" if ample.is_read_well() and ample.report == run.report else f"{name}: another report"
    for _ in range(REFUSALS):
        number = int(10 ** chance.uniform(0, 4.5))
        ended = runs.run(styled, refused=number)
        yield "" if ample.ending(ended) else f"{name}, growth {number} refused: {ended[0]}, {ended[2]}"


TESTER = search.Tester(COUNT, case, troubles)
