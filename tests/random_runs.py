"""Makes random suites and compares runs of them with each other.

A suite has some feature files, with tags, backgrounds, rules and outlines, and maybe hooks of all kinds, a library, a
variable and a choice by tags. Nothing but the program says what has to come out:

- a scenario has the same rows alone, chosen by its line, as in the suite, and so have the hooks of its rule, its
  feature and the run;
- the scenarios and the rules of a file in another order have the same rows;
- the rules of a feature have the rows of features, if each hook is moved out by one section;
- a run over several files has the rows, counts and status of the runs over each of them;
- a dry run calls undefined what the run does, and nothing that the run carried out;
- a run that stops has the rows of the whole run up to the first failure, and after it none;
- texts of tags choose the scenarios of whose tags they hold;
- an explanation has the headings, steps, statuses and counts of what failed in the report;
- the formats say the same, with --no-skipped and without, and each counts its own rows.
"""

import random
import re

import search
from generator import TAGS, Maker, Part, Scenario, first_given, holds, text_of, text_of_hooks
from reports import Report, Style, failures, unreached
from tables import FORMATS

COUNT = 1215  # suites
# The end of the name of a row's case: the cell of its column `row`, and its number.
ROW = re.compile(r" (\d+) -- @1\.(\d+) e$")
# The lines of an explanation that have a cleanup, and a step that registered one, each with its place.
CLEANUP = re.compile(r"  (\S+:\d+): cleanup \.\.\. ")
REGISTERED = re.compile(r"  (\S+:\d+): (?:before: |after: )?\S+ (?:at cleanup|later) .* \.\.\. passed$")


# ---- rules as features

def joined_hooks(hooks, *names):
    return [step for name in names for step in first_given(hooks.get(name, []))]


def moved_out(hooks, tags):
    """The hooks by which a feature with these tags becomes the run, and its rules features."""
    of_tags = {name: steps for name, steps in hooks.items() if name.startswith(("before_tag", "after_tag"))}
    moved = {
        "before_all": joined_hooks(hooks, *(f"before_tag {it}" for it in tags), "before_feature"),
        "after_all": joined_hooks(hooks, "after_feature", *(f"after_tag {it}" for it in tags)),
        "before_feature": hooks.get("before_rule", []), "after_feature": hooks.get("after_rule", [])}
    inmost = {name: hooks.get(name, []) for name in ("before_scenario", "after_scenario")}
    return {**moved, **inmost, **of_tags}


def moved_rule(feature, rule):
    """A rule as a feature, with the feature's background in its own."""
    found = [it for it in (feature.background, rule.background) if it is not None]
    background = [step for it in found for step in first_given(it)] if found else None
    return [Part(rule.tags, rule.heading.replace("Rule:", "Feature:"), background, rule.scenarios)]


# ---- what is compared

def flat(options):
    return [it for option in options for it in option]


class Comparison:
    """The runs of a suite, and what differs between them."""

    def __init__(self, suite, runs):
        self.suite, self.runs = suite, runs
        self.choices = flat(suite.choices)
        features = {name: text_of(parts) for name, parts in suite.features.items()}
        runs.write({**features, "l.steps": "\n".join(suite.library), "h.hooks": text_of_hooks(suite.hooks)})

    def run(self, options, files=None, hooks="h.hooks"):
        """What a run prints, and its status. It has the hooks of the suite, or those of another file."""
        own = [it for it in self.suite.options if "--lint" not in options or it[0] != "--env"]
        own += [("--library", "l.steps")] if self.suite.library else []
        own += [("--hooks", hooks)] if self.suite.hooks or hooks != "h.hooks" else []
        arguments = [*flat(own), *options, *(files or self.suite.features)]
        status, printed, err = self.runs.run(arguments)
        if err or status not in (0, 1):
            raise ValueError(f"{options}, {files}: status {status}, {err}")
        return printed, status

    def report(self, options, files=None, hooks="h.hooks"):
        printed, status = self.run(["--format", "json", *options], files, hooks)
        report = Report.of(printed)
        if report.status() != status:
            raise ValueError(f"{options}, {files}: another status than in the report")
        return report

    def differences(self):
        try:
            whole, chosen = self.report([]), self.report(self.choices)
            yield from self.chosen_by_tags()
            yield from self.alone(whole)
            yield from self.turned_round(whole)
            yield from self.file_by_file(whole)
            yield from self.file_by_file(chosen, self.choices)
            yield from self.dry(chosen)
            yield from self.in_formats(chosen)
            yield from self.stopped(chosen)
            yield from self.explained(chosen, self.choices)
            yield from self.explained(self.report(["--stop"]), ["--stop"])
            yield from self.linted()
            yield from self.rules_as_features()
        except ValueError as trouble:
            yield str(trouble)

    def chosen_lines(self, *tags):
        """The files and lines of the scenarios that texts of tags choose. In a dry run no other is skipped."""
        features = self.report(["--dry-run", *flat(("--tags", text) for text in tags)]).features
        return {(feature.source, it.line) for feature in features for it in feature.cases if it.status != "skipped"}

    def chosen_by_tags(self):
        having = {tag: self.chosen_lines(tag) for tag in TAGS}
        wanted = set()
        for place in self.chosen_lines():
            tags = {tag for tag in TAGS if place in having[tag]}
            if all(holds(it, tags) for it in self.suite.texts):
                wanted.add(place)
        if self.chosen_lines(*self.suite.texts) != wanted:
            yield f"{self.suite.texts} don't choose the scenarios of whose tags they hold: {wanted}"

    def alone(self, whole):
        for feature in whole.features:
            for case in feature.cases:
                alone = self.report(["--line", str(case.line)], [feature.source])
                found, own = alone.features[0], feature.rule_of(case)
                # No other rule than its own is begun.
                rules = [it if it == own else it._replace(around="passed") for it in feature.rules]
                is_same = [it for it in found.cases if it.line == case.line] == [case]
                if not is_same or (found.around, alone.around, found.rules) != (feature.around, whole.around, rules):
                    yield f"{feature.source}:{case.line} alone: {found}, and not {case}, or other hooks"

    def turned_round(self, whole):
        for name, parts in self.suite.features.items():
            self.runs.write({"turned.feature": text_of(turned(parts))})
            other = self.report([], ["turned.feature"]).features[0]
            own = next(it for it in whole.features if it.source == name)
            if (by_name(other), other.around, other.status) != (by_name(own), own.around, own.status):
                yield f"{name} in another order: {by_name(other)}, and not {by_name(own)}"

    def file_by_file(self, whole, options=()):
        parts = [self.report(options, [name]) for name in self.suite.features]
        if [it for part in parts for it in part.features] != whole.features:
            yield f"{options}: the files one by one have other results"
        if any(it.around != whole.around for it in parts) or max(it.status() for it in parts) != whole.status():
            yield f"{options}: the files one by one have another status, or other hooks"

    def dry(self, whole):
        dry, stopped = (self.report(["--dry-run", *words, *self.choices]) for words in ([], ["--stop"]))
        rows = [row for it in dry.features for row in (it, *it.rules, *it.cases)]
        if dry != stopped or {it.around for it in (dry, *rows)} != {"passed"}:
            yield "--stop has an effect in a dry run, or hooks ran"
        for feature, other in zip(whole.features, dry.features, strict=True):
            for case, own in zip(feature.cases, other.cases, strict=True):
                for step, looked_up in zip(case.steps, own.steps, strict=True):
                    if not agree(case, step.status.split(":")[0], own.status, looked_up.status):
                        yield f"{feature.source}:{case.line}: {step} in a run, {looked_up} in a dry run"

    def in_formats(self, whole):
        for style in (Style(form, is_short) for form in FORMATS for is_short in (False, True)):
            printed, status = self.run(["--format", style.format, *["--no-skipped"] * style.no_skipped, *self.choices])
            if (printed, status) != (whole.text(style), whole.status()):
                yield f"{style} isn't what JSON says: {printed.decode()}"

    def stopped(self, whole):
        stopped, dry = self.report(["--stop", *self.choices]), self.report(["--dry-run", *self.choices])
        wanted = Report(until_failure(whole.features, dry.features), whole.around)
        if stopped != wanted:
            yield f"--stop gives {stopped}, and not {wanted}"

    def explained(self, whole, options):
        printed, status = self.run(["--explain", *options])
        text, wanted = printed.decode(), list(failures(whole))
        listed = "".join(f"{heading}\n" for heading, _ in wanted) + ("\n" if wanted else "")
        ending = listed + whole.pieces(Style("plain"))[-1].decode()
        if status != whole.status() or not text.endswith(ending):
            yield f"--explain {options} has another status, list or closing lines: {text}"
            return
        parts = text.removesuffix(ending).split("\n\n")[:-1]
        for part, (heading, steps) in zip(parts, wanted, strict=True):
            first, *events = part.split("\n")
            row = ROW.search(heading)
            if row and not re.fullmatch(rf"  row {row[2]}: name=.*, row={row[1]}", events.pop(0)):
                yield f"--explain {options}: in {part} no row {row[2]} is named"
            cleanups = [it for it in events if CLEANUP.match(it)]
            others = [it for it in events if it in cleanups or it.startswith(("  h.hooks:", "      "))]
            if first != f"{heading} ... failed" or [it for it in events if it not in others] != steps:
                yield f"--explain {options}: {part}, and not {heading}, {steps}"
            registered = [it[1] for it in map(REGISTERED.match, events) if it]
            if [CLEANUP.match(it)[1] for it in cleanups] != registered[::-1]:
                yield f"--explain {options}: in {part} the cleanups aren't those that were registered, the last first"

    def linted(self):
        """Of the steps that a dry run has, those are found undefined before a run that the dry run calls that."""
        steps = [(f"{feature.source}:{step.line}:", step.status) for feature in self.report(["--dry-run"]).features
                 for case in feature.cases for step in case.steps]
        lines, ending = self.run(["--lint"])[0].decode().splitlines(), " undefined step"
        found = {line.removesuffix(ending) for line in lines if line.endswith(ending)}
        wanted = {place for place, status in steps if status == "undefined"}
        if found & {place for place, _ in steps} != wanted:
            yield f"--lint finds {found} undefined, and a dry run {wanted}"

    def rules_as_features(self):
        """The rules of a feature have the rows of features, if the feature is the run: each hook moved out by one
        section. The hooks of the run, which have no section further out, are left out, and so are scenarios of no rule.
        Each rule has scenarios more, of which those pass that find what its hooks made."""
        hooks = {name: steps for name, steps in self.suite.hooks.items() if not name.endswith("_all")}
        checks = [Scenario([], f"Scenario: {it}", [(f"Then {it}",)], None) for it in Maker(bool(self.suite.library)).checks()]
        for name, (feature, *rules) in self.suite.features.items():
            if not rules:
                continue
            rules = [it._replace(scenarios=[*it.scenarios, *checks]) for it in rules]
            tags = [tag for line in feature.tags for tag in line.split()]
            files = {f"rule{number}.feature": text_of(moved_rule(feature, it)) for number, it in enumerate(rules)}
            inner = {"inner.hooks": text_of_hooks(hooks), "outer.hooks": text_of_hooks(moved_out(hooks, tags)),
                     "inner.feature": text_of([feature._replace(scenarios=[]), *rules])}
            self.runs.write({**inner, **files})
            for options in ([], ["--stop"]):
                inner = self.report(options, ["inner.feature"], "inner.hooks").features[0]
                inside = inner.around, [(rule.around, list(map(without_lines, inner.cases[first:behind])))
                                        for rule, first, behind in inner.spans]
                report = self.report(options, list(files), "outer.hooks")
                outside = report.around, [(it.around, list(map(without_lines, it.cases))) for it in report.features]
                if inside != outside:
                    yield f"{options}: the rules of {name} give {inside}, and as features {outside}"


def turned(parts):
    """The parts of a feature, the scenarios of each in another order, and the rules, too."""
    chance = random.Random(len(parts))
    shuffled = [it._replace(scenarios=chance.sample(it.scenarios, len(it.scenarios))) for it in parts]
    return [shuffled[0], *chance.sample(shuffled[1:], len(parts) - 1)]


# ---- reports of the same suite

def without_lines(case):
    """A scenario without what differs where it is in another file: its line, and its steps' lines and keywords."""
    return case._replace(line=0, steps=[it._replace(line=0, keyword="") for it in case.steps])


def by_name(feature):
    """The scenarios of a feature by their names, without lines, each with how the hooks of its rule ended."""
    rows = {}
    for case in feature.cases:
        rule = feature.rule_of(case)
        rows[case.name] = case._replace(line=0, steps=[it._replace(line=0) for it in case.steps]), rule and rule.around
    return rows


def agree(case, status, dry_scenario, dry_status):
    if dry_scenario == "skipped":
        return case.status == status == dry_status == "skipped"
    if status == "untested" or (status == "skipped" and case.status == "skipped"):
        return dry_status in ("untested", "undefined")
    if status == "skipped":
        # A failed scenario may have skipped itself before a hook or a cleanup failed.
        is_sure = any(it.status.startswith(("failed", "undefined")) for it in case.steps)
        return dry_status == "untested" or not is_sure
    return dry_status == ("undefined" if status == "undefined" else "untested")


def until_failure(features, dry):
    """What a run that stops gives, by the whole run.

    In the dry run of the same files what isn't chosen is skipped."""
    given, is_over = [], False
    for feature, looked_up in zip(features, dry, strict=True):
        cases, begun, around = [], [], "passed" if is_over else feature.around
        for case, own in zip(feature.cases, looked_up.cases, strict=True):
            rule, is_chosen = feature.rule_of(case), own.status != "skipped"
            is_over = is_over or any(it.around == "failed" for it in begun if it != rule)
            if is_chosen and not is_over:
                begun.append(rule) if rule else None
            cases.append(unreached(case) if is_over and is_chosen else case)
            is_over = is_over or cases[-1].status == "failed"
        rules = [it if it in begun else it._replace(around="passed") for it in feature.rules]
        given.append(feature._replace(around=around, cases=cases, rules=rules))
        is_over = is_over or given[-1].status == "failed"
    return given


# ---- running them

def case(seed):
    return Maker(seed).suite()


def troubles(suite, runs):
    """The first difference between the runs of a suite, or nothing. A suite is one test.

    One that was made smaller may be none: each file begins with a feature."""
    if suite.features and all(parts and parts[0].heading.startswith("Feature:") for parts in suite.features.values()):
        yield next(Comparison(suite, runs).differences(), "")


TESTER = search.Tester(COUNT, case, troubles)
