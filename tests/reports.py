"""The program's reports: those in JSON read back, and what was read written in each format.

`Report.of(text)` reads a report in JSON, from a run that leaves nothing out. It has to be written again
to the very bytes, so its counts and the statuses of its features are those of its rows: the compact text
of one document with its keys sorted, and a line feed. `Report.text(style)` is the report of the same run
in another style. So a plain report and a progress report are right if they are what the report in JSON
says.
"""

import bisect
import collections
import functools
import json
import re

from tables import FORMATS

AROUND = "(hooks and cleanups)"
RULE_AROUND = "(rule, line {}: hooks and cleanups)"
CHARACTERS = {"passed": ".", "failed": "F", "skipped": "S", "untested": "U", "memory": "M"}
VERDICTS = ("passed", "failed", "skipped", "untested", "memory")
COUNTED = {"feature": VERDICTS, "scenario": VERDICTS, "step": ("passed", "failed", "skipped", "undefined", "untested", "memory")}
PIECE_BYTES = 16_384  # at which a piece of a part ends

# A step, a rule with the status of its hooks and cleanups, and a scenario with the status of its own.
Row = collections.namedtuple("Row", "keyword line text status")
Rule = collections.namedtuple("Rule", "line around")
Case = collections.namedtuple("Case", "keyword name line status steps around", defaults=("passed",))


class Style(collections.namedtuple("Style", "format no_skipped", defaults=(False,))):
    """How a report is asked for: its format, and whether what is skipped is left out."""

    def shows(self, row):
        return not self.no_skipped or row.status != "skipped"


def style_of(arguments):
    known = [it.removeprefix("--format=") for it in arguments if it.startswith("--format=")]
    known += [following for it, following in zip(arguments, arguments[1:]) if it == "--format"]
    return Style(known[0] if known else FORMATS[0], "--no-skipped" in arguments)


def without_format(arguments):
    """Arguments without the choice of a format."""
    rest = iter(arguments)
    return [it for it in rest if not it.startswith("--format=") and not (it == "--format" and next(rest))]


def in_json(arguments):
    """The arguments of the same run whose report is JSON and leaves nothing out."""
    return ["--format", "json", *(it for it in without_format(arguments) if it != "--no-skipped")]


def one_line(text):
    return text.replace("\n", "\\n")


def statuses_of(case):
    return [it.status.split(":")[0] for it in case.steps]


def is_unchosen(case):
    """Whether all of a scenario is skipped."""
    return case.status == "skipped" and set(statuses_of(case)) <= {"skipped"}


def unreached(case):
    """A chosen scenario as it is if it isn't reached."""
    return case._replace(status="untested", around="passed", steps=[it._replace(status="untested") for it in case.steps])


def is_judged_well(case):
    """Whether the status of a scenario follows from those of its steps, its hooks and its cleanups."""
    statuses = statuses_of(case)
    if "memory" in (case.around, *statuses):
        return case.status == "memory"
    if case.status == "untested":
        return case.around == "passed" and set(statuses) <= {"untested", "undefined"}
    if case.around == "failed" or "failed" in statuses or "undefined" in statuses:
        return case.status == "failed" and "untested" not in statuses
    if case.status == "passed":
        return set(statuses) <= {"passed"}
    return case.status == "skipped" and set(statuses) <= {"passed", "skipped"} and statuses[-1:] != ["passed"]


class Feature(collections.namedtuple("Feature", "source name line cases around rules", defaults=("passed", ()))):
    """A feature, its scenarios, the status of its own hooks and cleanups, and its rules."""

    @functools.cached_property
    def status(self):
        own, scenarios = [self.around, *(it.around for it in self.rules)], [it.status for it in self.cases]
        worst = [it for it in ("memory", "failed", "untested") if it in own or it in scenarios]
        return worst[0] if worst else "passed" if "passed" in scenarios else "skipped"

    @functools.cached_property
    def spans(self):
        """The rules, each with the places of its first scenario and of the one after its last."""
        lines = [it.line for it in self.cases]
        first = [bisect.bisect(lines, it.line) for it in self.rules]
        return list(zip(self.rules, first, [*first[1:], len(lines)]))

    def rule_of(self, case):
        """The rule of a scenario, or nothing."""
        return next((it for it in reversed(self.rules) if it.line < case.line), None)

    def cut_after(self, place):
        """The same feature, if no scenario after a place is reached, and no rule after it begun. Before place 0 it isn't begun."""
        cases = [it if at <= place or is_unchosen(it) else unreached(it) for at, it in enumerate(self.cases)]
        rules = [it if first <= place else it._replace(around="passed") for it, first, _ in self.spans]
        return self._replace(cases=cases, rules=rules, around=self.around if place >= 0 else "passed")

    def with_case(self, place, case):
        return self._replace(cases=[*self.cases[:place], case, *self.cases[place + 1:]])

    def marked(self):
        """The feature if memory is refused once in its hooks and cleanups, or in those of a rule, each with the place of the last
        scenario before them. A hook before a section may be the one: then none of its scenarios is reached."""
        unbegun = self.cut_after(-1)
        yield from ((it._replace(around="memory"), len(self.cases)) for it in (self, unbegun))
        for number, (rule, first, behind) in enumerate(self.spans):
            rules = [*self.rules[:number], rule._replace(around="memory"), *self.rules[number + 1:]]
            cases = [*self.cases[:first], *unbegun.cases[first:behind], *self.cases[behind:]]
            yield from ((self._replace(rules=rules, cases=it), behind - 1) for it in (self.cases, cases))


class Report(collections.namedtuple("Report", "features around", defaults=("passed",))):
    """A report as its features, and the status of the run's own hooks and cleanups."""

    @staticmethod
    def of(text):
        """What a text says that a run printed as JSON. A ValueError if it is no report."""
        try:
            document = json.loads(text)
            report = Report([feature_of(it) for it in document["features"]], document["run"])
            is_well = all(is_judged_well(case) for it in report.features for case in it.cases)
        except (AttributeError, KeyError, TypeError) as trouble:
            raise ValueError(repr(trouble)) from trouble
        arounds = {report.around, *(own.around for it in report.features for own in (it, *it.rules, *it.cases))}
        if not is_well or not arounds <= {"passed", "failed", "memory"} or report.text(Style("json")) != text:
            raise ValueError("it isn't written as such a report is, or its statuses or counts don't follow from its rows")
        return report

    def counts(self):
        """How many features, scenarios and steps have each status."""
        cases = [it for feature in self.features for it in feature.cases]
        found = {"feature": self.features, "scenario": cases}
        counts = {noun: collections.Counter(it.status for it in rows) for noun, rows in found.items()}
        return {**counts, "step": collections.Counter(it for case in cases for it in statuses_of(case))}

    def status(self):
        """The status with which the run ends."""
        statuses = {self.around, *(own.status for it in self.features for own in (it, *it.cases))}
        if "memory" in statuses:
            return 4
        return 1 if "failed" in statuses or any("undefined" in statuses_of(case) for it in self.features for case in it.cases) else 0

    def pieces(self, style):
        """What is written one after another: the beginning, the pieces of each feature's part, and the end."""
        head, part, tail = WRITERS[style.format]
        written, is_first = [head.encode()], True
        for feature in self.features:
            if style.shows(feature):
                written += in_pieces(part(feature, style.shows, is_first))
                is_first = False
        return [*written, tail(self).encode()]

    def text(self, style):
        return b"".join(self.pieces(style))


def in_pieces(texts):
    """The pieces of a part. Each ends with the first text at which it has PIECE_BYTES, the last with the part."""
    pieces, piece = [], b""
    for text in texts:
        piece += text.encode()
        if len(piece) >= PIECE_BYTES:
            pieces.append(piece)
            piece = b""
    return [*pieces, piece] if piece else pieces


def feature_of(row):
    rules = [Rule(it["line"], it["around"]) for it in row.get("rules", [])]
    return Feature(row["source"], row["name"], row["line"], list(map(case_of, row["scenarios"])), row["around"], rules)


def case_of(row):
    steps = [Row(it["keyword"], it["line"], it["text"], it["status"] + (f": {it['reason']}" if "reason" in it else ""))
             for it in row["steps"]]
    return Case(row["keyword"], row["name"], row["line"], row["status"], steps, row["around"])


# ---- plain

def plain_part(feature, is_shown, _):
    """The lines of a feature in a plain report: its own, those of each scenario and rule, and those after them."""
    ended = collections.defaultdict(list)
    for rule, _, behind in feature.spans:
        if rule.around != "passed":
            ended[behind].append(f"  {RULE_AROUND.format(rule.line)} ... {rule.around}\n")
    texts = [f"Feature: {one_line(feature.name)} ... {feature.status}\n", *ended[0]]
    for place, case in enumerate(feature.cases, 1):
        texts += [*([plain_scenario(case)] if is_shown(case) else []), *ended[place]]
    around = f"  {AROUND} ... {feature.around}\n" if feature.around != "passed" else ""
    return [*texts, around + "\n"]


def plain_scenario(case):
    lines = [f"  {case.keyword}: {one_line(case.name)} ... {case.status}"]
    lines += [f"    {keyword} {one_line(text)} ... {status}" for keyword, _, text, status in case.steps]
    if case.around != "passed":
        lines.append(f"    {AROUND} ... {case.around}")
    return "\n".join([*lines, ""])


# ---- progress

def progress_part(feature, is_shown, _):
    characters = "".join(CHARACTERS[it.status] for it in feature.cases if is_shown(it))
    return [f"{one_line(feature.source)}  {characters}  {feature.status}\n"]


def closing(noun, numbers):
    """One of the last lines of a plain report and of a progress report."""
    shown = [it for it in COUNTED[noun][1:] if it not in ("untested", "memory") or numbers[it]]
    plural = "" if numbers["passed"] == 1 else "s"
    return ", ".join([f"{numbers['passed']} {noun}{plural} passed", *(f"{numbers[it]} {it}" for it in shown)])


def plain_tail(report):
    around = [f"{AROUND} ... {report.around}"] if report.around != "passed" else []
    return "\n".join([*around, *(closing(noun, numbers) for noun, numbers in report.counts().items()), ""])


# ---- JSON

def compact(value):
    """The compact text of a value in JSON, with its keys sorted."""
    return json.dumps(value, ensure_ascii=False, separators=(",", ":"), sort_keys=True)


def json_part(feature, is_shown, is_first):
    """The text of a feature in a JSON report: what is before its scenarios, each of them, and the rest."""
    scenarios = [compact(json_scenario(it)) for it in feature.cases if is_shown(it)]
    rules = {"rules": [it._asdict() for it in feature.rules]} if feature.rules else {}
    before = {"around": feature.around, "line": feature.line, "name": feature.name, **rules}
    after = {"source": feature.source, "status": feature.status}
    return [("" if is_first else ",") + compact(before)[:-1] + ',"scenarios":[',
            *("," * (place > 0) + it for place, it in enumerate(scenarios)), "]," + compact(after)[1:]]


def json_scenario(case):
    steps = [{**it._asdict(), **dict(zip(("status", "reason"), it.status.split(": ", 1)))} for it in case.steps]
    return {**case._asdict(), "steps": steps}


def json_tail(report):
    summary = {noun + "s": {it: numbers[it] for it in COUNTED[noun]} for noun, numbers in report.counts().items()}
    return f'],"run":{compact(report.around)},"status":{report.status()},"summary":{compact(summary)}}}\n'


WRITERS = {"plain": ("", plain_part, plain_tail), "progress": ("", progress_part, plain_tail),
           "json": ('{"features":[', json_part, json_tail)}


# ---- explanations

def failures(report):
    """What of a run failed, in the order in which it ended: its heading with its place, and the lines of its steps."""
    for feature in report.features:
        source = feature.source
        for place in range(len(feature.cases) + 1):
            yield from ((f"{source}:{it.line}: Rule: {AROUND}", []) for it, _, behind in feature.spans
                        if it.around == "failed" and behind == place)
            for case in feature.cases[place:place + 1]:
                if case.status == "failed":
                    steps = [f"{line}: {keyword} {one_line(text)} ... {status}" for keyword, line, text, status in case.steps]
                    heading = f"{source}:{case.line}: {case.keyword}: {one_line(case.name)}"
                    yield heading, [f"  {source}:{it}" for it in steps]
        if feature.around == "failed":
            yield f"{source}:{feature.line}: Feature: {one_line(feature.name)} {AROUND}", []
    if report.around == "failed":
        yield f"Run: {AROUND}", []


def explanation(report, nearest=""):
    """What --explain prints of a run whose hooks are empty, if an entry is the nearest of each undefined step. The examples of an
    outline have one column, a, with the number of the row."""
    text, listed = "", ""
    for heading, steps in failures(report):
        row = re.search(r" -- @1\.(\d+)$", heading)
        text += f"{heading} ... failed\n" + (f"  row {row[1]}: a={row[1]}\n" if row else "")
        for step in steps:
            is_named = nearest and step.endswith(" ... undefined")
            text += f"{step}\n" + (f"      the nearest entry is: {nearest}\n" if is_named else "")
        text += "\n"
        listed += f"{heading}\n"
    return text + listed + "\n" * bool(listed) + plain_tail(report)


# ---- runs in which memory is refused

MEMORY = b"gherkin_run: out of memory\n"
# The statuses of the scenarios that a report shows, and how many steps it counts as untested.
SCENARIOS = {"plain": r"(?m)^  [^ (].* \.\.\. (\w+)$", "progress": r"(?m)^.*  ([.FSUM]*)  \w+$", "json": r'"status":"(\w+)","steps":\['}
UNTESTED = re.compile(rb'(\d+)(?: untested(?:, \d+ memory)?|\}\}\})\n$')


def marked_cases(case):
    """A scenario with memory refused once: in a hook before it, in one after it or a cleanup, or in a step, which is the last."""
    untested = [it._replace(status="untested") for it in case.steps]
    yield from (case._replace(status="memory", around="memory", steps=it) for it in (case.steps, untested))
    for at, step in enumerate(case.steps):
        steps = [*case.steps[:at], step._replace(status="memory"), *untested[at + 1:]]
        yield from (case._replace(status="memory", around=it, steps=steps) for it in {"passed", case.around})


def untested_in(case):
    return sum(it.status == "untested" for it in case.steps)


class Ample:
    """A run with ample memory and what it printed: the measure of the run with one growth refused.

    `in_json` is the end of the same run whose report is JSON and leaves nothing out."""

    def __init__(self, arguments, ended, in_json):
        self.style, self.stops, self.ended = style_of(arguments), "--stop" in arguments, ended
        self.report = Report.of(in_json[1]) if ended[1] else None
        self.pieces = self.report.pieces(self.style) if self.report else [b""]
        self.beginnings = [b"".join(self.pieces[:count]) for count in range(len(self.pieces))]

    def is_read_well(self):
        return b"".join(self.pieces) == self.ended[1] and (not self.report or self.report.status() == self.ended[0])

    def ending(self, ended):
        """How a run with one growth refused has ended.

        `unharmed`, as with ample memory; `stopped`, with the fault, after some whole pieces of this
        report; `marked`, with one mark of memory in it. Else None."""
        status, printed, err = ended
        if ended == self.ended:
            return "unharmed"
        if (status, err) == (4, MEMORY):
            return "stopped" if printed in self.beginnings else None
        is_marked = (status, err) == (4, b"") and self.report and any(it.text(self.style) == printed for it in self.marked(printed))
        return "marked" if is_marked else None

    def with_mark(self, at, feature, place):
        """The report with a feature that has the mark, in a scenario or in a section that ends after one."""
        rest = [it.cut_after(-1) if self.stops else it for it in self.report.features[at + 1:]]
        return self.report._replace(features=[*self.report.features[:at], feature.cut_after(place) if self.stops else feature, *rest])

    def marked(self, printed):
        """The reports with one mark of memory that what is printed may be: those with it in the same scenario, or in none."""
        statuses = "".join(CHARACTERS.get(it, it) for it in re.findall(SCENARIOS[self.style.format], printed.decode()))
        shown = [(at, place) for at, feature in enumerate(self.report.features) for place, case in enumerate(feature.cases)
                 if self.style.shows(case)]
        if "M" not in statuses:
            yield from (Report(it, "memory") for it in (self.report.features, [own.cut_after(-1) for own in self.report.features]))
            for at, feature in enumerate(self.report.features):
                yield from (self.with_mark(at, *it) for it in feature.marked())
            return
        for at, place in shown[statuses.index("M"):][:1]:
            feature, counted = self.report.features[at], UNTESTED.search(printed)
            whole = self.with_mark(at, feature, place).counts()["step"]["untested"] - untested_in(feature.cases[place])
            for made in marked_cases(feature.cases[place]):
                if whole + untested_in(made) == int(counted[1] if counted else 0):
                    yield self.with_mark(at, feature.with_case(place, made), place)
