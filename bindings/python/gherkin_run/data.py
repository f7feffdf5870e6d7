"""The types of a JSON report's objects."""

from __future__ import annotations

from typing import List, Literal, TypedDict

# How the hooks and cleanups around a scenario, a rule, a feature or the run ended.
Ending = Literal["passed", "failed", "memory"]
Verdict = Literal["passed", "failed", "skipped", "untested", "memory"]
StepStatus = Literal["passed", "failed", "undefined", "skipped", "untested", "memory"]


class _Step(TypedDict):
    keyword: str
    text: str
    line: int
    status: StepStatus


class StepData(_Step, total=False):
    """A step. It has a reason if its status is `failed`."""

    reason: str


class ScenarioData(TypedDict):
    """A scenario, or a row of an outline."""

    keyword: str
    name: str
    line: int
    around: Ending
    status: Verdict
    steps: List[StepData]


class RuleData(TypedDict):
    """A rule. Its scenarios are those between its line and the next rule's."""

    line: int
    around: Ending


class _Feature(TypedDict):
    source: str
    name: str
    line: int
    around: Ending
    status: Verdict
    scenarios: List[ScenarioData]


class FeatureData(_Feature, total=False):
    """A feature. It has a list of rules if its file has any."""

    rules: List[RuleData]


class Counts(TypedDict):
    """The number of features or scenarios with each verdict."""

    passed: int
    failed: int
    skipped: int
    untested: int
    memory: int


class StepCounts(Counts):
    """The number of steps with each status."""

    undefined: int


class Summary(TypedDict):
    """The counts of a report."""

    features: Counts
    scenarios: Counts
    steps: StepCounts


class ReportData(TypedDict):
    """A report."""

    features: List[FeatureData]
    run: Ending
    status: int
    summary: Summary
