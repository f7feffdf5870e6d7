"""Runs Gherkin feature files in this process.

    from gherkin_run import run

    report = run("login.feature", hooks="login.hooks")
    print(report.text)

A shared library does the work. It is loaded at the first call, which raises `ImportError` if it can't be loaded.
"""

from gherkin_run.data import FeatureData, ReportData, RuleData, ScenarioData, StepData
from gherkin_run.library import version
from gherkin_run.runs import Explanation, Failed, Fault, File, Findings, Format, Report, Result, Source, World, WorldFile, explain, lint, run

__version__ = "2.0.0"
__all__ = [
    "Explanation",
    "Failed",
    "Fault",
    "FeatureData",
    "File",
    "Findings",
    "Format",
    "Report",
    "ReportData",
    "Result",
    "RuleData",
    "ScenarioData",
    "Source",
    "StepData",
    "World",
    "WorldFile",
    "explain",
    "lint",
    "run",
    "version",
]
