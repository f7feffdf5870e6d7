"""The recipes of the guide, and its page on machines.

The commands of docs/guide/recipes.md and docs/guide/machines.md are run as they are, over a suite that fails in every
way, with names of all characters; then the same files of examples/recipes/ over each example. JUnit files are read by
the strict reader of Python's library. Names that a terminal, a shell or GitHub would take for commands do nothing, and
a script that is ended by a signal leaves nothing.
"""

import collections
import json
import os
import re
import xml.etree.ElementTree

import blocks
import driver
import pages
from checks import Checks
from ready import begin, is_running  # pylint: disable=unused-import

PATIENCE = 300  # seconds: a script starts many programs, also while proofs have the processors
BAD = ("failed", "undefined", "memory")
# A name with every control character but line feed, those that turn the direction of writing, and with what Markdown, XML and
# a CI read as their own.
ODD = "".join(map(chr, [*range(10), *range(11, 32), *range(127, 160), 0x61C, 0x200E, 0x200F, *range(0x2028, 0x202F), *range(0x2066, 0x206A),
                        0xFFFE, 0xFFFF, 0x1F600])) + "%0A ::error::##[error]##vso[a]<b>&amp;\"'|*_`]]>"
CONTROL = re.compile("[\\x00-\\x09\\x0b-\\x1f\\x7f-\\x9f\u061c\u200e\u200f\u2028-\u202e\u2066-\u2069]")
COMMAND = re.compile(r"(##[A-Za-z]*)\[")


def environment_of(folder, **more):
    return {**os.environ, "GITHUB_STEP_SUMMARY": os.path.join(folder, "summary.md"),
            "TMPDIR": os.path.join(folder, "temporary"), **more}


def shell(folder, command, **more):
    """Runs a command of a shell. Returns its status, and what it printed on the two streams, with what it left over."""
    status, printed, fault = driver.start("sh", ["-c", command], folder, environment_of(folder, **more), patience=PATIENCE)
    left = os.listdir(os.path.join(folder, "temporary"))
    return status, printed, fault + (f"left over: {left}\n".encode() if left else b"")


def scenarios_of(report):
    return [it for one in report["features"] for it in one["scenarios"]]


def around(report):
    """How the hooks and cleanups of each feature, of each rule and of the run ended."""
    rules = [it for one in report["features"] for it in one.get("rules", [])]
    return [*(it["around"] for it in [*report["features"], *rules]), report["run"]]


def bad_places(report):
    """How many steps, and how many hooks and cleanups of scenarios, rules, features and the run, didn't pass."""
    inner = [status for one in scenarios_of(report) for status in (one["around"], *(it["status"] for it in one["steps"]))]
    return sum(it in BAD for it in [*around(report), *inner])


# ---- what each file makes, and what is wrong with it: what is found of each trouble

def annotations_troubles(report, printed):
    lines = printed.split("\n")[:-1]
    texts = [line.split("::", 2)[2].replace("%0A", "\n").replace("%25", "%") for line in lines if line.count("::") > 1]
    steps = [COMMAND.sub(r"\1\\x5b", escaped(f"{it['keyword']} {it['text']} ... {it['status']}")) for one in scenarios_of(report)
             for it in one["steps"] if it["status"] in BAD]
    return {"lines that are none": [
                it for it in lines if not re.fullmatch(r"::error (file=[^,:]*,line=\d+,)?title=[^,:]*::[^\r]*", it)],
            "unescaped": re.findall("%(?!25|0A|3A|2C).{0,2}", printed), "control characters": CONTROL.findall(printed), "commands of a CI": COMMAND.findall(printed),
            "steps that no line has": [it for it in steps if not any(text.startswith(it) for text in texts)],
            "another number of lines": [lines] * (len(lines) != bad_places(report))}


def summary_troubles(report, printed):
    lines = printed.split("\n")
    names, *rows = [[cell.strip() for cell in it.split("|")[1:-1]] for it in lines if it.startswith("| ")]
    wanted = [[it[0], *(str(report["summary"][it[0]].get(name, "")) for name in names[1:])] for it in rows]
    listed = [it for it in lines if it.startswith(("- ", "  - "))]
    return {"control characters": CONTROL.findall(printed), "commands of a CI": COMMAND.findall(printed), "other counts": [rows] * (rows != wanted or len(rows) != 3),
            "characters that are Markdown": [
                it for it in listed if not re.fullmatch(r" *- (?:[\w ().:,*/]|[^\x00-\xa0]|&#?\w+;)*", it)],
            "nothing failed, or something did": [listed] * (bool(listed) != bool(bad_places(report)))}


def junit_troubles(report, printed):
    try:
        root = xml.etree.ElementTree.fromstring(printed.encode())
    except xml.etree.ElementTree.ParseError as error:
        return {"no XML": [error]}
    kinds = {"failures": "failure", "errors": "error", "skipped": "skipped"}
    scenarios = scenarios_of(report)
    statuses = collections.Counter([*(it["status"] for it in scenarios), *(it for it in around(report) if it != "passed")])
    wanted = [statuses["failed"], statuses["memory"], statuses["skipped"] + statuses["untested"]]
    found = [len(root.findall(f".//{kind}")) for kind in kinds.values()]
    names = [it.get("name") for it in root.findall(".//testcase")]
    names = [it for it in names if not re.fullmatch(r"\((rule, line \d+: )?hooks and cleanups\)", it)]
    readable = [re.sub("[\ufffe\uffff]", "\ufffd", escaped(it["name"], "\t\r")) for it in scenarios]
    return {"counts that aren't those of the cases": [
                one for one in root.findall("testsuite") for count, kind in kinds.items()
                if int(one.get(count)) != len(one.findall(f"testcase[{kind}]"))],
            f"and not {wanted}": [found] * (found != wanted),
            "other names": [names] * (names != readable),
            "control characters": CONTROL.findall(printed), "commands of a CI": COMMAND.findall(printed)}


def failed_troubles(report, printed):
    wanted = sum(it in BAD for it in [*(it["status"] for it in scenarios_of(report)), *around(report)])
    lines = printed.split("\n")[:-1]
    return {"another number of lines": [lines] * (len(lines) != wanted), "control characters": CONTROL.findall(printed),
            "commands of a CI": [it for it in lines if it.lstrip().startswith("::") or COMMAND.search(it)]}


def escaped(text, kept=""):
    """A text with its control characters escaped, apart from line feeds and those that are kept."""
    return CONTROL.sub(lambda it: it[0] if it[0] in kept else f"\\x{ord(it[0]):02x}" if it[0] < "\xa0" else f"\\u{{{ord(it[0]):x}}}", text)


def out_of_memory(report):
    """A report in which memory ran out wherever something failed."""
    made = json.loads(re.sub('"(status|around|run)":"failed"', r'"\1":"memory"', report.decode()))
    for counts in made["summary"].values():
        counts["memory"], counts["failed"] = counts["failed"], 0
    return json.dumps(made, ensure_ascii=False, separators=(",", ":")).encode()


MAKERS = {"annotations": annotations_troubles, "summary": summary_troubles, "junit": junit_troubles,
          "failed": failed_troubles}


def troubles_of(maker, report, printed):
    """What is wrong with what a file of examples/recipes/ makes of a report."""
    return [f"{trouble}: {it}" for trouble, found in MAKERS[maker](report, printed.decode()).items() for it in found]


@pages.tests(*(f"recipes/{it}.md" for it in ("usage", "makers", "check", "again", "long", "escapes", "suite")))
class Recipes(Checks):
    NEEDS = ("jq",)

    def folder(self, name, files):
        """A folder with these files, the program as `run`, and the repository's examples."""
        folder = os.path.join(self.room, name)
        pages.lay(folder, {it: text.encode() for it, text in files.items()}, {})
        driver.write(folder, {"features/odd.feature": f"Feature: {ODD}x\n  Scenario: {ODD}y\n    Given it fails\n    Then {ODD}z\n"
                              "  Scenario Outline: <n>\n    Given it passes\n    Examples:\n      | n |\n      | a\\nb |\n"})
        return folder

    def names_in(self, folder):
        return sorted(os.path.join("features", it) for it in os.listdir(os.path.join(folder, "features")))

    def one_run(self, folder, *options):
        return driver.start(self.program, [*options, "--", *self.names_in(folder)], folder)

    def read_report(self, folder):
        return driver.read(os.path.join(folder, "report.json"))
