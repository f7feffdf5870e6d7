#!/usr/bin/env python3
"""Shows what leaks from scenario A to scenario B in behave 1.2.6, and not here: show.py [--stored] [PROGRAM]

Each folder beside this file is a suite for both: its features have scenario B after A, before A and alone. For
each of them stands what became of B in behave and what here, and the status of the run. behave is run where 1.2.6
is installed; where it isn't, and with --stored, its column is that of result.txt. PROGRAM is the built program;
without it, the one that ./run runs.
"""

import json
import os
import re
import shutil
import subprocess
import sys
import tempfile

HERE = os.path.dirname(os.path.realpath(__file__))
TOP = os.path.dirname(os.path.dirname(HERE))
STORED = os.path.join(HERE, "result.txt")
LINE = "{:<23}{:<40}{}".format
SEEN = re.compile(r"  (\S.*?) {2,}(\S.*?) {2,}\S")
BEHAVE = ["behave", "--no-capture", "--no-summary", "--format=json", "--outfile=report.json"]
# The features of a suite in order, and what stands for each. C is another scenario, in one suite alone.
FEATURES = {"a_then_b": "A, then B", "b_then_a": "B, then A", "b_alone": "B alone", "c_then_b": "C, then B"}


def suites():
    """The folders of the suites in order."""
    return sorted(it for it in os.listdir(HERE) if os.path.exists(os.path.join(HERE, it, "b_alone.feature")))


def behave_is_here():
    if not shutil.which("behave"):
        return False
    said = subprocess.run(["behave", "--version"], stdout=subprocess.PIPE, stderr=subprocess.STDOUT, check=False)
    return said.stdout.strip() == b"behave 1.2.6"


def verdict(scenarios, status):
    """What became of B, from the pairs of a scenario and the statuses of its steps, by the scenario's name."""
    if scenarios is None:
        return f"no report, status {status}"
    if "B" not in scenarios:
        return f"B isn't reached, status {status}"
    ended, steps = scenarios["B"]
    shown = f" ({', '.join(steps)})" if ended == "failed" and len(steps) > 1 else ""
    return f"B {ended}{shown}, status {status}"


def in_behave(suite, feature):
    """What becomes of B in behave, in a copy of the suite, since a step may write a file."""
    with tempfile.TemporaryDirectory() as room:
        copy = os.path.join(room, suite)
        shutil.copytree(os.path.join(HERE, suite), copy)
        ended = subprocess.run([*BEHAVE, feature], cwd=copy, stdin=subprocess.DEVNULL, stdout=subprocess.PIPE,
                               stderr=subprocess.STDOUT, timeout=60, check=False,
                               env={"PATH": os.environ["PATH"], "HOME": room, "PYTHONDONTWRITEBYTECODE": "1"})
        if b"ParserError" in ended.stdout:
            return f"refused, status {ended.returncode}"
        report = report_in(os.path.join(copy, "report.json"))
    return verdict(report and {
        it["name"]: (it["status"], [step.get("result", {"status": "skipped"})["status"] for step in it["steps"]
                                    if line_of(step) > line_of(it)])
        for one in report for it in one["elements"] if it["type"] == "scenario"}, ended.returncode)


def report_in(path):
    """behave's report, or nothing where it isn't whole."""
    try:
        with open(path, encoding="utf-8") as file:
            return json.load(file)
    except (OSError, ValueError):
        return None


def line_of(element):
    """The line of a scenario or a step in behave's report."""
    return int(element["location"].rpartition(":")[2])


def here(program, suite, feature):
    """What becomes of B here."""
    hooks = ["--hooks", "here.hooks"] if os.path.exists(os.path.join(HERE, suite, "here.hooks")) else []
    ended = subprocess.run([program, "--format", "json", "--library", "here.steps", *hooks, feature],
                           cwd=os.path.join(HERE, suite), stdin=subprocess.DEVNULL, stdout=subprocess.PIPE, timeout=60,
                           check=False)
    report = json.loads(ended.stdout) if ended.stdout else None
    return verdict(report and {
        it["name"]: (it["status"], [step["status"] for step in it["steps"] if step["line"] > it["line"]])
        for one in report["features"] for it in one["scenarios"]}, ended.returncode)


def stored():
    """What is stored of behave, by the suite and the words for the feature."""
    found, suite = {}, None
    with open(STORED, encoding="utf-8") as file:
        for line in file:
            row = SEEN.match(line)
            if row:
                found[suite, row.group(1)] = row.group(2)
            else:
                suite = line.split()[0]
    return found


def program_here():
    """The program that ./run runs, or no name where there is no ./run, as among installed examples."""
    run = os.path.join(TOP, "run")
    if not os.path.exists(run):
        return ""
    return subprocess.run([run, "--which"], stdout=subprocess.PIPE, check=True).stdout.decode().strip()


def main():
    given = [it for it in sys.argv[1:] if it != "--stored"]
    kept = stored() if "--stored" in sys.argv[1:] or not behave_is_here() else None
    program = shutil.which(given[0] if given else program_here())
    if not program:
        sys.exit("show.py: name a program that can be run, as in show.py ~/.local/bin/gherkin_run")
    program = os.path.abspath(program)
    for suite in suites():
        print(LINE(suite, "behave 1.2.6", "gherkin_run"))
        for name, words in FEATURES.items():
            feature = name + ".feature"
            if not os.path.exists(os.path.join(HERE, suite, feature)):
                continue
            there = in_behave(suite, feature) if kept is None else kept.get((suite, words), "nothing is stored")
            print(LINE("  " + words, there, here(program, suite, feature)))


if __name__ == "__main__":
    main()
