"""jq reads JSON reports, as another program would.

Of each example, and of each stored run with a JSON report, jq makes the plain report of the JSON one, and counts its
rows. Runs over several files are compared with the sum of runs over one of them each, by examples/add_reports.sh.
"""

import os
import subprocess

import driver
import pages
import stored_cases
from checks import Checks
from reports import without_format

ADD = os.path.join(driver.EXAMPLES, "add_reports.sh")
# Whether a report counts its own rows well.
COUNTS = """def tally(rows): reduce rows as $it ({}; .[$it] += 1);
    def counted($noun; $counts): .summary[$noun] | with_entries(select(.value != 0)) == $counts;
    counted("features"; tally(.features[].status))
    and counted("scenarios"; tally(.features[].scenarios[].status))
    and counted("steps"; tally(.features[].scenarios[].steps[].status))"""


def jq(*words, given=b""):
    done = subprocess.run(["jq", *words], input=given, stdout=subprocess.PIPE, stderr=subprocess.DEVNULL, check=False)
    return done.returncode, done.stdout


def plain(report):
    return jq("--raw-output", "--from-file", os.path.join(driver.EXAMPLES, "recipes", "plain.jq"), given=report)[1]


@pages.tests("recipes/add.md")
class WithJq(Checks):
    NEEDS = ("jq",)

    def json_of(self, *arguments, folder=driver.HOME):
        return driver.start(self.program, ["--format", "json", *arguments], folder)

    def added(self, *files, options=()):
        """Says whether the reports of runs over one of these files each, added up, are that of a run over all of them."""
        parts = {f"part{100 + number}": self.json_of(*options, it)[1] for number, it in enumerate(files)}
        driver.write(self.room, parts)
        ended, wanted = driver.start(ADD, parts, self.room), self.json_of(*options, *files)
        return "the same status and report" if ended[:2] == wanted[:2] else (ended, wanted)

    def compare(self, name, arguments, folder=driver.HOME):
        arguments = without_format(map(os.fsdecode, arguments))
        wanted, text, _ = driver.start(self.program, ["--format", "plain", *arguments], folder)
        status, report, _ = self.json_of(*arguments, folder=folder)
        self.unless(f"{name}: another status as JSON", status == wanted)
        if not text:
            self.unless(f"{name}: a report as JSON and none as plain", not report)
            return
        self.unless(f"{name}: another plain report", plain(report) == text)
        self.unless(f"{name}: another status inside", jq(".status", given=report)[1] == b"%d\n" % status)
        if "--no-skipped" not in arguments:
            self.unless(f"{name}: other counts", jq("--exit-status", COUNTS, given=report)[0] == 0)

    def test_examples(self):
        for arguments in driver.examples():
            self.compare(arguments[-1], arguments)

    def test_stored_runs(self):
        for number, case in enumerate(stored_cases.cases()):
            if case.stdout.startswith(b"{"):
                folder = os.path.join(self.room, str(number))
                stored_cases.lay(case, folder)
                self.compare(f"{case.page}: {case.name}", case.arguments, folder)
