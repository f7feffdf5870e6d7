"""The stored runs of tests/runs/, and those of streams, as commands of a shell. A test's name has the words of its page and heading."""

import collections
import os

import driver
import pages
import stored_cases
from checks import Checks

STORED = [f"runs/{it}" for it in sorted(os.listdir(stored_cases.RUNS)) if it != "README.md"]


def programs():
    return {"gherkin_run": f'#!/bin/sh\nexec "{driver.program()}" "$@"\n'}


@pages.tests(*STORED, "streams.md", "streams_with_room.md", programs=programs, shows_statuses=True)
class StoredRuns(Checks):
    def test_names_differ(self):
        counts = collections.Counter((it.page, it.name) for it in stored_cases.cases())
        self.check_list("runs of one name", (it for it, count in counts.items() if count > 1))
