"""Runs bill.py for each scenario, on the bill that its tag names. The steps of the scenario find what it wrote."""

import pathlib
import subprocess
import sys

import pytest
from gherkin_run import World

HERE = pathlib.Path(__file__).parent


@pytest.fixture
def gherkin_world(gherkin_scenario):
    bill, = gherkin_scenario.tags
    ended = subprocess.run([sys.executable, HERE / "bill.py", HERE / f"{bill}.txt"], capture_output=True, check=False)
    return World({"out": ended.stdout, "err": ended.stderr}, {"STATUS": str(ended.returncode)})
