"""The tags of scenarios, which no report has."""

from __future__ import annotations

import itertools
import re
from typing import Container, Dict, List, Set

# How deep the headings are. Tags above one hold down to the next that is no deeper.
LEVELS = {"Feature": 0, "Rule": 1, "Background": 2, "Scenario": 2, "Example": 2, "Scenario Outline": 2, "Scenario Template": 2,
          "Examples": 3, "Scenarios": 3}
STEP = re.compile(r"(?:Given|When|Then|And|But|\*)[ \t]")
FENCES = ('"""', "```")


def tags_of_scenarios(text: str, lines: Container[int]) -> Dict[int, Set[str]]:
    """Returns the tags of each scenario by its line, of a feature file that the library has read and that has scenarios in these lines."""
    found: Dict[int, Set[str]] = {}
    held: Dict[int, List[str]] = {}
    above: List[str] = []
    level, is_step, fence = 0, False, ""
    for number, line in enumerate(text.split("\n"), 1):
        line = line.removesuffix("\r").strip(" \t")
        heading = line.partition(":")[0] if ":" in line else ""
        if fence:
            fence = "" if line == fence else fence
        elif line.startswith("@"):
            above += itertools.takewhile(lambda word: not word.startswith("#"), re.split("[ \t]+", line))
        elif heading in LEVELS:
            level = LEVELS[heading]
            held = {**{it: tags for it, tags in held.items() if it < level}, level: above}
            above, is_step = [], False
        elif is_step and line.startswith(FENCES):
            fence = line[:3]
        elif line and not line.startswith("#"):
            # In the description of a feature, a rule or examples, a line like a step is none.
            is_step = level == 2 and STEP.match(line) is not None
        if number in lines:
            found[number] = set().union(*held.values())
    return found
