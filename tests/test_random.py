"""Random suites, changes and bytes. tests/search.py tries more of them, and finds the smallest case that fails."""

import os
import unittest.mock

import driver
import hostile_bytes
import pages
import random_changes
import random_runs
import search
from checks import Checks, Refusing


class Random:
    def test_cases(self):
        self.check_all(search.tried(self.TESTER, self.room, self.TESTER.keys()))


class RandomRuns(Random, Checks):
    TESTER = random_runs.TESTER


class RandomChanges(Random, Refusing):
    TESTER = random_changes.TESTER


class HostileBytes(Random, Checks):
    TESTER = hostile_bytes.TESTER


def smaller(value):
    """Each value that lacks one part of this one."""
    if isinstance(value, dict):
        for name in value:
            yield {it: value[it] for it in value if it != name}
            yield from ({**value, name: less} for less in smaller(value[name]))
    elif isinstance(value, list):
        for place, item in enumerate(value):
            yield [*value[:place], *value[place + 1:]]
            yield from ([*value[:place], less, *value[place + 1:]] for less in smaller(item))
    elif isinstance(value, bytes):
        yield from (value[:place] + value[place + 1:] for place in range(len(value)))
    elif hasattr(value, "_fields"):
        for name in value._fields:
            yield from (value._replace(**{name: less}) for less in smaller(getattr(value, name)))


@pages.tests("shrinking.md")
class Shrinking(Refusing):
    def smallest_of(self, tester, mistake):
        """The smallest case of the first that fails if a shell makes this mistake with what is printed."""
        planted = os.path.join(self.room, "planted")
        driver.write_program(planted,
                             f'#!/bin/sh\n"{self.program}" "$@" > printed\nstatus=$?\n{mistake}\nexit "$status"\n')
        found = search.Search(tester, planted, self.room, float("inf"))
        key = next(it for it in tester.keys() if found.fails(tester.case(it)))
        case = found.smallest_case(key)
        self.unless(f"the smallest case doesn't fail: {case}", found.fails(case))
        less = [it for it in smaller(case) if found.fails(it)]
        self.unless(f"{case} isn't the smallest", not less, *less)
        return case
