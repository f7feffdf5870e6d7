#!/usr/bin/env python3
"""What the random testers share: the runs of a case, and the smallest case that fails, with its files and arguments.

tests/search.py TESTER [--seed N] [--count N] [--seconds N] tries cases of random_runs, random_changes or hostile_bytes.
A failure names the seed of its case. GHERKIN_RUN of the environment is the program, or without it the one that ./run runs.
"""

import argparse
import collections
import concurrent.futures
import importlib
import itertools
import os
import shutil
import sys
import tempfile
import time

import driver

CHUNK = 240  # cases that are given to the processes
BATCH = 12  # and how many of them to one at once
SHRINKING = 60  # seconds for the case of one failure
SHRUNK = 3  # failures; of others only the keys are printed


class Tester(collections.namedtuple("Tester", "count case troubles more", defaults=(list,))):
    """What differs between random testers: how many cases there are, whose keys are seeds; a function that makes the case of a key;
    one that runs a case and yields, for each test of it, what is wrong, or nothing; and maybe one that has more keys."""

    def keys(self):
        return itertools.chain(range(1, self.count + 1), self.more())


class Runs:
    """Runs the program in a folder, and remembers the last run."""

    def __init__(self, program, room, name):
        self.program, self.room, self.folder, self.last = program, room, os.path.join(room, name), ""

    def write(self, files):
        driver.write(self.folder, files)

    def run(self, arguments, refused=None):
        """What a run gives. The growth of memory of this number may be refused."""
        self.last = f"{'' if refused is None else f'with growth {refused} refused: '}{arguments}"
        environment = None if refused is None else driver.limited(self.room, REFUSE=refused)
        return driver.start(self.program, arguments, self.folder, environment)


# ---- smaller cases

def without(items, fails):
    """Items of which the others are dropped, as long as it fails: many at a time at first, then one after another."""
    step = len(items)
    while step:
        at = 0
        while at < len(items):
            less = items[:at] + items[at + step:]
            if fails(less):
                items = less
            else:
                at += step
        step //= 2
    return items


def shrunk(value, fails):
    """A value without the parts that it doesn't need to fail: items of a list or a dict, and fields, outside in."""
    if isinstance(value, dict):
        value = {it: value[it] for it in without(list(value), lambda names: fails({it: value[it] for it in names}))}
        for name in value:
            value[name] = shrunk(value[name], lambda less: fails({**value, name: less}))
    elif isinstance(value, list):
        value = list(without(value, fails))
        for place, item in enumerate(value):
            value[place] = shrunk(item, lambda less: fails([*value[:place], less, *value[place + 1:]]))
    elif isinstance(value, bytes):
        lines = without(value.splitlines(keepends=True), lambda lines: fails(b"".join(lines)))
        value = without(b"".join(lines), fails)
    elif hasattr(value, "_fields"):
        for name in value._fields:
            less = shrunk(getattr(value, name), lambda less: fails(value._replace(**{name: less})))
            value = value._replace(**{name: less})
    return value


def smallest(case, fails):
    """The smallest case that fails which is found before the time is over."""
    end = time.monotonic() + SHRINKING
    before = None
    while case != before:
        before = case
        case = shrunk(case, lambda less: time.monotonic() < end and fails(less))
    return case


class Search:
    """Tries cases of a tester, until a time."""

    def __init__(self, tester, program, room, end):
        self.tester, self.program, self.room, self.end = tester, program, room, end

    def troubles(self, case, runs):
        """What is wrong with each test of a case, or nothing. A report that can't be read is one trouble, too."""
        try:
            yield from self.tester.troubles(case, runs)
        except ValueError as trouble:
            yield f"a report can't be read: {trouble}"

    def tried(self, key):
        """The key of a case, and what is wrong with each test of it, if there is time."""
        if time.monotonic() > self.end:
            return None
        return key, list(self.troubles(self.tester.case(key), Runs(self.program, self.room, f"of_process{os.getpid()}")))

    def all_tried(self, keys):
        """The same of many keys. Python itself takes time for a case, so several processes share them."""
        with concurrent.futures.ProcessPoolExecutor(driver.processors()) as pool:
            while time.monotonic() < self.end and (chunk := list(itertools.islice(keys, CHUNK))):
                yield from filter(None, pool.map(self.tried, chunk, chunksize=BATCH))

    def first_trouble(self, case):
        """The first thing that is wrong with a case, or nothing, and its folder and its last run as they are then."""
        runs = Runs(self.program, self.room, "smallest")
        shutil.rmtree(runs.folder, ignore_errors=True)
        return next(filter(None, self.troubles(case, runs)), ""), runs

    def fails(self, case):
        return self.first_trouble(case)[0] != ""

    def smallest_case(self, key):
        return smallest(self.tester.case(key), self.fails)

    def smallest_failure(self, key):
        """What is wrong with that case, with its files and its last run."""
        case = self.smallest_case(key)
        found, runs = self.first_trouble(case)
        files = {it: driver.read(os.path.join(runs.folder, it)) for it in sorted(os.listdir(runs.folder))}
        shown = [f"{name}: {text}" for name, text in files.items()]
        return "\n  ".join([f"case {key}, made as small as it fails: {found}", *shown, runs.last])


def tried(tester, room, keys, end=float("inf")):
    """For each test of a tester's cases what is wrong, or nothing, until a time. The first few failures are made as small as they fail."""
    search, failed = Search(tester, driver.program(), room, end), 0
    for key, troubles in search.all_tried(iter(keys)):
        if any(troubles):
            failed += 1
            troubles[troubles.index(next(filter(None, troubles)))] = (
                search.smallest_failure(key) if failed <= SHRUNK else f"case {key} fails, too")
        yield from troubles


def main():
    words = argparse.ArgumentParser()
    words.add_argument("tester", choices=("random_runs", "random_changes", "hostile_bytes"))
    words.add_argument("--seed", type=int, default=1, help="the seed of the first case (default: 1)")
    words.add_argument("--count", type=int, help="how many cases (default: those of the tests; with --seconds, without end)")
    words.add_argument("--seconds", type=float, help="how long to try cases (default: until all are tried)")
    options, counts = words.parse_args(), collections.Counter()
    tester = importlib.import_module(options.tester).TESTER
    count = options.count or (None if options.seconds else tester.count)
    keys = itertools.islice(itertools.count(options.seed), count)
    with tempfile.TemporaryDirectory() as room:
        driver.build_shim(room)
        for trouble in tried(tester, room, keys, time.monotonic() + (options.seconds or float("inf"))):
            counts["failed" if trouble else "passed"] += 1
            print(trouble, end="\n" * bool(trouble))
    print(f"{counts['passed']} passed, {counts['failed']} failed")
    return counts["failed"] > 0


if __name__ == "__main__":
    sys.exit(main())
