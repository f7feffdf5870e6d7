#!/usr/bin/env python3
"""Runs test modules side by side: tests/all.py [PROGRAM] [NAME..] [--without NAME]

A NAME is a module of tests/, such as test_runs, or a class or a test in it. Without one, all modules run. PROGRAM is
the program that is tested; without it, GHERKIN_RUN of the environment, or the one that ./run runs. Each class is a
process. One that fails is shown, and tried once more at the end with nothing beside it, since a busy machine can make a test too
slow. Closes with one line 'N passed, M failed', and with status 0 only if M is 0.
"""

import concurrent.futures
import glob
import os
import re
import signal
import subprocess
import sys
import unittest

import driver

TESTS = os.path.join(driver.HOME, "tests")
# Those that take long begin first.
LONGEST = ("test_release.Stopped", "test_random.RandomRuns", "test_ready.Building", "test_random.HostileBytes",
           "test_refused_memory.RefusedMemory", "test_sizes.Sizes", "test_page.Use", "test_install.Stopped", "test_spread.Spread",
           "test_pytest.Plugin", "test_release.Release")
CLOSING = re.compile(r"^(\d+) passed, (\d+) failed$", re.MULTILINE)
STARTED = []


def classes(name):
    """The classes of a module, in its order, or the name itself if it is no module that can be loaded."""
    if "." in name:
        return [name]
    found = {}
    for suite in unittest.defaultTestLoader.loadTestsFromName(name):
        if isinstance(suite, unittest.TestSuite):
            found |= {f"{name}.{type(it).__name__}": None for it in suite}
    return list(found) or [name]


def run(name):
    """What a module says, and how many checks passed and failed. A bad end without counts or a failure is one failure."""
    with subprocess.Popen([sys.executable, "-m", "unittest", "-q", name], cwd=TESTS, stdin=subprocess.DEVNULL,
                          stdout=subprocess.PIPE, stderr=subprocess.STDOUT, text=True, errors="replace") as process:
        STARTED.append(process)
        said = process.communicate()[0]
    found = CLOSING.findall(said)
    passed, failed = map(int, found[-1]) if found else (0, 1)
    return said, passed, failed or int(process.returncode != 0)


def end(*_):
    for process in STARTED:
        process.send_signal(signal.SIGINT)
    os._exit(1)


def main():
    words = sys.argv[1:]
    without = words[words.index("--without") + 1:] if "--without" in words else []
    words = words[:len(words) - len(without) - bool(without)]
    names = [it.removeprefix("tests.") for it in words if it.startswith(("test_", "tests."))]
    for it in words:
        if it.removeprefix("tests.") not in names:
            os.environ["GHERKIN_RUN"] = os.path.abspath(it)
    # The tests of the sources run no program, so none is built for them.
    if not names or any(it.split(".")[0] != "test_sources" for it in names):
        os.environ["GHERKIN_RUN"] = driver.program()
    else:
        os.environ.setdefault("GHERKIN_RUN", os.path.join(driver.HOME, "dist", "gherkin_run"))
    for number in (signal.SIGHUP, signal.SIGINT, signal.SIGTERM):
        signal.signal(number, end)
    modules = sorted(os.path.basename(it)[:-3] for it in glob.glob(os.path.join(TESTS, "test_*.py")))
    names = [own for it in names or modules if it not in without for own in classes(it)]
    passed = failed = 0
    again = []
    with concurrent.futures.ThreadPoolExecutor(driver.processors()) as pool:
        order = sorted(names, key=lambda it: LONGEST.index(it) if it in LONGEST else len(LONGEST))
        running = {it: pool.submit(run, it) for it in order}
        for name in names:
            said, good, bad = running[name].result()
            print(f"== {name}", said.rstrip("\n"), sep="\n", flush=True)
            if bad:
                again.append(name)
            else:
                passed += good
    for name in again:
        said, good, bad = run(name)
        print(f"== {name}, once more", said.rstrip("\n"), sep="\n", flush=True)
        passed, failed = passed + good, failed + bad
    print(f"{passed} passed, {failed} failed")
    return failed > 0


if __name__ == "__main__":
    sys.exit(main())
