"""Lets pytest collect feature files: each scenario, and each row of an outline, is a test. Its tags are marks.

The setting `gherkin_files` has the patterns of the files, `gherkin_library` and `gherkin_hooks` the paths of a library file
and a hooks file from the folder of the settings. The fixture `gherkin_world` gives what the steps of a scenario find. The
chosen scenarios of a file run together, before the first of them, unless each has a world of its own.
"""

from __future__ import annotations

import collections
import contextlib
import dataclasses
import functools
import os
import pathlib
import re
from typing import Any, Callable, Dict, FrozenSet, Iterable, Iterator, List, Optional, Set, Tuple

import pytest

from gherkin_run.data import ReportData, ScenarioData
from gherkin_run.printing import printable, printable_lines
from gherkin_run.runs import Explanation, Failed, Fault, Source, World, check_type, explain, read_path, run
from gherkin_run.tags import tags_of_scenarios

# The library file and the hooks file of a session.
SETTINGS = pytest.StashKey[Tuple[Optional[Source], Optional[Source]]]()
# The names that a mark can have.
MARK = re.compile(r"[^\W_][\w.+/-]*")
EMPTY = World()


@dataclasses.dataclass(frozen=True)
class GherkinScenario:
    """The scenario of a test: its name, its tags that are marks, the path of its file, and its line."""

    name: str
    tags: FrozenSet[str]
    path: pathlib.Path
    line: int


@pytest.fixture
def gherkin_scenario(request: pytest.FixtureRequest) -> GherkinScenario:
    """The scenario of this test."""
    item: Scenario = request.node
    return GherkinScenario(item.name, frozenset(item.tags), item.path, item.line)


@pytest.fixture
def gherkin_world() -> World:
    """The files and variables that the steps of a scenario find: none. A `conftest.py` can replace this fixture."""
    return EMPTY


def judge(request: pytest.FixtureRequest, gherkin_world: World) -> None:
    """Runs the scenario of a test in its world."""
    check_type("gherkin_world", gherkin_world, World)
    request.node.judge(gherkin_world)


def as_id(text: str) -> str:
    """Returns a text as a part of an id. It has no `::`, at which pytest cuts ids."""
    return printable(re.sub(":(?=:)", ": ", text))


@contextlib.contextmanager
def shown(failure: Callable[[str], BaseException]) -> Iterator[None]:
    """Raises another exception for a wrong or missing file, of which pytest shows the text alone."""
    try:
        yield
    except (Fault, ImportError, OSError) as error:
        hint = error.hint if isinstance(error, Fault) else ""
        line = printable(str(error)[:len(str(error)) - len(hint)].rstrip("\n"))
        raise failure(f"{line}\n{printable_lines(hint)}".rstrip("\n")) from None


def read(config: pytest.Config, path: pathlib.Path) -> Source:
    """Reads a file. Its name is its path from the folder in which pytest was started."""
    return Source(as_id(os.path.relpath(path, config.invocation_params.dir)), read_path(str(path)))


def files_of_settings(config: pytest.Config) -> Tuple[Optional[Source], Optional[Source]]:
    """Returns the library file and the hooks file, which the first call of a session reads."""
    if SETTINGS not in config.stash:
        folder = config.inipath.parent if config.inipath else config.rootpath
        library, hooks = (read(config, folder / name) if name else None for name in map(config.getini, ("gherkin_library", "gherkin_hooks")))
        config.stash[SETTINGS] = library, hooks
    return config.stash[SETTINGS]


def distinct(names: List[str]) -> Iterator[str]:
    """Yields each name; from its second time on, with a number that makes it unlike all others."""
    taken, times = set(names), collections.Counter[str]()
    for name in names:
        times[name] += 1
        unlike = name
        while times[name] > 1 and (unlike := f"{name} ({times[name]})") in taken:
            times[name] += 1
        yield unlike


def marks(source: Source, scenarios: List[ScenarioData]) -> Dict[int, Set[str]]:
    """Returns the tags of each scenario that can be marks, without their @, by its line."""
    text = source.text.decode("utf-8-sig") if isinstance(source.text, bytes) else source.text
    tags = tags_of_scenarios(text, {it["line"] for it in scenarios})
    return {line: {it[1:] for it in own if MARK.fullmatch(it, 1)} for line, own in tags.items()}


def scenarios_of(report: ReportData) -> List[ScenarioData]:
    return [scenario for feature in report["features"] for scenario in feature["scenarios"]]


def statuses(report: ReportData, lines: Iterable[int]) -> Dict[int, str]:
    """Returns the status of each chosen scenario, in a report without what is skipped.

    If a hook or cleanup around scenarios failed, it is unclear which of the scenarios that passed it fails.
    """
    sections = [section for feature in report["features"] for section in (feature, *feature.get("rules", []))]
    passed = "passed" if {report["run"], *(it["around"] for it in sections)} == {"passed"} else "unclear"
    ended = {it["line"]: passed if it["status"] == "passed" else it["status"] for it in scenarios_of(report)}
    return {line: ended.get(line, "skipped") for line in lines}


def pytest_addoption(parser: pytest.Parser) -> None:
    parser.addini("gherkin_files", "patterns of the names of feature files", type="args", default=[])
    parser.addini("gherkin_library", "the library file of the feature files")
    parser.addini("gherkin_hooks", "the hooks file of the feature files")


def pytest_collect_file(file_path: pathlib.Path, parent: pytest.Collector) -> Optional[FeatureFile]:
    if not any(map(file_path.match, parent.config.getini("gherkin_files"))):
        return None
    paths = {"nodeid": os.path.relpath(file_path, parent.config.rootpath), "name": os.path.relpath(file_path, parent.path)}
    options: Dict[str, Any] = {option: as_id(path) for option, path in paths.items() if as_id(path) != path}
    made: FeatureFile = FeatureFile.from_parent(parent, path=file_path, **options)
    return made


def pytest_collection_finish(session: pytest.Session) -> None:
    for item in session.items:
        if isinstance(item, Scenario):
            item.file.chosen.add(item.line)


def pytest_runtest_makereport(item: pytest.Item, call: pytest.CallInfo[None]) -> Optional[pytest.TestReport]:
    if not isinstance(item, Scenario):
        return None
    report = pytest.TestReport.from_item_and_call(item, call)
    if isinstance(report.longrepr, tuple):
        # The report of a skipped test has the place of the call that skips it.
        report.longrepr = (as_id(str(item.path)), item.line, report.longrepr[2])
    return report


class FeatureFile(pytest.File):
    """A feature file, whose tests are its scenarios."""

    def __init__(self, **options: Any) -> None:
        super().__init__(**options)
        self.source = Source("", "")
        # The lines of the scenarios that are going to run, and the statuses of those that ran.
        self.chosen: Set[int] = set()
        self.statuses: Dict[int, str] = {}
        # The world of those that ran.
        self.world = EMPTY

    def run(self, **options: Any) -> ReportData:
        return run(self.source, *files_of_settings(self.config), format="json", no_skipped=True, **options).data

    def explain(self, line: int, world: World) -> Explanation:
        return explain(self.source, *files_of_settings(self.config), line=line, files=world.files, env=world.env)

    def status(self, line: int, world: World) -> str:
        """Returns the status of a scenario. Another world than that of the call before has a run of this scenario alone."""
        lines = {line, *self.chosen} if world is self.world else {line}
        if world is not self.world:
            self.world, self.statuses = world, {}
        if line not in self.statuses:
            self.statuses.update(statuses(self.run(line=lines, files=world.files, env=world.env), lines))
        return self.statuses[line]

    def collect(self) -> Iterator[Scenario]:
        with shown(self.CollectError):
            self.source = read(self.config, self.path)
            scenarios = scenarios_of(self.run(dry_run=True))
        tags = marks(self.source, scenarios)
        for tag in sorted(set().union(*tags.values())):
            self.config.addinivalue_line("markers", f"{tag}: a tag of {self.source.name}")
        names = [as_id(it["name"] or it["keyword"]) for it in scenarios]
        # Some versions of pytest give this function no types.
        make: Any = Scenario.from_parent
        for name, scenario in zip(distinct(names), scenarios):
            line = scenario["line"]
            yield make(self, name=name, callobj=judge, file=self, line=line, tags=tags[line])


class Scenario(pytest.Function):
    """A scenario, or a row of an outline."""

    def __init__(self, *, file: FeatureFile, line: int, tags: Set[str], **options: Any) -> None:
        super().__init__(**options)
        self.file = file
        self.line = line
        self.tags = tags
        for tag in sorted(tags):
            self.add_marker(tag)

    def judge(self, world: World) -> None:
        with shown(functools.partial(pytest.fail.Exception, pytrace=False)):
            status = self.file.status(self.line, world)
            if status == "passed":
                return
            self.file.explain(self.line, world).check()
        if status == "skipped":
            pytest.skip("the scenario skipped itself")

    def repr_failure(self, excinfo: Any, style: Any = None) -> Any:
        if isinstance(excinfo.value, Failed):
            # The rest is the list of what failed, and the counts.
            return printable_lines(excinfo.value.result.text.rsplit("\n\n", 2)[0])
        return super().repr_failure(excinfo)

    def reportinfo(self) -> Any:
        # pytest replaces each period by :: in a text that ends the test's id, so this text begins with the file's name.
        return as_id(str(self.path)), self.line - 1, f"{as_id(self.path.name)}: {self.name}"
