"""Runs, explanations and findings of feature files."""

from __future__ import annotations

import dataclasses
import functools
import json
import os
from typing import Any, Dict, Iterable, Iterator, List, Literal, Mapping, Optional, Tuple, Union

from gherkin_run import library as calls
from gherkin_run.data import ReportData
from gherkin_run.printing import printable_lines

# tools/tables.py: formats
Format = Literal["plain", "progress", "json"]
# tools/tables.py: end
# The bytes that a file may have.
LONGEST_FILE = 16_777_216
PROGRAM = "gherkin_run: "


def check_type(what: str, value: Any, *types: type) -> None:
    """Raises `TypeError` unless a value has one of these types."""
    if not isinstance(value, types):
        raise TypeError(f"{what} is {value!r}, not a {' or '.join(it.__name__ for it in types)}")


@dataclasses.dataclass(frozen=True)
class Source:
    """A file in memory: the name that reports and faults have for it, and its text."""

    name: str
    text: Union[str, bytes]

    def __post_init__(self) -> None:
        check_type("the name of a source", self.name, str)
        check_type("the text of a source", self.text, str, bytes)


# The path of a file, or a file in memory.
File = Union[str, bytes, "os.PathLike[str]", Source]
# A file that steps find: its text, or its path as a `pathlib.Path`.
WorldFile = Union[str, bytes, "os.PathLike[str]"]


@dataclasses.dataclass(frozen=True)
class World:
    """What steps find when a run begins: files and variables, by their names."""

    files: Mapping[str, WorldFile] = dataclasses.field(default_factory=dict)
    env: Mapping[str, str] = dataclasses.field(default_factory=dict)


@dataclasses.dataclass(frozen=True)
class Result:
    """What the program writes, and its status: 0 if nothing failed or was found, 1 if something was, 4 if memory ran out."""

    status: int
    text: str

    @property
    def passed(self) -> bool:
        """Whether the status is 0."""
        return self.status == 0

    def check(self) -> None:
        """Raises `Failed` unless the status is 0."""
        if not self.passed:
            raise Failed(self)


class Report(Result):
    """The report of a run."""

    @functools.cached_property
    def data(self) -> ReportData:
        """The parsed text of a report in JSON. Other reports raise `ValueError`."""
        try:
            data: ReportData = json.loads(self.text)
        except ValueError:
            raise ValueError("only a report in JSON has data") from None
        return data


class Explanation(Result):
    """What happened in each scenario that failed."""


class Findings(Result):
    """The lines of what is ignored, can't work or isn't used."""


class Failed(AssertionError):
    """A result whose status isn't 0. The message has its whole text, with control characters escaped."""

    def __init__(self, result: Result) -> None:
        super().__init__(result)
        self.result = result

    def __str__(self) -> str:
        return f"the status is {self.result.status}\n{printable_lines(self.result.text)}".rstrip("\n")


class Fault(Exception):
    """The fault for which the program ended without a result.

    `file` is the name of the faulty file and `line` the line in it, from 1. Each is None if the fault has none.
    `reason` says what is wrong. `status` is the program's: 2 for wrong arguments, 3 for a wrong file, 4 if memory ran
    out. `hint` has the faulty line and how to mend it, or is empty. The message is what the program writes, without its
    name and the last line feed, and then the hint.
    """

    def __init__(self, text: str, status: int, file: Optional[str] = None, line: Optional[int] = None, hint: str = "") -> None:
        super().__init__(text, status, file, line, hint)
        self.status, self.file, self.line, self.hint = status, file, line, hint
        place = "" if file is None else f"{file}: " if line is None else f"{file}:{line}: "
        self.reason = text[len(place):]

    def __str__(self) -> str:
        return f"{self.args[0]}\n{self.hint}".rstrip("\n")


def _below(errors: bytes) -> str:
    """Returns the notes below the line of a fault that an explanation or findings end with."""
    return errors.decode("utf-8").partition("\n")[2].rstrip("\n") if errors.startswith(PROGRAM.encode()) else ""


def _fault(ended: calls.Ended, notes: str) -> Fault:
    """Builds the fault of what the program wrote to standard error, with these notes, which may end that."""
    written = ended.errors[len(PROGRAM):] if ended.errors.startswith(PROGRAM.encode()) else ended.errors
    file = written[:ended.name_length].decode("utf-8") if ended.name_length else None
    text = written.decode("utf-8").rstrip("\n")
    if notes and text.endswith(notes):
        text = text[:-len(notes)].rstrip("\n")
    return Fault(text, ended.status, file, ended.line or None, notes)


def _words(options: Mapping[str, Any]) -> Iterator[str]:
    """Yields the program's arguments for options: of `no_skipped=True` the flag `--no-skipped`, of `line=[2, 3]` two lines."""
    for name, value in options.items():
        option = "--" + name.replace("_", "-")
        if value is True:
            yield option
        elif value is not None and value is not False:
            yield from (f"{option}={text}" for text in _texts(name, value))


def _named_values(argument: str, given: Mapping[str, Any], *types: type) -> Iterator[Tuple[str, Any]]:
    """Yields each name with its value, which has one of these types."""
    for name, value in given.items():
        check_type(f"{argument}: a name", name, str)
        check_type(f"{argument}: {name}", value, *types)
        if "=" in name:
            raise ValueError(f"{argument}: a name has no equals sign")
        yield name, value


def _several(value: Any) -> Iterable[Any]:
    """Returns the values of an argument that takes one or several."""
    return value if isinstance(value, Iterable) and not isinstance(value, (str, bytes, os.PathLike)) else [value]


def _texts(name: str, value: Any) -> Iterator[str]:
    """Yields the texts of an option: those of one value, of several, or of variables by their names."""
    if isinstance(value, Mapping):
        yield from map("=".join, _named_values(name, value, str))
        return
    for it in _several(value):
        if not isinstance(it, (str, int)) or isinstance(it, bool):
            raise TypeError(f"{name}: {it!r} is neither a text nor a number")
        yield str(it)


def read_path(path: Union[str, bytes]) -> bytes:
    """Opens and reads a file. An `OSError` names it."""
    with open(path, "rb") as opened:
        try:
            # The program refuses a file that is longer.
            return opened.read(LONGEST_FILE + 1)
        except OSError as error:
            error.filename = path
            raise


def _read(file: File) -> Tuple[str, bytes]:
    """Returns the name and the text of a file. A path is opened."""
    if isinstance(file, Source):
        return file.name, file.text.encode("utf-8", "surrogateescape") if isinstance(file.text, str) else file.text
    name = os.fspath(file)
    return name if isinstance(name, str) else name.decode("utf-8", "surrogateescape"), read_path(name)


def _named(files: Iterable[File], held: Dict[str, bytes]) -> List[str]:
    """Returns the names of files. Adds their texts to those that are held."""
    names = []
    for name, text in map(_read, files):
        if held.setdefault(name, text) != text:
            raise ValueError(f"two files have the name {name}")
        names.append(name)
    return names


def _world(files: Mapping[str, WorldFile], held: Dict[str, bytes]) -> Iterator[str]:
    """Yields the arguments for files that steps find. Adds their texts to those that are held."""
    if not isinstance(files, Mapping):
        raise TypeError("files are given by their names, in a mapping")
    for name, file in _named_values("files", files, str, bytes, os.PathLike):
        path, = _named([file if isinstance(file, os.PathLike) else Source(name, file)], held)
        yield f"--file={name}={path}"


def _called(
    features: Union[File, Iterable[File]],
    library: Optional[File],
    hooks: Optional[File],
    files: Optional[Mapping[str, WorldFile]] = None,
    **options: Any,
) -> Tuple[int, str]:
    """Calls the program. Returns its status and its output, and raises what it writes to standard error."""
    held: Dict[str, bytes] = {}
    # The program reads the files in this order.
    inputs = list(_world(files or {}, held))
    for name, file in (("library", library), ("hooks", hooks)):
        inputs += _words({name: _named([file], held)}) if file is not None else ()
    inputs += ["--", *_named(_several(features), held)]
    ended = calls.call([*_words(options), *inputs], held)
    if ended.errors:
        raise _fault(ended, _below(ended.errors if _is_explained(options) else _explained(options, inputs, held)))
    return ended.status, ended.output.decode("utf-8")


def _is_explained(options: Mapping[str, Any]) -> bool:
    return bool(options.get("explain") or options.get("lint"))


def _explained(options: Mapping[str, Any], inputs: List[str], held: Dict[str, bytes]) -> bytes:
    """Calls the program again for an explanation, which prints below a fault how to mend it. Returns its errors."""
    shared = {name: value for name, value in options.items() if name in ("tags", "line", "env")}
    return calls.call(["--explain", *_words(shared), *inputs], held).errors


def run(
    features: Union[File, Iterable[File]],
    library: Optional[File] = None,
    hooks: Optional[File] = None,
    *,
    # tools/tables.py: run
    tags: Union[str, Iterable[str], None] = None,
    line: Union[int, Iterable[int], None] = None,
    env: Optional[Mapping[str, str]] = None,
    files: Optional[Mapping[str, WorldFile]] = None,
    dry_run: bool = False,
    stop: bool = False,
    format: Format = "plain",
    no_skipped: bool = False,
    # tools/tables.py: end
) -> Report:
    """Runs one or more feature files, in their order, and returns the report.

    A file is a path, which is opened, or a `Source`. `files` has the files that steps find, by their names: each is a
    text, or a `pathlib.Path`, which is opened. The other arguments are the program's options of the same names. `tags`
    and `line` take one value or several.

    Raises `Fault` for a wrong file or option, and `OSError` if a file can't be opened or read. An argument that can't
    be one of the program raises `TypeError` or `ValueError`, a shared library that can't be loaded `ImportError`. A call
    keeps nothing, so several threads may make calls at once.
    """
    return Report(*_called(**locals()))


def explain(
    features: Union[File, Iterable[File]],
    library: Optional[File] = None,
    hooks: Optional[File] = None,
    *,
    # tools/tables.py: explain
    tags: Union[str, Iterable[str], None] = None,
    line: Union[int, Iterable[int], None] = None,
    env: Optional[Mapping[str, str]] = None,
    files: Optional[Mapping[str, WorldFile]] = None,
    stop: bool = False,
    # tools/tables.py: end
) -> Explanation:
    """Runs feature files as `run` does, and returns what happened in each scenario that failed."""
    return Explanation(*_called(explain=True, **locals()))


def lint(
    features: Union[File, Iterable[File]],
    library: Optional[File] = None,
    hooks: Optional[File] = None,
    *,
    # tools/tables.py: lint
    tags: Union[str, Iterable[str], None] = None,
    line: Union[int, Iterable[int], None] = None,
    env: Optional[Mapping[str, str]] = None,
    no_steps: bool = False,
    # tools/tables.py: end
) -> Findings:
    """Runs nothing, and returns what in the files is ignored, can't work or isn't used. Raises what `run` raises.

    With `no_steps`, no step is looked up, and neither a library nor a hooks file can be given.
    """
    return Findings(*_called(lint=True, **locals()))
