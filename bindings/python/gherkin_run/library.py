"""The shared library: the program over files in memory, as bindings/c/gherkin_run.h declares it."""

from __future__ import annotations

import ctypes
import functools
import mmap
import os
from typing import Mapping, NamedTuple, Sequence

# Most outputs fit into this number of bytes, and this number more for each byte of the files.
FIRST_ROOM = 1 << 16
ROOM_FOR_EACH = 8


class Text(ctypes.Structure):
    """`gherkin_text`."""

    _fields_ = [("bytes", ctypes.c_char_p), ("length", ctypes.c_size_t)]


class NamedText(ctypes.Structure):
    """`gherkin_file`."""

    _fields_ = [("name", Text), ("bytes", Text)]


class Answer(ctypes.Structure):
    """`gherkin_answer`."""

    _fields_ = [
        ("out_length", ctypes.c_size_t),
        ("errors_length", ctypes.c_size_t),
        ("name_length", ctypes.c_size_t),
        ("line", ctypes.c_uint32),
        ("status", ctypes.c_uint8),
    ]


class Ended(NamedTuple):
    """How the program ended: its status, and what it wrote to standard output and to standard error.

    If a file is at fault, the errors have its name after `gherkin_run: `. `name_length` is the number of bytes of that
    name, and `line` the line of the fault, if it has one. Otherwise both are 0.
    """

    status: int
    output: bytes
    errors: bytes
    name_length: int
    line: int


def built(name: str) -> str:
    """Returns the path of the program or of the library: beside this module if it is installed, otherwise in `dist/`."""
    here = os.path.dirname(os.path.abspath(__file__))
    beside = os.path.join(here, name)
    return beside if os.path.exists(beside) else os.path.join(here, "..", "..", "..", "dist", name)


@functools.lru_cache(maxsize=None)
def loaded() -> ctypes.CDLL:
    """Loads the shared library, once."""
    path = os.environ.get("GHERKIN_RUN_LIBRARY") or built("libgherkin_run.so")
    words = ctypes.POINTER(Text), ctypes.c_size_t
    files = ctypes.POINTER(NamedText), ctypes.c_size_t
    room = ctypes.c_char_p, ctypes.c_size_t
    try:
        library = ctypes.CDLL(path)
        library.gherkin_run.argtypes = [*words, *files, *room, *room, ctypes.POINTER(Answer)]
        library.gherkin_run.restype = None
        library.gherkin_run_version.argtypes = room
        library.gherkin_run_version.restype = ctypes.c_size_t
    except (OSError, AttributeError) as error:
        raise ImportError(f"cannot load the library of gherkin_run: {error}", path=path) from error
    return library


def text_of(value: str) -> Text:
    """Returns an argument or a name as UTF-8. Bytes that were no UTF-8 are single surrogates, and become bytes again."""
    encoded = value.encode("utf-8", "surrogateescape")
    return Text(encoded, len(encoded))


def _room(size: int) -> ctypes.Array[ctypes.c_char]:
    """Reserves this number of bytes. Bytes that are never written take no memory."""
    try:
        return (ctypes.c_char * size).from_buffer(mmap.mmap(-1, size))
    except OSError:
        raise MemoryError from None


def call(arguments: Sequence[str], files: Mapping[str, bytes]) -> Ended:
    """Runs the program with these arguments over these files, again if what it writes doesn't fit into the room."""
    words = (Text * len(arguments))(*map(text_of, arguments))
    held = (NamedText * len(files))(*(NamedText(text_of(name), Text(text, len(text))) for name, text in files.items()))
    size, errors_size, answer = FIRST_ROOM + ROOM_FOR_EACH * sum(map(len, files.values())), FIRST_ROOM, Answer()
    while True:
        out, errors = _room(size), _room(errors_size)
        loaded().gherkin_run(words, len(words), held, len(held), out, size, errors, errors_size, answer)
        if answer.out_length <= size and answer.errors_length <= errors_size:
            break
        size, errors_size = max(size, answer.out_length), max(errors_size, answer.errors_length)
    output, written = ctypes.string_at(out, answer.out_length), ctypes.string_at(errors, answer.errors_length)
    return Ended(answer.status, output, written, answer.name_length, answer.line)


def version() -> str:
    """Returns the version of the shared library."""
    room = ctypes.create_string_buffer(FIRST_ROOM)
    return ctypes.string_at(room, loaded().gherkin_run_version(room, FIRST_ROOM)).decode("utf-8")
