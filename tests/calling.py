"""The library of the program, called in this process with the types of bindings/python/, and rooms of any size.

It is built from the static library that GHERKIN_ARCHIVE names, from that of `rt lib`, or from that of dist/.
"""

import collections
import ctypes
import os
import shutil
import subprocess
import sys

import driver

DIST = os.path.join(driver.HOME, "dist")
PACKAGE = os.path.join(driver.HOME, "bindings", "python")
BUILT = os.path.join(driver.HOME, "crates", "gk_c", "out", "libgk_c.a")
# What this process and those that it starts import.
sys.path.insert(0, PACKAGE)
os.environ["PYTHONPATH"] = ":".join(filter(None, (PACKAGE, os.environ.get("PYTHONPATH"))))
from gherkin_run.library import Answer, NamedText, Text  # pylint: disable=wrong-import-position

EDGE = 16  # bytes behind each room, which have to stay as they are
MOST = 1 << 16  # the size of a room for most texts
UNWRITTEN = b"\xaa"
NAME_AT = len("gherkin_run: ")
NO_LENGTH = ctypes.c_size_t(-1).value  # in place of the length of names, if memory ran out

Called = collections.namedtuple("Called", "status out_length errors_length name_length line out errors")


def built():
    """The path of what `rt lib` made, if it is there."""
    return os.environ.get("GHERKIN_ARCHIVE") or (BUILT if os.path.exists(BUILT) else "")


def archive(room):
    """The path of the static library that needs no toolchain."""
    path = os.path.join(room, "libgherkin_run.a")
    if not built() or not shutil.which("rt"):
        return os.path.join(DIST, "libgherkin_run.a")
    if not os.path.exists(path):
        subprocess.run([os.path.join(driver.HOME, "tools", "static_library.sh"), path, built()], check=True)
    return path


def counted(room):
    """The library of which growths of memory are counted and refused, as in tests/counted.c."""
    path = os.path.join(room, "counted.so")
    subprocess.run(["cc", "-shared", "-fPIC", "-O2", "-Wall", "-Wextra", "-o", path, os.path.join(driver.HOME, "tests", "counted.c"),
                    "-Wl,--whole-archive", archive(room), "-Wl,--no-whole-archive", "-Wl,--wrap=malloc,--wrap=realloc,--wrap=free"], check=True)
    return path


def text_of(value):
    """A text of C. None is a null pointer."""
    value = value.encode() if isinstance(value, str) else value
    return Text(value, len(value or b""))


def array(kind, items):
    return items and (kind * len(items))(*items)


def filled(text, size):
    """What a room of this size, and the bytes behind it, have after a text was written as far as it fits."""
    return text[:size] + UNWRITTEN * (EDGE + max(0, size - len(text)))


class Library:
    """The calls of a shared library. Texts are bytes or strings."""

    def __init__(self, path):
        self.own = ctypes.CDLL(path)
        words = [ctypes.POINTER(Text), ctypes.c_size_t]
        room = [ctypes.c_char_p, ctypes.c_size_t]
        self.own.gherkin_run.argtypes = [*words, ctypes.POINTER(NamedText), ctypes.c_size_t, *room, *room, ctypes.POINTER(Answer)]
        self.own.gherkin_run.restype = None
        self.own.gherkin_run_files.argtypes, self.own.gherkin_run_version.argtypes = [*words, *room], room
        self.own.gherkin_run_files.restype = self.own.gherkin_run_version.restype = ctypes.c_size_t

    def run(self, words, files=(), size=MOST):
        """What a call returns, and the rooms for its output and its errors. Files are pairs of a name and bytes."""
        arguments = array(Text, [text_of(it) for it in words])
        held = array(NamedText, [NamedText(text_of(name), text_of(text)) for name, text in files])
        out, errors = (ctypes.create_string_buffer(UNWRITTEN * (size + EDGE), size + EDGE) for _ in range(2))
        answer = Answer()
        self.own.gherkin_run(arguments or None, len(words), held or None, len(files), out, size, errors, size, answer)
        return Called(answer.status, answer.out_length, answer.errors_length, answer.name_length, answer.line, out.raw, errors.raw)

    def files(self, words, size=MOST):
        """The length of the names of the files that arguments ask for, and the room for them."""
        room = ctypes.create_string_buffer(UNWRITTEN * (size + EDGE), size + EDGE)
        return self.own.gherkin_run_files(array(Text, [text_of(it) for it in words]) or None, len(words), room, size), room.raw

    def asked(self, words):
        length, room = self.files(words)
        return room[:length].split(b"\0")[:-1]

    def version(self):
        room = ctypes.create_string_buffer(MOST)
        length = self.own.gherkin_run_version(room, MOST)
        return room.raw[:length].decode()


class Counted(Library):
    def __init__(self, path):
        super().__init__(path)
        self.own.refuse.argtypes = [ctypes.c_long]
        self.own.growths_made.restype = self.own.blocks_left.restype = ctypes.c_long

    def refusals(self, call):
        """What a call returns, and then, for each growth that is refused to it, what it returns and how many blocks are left."""
        self.own.refuse(0)
        yield call(), self.own.blocks_left()
        for number in range(1, self.own.growths_made() + 1):
            self.own.refuse(number)
            found = call(), self.own.blocks_left()
            self.own.refuse(0)
            yield found
