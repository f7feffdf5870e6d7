"""The libraries, called from C and by the types of C: examples/c/main.c against the program, rooms of all sizes, null pointers,
refused growths of memory, random bytes, and the header."""

import os
import re
import resource
import subprocess
import time

import blocks
import calling
import driver
import in_memory
import pages
import reports
import tables
from checks import Checks
from driver import HOME
from generator import Maker

INCLUDE = os.path.join(HOME, "bindings", "c")
MAIN = os.path.join(HOME, "examples", "c", "main.c")
# Fewer files may be open at once than some runs name.
OPEN_FILES = 256
OUT_OF_MEMORY = 4
SANITIZERS = ["-fsanitize=address,undefined", "-fno-sanitize-recover"]
NO_LEAKS = {**os.environ, "ASAN_OPTIONS": "detect_leaks=0"}
# The files of the command lines on which both have to write the same.
OWN_FILES = {
    "ten": "Feature: f" + "\n" * 7 + "Scenario: line 8\nGiven it passes\nScenario: line 10\nGiven it fails\n",
    "equals": driver.feature('Then the variable "A" should be "b=c"'),
    "long": "Feature: f\nScenario Outline: <n>\n" + "Given it passes\n" * 20 + "Examples:\n|n|\n" + "".join(f"|{it}|\n" for it in range(2000)),
    "zero": b"Feature: f\nScenario: a\0b\nGiven it passes\n",
    "most": b"#" * ((1 << 24) - 1) + b"\n", "more": b"#" * ((1 << 24) + 1),
}
# What random files are, each with lines that may begin it and the option that takes it.
KINDS = ((".feature", b"Feature: f\nScenario: s\n", []), (".hooks", b"before_all:\n", ["--hooks=made"]), (".steps", b"step x => pass\n", ["--library=made"]))
OTHER = "@t\nFeature: f\n  Rule: r\n    Scenario: s\n      Given it passes\n      Then x\n"
RANDOM = 10000
MANY = 10000  # files of one call
SMALL = 1 << 14  # bytes of a room for the report of a random file


@pages.tests("c_library.md")
class Example(Checks):
    """examples/c/main.c with checks of its memory, and the program."""

    NEEDS = ("cc", "rt")

    @classmethod
    def setUpClass(cls):
        super().setUpClass()
        cls.main, cls.shared = os.path.join(cls.room, "main"), os.path.join(cls.room, "shared")
        cls.archive = calling.built()
        if not cls.archive:
            cls.leave_out("there is no static library; `rt lib` in crates/gk_c makes it")
        empty = cls.compiled("int main(void) { return 0; }\n", "empty", *SANITIZERS) or driver.start(os.path.join(cls.room, "empty"), [])[0]
        if empty:
            print("examples/c runs without checks of its memory: cc has none")
        for path, words in ((cls.main, [calling.archive(cls.room), *([] if empty else SANITIZERS)]), (cls.shared, [cls.make_shared()])):
            subprocess.run(["cc", "-O2", "-std=c11", "-Wall", "-Wextra", f"-I{INCLUDE}", "-o", path, MAIN, *words], check=True)

    @classmethod
    def make_shared(cls):
        """Makes the shared library, and a folder where it has its versioned name."""
        version = re.search(rb"^#define GHERKIN_RUN_ABI_VERSION (\d+)$", driver.read(os.path.join(INCLUDE, "gherkin_run.h")), re.MULTILINE)
        cls.temporary, cls.versioned = os.path.join(cls.room, "temporary"), f"libgherkin_run.so.{version[1].decode()}"
        made = os.path.join(cls.room, "libgherkin_run.so")
        os.mkdir(cls.temporary)
        subprocess.run([os.path.join(HOME, "tools", "shared_library.sh"), made, cls.archive], env={**os.environ, "TMPDIR": cls.temporary}, check=True)
        driver.write(os.path.join(cls.room, "found"), {cls.versioned: driver.read(made)})
        return made

    @classmethod
    def compiled(cls, text, name, *words, compiler="cc"):
        """Compiles a text of C. Returns what the compiler says, or nothing."""
        driver.write(cls.room, {f"{name}.source": text})
        language = "c" if compiler == "cc" else "c++"
        ended = driver.start(compiler, [f"-I{INCLUDE}", "-x", language, f"{name}.source", "-x", "none", "-o", name, *words], cls.room)
        return "" if ended[0] == 0 else f"{name}: {ended[2].decode()}"

    def alike(self, words, folder=HOME):
        """Checks that both write the same and end with the same status."""
        def open_few():
            resource.setrlimit(resource.RLIMIT_NOFILE, (OPEN_FILES, OPEN_FILES))

        wanted = driver.start(self.program, words, folder)
        self.compare(f"{words[:4]}, {len(words)} words", driver.start(self.main, words, folder, NO_LEAKS, before=open_few), wanted)

    def test_examples(self):
        for words in driver.examples():
            for options in [], ["--explain"], ["--lint"]:
                self.alike([*options, *words])

    def test_changed_files(self):
        for words in in_memory.changed_files(self.room, 5, in_memory.FORMS):
            self.alike(words, self.room)

    def shown_line(self, *words):
        """What the example shows below the fault of the program."""
        status, out, said = driver.start(self.program, words, self.room)
        found = driver.start(self.main, ["--show", *words], self.room, NO_LEAKS)
        return found[2].removeprefix(said).decode() if found[:2] == (status, out) and found[2].startswith(said) else found

    def start_shared(self, words, folder, **more):
        return driver.start(self.shared, words, folder, {**os.environ, "LD_LIBRARY_PATH": os.path.join(self.room, "found")}, **more)


# Files, of which the names have colons, some with faults.
FILES = [("x", driver.read(os.path.join(driver.EXAMPLES, "paint.feature"))), ("b:7: c", "Feature: F\n\nFeature: G\n"), ("a:2", "@never\n"),
         ("a:1", "\ngiven a => none\n"), ("y", "Feature: first\n"), ("y", b"\xff"), ("unasked", b"\xff"), ("empty", ""), ("", "no feature\n")]


@pages.tests("c_calls.md")
class Calls(Checks):
    """Calls with a library that counts growths of memory."""

    NEEDS = ("cc",)

    @classmethod
    def setUpClass(cls):
        super().setUpClass()
        cls.library = calling.Counted(calling.counted(cls.room))

    def run_files(self, words, **more):
        return self.library.run(words, FILES, **more)

    def test_rooms_and_refused_growths(self):
        """With rooms of each size what fits is written. With each growth refused the output is whole, or memory ran out."""
        for words in ["x"], ["--explain", "x"], ["--lint", "x", "none"], ["--unknown", "x"]:
            whole = self.run_files(words)
            out, errors = whole.out[:whole.out_length], whole.errors[:whole.errors_length]
            for size in range(max(whole.out_length, whole.errors_length) + 3):
                found = self.run_files(words, size=size)
                wanted = whole._replace(out=calling.filled(out, size), errors=calling.filled(errors, size))
                self.unless(f"{words} with rooms of {size} bytes", found == wanted, found)
            for number, (found, left) in enumerate(self.library.refusals(lambda: self.run_files(words))):
                said = found.errors[:found.errors_length]
                is_marked = said == b"" and found.out_length > 0
                has_ended = is_marked or said == b"gherkin_run: out of memory\n" and found.name_length == 0
                has_ended = has_ended and found.status == OUT_OF_MEMORY
                self.unless(f"{words} with growth {number} refused, and {left} blocks left", (found == whole or has_ended) and left == 0, found)

    def called(self, *words):
        """How a call ends with a fault: its status, the message, and the name and the line of its place."""
        self.library.own.refuse(0)
        found = self.run_files(words)
        said, kept = found.errors[:found.errors_length], self.library.own.blocks_left()
        message = re.fullmatch(rb"gherkin_run: (.*)\n", said, re.DOTALL)
        if found.out_length or kept or not message:
            return found, kept
        return found.status, message[1].decode(), message[1][:found.name_length].decode(), found.line

    def test_asked_files(self):
        words, wanted = ["--hooks=h", "b", "--library", "l", "a", "--", "b"], b"l\0h\0b\0a\0b\0"
        for size in range(len(wanted) + 3):
            self.unless(f"names in {size} bytes", self.library.files(words, size) == (len(wanted), calling.filled(wanted, size)))
        whole, refused = (4, calling.filled(b"a\0b\0", calling.MOST)), (calling.NO_LENGTH, calling.filled(b"", calling.MOST))
        for number, (found, left) in enumerate(self.library.refusals(lambda: self.library.files(["a", "b"]))):
            self.unless(f"names with growth {number} refused, and {left} blocks left", found in (whole, refused) and left == 0, found[0])

    def time_of(self, count):
        """The processor time of a call with this number of files, whose names begin alike. Of three times the least counts."""
        names = [f"{'folder/' * 30}{number}.feature" for number in range(count)]
        self.library.own.refuse(0)
        times = []
        for _ in range(3):
            begun = time.process_time()
            self.library.run(names, [(it, "") for it in names])
            times.append(time.process_time() - begun)
        return min(times)

    def test_many_files(self):
        """Ten times as many files take some ten times the time, although each is found by its name."""
        few, many = self.time_of(MANY // 10), self.time_of(MANY)
        self.unless(f"{MANY} files take {many:.3f} s, and a tenth of them {few:.3f} s", many < 30 * few)

    def test_random_files(self):
        """Random bytes and lines as a feature file, as a hooks file and as a library."""
        for number in range(RANDOM):
            (ending, begin, option), maker = KINDS[number % len(KINDS)], Maker(number)
            made = random_file(maker, ending, begin)
            words = [*option, "other" if option else "made", f"--format={maker.chance.choice(tables.FORMATS)}"]
            words += [it for it in tables.RUN_FLAGS if maker.chance.random() < 0.125]
            files = [("made", made), ("other", OTHER)]
            self.library.own.refuse(0)
            found = self.library.run(words, files, SMALL)
            size = maker.chance.randrange(found.out_length + found.errors_length + 2)
            again = found._replace(out=calling.filled(found.out[:found.out_length], size), errors=calling.filled(found.errors[:found.errors_length], size))
            holds = is_well(found, made) and self.library.run(words, files, size) == again and self.library.own.blocks_left() == 0
            self.unless(f"{words} with {made} and seed {number}", holds, found)


def random_file(maker, ending, begin):
    """Random bytes: any, or lines, often after some that may begin such a file, with a byte that is changed now and then."""
    chance = maker.chance
    if chance.random() < 0.25:
        return maker.bytes(200)
    made = bytearray((begin if chance.random() < 0.5 else b"") + maker.lines(ending, 20) + b"x")
    if chance.random() < 0.125:
        made[chance.randrange(len(made))] = chance.randrange(256)
    return bytes(made)


def is_well(found, made):
    """Whether there is a report, or a fault at a line of the file. If that isn't UTF-8 this is the fault, at its line."""
    try:
        made.decode()
        bad = 0
    except UnicodeDecodeError as error:
        bad = 1 + made.count(b"\n", 0, error.start)
    said = found.errors[:found.errors_length]
    if not said:
        is_report = found.status in (0, 1) and found.name_length == found.line == 0 and found.out[:found.out_length].endswith(b"\n")
        return is_report and not bad
    is_fault = found.status == 3 and found.out_length == 0 and said[calling.NAME_AT:][:found.name_length] == b"made"
    return is_fault and 1 <= found.line <= 1 + made.count(b"\n") and said.endswith(b": not UTF-8\n") == (bad > 0) and bad in (0, found.line)
