"""The tables of the sources, and whether what tools/tables.py writes from them is up to date."""

import importlib.util
import os
import re
import sys
import tempfile

import driver

# It imports tools/read.py.
sys.path.append(os.path.join(driver.HOME, "tools"))
_spec = importlib.util.spec_from_file_location("tables_of_sources", os.path.join(driver.HOME, "tools", "tables.py"))
written = importlib.util.module_from_spec(_spec)
_spec.loader.exec_module(written)

OPTIONS, STEPS, ACTIONS = written.OPTIONS, written.STEPS, written.ACTIONS
FORMATS = tuple(written.FORMATS)
# The options by what is given with them; of the flags, those of the page, which a run with its report takes.
FLAGS = [f"--{it.name}" for it in OPTIONS if it.takes == "Nothing"]
PAGE_FLAGS = [it for it in written.ON_PAGE if it.takes == "Nothing"]
RUN_FLAGS = [f"--{it.name}" for it in PAGE_FLAGS]
VALUED = [f"--{it.name}" for it in OPTIONS if it.takes != "Nothing"]
REFUSED_BY_LINT = [f"--{it.name}" for it in written.EXCLUDED["lint"]]

# A value that an option takes, by the name of its value. The file is a library and hooks, too: it is empty.
VALUES = {"T": "@a", "N": "3", "FILE": "/dev/null", "NAME=VALUE": "A=b", "NAME=PATH": "a=/dev/null", "F": FORMATS[-1]}

# Changes of the tables and of pages, and in how many written files each has to be seen.
CHANGES = (
    (written.OPTION_TABLE, 'name: "stop"', 'name: "halt"', "halt", 9),
    (written.OPTION_TABLE, "leave later scenarios untested", "leave others", "leave others", 5),
    (written.FORMAT_TABLE, '"progress"', '"dots"', "dots", 7),
    (written.DEFAULT_FILE, "step it fails =>", "step it cracks =>", "it cracks", 4),
    (written.ACTION_TABLE, '["name", "n"]', '["name", "n", "amount"]', "{amount}", 1),
    (written.DEFINITIONS, ", `Summary`", "", "`Summary`", 1),
    ("docs/guide/choosing.md", "## Dry runs", "## Looking up", "(choosing.md#looking-up)", 1),
    ("tests/runs/stop.md", "# Stopping", "# Halting", "[Halting]", 1),
    (written.VERSION_FILE, "\n", "-changed\n", "-changed", 8),
)


def given(option):
    """The words of an option that is given once."""
    return [f"--{option.name}", *([VALUES[option.value]] if option.value else [])]


def unread():
    """Tables of which tools/tables.py reads other rows than there are."""
    counts = {"options": (OPTIONS, written.OPTION_TABLE, r"OptionRow \{\n +name:"),
              "formats": (FORMATS, written.FORMAT_TABLE, r"\n +Format::\w+ => \""),
              "steps": (STEPS, written.DEFAULT_FILE, r" => \w+\\n"), "actions": (ACTIONS, written.ACTION_TABLE, r"\n    \w*row!\(\"")}
    for name, (rows, path, row) in counts.items():
        count = len(re.findall(row, driver.text(path)))
        yield f"tools/tables.py reads {len(rows)} of {count} {name}" if len(rows) != count else ""


def not_up_to_date():
    texts = written.texts()
    for path, text in texts.items():
        yield f"{path} isn't what tools/tables.py --write writes" if text != driver.text(path) else ""
    marks, parts = "".join(texts.values()).count("tools/tables.py: end"), len(written.parts())
    yield driver.unless(f"{marks} parts are marked for tools/tables.py, which writes {parts}", marks == parts)


def copied(folder):
    """Copies tools/tables.py with all that it reads and writes. Returns how to call the copy."""
    sources = {written.OPTION_TABLE, written.FORMAT_TABLE, written.ACTION_TABLE, written.DEFAULT_FILE, written.VERSION_FILE}
    sources |= {*written.files("tools/*.py", "docs/guide/*.md", "tests/runs/*.md", "crates/*/specs/*.antt")}
    for path in (*sources, *written.texts()):
        driver.write(folder, {path: driver.text(path)})
    return lambda option: driver.start(sys.executable, [os.path.join(folder, "tools", "tables.py"), option])


def unseen(path, old, new, text, files):
    """What is wrong with a copy in which a table was changed, or nothing."""
    with tempfile.TemporaryDirectory() as folder:
        call = copied(folder)
        if call("--check") != (0, b"", b""):
            return "tools/tables.py --check finds something in a copy without a change"
        driver.write(folder, {path: driver.text(path).replace(old, new)})
        statuses = [call(it)[0] for it in ("--check", "--write", "--check")]
        found = [it for it in written.texts() if text in driver.text(it, folder)]
    return "" if (statuses, len(found)) == ([1, 0, 0], files) else f"{new!r}: statuses {statuses}, seen in {found}"


def miscounted():
    """What is wrong with the numbers of edits in a copy without edits, and then with one for each number."""
    numbers = driver.text(written.NUMBERS)
    crate, *counts = numbers.splitlines()[0].split()
    with tempfile.TemporaryDirectory() as folder:
        call = copied(folder)
        call("--write")
        kept = driver.text(written.NUMBERS, folder)
        yield "a number of edits falls" if kept != numbers else ""
        driver.write(folder, {f"tests/edits/{crate}/{it}.edit": "" for it in range(int(counts[1]) + 1)})
        ended, _, _ = call("--check")
        call("--write")
        wanted = numbers.replace(" ".join([crate, *counts]), f"{crate} {counts[0]} {int(counts[1]) + 1}")
        yield "a new edit isn't counted" if (ended, driver.text(written.NUMBERS, folder)) != (1, wanted) else ""
