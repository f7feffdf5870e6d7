"""Counts and lengths of sizes at which nobody looks, and large runs.

Each count and length that a user controls, from the bytes of a file to the changes in a layer, is a row: a block of
lengths.md or of counts.md, or a function here. A row makes the run of a size, with what has to come out, worked out
beside it and not taken from the program. A size up to SMALL is tried in each format, a larger one in one of them. With
SIZES=all in the environment each size is tried in each format, in some two minutes. Some rows end at SMALL, since their
cost grows faster than their number, or there is a limit below; those of one argument end where the system takes no
longer one.

A block has the size as `n`, and the functions of TEXTS. A mark may have several statuses, such as
`passed; over 255 failed: bad name`. A line `n:` says which sizes are tried, if these aren't 0 to MOST.

Of a growing run each size has ten times the bytes of the one before it, and may take only so many times its processor
time. It has two sizes, or those that its line `n:` lists. Runs at the limits are on the page sizes.md.
"""

import functools
import itertools
import os
import random
import re
import tempfile
import threading

import blocks
import driver
import pages
from builder import Run, quoted, run_of_block, scenario
from checks import Checks
from tables import FORMATS

# Of a range these sizes are tried, and random ones.
SIZES = [0, 1, 127, 128, 129, 255, 256, 257, 4095, 4096, 4097, 65_535, 65_536, 65_537]
SMALL = 4097  # up to here every format is tried
MOST = 70_000  # of the random sizes
RANDOM_SIZES = 2  # of each range
TIMES = 10  # a growing run is made once more so many times as large
MOST_TIMES = 30  # and takes at most so many times the processor time; 100 where each part is compared with each other
# Not the same letters again after a while, so that a part that is lost or doubled is seen.
LETTERS = "".join(random.Random(0).choices("abcdefghijklmnopqrstuvwxy", k=MOST))


# ---- texts in blocks

def letters(count, letter=""):
    """A text of so many bytes. The last is a z, and no other; those before it may be of one letter of two bytes."""
    if letter:
        return letter * (count // 2) + "z" * (count % 2)
    return (LETTERS * (count // MOST + 1))[:count - 1] + "z" if count else ""


def other(count, letter=""):
    """A text that differs from that in its last letter alone."""
    return letters(count, letter)[:-1] + "y"


def spaces(count):
    return (" \t\t" * (count // 3 + 1))[:count]


def numbered(text, numbers):
    """A text for each of these numbers, with the number in place of its `#`."""
    return "".join(text.replace("#", str(it)) for it in numbers)


def scenarios(count):
    """Scenarios that pass, fail, are skipped, and are undefined, in turn."""
    kinds = ["it passes", "it fails ... failed: fail step", "the scenario is skipped ... skipped", "nothing knows this ... undefined"]
    return "".join(scenario(kinds[it % len(kinds)], name=f"s{it}") for it in range(count))


def rules(count):
    """Rules with hooks. The one after every third one fails, unless the rule has no scenario, since such a one isn't begun."""
    text = ""
    for number in range(count):
        is_bad, is_empty = number % 3 == 0, number % 5 == 0
        text += "@bad\n" * is_bad + "Rule: r" + " ... failed" * (is_bad and not is_empty) + "\n"
        text += scenario('the number "n" should be 11', name=f"s{number}") * (not is_empty)
    return text


def pieces(count):
    """60 scenarios before the first rule and in each, with names so long that pieces end anywhere. Each second rule fails."""
    text = ""
    for number in range(count):
        rule, place = divmod(number, 60)
        if rule and place == 0:
            text += f"@bad\nRule: r{rule} ... failed\n" if rule % 2 else f"Rule: r{rule}\n"
        is_on = number % 5 not in (2, 3) and not 1025 <= number < 1078
        text += "@on\n" * is_on + scenario(f"it passes ... {'passed' if is_on else 'skipped'}", name=f"s{number}{'x' * (number * 37 % 211)}")
    return text


def replaced(text, texts):
    """A text for each of these texts, with it in place of its `#`."""
    return "".join(text.replace("#", it) for it in texts)


def phrases(text, count):
    """A text for each of so many pairs of one of 20 verbs and a noun, with the pair in place of its `#`."""
    return replaced(text, (f"verb{it % 20} the noun{it // 20}" for it in range(count)))


def prefixes(text, count):
    """A text for each of the first so many beginnings of a word of a's, with it in place of its `#`."""
    return replaced(text, ("a" * it for it in range(1, count + 1)))


def colliding(text, count):
    """A text for each of so many words of `ab` and `bA`, with it in place of its `#`. All have one sum if each byte counts 33
    times as much as the next one."""
    words = itertools.product(("ab", "bA"), repeat=count.bit_length())
    return replaced(text, ("".join(it) for it in itertools.islice(words, count)))


TEXTS = {it.__name__: it for it in (letters, other, spaces, quoted, numbered, scenarios, rules, pieces, phrases, prefixes, colliding)}


# ---- rows

def rows_of_page(page):
    """What makes the run of a size of each block of a page, and which sizes are tried, by the block's name."""
    for _, files, block in blocks.runs(driver.text(os.path.join("tests", page))):
        said = re.search("(?m)^n: (.*)", block.text)
        yield block.name, (functools.partial(run_of_size, files, block), said[1] if said else f"0 to {MOST}")


def run_of_size(files, block, size):
    return run_of_block(files, block, {**TEXTS, "n": size})


def brackets(size):
    """Behind each `<` as many bytes may be a name. A header of 21 columns has an index."""
    header, cells = numbered("h# | ", range(20)), numbered("c# | ", range(21))
    made = f"Feature: f\nScenario Outline: o\nGiven {'<' * (size - 1)}c20 ... undefined\n"
    made += f"Examples:\n| {header}{'<' * size} |\n| {cells}\n"
    return Run(made, {"a.feature": made.replace(f"{'<' * (size - 1)}c20 ... undefined", f"{'<' * 2 * size}>")})


ROWS = {**dict(it for page in ("lengths.md", "counts.md") for it in rows_of_page(page)),
        "growing brackets before a placeholder": (brackets, "3000 and ten times as many")}
GROWING = [it for it in ROWS if it.startswith("growing ")]


# ---- running them

def sizes(name):
    """The sizes of a row: of a range the usual ones and some random ones, and others that it names."""
    chance, found = random.Random(name), []
    for least, most in re.findall(r"(\d+)(?: to (\d+))?", ROWS[name][1]):
        if most:
            found += [it for it in SIZES if int(least) <= it <= int(most)]
            found += [max(int(least), int(int(most) ** chance.random())) for _ in range(RANDOM_SIZES)]
        else:
            found.append(int(least))
    return found


def of_run(name, run, styles):
    """What is wrong with a run in each of these formats, or nothing."""
    with tempfile.TemporaryDirectory() as folder:
        return [run.trouble(folder, style, f"{name}, {style}") for style in styles]


def of_row(name):
    """The same of each run of a row. Each run above SMALL is tried in one format alone, if the row has no formats."""
    make, found = ROWS[name][0], []
    for number, size in enumerate(sizes(name), list(ROWS).index(name)):
        is_each, run = os.environ.get("SIZES") == "all" or size <= SMALL, make(size)
        styles = FORMATS if is_each else [FORMATS[number % len(FORMATS)]]
        found += of_run(f"{name}: {size}", run, run.formats or styles)
    return found


def of_growing(name):
    """The same of a growing run. Of three times the least counts."""
    least, own_sizes = [], sizes(name)
    if len(own_sizes) == 1:
        own_sizes.append(own_sizes[0] * TIMES)
    for own in own_sizes:
        run, times = ROWS[name][0](own), []
        for _ in range(3):
            before = driver.processor_time()
            found = of_run(f"{name}: {own}", run, [None])
            times.append(driver.processor_time() - before)
            if found != [""]:
                return found
        least.append(min(times))
    return [driver.unless(f"{name}: {before:.3f} s, and {TIMES} times as large {after:.3f} s", after <= MOST_TIMES * before)
            for before, after in zip(least, least[1:])]


@pages.tests("sizes.md", shows_statuses=True)
class Sizes(Checks):
    @classmethod
    def setUpClass(cls):
        super().setUpClass()
        tagged = f"Feature: f\n@a @b\n{scenario('it passes')}@a\n{scenario('it passes')}"
        driver.write(cls.room, Run({"two.feature": tagged}).files)

    def with_tags(self, *texts):
        """Which of two scenarios a run with these texts of tags chooses, or its fault."""
        words = ["--format", "progress", *(word for it in texts for word in ("--tags", it)), "two.feature"]
        _, printed, err = driver.start(self.program, words, self.room)
        return {b".S": "the first", b"SS": "none"}.get(printed[13:15]) or err.decode()[len("gherkin_run: "):-1]

    def test_growing(self):
        for troubles in driver.in_processes(of_growing, GROWING):
            self.check_all(troubles)

    def test_rows(self):
        for troubles in driver.in_processes(of_row, [it for it in ROWS if it not in GROWING]):
            self.check_all(troubles)

    def test_one_look_up(self):
        """A step is looked up once, however a run is shown. Here look-ups take nearly all of the time."""
        fields = "".join(f"{{a{it}}}1{{n{it}:d}}2" for it in range(20))
        digits = "".join(random.Random(0).choices("0123456789", k=8000))
        steps = f"step go {fields}{{text}} => pass\nstep no {fields}{{text}} => fail\n"
        made = "Feature: f\n" + "".join(f"Scenario: s\nGiven go {digits}z\nThen {it} {digits}z\n" for it in ["go", "no"] * 10)
        driver.write(self.room, {"slow.steps": steps, "slow.feature": made})
        times = {}
        for option in ("plain", "progress", "json", "--explain", "--dry-run"):
            words = [option] if option.startswith("-") else ["--format", option]
            for _ in range(3):
                before = driver.processor_time()
                driver.start(self.program, [*words, "--library", "slow.steps", "slow.feature"], self.room)
                times.setdefault(option, []).append(driver.processor_time() - before)
        once = min(times["plain"])
        for option, tried in times.items():
            self.check(driver.unless(f"{option}: {min(tried):.3f} s, and a plain report {once:.3f} s", min(tried) <= 1.5 * once))

    def test_pipe(self):
        """The program reads a pipe that gives one byte at a time."""
        run, path = Run({"pipe": f"Feature: f\n{scenario('it passes')}"}), os.path.join(self.room, "pipe")
        os.mkfifo(path)

        def feed(text):
            with open(path, "wb", buffering=0) as pipe:
                for byte in text.encode():
                    pipe.write(bytes([byte]))

        writer = threading.Thread(target=feed, args=[run.files.pop("pipe")])
        writer.start()
        self.check(run.trouble(self.room, "plain", "from a pipe"))
        writer.join()
