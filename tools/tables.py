#!/usr/bin/env python3
"""Writes what repeats the tables of the sources: tools/tables.py --write | --check

    --write   renews the man page, the completions, the options of Python's calls and of the page, the tables of the guide,
              the help and the formats of stored runs, the lists of stored runs and of definitions, the numbers of edits,
              examples/default.steps, and the version
    --check   names those that differ from what --write would write; the status is 1 if there are any

The tables are OPTIONS of crates/gk_cli, ACTIONS and DEFAULT_TEXT of crates/gk_steps, and the names of formats in
crates/gk_report; the version is packaging/version. A written part of several lines is between a line with
`tools/tables.py: NAME` and the next line with `tools/tables.py: end`, except the help in a stored run.
"""

import collections
import itertools
import json
import os
import re
import sys
from types import SimpleNamespace

from read import HOME, files, item, joined, lines_of, spec_files, text_of

# Where the tables are.
OPTION_TABLE, FORMAT_TABLE = "crates/gk_cli/src/option_table.rt", "crates/gk_report/src/report.rt"
ACTION_TABLE, DEFAULT_FILE = "crates/gk_steps/src/action.rt", "crates/gk_steps/src/default_file.rt"
VERSION_FILE = "packaging/version"
# The number of edits of each crate: those of its must-fail/, and those of tests/edits/.
NUMBERS = "tests/edits/numbers"
DEFINITIONS = "docs/DEFINITIONS.md"

# ---- texts that the sources lack

# The page of the guide on an option, unless it is the section of a page of SECTIONS whose first paragraph names the option.
PAGES = {"tags": "choosing.md#tags", "library": "own_steps.md", "hooks": "hooks.md", "file": "checking.md", "explain": "explaining.md",
         "lint": "linting.md", "no-steps": "linting_others.md"}
SECTIONS = ("choosing.md", "reports.md")
# The label of an option's control on the page in the browser, unless it follows from the option's name.
LABELS = {
    "tags": "Tags: one <code>--tags</code> expression per line", "line": "Lines: numbers for <code>--line</code>, separated by spaces",
    "env": "Variables: one <code>NAME=TEXT</code> for <code>--env</code> per line",
    "library": "Own steps, in place of the built-in steps", "file": "A file that steps find",
    "stop": "Stop at the first failure", "no-skipped": "Leave out skipped scenarios",
}
# The name of the option's field there, unless it is the option's.
FIELDS = {"line": "lines", "env": "variables", "file": "written"}
# The labels of the name and of the text of a file there, and the name at first.
FILES = {"library": ("Name of the library file", "Library file", "own.steps"), "file": ("Name of the file", "Its text", "out.txt")}
# The tables of the guide's page on steps, each with its first action.
STEP_TABLES = {"write_file": "Files", "set_env": "Variables", "set_value": "Values and numbers", "at_cleanup": "Others"}

# The controls on the page of a flag, a file, a text, and a text of several lines.
FLAG = '            <label class="option"><input type="checkbox" id="{0.field}"> {0.label}</label>'
FILE = """\
        <details id="{0.field}Part" class="option"><summary>{0.label}</summary>
            <label class="above" for="{0.field}Name">{0.file[0]}</label>
            <input class="name" id="{0.field}Name" spellcheck="false">
            <label class="above" for="{0.field}">{0.file[1]}</label>
            <textarea id="{0.field}" spellcheck="false" rows="5"></textarea>
        </details>"""
TEXT = """\
            <div class="option">
                <label class="above" for="{0.field}">{0.label}</label>
                <input id="{0.field}" spellcheck="false">
            </div>"""
TEXTS = TEXT.replace("<input", "<textarea").replace('"false"', '"false" rows="2"></textarea')

# ---- the tables of the sources

# The names of the formats. The first is that of a run without --format.
FORMATS = re.findall(r'^ *Format::\w+ => "(\w+)",', text_of(FORMAT_TABLE), re.M)
# The text of the built-in library, and its entries.
LIBRARY = json.loads(re.search(r'DEFAULT_TEXT: &str =\s*(".*");', re.sub(r"\\\n\s*", "", text_of(DEFAULT_FILE)))[1])
Step = collections.namedtuple("Step", "type text action")
STEPS = [Step(*it) for it in re.findall(r"^(\w+) (.*) => (\w+)$", LIBRARY, re.M)]

# How a value is completed: the words for zsh and for fish.
COMPLETED = {"": ("", ""), "text": (": ", " -x"), "file": (":_files", " -r -F"),
             "format": (f":({' '.join(FORMATS)})", f" -x -a '{' '.join(FORMATS)}'")}
# What is given with an option: how it is completed, its type in Python, and on the page its row in the script and its control.
Kind = collections.namedtuple("Kind", "completed python script control")
# The kinds, by the name of the option or of its value, or by what the option takes.
KINDS = {
    "Nothing": Kind("", "bool = False", 'kind: "flag"', FLAG),
    "Text": Kind("text", "Optional[str] = None", r'kind: "text", between: "\n"', TEXT),
    "Texts": Kind("text", "Union[str, Iterable[str], None] = None", r'kind: "text", between: "\n"', TEXTS),
    "Lines": Kind("text", "Union[int, Iterable[int], None] = None", r'kind: "text", between: /[\s,]+/', TEXT),
    "NAME=VALUE": Kind("text", "Optional[Mapping[str, str]] = None", r'kind: "text", between: "\n"', TEXTS),
    "NAME=PATH": Kind("text", "Optional[Mapping[str, WorldFile]] = None", 'kind: "put", name: "{0.file[2]}"', FILE),
    "FILE": Kind("file", "", 'kind: "file", name: "{0.file[2]}"', FILE),
    "format": Kind("format", 'Format = "plain"', rf'kind: "text", between: "\n", first: "{FORMATS[0]}"', ""),
}


def options():
    """The options, in the order of the help: what their rows say, and what follows from it."""
    code = re.sub(r"\bOptionTakes::(\w+)", r'"\1"', text_of(OPTION_TABLE)).replace("value_name", "value")
    for constant, text in re.findall(r'^const (\w+): &str = ("[^"]*");', code, re.M):
        code = code.replace(f": {constant},\n", f": {text},\n")
    for comment, row in re.findall(r"((?:^ *//.*\n)*)^ *OptionRow \{\n((?s:.*?))^ *\}", code.partition("OPTIONS")[2], re.M):
        it = SimpleNamespace(**{name: json.loads(value) for name, value in re.findall(r"(\w+):\s+(.*),$", row, re.M)})
        it.long = joined(comment.splitlines())
        it.short = re.split(r"; | \[", it.help)[0]
        # The pattern of the words that name the value, if there is one.
        it.words = rf"\b(?:{it.value.replace('=', '|') or '(?!)'})\b"
        it.kind = KINDS.get(it.name) or KINDS.get(it.value) or KINDS[it.takes]
        it.is_repeatable = it.takes in ("Texts", "Lines")
        it.tabs = ["report"] * it.beside_report + ["explanation"] * it.beside_explain + ["findings"] * it.beside_lint
        it.field = re.sub("-(.)", lambda found: found[1].upper(), FIELDS.get(it.name, it.name))
        several = f": one for <code>--{it.name}</code> per line" if it.takes == "Texts" else ""
        it.label = LABELS.get(it.name, it.name.replace("-", " ").capitalize() + several)
        it.file = FILES.get(it.name, (f"Name of the {it.name} file", f"{it.name.capitalize()} file", f"own.{it.name}"))
        yield it


OPTIONS = list(options())
# Those that exclude others, by name, each with these.
EXCLUDED = {"explain": [it for it in OPTIONS if not it.beside_explain],
            "lint": [it for it in OPTIONS if not it.beside_lint],
            "no-steps": [it for it in OPTIONS if it.beside_lint and not it.beside_no_steps]}
# Those that are arguments in Python and controls on the page. --explain and --lint are calls and tabs.
CHOICES = [it for it in OPTIONS if it.name not in ("explain", "lint")]
# The page always has steps to look up.
ON_PAGE = [it for it in CHOICES if it.beside_report]

Action = collections.namedtuple("Action", "name uses does reasons steps")


def actions():
    """The actions: the fields that each uses, what it does, its reasons for failing, and its built-in steps."""
    code = text_of(ACTION_TABLE)
    variants = re.search(r"^pub enum Action \{\n((?s:.*?))^\}", code, re.M)[1]
    comments = {variant: joined(it.splitlines()) for it, variant in re.findall(r"((?:^ *///.*\n)+)^ *(\w+),$", variants, re.M)}
    for kind, name, variant, rest in re.findall(r'^ *(\w*)row!\("(\w+)", (\w+),(.*)\),$', code, re.M):
        does, _, reasons = comments[variant].partition(" Reasons: ")
        uses = ["name", "text"] if kind == "text_" else re.findall(r'"(\w+)"', rest)
        steps = [it.text for it in STEPS if it.action == name]
        yield Action(name, uses, does[0].lower() + does[1:].rstrip("."), reasons.rstrip("."), steps)


ACTIONS = list(actions())


def listed(names, word):
    *first, last = names
    return f"{', '.join(first)} {word} {last}" if first else last


# ---- the man page

def roff(text):
    return re.sub(r"^(?=[.'])", r"\&", text.replace("\\", r"\e").replace("-", r"\-"), flags=re.M)


def man_options():
    """The options, with a line for each sentence."""
    for heading, rows in itertools.groupby(OPTIONS, lambda it: it.heading):
        yield f".SS {heading}"
        for it in rows:
            yield from (".TP", rf"\fB{roff('--' + it.name)}\fR" + (rf" \fI{it.value}\fR" if it.value else ""))
            text = roff(f"{it.help}. {it.long}".strip()).replace("'", r"\(aq")
            text = re.sub(it.words, r"\\fI\g<0>\\fR", text)
            text = re.sub(r"(?<!\S)\\-\\-[a-z\\-]+", r"\\fB\g<0>\\fR", text)
            yield re.sub(r"(?<=\.) (?=[A-Z\\])", "\n", text)
            if it.name in EXCLUDED:
                *first, before, last = (roff(f"--{other.name}") for other in EXCLUDED[it.name])
                yield from ("This can't be used with", *(f".BR {other} ," for other in first), f".B {before}", "or", f".BR {last} .")


# ---- the completions

def bash():
    yield f"    local formats='{' '.join(FORMATS)}'"
    for kind in ("text", "file"):
        yield f"    local {kind}s=' {' '.join(f'--{it.name}' for it in OPTIONS if it.kind.completed == kind)} '"
    yield f"    local options='{' '.join(f'--{it.name}' for it in OPTIONS)} --help -h --version -V'"


def zsh():
    for it in OPTIONS:
        name = "*" * it.is_repeatable + f"--{it.name}" + "=" * bool(it.value)
        text = it.short.replace("'", r"'\''")
        label = it.value and (":" + (it.value if "=" in it.value else it.name))
        yield f"    '{name}[{text}]{label}{COMPLETED[it.kind.completed][0]}'"


def fish():
    for it in OPTIONS:
        text = it.short.replace("'", r"\'")
        yield f"complete -c gherkin_run -l {it.name}{COMPLETED[it.kind.completed][1]} -d '{text}'"


# ---- the options of Python's calls, and of the page in the browser

def arguments(tab):
    """The keyword arguments of Python's call for a tab. The files of a run are arguments before them."""
    for it in CHOICES:
        if tab in it.tabs and it.kind.python:
            name = "files" if it.name == "file" else it.name.replace("-", "_")
            yield f"    {name}: {it.kind.python},"


def controls(*templates):
    return [it.kind.control.format(it) for it in ON_PAGE if it.kind.control in templates]


def texts_on_page():
    names = [it.label.partition(":")[0].lower() for it in ON_PAGE if it.kind.control in (TEXT, TEXTS)]
    yield f'        <details id="choicePart"><summary>{listed(names, "and").capitalize()}</summary>'
    yield from (*controls(TEXT, TEXTS), "        </details>")


def script():
    for it in ON_PAGE:
        members = f'option: "--{it.name}", field: "{it.field}", {it.kind.script.format(it)}, tabs: {json.dumps(it.tabs)}'
        yield f"    {{ {members} }},"


# ---- the help

def help_of_options():
    """The help of the options, as clap prints it."""
    for heading, rows in itertools.groupby(OPTIONS, lambda it: it.heading):
        names = {f"--{it.name} <{it.value}>" if it.value else f"--{it.name}": it.help for it in rows}
        width = max(map(len, names))
        yield from ("", f"{heading}:", *(f"      {name:{width}}  {text}" for name, text in names.items()))


# ---- the guide

def row(*cells):
    return f"| {' | '.join(cells)} |".replace("  |", " |")


def page_of(option):
    """The page of the guide on an option, or nothing."""
    for page in SECTIONS:
        for heading, paragraph in re.findall(r"^## (.*)\n\n((?:.+\n)*)", text_of(f"docs/guide/{page}"), re.M):
            if re.search(rf"`--{option.name}\b(?!-)", paragraph):
                return f"{page}#{heading.lower().replace(' ', '-')}"
    return ""


def guide_options():
    yield from (row("Argument", "Means"), "|---|---|", row("`FILE`", "A feature file; at least one; they run in this order"))
    for it in OPTIONS:
        name = f"`{f'--{it.name} {it.value}'.strip()}`"
        page = PAGES.get(it.name) or page_of(it)
        words = rf"{it.words}|\b(?:{'|'.join(FORMATS)})\b" if it.name == "format" else it.words
        text = re.sub(rf"'[^']*'(?!\w)|\S*@\S*[^\s,;]|--[a-z-]+|{words}", r"`\g<0>`", it.help)
        yield row(f"[{name}]({page})" if page else name, text)
    yield from (row("`--help`, `-h`", "Print the help"), row("`--version`, `-V`", "Print the version"), "")
    yield f"- Only {listed([f'`--{it.name}`' for it in OPTIONS if it.is_repeatable], 'and')} may be given more than once."
    for name, others in EXCLUDED.items():
        yield item(f"`--{name}` can't be used with {listed([f'`--{it.name}`' for it in others], 'or')}.")


def guide_steps():
    for action in ACTIONS:
        if action.name in STEP_TABLES:
            yield from ["", row(STEP_TABLES[action.name], "Does", "Can fail with"), "|---|---|---|"][action is ACTIONS[0]:]
        steps = (re.sub(r"\{(\w+)(?::d)?\}", lambda found: found[1].upper(), it) for it in action.steps)
        # What is in parentheses isn't in code style.
        reasons = re.sub(r"(?:^|(?<=, ))[a-z ]*[a-z]", r"`\g<0>`", action.reasons)
        yield row("<br>".join(f"`{it}`" for it in steps), action.does, reasons)


def guide_actions():
    """The actions with their fields and steps. Of a later step only the words are shown that differ from the first."""
    yield from (row("Action", "Fields", "The built-in step"), "|---|---|---|")
    for action in ACTIONS:
        fields = ((re.search(rf"\{{{it}(:d)?\}}", " ".join(action.steps)) or [f"{{{it}}}"])[0] for it in action.uses)
        first, *others = (it.split(" ") for it in action.steps)
        steps = [first, *(["..", *it[len(os.path.commonprefix([first, it])):]] for it in others)]
        yield row(f"`{action.name}`", ", ".join(f"`{it}`" for it in fields), ", ".join(f"`{' '.join(it)}`" for it in steps))


# ---- pages of stored runs, edits, and files of definitions

def stored_pages():
    """A link to each page of stored runs."""
    pages = (it for it in files("tests/runs/*.md") if not it.endswith("/README.md"))
    return [f"- [{lines_of(it)[0].removeprefix('# ')}]({os.path.basename(it)})" for it in pages]


def numbers_of_edits():
    """The lines of NUMBERS, higher for crates with new edits. No number falls, so that a lost edit is found."""
    for line in text_of(NUMBERS).splitlines():
        crate, *before = line.split()
        now = [len(files(f"{it}/*.edit")) for it in (f"crates/{crate}/must-fail", f"tests/edits/{crate}")]
        yield " ".join([crate, *(str(max(int(old), new)) for old, new in zip(before, now))])


def definition_files():
    """The table of files of definitions. A new file comes after the one before it in reading order; one that is gone, or
    that only the proofs need, is left out."""
    header, *crates = re.split(r"^(?=\| `)", re.search(marked(DEFINITIONS, "files"), text_of(DEFINITIONS), re.M)[0], flags=re.M)
    yield from header.splitlines()
    for rows in crates:
        names = [f"`{os.path.basename(path)[:-5]}`" for path, is_machinery in spec_files(rows.split("`")[1]) if not is_machinery]
        for before, name in itertools.pairwise(names):
            if name not in rows:
                rows = rows.replace(before, f"{before}, {name}", 1)
        for name in set(re.findall("`[A-Z]\\w+`", rows)).difference(names):
            rows = rows.replace(f", {name}", "").replace(f"{name}, ", "")
        yield from rows.splitlines()


# ---- writing and checking

def as_text(lines):
    return "".join(f"{it}\n" for it in lines)


def marked(path, name):
    """The pattern of the part of this name."""
    end = " -->" if path.endswith((".html", ".md")) else ""
    return rf"(?<=tools/tables\.py: {name}{end}\n)(?s:.*?)(?=^.*tools/tables\.py: end)"


def parts():
    """The parts: the file of each, its name, and its lines."""
    python, page = "bindings/python/gherkin_run/runs.py", "bindings/web/source/page.html"
    return (
        ("packaging/gherkin_run.1", "options", man_options()),
        ("packaging/gherkin_run.1", "steps", [".nf", *(roff(it.text) for it in STEPS), ".fi"]),
        ("packaging/gherkin_run.bash", "options", bash()),
        ("packaging/_gherkin_run", "options", zsh()),
        ("packaging/gherkin_run.fish", "options", fish()),
        (python, "formats", [f"Format = Literal{json.dumps(FORMATS)}"]),
        (python, "run", arguments("report")),
        (python, "explain", arguments("explanation")),
        (python, "lint", arguments("findings")),
        (page, "formats", [f"                <option>{it}</option>" for it in FORMATS]),
        (page, "flags", controls(FLAG)),
        (page, "files", controls(FILE)),
        (page, "texts", texts_on_page()),
        ("bindings/web/source/page.js", "options", script()),
        ("docs/guide/command_line.md", "options", guide_options()),
        ("docs/guide/steps.md", "steps", guide_steps()),
        ("docs/guide/library_files.md", "actions", guide_actions()),
        (DEFINITIONS, "files", definition_files()),
        ("tests/runs/README.md", "pages", stored_pages()),
    )


def elsewhere():
    """What is written elsewhere: the file, the pattern of what is replaced, and the text."""
    version, formats = text_of(VERSION_FILE).strip(), ", ".join(FORMATS)
    return (
        ("crates/gk_cli/src/arguments.rt", r'(?<=^const VERSION: &str = ").*(?=";$)', version),
        ("crates/gk_c/src/lib.rt", r'(?<=^    put_out\(b").*(?=", room\)$)', version),
        ("crates/gk_c/specs/Call.antt", r'(?<=^version = codes ").*(?="$)', version),
        ("tests/edits/gk_c/version_of_another_kind.edit", r'(?<=^old:     put_out\(b").*(?=", room\)$)', version),
        ("tests/runs/arguments.md", r"(?<=^gherkin_run )\S+$", version),
        ("bindings/c/gherkin_run.h", r'(?<=^#define GHERKIN_RUN_VERSION ").*(?="$)', version),
        ("bindings/python/gherkin_run/__init__.py", r'(?<=^__version__ = ").*(?="$)', version),
        ("packaging/gherkin_run.pc", r"(?<=^Version: ).*$", version),
        ("tests/runs/arguments.md", r"(?<=^  -V, --version  Print version\n)(?s:.*?)(?=^\nExample:$)", as_text(help_of_options())),
        ("tests/runs/usage.md", r"(?<=^  \[possible values: ).*(?=\]$)", formats),
        ("tests/runs/first_fault.md", r"(?<=^  \[possible values: ).*(?=\]$)", formats),
        (NUMBERS, r"\A(?s:.*)\Z", as_text(numbers_of_edits())),
        ("examples/default.steps", r"\A(?s:.*)\Z", LIBRARY),
    )


def texts():
    """The text that each written file should have."""
    found = {}
    between = ((path, marked(path, name), as_text(lines)) for path, name, lines in parts())
    for path, pattern, text in (*between, *elsewhere()):
        found[path], count = re.subn(pattern, lambda _: text, found.get(path) or text_of(path), flags=re.M)
        if not count:
            raise ValueError(f"{path} has nothing like {pattern}")
    return found


def main():
    if sys.argv[1:] not in (["--write"], ["--check"]):
        print(__doc__.split("\n")[0], file=sys.stderr)
        return 2
    differing = {path: text for path, text in texts().items() if text_of(path) != text}
    for path, text in differing.items():
        if sys.argv[1] == "--check":
            print(f"{path} isn't what tools/tables.py --write writes")
            continue
        with open(os.path.join(HOME, path), "w", encoding="utf-8") as file:
            file.write(text)
        print(path)
    return 1 if differing and sys.argv[1] == "--check" else 0


if __name__ == "__main__":
    sys.exit(main())
