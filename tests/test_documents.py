"""The documents against the repository. A test says what it looks for; of the words of pages prose.py counts some."""

import collections
import functools
import os
import re
import shutil
import sys

import blocks
import calls
import driver
import pages
import prose
import shape
from checks import Checks
from driver import BUILT, HOME

# Words that Rust's own documentation doesn't use so.
WORDS = re.compile(r"\b(front|fronts|behind|tells|told|want of memory)\b", re.IGNORECASE)
# The endings of files that pages name.
SOURCES = (".rt", ".antt", ".py", ".sh", ".awk", ".c", ".feature", ".steps", ".edit", ".arguments", ".report", ".status", ".fault")

FILES = driver.repository_files()
CRATES = [line.split(":")[0].split()[0] for line in driver.text("crates.txt").splitlines() if line.strip()]
COMMENTS = {".rt": "//.*", ".antt": "--.*"}
DOCUMENTS = shape.files(".*[.]md")
PAGES = shape.files("([^/]+|docs/.*)[.]md")
EDITS = shape.files("(crates|tests/edits)/.*[.]edit")


@functools.cache
def prose_of(page):
    """A page without its blocks. Their lines are left empty."""
    return blocks.without_blocks(driver.text(page))


def lines_of(text):
    return enumerate(text.split("\n"), 1)


# ---- names

@functools.cache
def code_names():
    """The words of the code and of the definitions without comments, the names of files, and of what callers set."""
    names = set(CRATES)
    callers = re.compile(r"\b(GHERKIN_[A-Z_]+|(?<=^import )[a-z]+|(?<=^const )[A-Z]+)\b", re.MULTILINE)
    for path in FILES:
        name, ending = os.path.splitext(os.path.basename(path))
        names.add(name)
        if path.startswith(("bindings/c/", "bindings/python/", "bindings/web/source/")) and ending in (".h", ".py", ".js"):
            names.update(callers.findall(driver.text(path)))
        if path.startswith("crates/") and ending in COMMENTS:
            names.update(re.findall(r"[A-Za-z_]\w*", re.sub(COMMENTS[ending], "", driver.text(path))))
    return names


# What is in code style on pages and in no code: words of the shell, of other programs, and of the pages' own tables.
PLAIN_WORDS = set("""
    gherkin_world gherkin_scenario Andorra EN EU GHERKIN_RUN WEB_MODULE TEXT TO LINE KEYWORD VERDICT STATUS REASON TYPE
    jq malloc read_to_end write_all
""".split())
GUIDE = shape.files("docs/guide/.*[.]md")
MAIN = ["README.md", "docs/FAULTS.md", *GUIDE]
# Those of tests/runs/ and tests/side_by_side/ list what these folders have.
READMES = shape.files("(?!docs/guide/|tests/runs/|tests/side_by_side/).*/README[.]md")
# The pages for users name words of features and libraries: only names that can't be anything but code are looked up.
USERS_PAGES = shape.files("(docs/guide/.*|docs/FAULTS|bench/(README|figures)|examples/.*|tests/(runs|side_by_side)/.*)[.]md")


@functools.cache
def members():
    """The functions, fields and variants of each type of the code, by the type's name."""
    found = collections.defaultdict(set)
    for path in shape.CODE:
        own = set()
        for line in shape.lines_of(path):
            opened = re.match(r"\s*(?:pub(?:\([a-z]+\))? )?(?:impl(?:<.*?>)? (?:[A-Za-z:]+(?:<.*?>)? for )?|struct |enum |trait )"
                              r"(?:[a-z_]+::)*([A-Z][A-Za-z0-9_]*)", line)
            if opened and "fn " not in line:
                own = found[opened.group(1)]
            member = re.match(r"\s+(?:pub(?:\([a-z]+\))? )?(?:fn |type )?([A-Za-z_][A-Za-z0-9_]*)\s*[<(:,{;=]|\s+([A-Z][A-Za-z0-9]*)$", line)
            own |= {member.group(1) or member.group(2)} if member else set()
    return found


def path_is_there(name, page):
    """Whether a name with a slash or a file's ending is there: from the top, from the page, or in a crate.

    Of what is built only the folder may be named, so that a page passes in a fresh clone, too."""
    name = name.rstrip("/")
    if any(it in BUILT for it in name.split("/")):
        return name in BUILT
    bases = [HOME, os.path.join(HOME, "crates"), os.path.dirname(os.path.join(HOME, page))]
    bases += [os.path.join(HOME, "crates", crate) for crate in CRATES]
    is_below = any(os.path.exists(os.path.join(base, name)) for base in bases)
    return is_below or "/" not in name and any(os.path.basename(it) == name for it in FILES)


def wrong_names(line, page):
    """Names in code style that nothing of the repository has."""
    for text in re.findall(r"(?<!`)`([^`\n]+)`(?!`)", line):
        if re.fullmatch(r"\.?[A-Za-z0-9_./-]+", text) and ("/" in text or text.endswith(SOURCES)):
            is_elsewhere = text.startswith(("/", "../")) or text in names_shown_in(os.path.dirname(page)) or "NAME" in text
            if not is_elsewhere and not path_is_there(text.removeprefix("./"), page):
                yield f"no file {text}"
        elif re.fullmatch(r"[A-Za-z_][A-Za-z0-9_]*(::[A-Za-z_][A-Za-z0-9_]*)*(\(\))?", text):
            for part in {*text.removesuffix("()").split("::")} - code_names() - PLAIN_WORDS:
                if page not in USERS_PAGES or "_" in part or "::" in text:
                    yield f"no name {part} (in {text})"
            yield from wrong_member(text.removesuffix("()"))
    if "TODO" in line:
        yield "something is left to do"


def wrong_member(name):
    owner, _, member = name.rpartition("::")
    if owner in members() and member not in members()[owner]:
        yield f"no member {member} of {owner}"


def named_clauses(line, _page=None):
    """What a line says of clauses that aren't there: `call`: `clause`, `clause` names clauses of one function."""
    clauses = clauses_by_function()
    for call, listed in re.findall(r"`([A-Za-z_][A-Za-z0-9_:]*)`: ((?:`[a-z_][a-z0-9_]*`(?:, | and )?)+)", line):
        function = call.split("::")[-1]
        if function not in clauses:
            yield f"no function {call}"
            continue
        for clause in re.findall(r"`([a-z_][a-z0-9_]*)`", listed):
            if clause not in clauses[function]:
                yield f"no clause {clause} of {call}"


@functools.cache
def clauses_by_function():
    found = collections.defaultdict(set)
    for path in shape.files("crates/.*[.]rt"):
        _, *parts = re.split(r"\bfn\s+(\w+)", driver.text(path))
        for function, text in zip(parts[::2], parts[1::2]):
            found[function].update(re.findall(r"(?m)^\s*(?:ensures|requires)\s+([a-z_][a-z0-9_]*)\s*\{", text))
    return found


# ---- the pages that tools/read.py prints

def public_functions(crate):
    """The names of the functions that lib.rt of a crate has or exports, and of those of the types that it exports."""
    library = driver.text(f"crates/{crate}/src/lib.rt")
    return {*re.findall(r'^pub extern "C" fn (\w+)', library, re.MULTILINE),
            *("::".join(filter(None, it[1:])) for it in calls.functions(crate, (), has_laws=True))}


def reading_differences():
    """What tools/read.py doesn't print exactly once."""
    libraries = [it for it in CRATES if f"crates/{it}/specs/Lib.antt" in FILES and f"crates/{it}/src/lib.rt" in FILES]
    wanted = {"edits": [f"\n- `{os.path.basename(it)[:-5]}`:" for it in EDITS],
              "definitions": [f"({it[7:]})\n" for it in shape.files("crates/[^/]+/specs/(?!Lib).*[.]antt")],
              "claims": [f"\n- `{it}`:" for crate in libraries for it in public_functions(crate)]}
    for command, texts in wanted.items():
        status, printed, _ = driver.start(sys.executable, [os.path.join(HOME, "tools/read.py"), command])
        counts = ((it.strip(), printed.decode().count(it)) for it in texts)
        yield from [f"tools/read.py {command} ends with {status}"] * (status != 0)
        yield from (f"tools/read.py {command} prints {it} {count} times" for it, count in counts if count != 1)


# ---- links

def anchors(page):
    """The names by which links reach the headings of a page."""
    headings = re.findall(r"^#+ (.*)$", prose_of(page).lower(), re.MULTILINE)
    return {re.sub(r"[^\w\- ]", "", it.strip()).replace(" ", "-") for it in headings}


def dead_links(line, page):
    for target in re.findall(r"\]\((?![a-z]+:)([^)\s]+)\)", line):
        path, _, place = target.partition("#")
        there = os.path.normpath(os.path.join(os.path.dirname(page), path)) if path else page
        if not os.path.exists(os.path.join(HOME, there)):
            yield f"a link to {target}, which isn't there"
        elif place and there.endswith(".md") and place not in anchors(there):
            yield f"a link to {target}, whose heading isn't there"


def unlisted_pages():
    """Pages of runs and of pairs to which the README of their folder doesn't link."""
    for page in shape.files("tests/(runs|side_by_side)/(?!README).*[.]md"):
        folder, name = os.path.split(page)
        if f"]({name})" not in driver.text(f"{folder}/README.md"):
            yield f"{folder}/README.md doesn't link to {name}"


# ---- runs that a page shows

@functools.cache
def shown_files(page):
    return [it for it in blocks.blocks(driver.text(page)) if blocks.is_file(it)]


@functools.cache
def names_shown_in(folder):
    return {it.name for page in DOCUMENTS if os.path.dirname(page) == folder for it in shown_files(page)}


def shown_twice():
    """Files of the guide that two of its pages show."""
    found = {}
    for page in GUIDE:
        for it in shown_files(page):
            if found.setdefault(it.name, page) != page:
                yield f"{page}:{it.line}: {found[it.name]} shows a file {it.name} as well"


def example_differences(page):
    """Files of examples/ that a page shows otherwise than they are."""
    for it in shown_files(page):
        if it.name.startswith("examples/") and (it.name not in FILES or driver.text(it.name) != it.text):
            yield it.line, f"{it.name} is another file"


def laid(shown):
    """Files that pages show, without those of examples/, which are there already."""
    return {it.name: it.text.encode() for it in shown if not it.name.startswith("examples/")}


def run_differences(page, room):
    """Runs what a page shows, over the files that stand above it on the page, and on other pages of the guide."""
    folder, others = os.path.join(room, page.replace("/", "_")), [it for it in GUIDE if it != page] if page in GUIDE else []
    pages.lay(folder, laid(it for other in others for it in shown_files(other)), {})
    # A page calls the program from the top of the repository, or from a folder below.
    shutil.copy(os.path.join(folder, "run"), room)
    for block in blocks.blocks(driver.text(page)):
        if blocks.is_file(block):
            driver.write(folder, laid([block]))
        elif block.kind == "console":
            yield from ((block.line, it) for it in pages.troubles(folder, block, False))


# ---- definitions and modules

# A definition: at the beginning of a line, or indented below a common parameter, unlike the `pub NAME` of a record's field.
DEFINITION = re.compile(r"(?:\s*(?:(?:abbrev|unfoldable) )+pub |pub (?!mod\b|use\b)|\s+pub (?=record |data ))(?:record |data )?(\S+)")


def broken_comments(path):
    """The definitions of a file of specs/ without a sentence as a comment above them. Its source may follow in parentheses."""
    comment = []
    for number, line in lines_of(driver.text(path)):
        if found := DEFINITION.match(line):
            text = " ".join(comment)
            if not text:
                yield number, f"{found[1]}: no comment above it"
            elif "  " in text or not text[0].isupper() or not re.search(r"\.(\s*\(.*\))?$", text):
                yield number, f"{found[1]}: its comment isn't a sentence, with single spaces"
        comment = [*comment, line.strip()[2:].strip()] if line.lstrip().startswith("--") else []


def shared_modules():
    """The modules that have the name of a module of another crate. Each crate may have its laws, and what its calls return."""
    modules = shape.files(r"crates/\w+/(src|specs|proofs)/(?!(lib|main|tests|Lib|Common|laws|Results)[.])\w+[.](rt|antt)")
    counts = collections.Counter(it.split("/", 2)[2] for it in modules)
    return (it for it in modules if counts[it.split("/", 2)[2]] > 1)


# ---- faults

STATUSES = {"passed", "failed", "skipped", "undefined", "untested", "memory"}
# What is to be done about each fault: its fix in docs/FAULTS.md begins so.
HINTS = "crates/gk_findings/src/hints.rt"
# What is to be done about an unexpected line, by its cause.
CAUSES = "crates/gk_lint/src/unexpected_lines.rt"
# The keywords of Gherkin are no faults, nor is what --lint finds of a step.
KEYWORDS = "crates/gk_gherkin/src/keyword.rt"
FOUND = "crates/gk_lint/src/step_faults.rt"
# Reasons that are one word; other single words in the code are keywords and names.
REASONS_OF_ONE_WORD = {"absent", "present", "differs"}


def fault_texts():
    """The texts of faults and the reasons that the code prints, without those of the crates of tests."""
    texts = set()
    for path in {*shape.files("crates/(?!gk_tests/|gk_cli_tests/)[^/]+/src/.*[.]rt")} - {HINTS, CAUSES, KEYWORDS, FOUND}:
        code = re.sub(r"//.*", "", driver.text(path)).replace('\\n"', '"')
        for pattern in (r'#\[error\("([^"{}]+)"\)\]', r'write_str\("([^"{}]+)"\)', r'=>\s*"([^"{}]+)"',
                        r'"gherkin_run: (?:\{name\}: )?([^"{}]+)"'):
            texts.update(it.removeprefix("gherkin_run: ") for it in re.findall(pattern, code))
    return {it for it in texts if re.fullmatch(r"[A-Za-z][A-Za-z0-9 -]+", it) and it not in STATUSES and "-- @" not in it
            and (" " in it or it in REASONS_OF_ONE_WORD or it.startswith("bad"))}


def fault_differences():
    """Texts of the code without an entry in docs/FAULTS.md, and entries for texts that the code lacks."""
    headings, texts = re.findall(r"^### `.*", driver.text("docs/FAULTS.md"), re.MULTILINE), fault_texts()
    listed = set(re.findall(r"`([^`]+)`", " ".join(headings)))
    for text in sorted(texts - listed):
        yield f"docs/FAULTS.md has no entry for `{text}`"
    for text in sorted(listed - texts - STATUSES):
        yield f"docs/FAULTS.md has an entry for `{text}`, which the program doesn't print"


def fault_hints():
    """The hints of the code."""
    code = re.sub(r"//.*", "", driver.text(HINTS)).replace("\\\\", "\\")
    return re.findall(r'"([^"]+)"', code)


def hint_differences():
    """Hints of the code that begin no fix of docs/FAULTS.md."""
    page = re.sub(r"\[([^]]*)\]\([^)]*\)", r"\1", driver.text("docs/FAULTS.md")).replace("`", "").replace("\n", " ")
    for hint in fault_hints():
        if f"**Fix:** {hint}" not in page:
            yield f"docs/FAULTS.md has no fix that begins with `{hint}`"


# ---- pictures and words

# Each picture's script. One draws what the program prints, one the figures of bench/README.md.
PICTURES = {"failing_run.svg": "docs/pictures/failing_run.py", "peers.svg": "bench/chart"}


def picture_differences():
    """Pictures that are missing, or that their scripts draw in another way."""
    for name, script in PICTURES.items():
        status, drawn, _ = driver.start(sys.executable, [script, driver.program()])
        if status != 0 or drawn.decode() != driver.text(f"docs/pictures/{name}"):
            yield f"docs/pictures/{name} isn't what {script} draws"


def foreign_words():
    """Words of WORDS on pages at the top or of docs/."""
    for page in PAGES:
        for number, line in lines_of(driver.text(page)):
            # A name in code style is the code's own.
            if found := WORDS.search(re.sub(r"`[^`]*`|TODO\([^)]*\)", "", line)):
                yield f"{page}:{number}: the word '{found.group(0)}'"


# ---- all of it

def of_lines(look):
    """Looks in each line of a page outside of its blocks."""
    return lambda page: ((number, text) for number, line in lines_of(prose_of(page)) for text in look(line, page))


# What is looked for in each of some files, with its lines, and in all together. Nothing may be found.
OF_EACH = {
    "names": (of_lines(wrong_names), DOCUMENTS),
    "clauses": (of_lines(named_clauses), PAGES),
    "links": (of_lines(dead_links), DOCUMENTS),
    "examples": (example_differences, PAGES),
    "prose": (lambda page: prose.hard_to_read(prose_of(page)), [*MAIN, *READMES]),
    "lines and columns": (lambda page: prose.too_large(page, prose_of(page)), [*PAGES, *READMES]),
    "comments": (broken_comments, shape.files("crates/[^/]+/specs/.*[.]antt")),
}
OF_ALL = {
    "files of the guide": shown_twice, "words": foreign_words,
    "words of pages": lambda: prose.too_many_words(map(prose_of, MAIN), map(prose_of, READMES)),
    "lists of pages": unlisted_pages, "pages of tools/read.py": reading_differences,
    "modules of the same name": shared_modules, "entries of docs/FAULTS.md": fault_differences,
    "hints of docs/FAULTS.md": hint_differences, "pictures": picture_differences,
}


class Documents(Checks):
    def test_runs(self):
        """A run that a document shows gives that: a `console` block over the files above it, and those of the guide."""
        for page in PAGES:
            for number, difference in run_differences(page, self.room):
                self.check(difference and f"{page}:{number}: {difference}")

    def try_each(self, name, look, paths):
        for path in paths:
            self.check_list(f"{name} in {path}", (f"{path}:{number}: {text}" for number, text in look(path)))


for _name, _look in OF_EACH.items():
    setattr(Documents, f"test_{_name}", lambda self, name=_name, look=_look: self.try_each(name, *look))
for _name, _look in OF_ALL.items():
    setattr(Documents, f"test_{re.sub('[^a-z]+', '_', _name.lower())}",
            lambda self, name=_name, look=_look: self.check_list(name, look()))
