"""The page of bindings/web/: its parts, its module in Node, and what a user does on it with mouse and keyboard in headless Chromium.

WEB_MODULE may name what bindings/web/build/capture_module.sh made; then the module is made again. If PICTURES is a folder, pictures
of the page are left there.
"""

import base64
import json
import os

import blocks
import browser as chromium
import calling
import driver
import in_memory
import pages
import tables
from checks import Checks

WEB = os.path.join(driver.HOME, "bindings", "web")
MODULE = os.path.join(WEB, "gherkin_run.wasm")
PAGE = "file://" + os.path.join(WEB, "try.html")
FIRST = "examples/paint.feature"
MARKUP = "</textarea></pre><script>document.title = 'taken'</script> " \
         "<img src=x onerror=\"document.title = 'taken'\"> &amp; {page} ${1} \\u003c"
SMALL = driver.feature("Given it passes")
# Something in each field of the page.
FULL = {**{it.field: True for it in tables.PAGE_FLAGS},
        "files": [["ä \"1\".feature", "Feature: ü <&> ~~~~~ ????? \U0001f600\n  Scenario: s\n\tGiven the lamp\n"],
                  ["b.feature", "Feature: b\n"]],
        "library": "step the lamp => pass\n", "libraryName": "my.steps",
        "hooks": "before_all:\n  Given the lamp\n", "hooksName": "my.hooks",
        "written": "made\n", "writtenName": "made.txt",
        "tags": "~@a\n@b,~@c", "lines": "1 2, 3", "variables": "A=1\nB==\n",
        "format": "json", "tab": "report"}
# Other texts, with a value of the option.
FULL |= {it.field: tables.VALUES[it.value] for it in tables.written.ON_PAGE if it.field not in FULL}
TABS = {"report": [], "explanation": ["--explain"], "findings": ["--lint"]}
CONTROLS = {"textbox", "combobox", "button", "checkbox", "DisclosureTriangle", "region", "form", "tab", "tablist", "tabpanel"}
# The state, the status, and the texts of the pieces of the output and of the errors.
SHOWN = """(() => {
    const all = (selector) => [...document.querySelectorAll(selector)].map((it) => it.textContent).join("");
    return [document.body.dataset.state, document.body.dataset.status, all("#text > div:not(.wrong)"), all("#text > div.wrong")];
})()"""
# Command lines with a fault in the second source, in the library and in the hooks. A byte order mark at the begin is a part of a name.
FAULTY_FILES = {"good": SMALL, "bad": f"{SMALL}\nFeature: g\n", "own.steps": "step a => pass\nstep b => none\n", "own.hooks": "\n\n@never\n",
                "far": "\n" * 70000 + "Feature: f\nFeature: g\n", "\ufeffgood": SMALL, "\ufeffbad": f"{SMALL}\nFeature: g\n"}
PLACED = ["good bad", "far", "--library own.steps good", "--hooks own.hooks good"]
FAULTY = [*PLACED, "--format progress \ufeffgood", "--format progress \ufeffbad", "good missing", "--lint bad far"]


def long_feature(steps, rows):
    """A feature with a scenario for each row, whose report has some 50 bytes for each step of each row."""
    return "Feature: long\nBackground:\n" + "Given a file named \"a\" containing \"b\"\n" * steps \
        + "Scenario Outline: row <n>\nThen it passes\nExamples:\n| n |\n" + "| 1 |\n" * rows


MILLION_STEPS = long_feature(999, 999)
LONG_RUN = {"files": [[f"{number}.feature", MILLION_STEPS] for number in range(5)], "format": "progress"}


@pages.tests("page/module.md")
class Parts(Checks):
    """The files of bindings/web/."""


def encoded(value):
    return base64.b64encode(value if isinstance(value, bytes) else os.fsencode(value)).decode()


class Node(Checks):
    """The module in Node: examples, stored runs, files with faults, changed files and large ones."""

    NEEDS = ("node",)

    def cases(self):
        """The first one runs with refused memory, too; the last ones are warm, so that their time is worth printing."""
        asked = calling.Library(os.path.join(calling.DIST, "libgherkin_run.so")).asked
        for arguments in sorted(driver.examples(), key=lambda it: it[-1] != FIRST):
            yield in_memory.case(asked, self.program, arguments)
        yield from in_memory.stored(asked)
        driver.write(self.room, {**FAULTY_FILES, "long.feature": long_feature(99, 999),
                                 "large.feature": "Feature: large\n" + "Scenario: one of many\nGiven a file named \"a\" containing \"b\"\n" * 1000})
        for words in FAULTY:
            yield in_memory.case(asked, self.program, words.split(), self.room)._replace(name=words)
        for words in in_memory.changed_files(self.room, 9, in_memory.FORMS):
            yield in_memory.case(asked, self.program, words, self.room)
        yield from [in_memory.case(asked, self.program, [it], self.room) for it in ("long.feature", *["large.feature"] * 5)]

    def is_placed(self, answer, errors):
        """Whether errors begin with the file and the line that a result names, if it names any."""
        if answer["file"] is None:
            return answer["line"] == 0
        line = b"%d:" % answer["line"] if answer["line"] else b""
        return errors.startswith(b"gherkin_run: " + base64.b64decode(answer["file"]) + b":" + line + b" ")

    def test_cases(self):
        cases = list(self.cases())
        calls = [[[encoded(it) for it in case.arguments], [[encoded(name), encoded(text)] for name, text in case.files.items()]] for case in cases]
        driver.write(self.room, {"cases.json": json.dumps(calls)})
        command = [os.path.join(driver.HOME, "tests", "page.mjs"), os.path.join(WEB, "source", "gherkin_run.js"), MODULE, "cases.json"]
        status, out, said = driver.start("node", command, self.room, patience=4 * driver.PATIENCE)
        answers, refused, made, large = json.loads(out) if status == 0 else ([], [], 0, "")
        self.same(f"Node says {said}", (status, len(answers)), (0, len(cases)))
        self.unless("runs in Node share a memory, which none gives back", made >= len(cases))
        placed = set()
        for case, answer in zip(cases, answers):
            found = answer["status"], base64.b64decode(answer["output"]), base64.b64decode(answer["errors"])
            self.compare(f"{case.name} in Node", found, case.ended)
            self.unless(f"the place of a fault in {case.name} in Node: {answer}", self.is_placed(answer, found[2]))
            placed |= {case.name} if answer["file"] else set()
        self.unless(f"only {placed} have the place of a fault in Node", placed >= set(PLACED))
        for answer in refused:
            found = answer["status"], base64.b64decode(answer["output"]), base64.b64decode(answer["errors"])
            is_marked = found[0] == 4 and (b"memory" in found[1] or b"out of memory" in found[2])
            self.unless(f"with refused memory in Node: {answer}", found == cases[0].ended or is_marked)
        self.unless("no memory was refused in Node, or always", {it["status"] for it in refused} >= {4, cases[0].ended[0]})
        self.same("a text for which there is no memory in Node", large, "RangeError: out of memory")
        print(f"1,000 scenarios take {answers[-1]['time']:.0f} ms in Node")


def link_to(given):
    """The fragment of a link to these inputs, or to these bytes in place of them."""
    data = given if isinstance(given, bytes) else json.dumps(given).encode()
    return "#" + base64.urlsafe_b64encode(data).decode().rstrip("=")


def taken(tab, arguments):
    """The arguments that the program takes on a tab."""
    refused = [f"--{it.name}" for it in tables.OPTIONS if tab not in it.tabs]
    words = iter(arguments)
    for word in words:
        value = [next(words)] if word.startswith("--") and word not in tables.FLAGS else []
        if word not in refused:
            yield from [word, *value]


@pages.tests("page/results.md", "page/links.md", "page/files.md", "page/reading.md")
class Use(Checks):
    """What a user does on the page, and sees there, beside the program."""

    # Schemes of what the page may ask for.
    OWN = ("file:", "blob:", "data:", "about:")

    @classmethod
    def setUpClass(cls):
        super().setUpClass()
        if not chromium.installed():
            cls.leave_out("Chromium is missing")
        # On some machines it opens nothing, and ends by itself.
        for number in range(3):
            cls.browser = chromium.Browser(chromium.installed(), os.path.join(cls.room, f"profile{number}"))
            cls.addClassCleanup(cls.browser.close)
            try:
                cls.browser.open()
                for name in ("value", "wait", "click", "press", "focus"):
                    setattr(cls, name, getattr(cls.browser, name))
                return
            except (EOFError, BrokenPipeError):
                pass
        cls.leave_out("Chromium ended by itself, three times")

    def tearDown(self):
        """The page asked for nothing, and no script failed. What the policy refuses is complained of."""
        events = self.browser
        urls = [it["request"]["url"] for it in events.events_of("Network.requestWillBeSent")]
        self.unless(f"the page asks for {urls}", urls and all(it.startswith(self.OWN) for it in urls))
        self.same("scripts that failed", [it["exceptionDetails"] for it in events.events_of("Runtime.exceptionThrown")], [])
        if "_policy_" not in self.id():
            self.same("complaints of the browser", self.complaints(), [])
        events.events.clear()

    def complaints(self):
        return [it["entry"]["text"] for it in self.browser.events_of("Log.entryAdded")]

    def load(self, fragment="", width=1280, height=800):
        """Loads the page, and waits for its first run."""
        self.browser.size(width, height)
        self.browser.go(PAGE + fragment)
        self.settle()

    def settle(self):
        """Waits until a run is over. Returns whether one was in time."""
        return self.wait("['done', 'failed', 'stopped'].includes(document.body.dataset.state)")

    def state(self, state):
        """Waits for a state of the page. Returns whether it came in time."""
        return self.wait(f"document.body.dataset.state === '{state}'", 5)

    def one(self, selector, rest):
        """The value of an expression on the first element of a selector."""
        return self.value(f"document.querySelector({json.dumps(selector)}).{rest}")

    def text(self, selector):
        return self.one(selector, "textContent")

    def says(self, selector, text):
        """Waits for a text of an element. Returns whether it came in time."""
        return self.wait(f"document.querySelector('{selector}').textContent === {json.dumps(text)}", 5)

    def shown(self):
        """What the page shows once its run is over: the status, the output and the errors."""
        if not self.settle():
            return "no run ended"
        state, status, output, errors = self.value(SHOWN)
        return (int(status), output.encode(), errors.encode()) if state == "done" else (state, self.text("#status"), output + errors)

    def ended(self, words, folder=driver.HOME):
        """How the program ends. On the page a report's fault has the notes of an explanation, too."""
        status, output, errors = driver.start(self.program, words, folder)
        if errors and not {"--explain", "--lint"} & set(words):
            inputs = [it for it in words if it not in ("--dry-run", "--no-skipped") and not it.startswith("--format=")]
            errors = driver.start(self.program, ["--explain", *inputs], folder)[2]
        return status, output, errors

    def compare(self, text, *options):
        """Says whether the page shows what the program prints of a feature with the name of the page's first file."""
        name, shown = self.names()[0], self.shown()
        driver.write(self.room, {name: text})
        wanted = self.ended([*options, name], self.room)
        return "as the program" if shown == wanted else f"{driver.cut(repr(shown))} and not {driver.cut(repr(wanted))}"

    def show(self, inputs):
        self.value(f"show({json.dumps(inputs)})")

    def fill(self, selector, text):
        self.value("(() => { const it = document.querySelector(%s); it.value = %s; "
                   "it.dispatchEvent(new Event('input', { bubbles: true })); })()" % (json.dumps(selector), json.dumps(text)))

    def type(self, selector, text):
        """Types a text over that of a field, which is opened before."""
        self.value("(() => { const part = document.querySelector(%s).closest('details'); "
                   "if (part) part.open = true; })()" % json.dumps(selector))
        self.focus(selector)
        self.browser.type(text)

    def open_example(self, name):
        self.value(f"$('example').value = {json.dumps(name)}")
        self.click("#open")

    def inputs(self):
        return self.value("inputs()")

    def names(self):
        return [name for name, _ in self.inputs()["files"]]

    def focused(self):
        """The element that has the focus, as its id, its label or its text."""
        return self.value("(() => { const it = document.activeElement; return it === document.body ? 'nothing' "
                          ": it.id || it.getAttribute('aria-label') || it.textContent.trim(); })()")

    def tree(self, *roles):
        """The nodes of these roles that a screen reader meets."""
        nodes = self.browser.ask("Accessibility.getFullAXTree")["nodes"]
        return [it for it in nodes if not it.get("ignored") and it["role"]["value"] in roles]

    def test_example(self):
        """Each example, opened from the list, gives on each tab what the program gives."""
        for tab, words in TABS.items():
            self.load()
            self.click(f"#{tab}")
            for arguments in driver.examples():
                self.open_example(os.path.basename(arguments[-1]))
                wanted = self.ended([*words, *taken(tab, arguments)])
                self.same(f"{tab} of {arguments[-1]} on the page", self.shown(), wanted)

    def test_speed(self):
        """Says how long 1,000 scenarios take, warm, and leaves pictures at two widths."""
        self.load()
        self.fill("#files .text", "Feature: large\n" + "Scenario: one of many\nGiven a file named \"a\" containing \"b\"\n" * 1000)
        for _ in range(4):
            self.settle()
            self.click("button[type=submit]")
        self.settle()
        print(f"1,000 scenarios take {self.text('#time')} on the page")
        for width in (400, 1280) if os.environ.get("PICTURES") else ():
            self.load(width=width)
            driver.write(os.environ["PICTURES"], {f"{width}.png": self.browser.picture()})
