#!/usr/bin/env python3
"""Makes the page, one file with all that it needs: make_page.py MODULE > try.html

It consists of the page and the scripts of bindings/web/source, the WebAssembly module, and the features of examples/ with their arguments.
"""

import base64
import hashlib
import json
import os
import re
import sys

HOME = os.path.realpath(os.path.join(os.path.dirname(os.path.realpath(__file__)), "..", "..", ".."))


def read(*path):
    """Returns the text of a file of the repository."""
    with open(os.path.join(HOME, *path), encoding="utf-8") as file:
        return file.read()


def source(name):
    """Returns the text of a file of bindings/web/source, without the lines that say which parts are written by a tool."""
    return re.sub(r"^.*tools/tables\.py: .*\n", "", read("bindings", "web", "source", name), flags=re.MULTILINE)


def examples():
    """Returns the arguments of each example, and the texts of the files that they name, by the example's name, as JSON."""
    found = {}
    for name in sorted(os.listdir(os.path.join(HOME, "examples"))):
        stem, ending = os.path.splitext(name)
        if ending == ".feature":
            own = os.path.join("examples", f"{stem}.arguments")
            words = read(own).splitlines() if os.path.exists(os.path.join(HOME, own)) else []
            words.append(f"examples/{name}")
            found[name] = {"words": words, "texts": {it: read(it) for it in words if os.path.isfile(os.path.join(HOME, it))}}
    return json.dumps(found, ensure_ascii=False).replace("<", "\\u003c")


def filled(page, parts):
    """Returns the page with each part in its place."""
    for name, text in parts.items():
        if "</script" in text or page.count("{%s}" % name) != 1:
            sys.exit(f"make_page.py: {name} doesn't fit into the page")
    for name, text in parts.items():
        before, after = page.split("{%s}" % name)
        page = before + text + after
    return page


def hashes_of(page):
    """Returns the hashes with which the page's policy allows its style sheet and its script, and no others."""
    found = {}
    for name in ("style", "script"):
        text, = re.findall(f"<{name}>(.*?)</{name}>", page, re.DOTALL)
        found[f"{name}_hash"] = "sha256-" + base64.b64encode(hashlib.sha256(text.encode()).digest()).decode()
    return found


def main():
    """Prints the page."""
    with open(sys.argv[1], "rb") as file:
        module = base64.b64encode(file.read()).decode()
    caller = source("gherkin_run.js").replace("export ", "")
    page = filled(source("page.html"), {"page": source("page.js")})
    page = filled(page, hashes_of(page))
    parts = {"module": module, "worker": "\n" + caller + source("worker.js"), "examples": examples()}
    sys.stdout.buffer.write(filled(page, parts).encode("utf-8"))


if __name__ == "__main__":
    main()
