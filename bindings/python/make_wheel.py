#!/usr/bin/env python3
"""Makes the wheel: make_wheel.py OUT [DIST]

OUT is the folder that gets it; its path is printed. The program and the shared library are those of the folder DIST, by
default dist/ of this clone.
The same files give the same bytes on each machine: nothing is compressed, and all times are the same.

`pip install ./bindings/python` calls `build_wheel`. (PEP 517; the files of a wheel: PEP 427)
"""

import base64
import hashlib
import pathlib
import re
import sys
import zipfile

HERE = pathlib.Path(__file__).resolve().parent
HOME = HERE.parent.parent
# The oldest glibc with which the program runs.
TAG = "py3-none-manylinux_2_34_x86_64"
BINARIES = ("gherkin_run", "libgherkin_run.so")
LICENCES = ("LICENSE-APACHE", "LICENSE-MIT", "LICENSES-OTHERS")
METADATA = """\
Metadata-Version: 2.4
Name: gherkin_run
Version: {version}
Summary: Runs Gherkin feature files, by a library whose runs are proved
Keywords: gherkin,bdd,acceptance,testing,pytest
License-Expression: MIT OR Apache-2.0
License-File: LICENSE-APACHE
License-File: LICENSE-MIT
License-File: LICENSES-OTHERS
Classifier: Development Status :: 5 - Production/Stable
Classifier: Environment :: Console
Classifier: Framework :: Pytest
Classifier: Intended Audience :: Developers
Classifier: Operating System :: POSIX :: Linux
Classifier: Programming Language :: Python :: 3
Classifier: Topic :: Software Development :: Testing :: Acceptance
Classifier: Topic :: Software Development :: Testing :: BDD
Classifier: Typing :: Typed
Requires-Python: >=3.9
Provides-Extra: pytest
Requires-Dist: pytest>=7; extra == "pytest"
Description-Content-Type: text/markdown

{readme}"""
WHEEL = f"""\
Wheel-Version: 1.0
Generator: gherkin_run
Root-Is-Purelib: false
Tag: {TAG}
"""
ENTRY_POINTS = """\
[console_scripts]
gherkin_run = gherkin_run.__main__:main

[pytest11]
gherkin_run = gherkin_run.pytest_plugin
"""


def version():
    """Returns the package's version."""
    text = (HERE / "gherkin_run" / "__init__.py").read_text(encoding="utf-8")
    return re.search(r'^__version__ = "(.*)"$', text, re.MULTILINE)[1]


def files(dist):
    """Returns the files of the wheel, by their names, without the list of them."""
    package, info = HERE / "gherkin_run", f"gherkin_run-{version()}.dist-info"
    found = {f"gherkin_run/{it.name}": it.read_bytes() for it in [*package.glob("*.py"), package / "py.typed"]}
    found.update({f"gherkin_run/{it}": (dist / it).read_bytes() for it in BINARIES})
    found.update({f"{info}/licenses/{it}": (HOME / it).read_bytes() for it in LICENCES})
    metadata = METADATA.format(version=version(), readme=(HERE / "README.md").read_text(encoding="utf-8"))
    found.update({f"{info}/METADATA": metadata.encode(), f"{info}/WHEEL": WHEEL.encode(), f"{info}/entry_points.txt": ENTRY_POINTS.encode()})
    return found


def record(found, name):
    """Returns the list of these files and itself, each with its sum and its length."""
    sums = {it: base64.urlsafe_b64encode(hashlib.sha256(text).digest()).rstrip(b"=").decode() for it, text in found.items()}
    rows = [f"{it},sha256={sums[it]},{len(found[it])}\n" for it in sorted(found)]
    return "".join([*rows, f"{name},,\n"]).encode()


def make(out, dist):
    """Makes the wheel in a folder, and returns its path."""
    found = files(dist)
    name = f"gherkin_run-{version()}.dist-info/RECORD"
    path = out / f"gherkin_run-{version()}-{TAG}.whl"
    with zipfile.ZipFile(path, "w", zipfile.ZIP_STORED) as wheel:
        # The list comes last.
        for it, text in [*sorted(found.items()), (name, record(found, name))]:
            entry = zipfile.ZipInfo(it, (1980, 1, 1, 0, 0, 0))
            entry.create_system = 3
            entry.external_attr = (0o100755 if it.endswith(BINARIES) else 0o100644) << 16
            wheel.writestr(entry, text)
    return path


def build_wheel(wheel_directory, config_settings=None, metadata_directory=None):
    """Makes the wheel for pip, and returns its name."""
    return make(pathlib.Path(wheel_directory), HOME / "dist").name


if __name__ == "__main__":
    if len(sys.argv) not in (2, 3):
        sys.exit("it is make_wheel.py OUT [DIST]")
    print(make(*map(pathlib.Path, [*sys.argv[1:], HOME / "dist"][:2])))
