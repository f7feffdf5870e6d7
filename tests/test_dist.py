"""dist/ has the program, the libraries and the packages that the sources build, byte for byte, with the program's sums."""

import os
import subprocess

import driver
import pages
import ready
from checks import Checks

DIST = os.path.join(driver.HOME, "dist")
RENEW = "; ./release renews dist/ from what ./test or ./run --build built"
# The libraries, each with the script that makes it from the static library of `rt lib`.
LIBRARIES = {"libgherkin_run.so": "tools/shared_library.sh", "libgherkin_run.a": "tools/static_library.sh"}

VERSION = driver.text("packaging/version").strip()


def said(*command):
    return subprocess.run(command, cwd=driver.HOME, stdout=subprocess.PIPE, check=True).stdout


class Dist(Checks):
    def compare_built(self, name, path):
        is_same = driver.read(path) == driver.read(os.path.join(DIST, name))
        self.unless(f"dist/{name} isn't what was just built" + RENEW, is_same)

    def need_its_kit(self):
        """Leaves a test out if dist/ was built with another kit: then the bytes may differ."""
        self.needs("rt")
        kit, built_with = said("rt", "version"), driver.read(os.path.join(DIST, "gherkin_run.kit"))
        if kit != built_with:
            self.leave_out(f"dist/ was built with {built_with}, and here is {kit}")

    def test_sums(self):
        sources = driver.read(os.path.join(DIST, "gherkin_run.sources"))
        self.unless("dist/gherkin_run was built from other sources" + RENEW, sources == said("tools/sources.sh"))
        done = subprocess.run(["sha256sum", "-c", "gherkin_run.sha256"], cwd=DIST, capture_output=True, check=False)
        self.unless("dist/gherkin_run has another sum than dist/gherkin_run.sha256 says" + RENEW, done.returncode == 0)

    def test_program(self):
        self.need_its_kit()
        self.compare_built("gherkin_run", self.program)

    def test_libraries(self):
        """GHERKIN_ARCHIVE names the static library of `rt lib`. test_python compares the wheel."""
        archive = os.environ.get("GHERKIN_ARCHIVE")
        if not archive:
            self.leave_out("the libraries aren't compared: GHERKIN_ARCHIVE names no archive")
        self.need_its_kit()
        for name, script in LIBRARIES.items():
            made = os.path.join(self.room, name)
            said(script, made, archive)
            self.compare_built(name, made)

    def test_version(self):
        """The program, the header and the changelog have the version."""
        found = (said(self.program, "--version").decode(), driver.text("bindings/c/gherkin_run.h"), driver.text("CHANGELOG.md").lower())
        shown = [it.split(before)[1].split()[0] for it, before in zip(found, ("gherkin_run ", "_VERSION ", "\n## "))]
        self.same("the versions of the program, the header and the changelog", shown, [VERSION, f'"{VERSION}"', VERSION])


@pages.tests("debian.md")
class Debian(Checks):
    NEEDS = ("dpkg", "dpkg-deb")
    debs = [os.path.join(DIST, f"{it}_{VERSION}_amd64.deb") for it in ("gherkin-run", "libgherkin-run-dev")]
