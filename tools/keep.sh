#!/bin/sh
# Keeps the program that was just built, in out/, with its sums: tools/keep.sh SOURCES
#
# SOURCES is what tools/sources.sh printed before the build. If the sources have changed since, it keeps nothing, and
# the status is 1. Each file is renamed into place.
set -eu

cd "$(dirname -- "$(readlink -f -- "$0")")/.."
if [ "$(tools/sources.sh)" != "$1" ]; then
    echo "the sources have changed while the program was built, so it isn't kept" >&2
    exit 1
fi
mkdir -p out
room=
trap 'rm -rf "$room"' EXIT
trap 'exit 1' HUP INT TERM
room=$(mktemp -d out/keep.XXXXXX)
cp crates/gherkin_run/out/gherkin_run "$room/gherkin_run"
(cd "$room" && sha256sum gherkin_run > gherkin_run.sha256)
rt version > "$room/gherkin_run.kit"
# What each crate was built as, which bindings/web/build/capture_module.sh builds the library over.
find crates -path '*/out/rlib/*.rlib/format' -exec sha256sum {} + > "$room/gherkin_run.libraries"
echo "$1" > "$room/gherkin_run.sources"
# The sum of the sources comes last: ./run takes the program only with it.
rm -f out/gherkin_run.sources
for kind in "" .sha256 .kit .libraries .sources; do
    mv "$room/gherkin_run$kind" "out/gherkin_run$kind"
done
