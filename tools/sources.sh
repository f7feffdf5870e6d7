#!/bin/sh
# Prints a sum over the sources of the program, by their names and their contents: tools/sources.sh
#
# The sources are crates.txt and every .rt and .antt file of the crates that the program uses. File times don't count.
set -eu

cd "$(dirname -- "$(readlink -f -- "$0")")/.."
crates=$(awk '
    function take(crate, each, count, n) {
        if (!(crate in needs) || crate in taken) return
        taken[crate] = 1
        count = split(needs[crate], each, " ")
        for (n = 1; n <= count; n++) take(each[n])
    }
    { sub(/#.*/, "") }
    NF { split($0, side, ":"); split(side[1], name, " "); needs[name[1]] = side[2] }
    END { take("gherkin_run"); for (crate in taken) print "crates/" crate }' crates.txt)
# The names of crates have no blanks.
find $crates crates.txt -name out -prune -o -type f \( -name '*.rt' -o -name '*.antt' -o -name crates.txt \) \
    -print0 | LC_ALL=C sort -z | xargs -0 sha256sum | sha256sum | cut -d ' ' -f 1
