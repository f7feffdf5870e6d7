#!/bin/sh
# Runs two commands, and checks what they wrote: examples/checks/check.sh PROGRAM [OPTION OF SORT]..
#
# It prints what failed and the counts, and exits with the status of the check, or with 3 if one of the commands fails. PROGRAM is
# ./run or gherkin_run.
set -eu

[ $# -ge 1 ] || {
    echo "usage: examples/checks/check.sh PROGRAM [OPTION OF SORT].." >&2 || true
    exit 2
}
program=$1
shift
here=$(dirname -- "$0")
room=$(mktemp -d) || exit 3
trap 'rm -rf -- "$room"' EXIT
sort "$@" "$here/names.txt" > "$room/sorted" || exit 3
sed 's/.*/Dear &,/' "$room/sorted" > "$room/letters" || exit 3
"$program" --explain --file "sorted=$room/sorted" --file "letters=$room/letters" "$here/names.feature"
