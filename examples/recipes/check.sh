#!/bin/sh
# Runs a suite if all its steps are defined: examples/recipes/check.sh PROGRAM [OPTION].. FILE..
#
# Looks for undefined steps first, prints them, and exits with 1 if there are any. Otherwise it runs the suite, prints what failed and the
# counts, and exits with the suite's status. It prints through visible.sh, faults too. It reads each file twice, so none may be a pipe. If
# it can't write, it exits with 3. --dry-run, --no-skipped, --format, --explain, --lint, --help and --version are refused: the script
# gives the first two itself, and reads the plain report.
set -eu

here=$(dirname -- "$(readlink -f -- "$0")")
[ $# -ge 2 ] || {
    echo "usage: examples/recipes/check.sh PROGRAM [OPTION].. FILE.." >&2 || true
    exit 2
}
for word do
    case $word in
    --) break ;;
    --dry-run | --no-skipped | --format | --format=* | --explain | --lint | --help | --version | -[hV]*)
        "$here/visible.sh" "check: $word isn't for this script" >&2 || true
        exit 2
        ;;
    esac
done
room=$(mktemp -d) && room=$(CDPATH='' cd -- "$room" && pwd) || exit 3
trap 'rm -rf -- "$room"' EXIT
trap 'stop 129' HUP
trap 'stop 130' INT
trap 'stop 143' TERM
# A command in the background would read an empty standard input.
{ command exec 3<&0; } 2> /dev/null || exec 3< /dev/null

# Runs a command in a session of its own, so that a signal to this script ends it, and what it has started. What it says on standard
# error is shown when it has ended.
run() {
    ended=0
    setsid -- "$@" 2> "$room/errors" <&3 3<&- &
    wait "$!" || ended=$?
    "$here/visible.sh" < "$room/errors" >&2 || true
    return "$ended"
}

stop() {
    trap '' HUP INT TERM
    { kill "${!-}" && kill -- "-$!"; } 2> /dev/null || true
    wait
    exit "$1"
}

program=$1
shift
run "$program" --dry-run "$@" > "$room/undefined" || {
    status=$?
    {
        grep -a '\.\.\. undefined$' "$room/undefined" || true
        tail -n 3 "$room/undefined"
    } | "$here/visible.sh"
    exit "$status"
}
status=0
run "$program" --no-skipped "$@" > "$room/report" || status=$?
{
    grep -aE '^(Feature|  [A-Z][A-Za-z ]*): .* \.\.\. (failed|memory)$|\.\.\. (failed: [a-z ]+|memory)$|^ *\((rule, line [0-9]+: )?hooks and cleanups\) ' "$room/report" || true
    tail -n 3 "$room/report"
} | "$here/visible.sh"
exit "$status"
