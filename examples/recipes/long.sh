#!/bin/sh
# Runs a suite that is too long for one command line: examples/recipes/long.sh [--files N] PROGRAM [OPTION].. < NAMES
#
# NAMES are the files, one a line. They are run in parts of at most N files, or of 1,000, each with the options, and the reports
# are added up. What the script prints, and its status, are those of one run over all files. If a part has a fault, the script
# prints no report and exits as that part did; if a part is killed or it can't write, it exits with 3, and without a name with 2.
# --stop, --format, --explain, --lint, --help and --version are refused: a run with --stop isn't the sum of parts.
set -eu

here=$(dirname -- "$(readlink -f -- "$0")")
files=1000

refuse() {
    "$here/visible.sh" "long: $1" >&2 || true
    exit "$2"
}

if [ "${1-}" = --files ]; then
    files=${2-}
    case $files in
    '' | *[!0-9]* | 0*) refuse "--files is a number from 1 on" 2 ;;
    esac
    shift 2
fi
[ $# -ge 1 ] || {
    echo "usage: examples/recipes/long.sh [--files N] PROGRAM [OPTION].. < NAMES" >&2 || true
    exit 2
}
for word do
    case $word in
    --stop | --format | --format=* | --explain | --lint | --help | --version | -[hV]*) refuse "$word isn't for a suite in parts" 2 ;;
    esac
done
room=$(mktemp -d) && room=$(CDPATH='' cd -- "$room" && pwd) || exit 3
trap 'rm -rf -- "$room"' EXIT
trap 'stop 129' HUP
trap 'stop 130' INT
trap 'stop 143' TERM
# A command in the background would read an empty standard input.
{ command exec 3<&0; } 2> /dev/null || exec 3< /dev/null
# The standard error of the parts. That of xargs only says how they ended.
command exec 4>&2 || exec 4> /dev/null

# Runs a command in a session of its own, so that a signal to this script ends it, and what it has started.
run() {
    setsid -- "$@" <&3 3<&- &
    wait "$!"
}

stop() {
    trap '' HUP INT TERM
    { kill "${!-}" && kill -- "-$!"; } 2> /dev/null || true
    wait
    exit "$1"
}

# Runs a part. Its report has a number in its name, so that the names are in order. It is one line. Status 255 ends xargs.
part='
    exec 2>&4 4>&-
    report=$0/part.$((1000000 + $(ls "$0" | wc -l)))
    status=0
    "$@" > "$report" || status=$?
    [ "$status" -le 128 ] || exit 255
    [ "$(wc -l < "$report")" = 1 ] || { echo "$status" > "$0/status"; exit 255; }'
ended=0
run xargs -d '\n' -r -n "$files" sh -c "$part" "$room" "$@" --format json -- 2> /dev/null || ended=$?
if [ -e "$room/status" ]; then
    exit "$(grep . "$room/status" || echo 3)"
fi
[ "$ended" -eq 0 ] || refuse "a part was killed" 3
[ -n "$(ls "$room")" ] || refuse "no file is given" 2
run "$here/../add_reports.sh" "$room"/part.* 4>&-
