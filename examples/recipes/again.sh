#!/bin/sh
# Runs again what failed: examples/recipes/again.sh REPORT PROGRAM [OPTION]..
#
# REPORT is the JSON report of the run in which it failed. Each file in which something failed is run by itself, with the options and
# with the lines of the scenarios that failed, and of all scenarios of a rule whose hooks and cleanups failed. The whole file is run
# if the report has no scenario of that rule, or if the feature's own hooks and cleanups failed. If those of the run failed, each file
# of the report is run whole. The script exits with the greatest status, or with the report's if there is nothing to run. If the
# file isn't one report it runs nothing and exits with 3. It needs jq.
set -eu

[ $# -ge 2 ] || {
    echo "usage: examples/recipes/again.sh REPORT PROGRAM [OPTION].." >&2 || true
    exit 2
}
command -v jq > /dev/null || {
    echo "again: jq is needed, and isn't installed" >&2 || true
    exit 2
}
report=$1
shift
runs=$(jq --raw-output --slurp '
    def is_bad: . == "failed" or . == "memory";
    if map(keys) == [["features", "run", "status", "summary"]] then .[0] else error("it is no report") end
    | (.run != "passed") as $all
    | .features[]
    | (.rules // []) as $rules
    | [range($rules | length) | select($rules[.].around | is_bad) | [$rules[.].line, $rules[. + 1].line // infinite]] as $parts
    | [.scenarios[] | select((.status | is_bad) or (.line as $line | any($parts[]; .[0] < $line and $line < .[1]))) | .line] as $lines
    | [.scenarios[].line] as $listed
    | if $all or (.around | is_bad) or any($parts[]; . as $part | all($listed[]; . < $part[0] or $part[1] < .)) then ["--", .source]
      elif $lines == [] then empty
      else [$lines[] | "--line", tostring] + ["--", .source] end
    | "again \"$@\" " + @sh' < "$report") || exit 3
[ -n "$runs" ] || exit "$(jq .status < "$report" || echo 3)"
worst=0

again() {
    status=0
    "$@" || status=$?
    [ "$status" -le "$worst" ] || worst=$status
}

eval "$runs"
exit "$worst"
