#!/bin/sh
# Adds up the JSON reports of runs over different files: examples/add_reports.sh REPORT..
#
# Prints the report that one run over all these files gives, in the order of the reports, and exits with its status. Each run
# judges its features alone, so it says of them what one run would say. Only a run with --stop knows nothing of the others.
# If a file isn't one report as the program printed it, on one line, the script prints no report and exits with 3, and so if
# it can't write. It reads the counts from the end of a report, and looks at what is between only for a second beginning.
set -eu
export LC_ALL=C

here=$(dirname -- "$(readlink -f -- "$0")")
start='{"features":['
# What follows the features, with a word or a number for each %s. A quotation mark within a text of a suite has a backslash
# before it, so no part of a text looks like this or like the start.
counts='"failed":%s,"memory":%s,"passed":%s,"skipped":%s'
end="],\"run\":\"%s\",\"status\":%s,\"summary\":{\"features\":{$counts,\"untested\":%s},\"scenarios\":{$counts,\"untested\":%s},"
end="$end\"steps\":{$counts,\"undefined\":%s,\"untested\":%s}}}"
form=$(printf '%s' "$end" | sed 's/[{}]/\\&/g; s/"%s"/"(passed|failed|memory)"/; s/%s/[014]/; s/%s/(0|[1-9][0-9]*)/g')

refuse() {
    "$here/recipes/visible.sh" "add_reports: $1" >&2 || true
    exit "$2"
}

# Prints the bytes of the features of a report, and its end. Fails if it isn't one line, or begins or ends in another way.
parts_of() {
    set -- "$1" $(wc -lc < "$1")
    [ $# -eq 3 ] && [ "$2" -le 1 ] && [ "$(head -c "${#start}" < "$1")" = "$start" ] || return 1
    ended=$(tail -c 4096 < "$1" | sed -nE "\$s/.*($form)\$/\1/p")
    [ -n "$ended" ] && [ "$(tail -c "$((${#ended} + $2))" < "$1")" = "$ended" ] || return 1
    printf '%s %s\n' "$(($3 - $2 - ${#ended} - ${#start}))" "$ended"
}

# A script that passes if no other report begins within a report.
is_alone='[ "$(tr "{" "\n" < "$1" | grep -ac "^\"features\":\\[")" -eq 1 ]'

refuse_report() {
    refuse "$1 is no report as the program printed it" 3
}

# Prints the parts of each report, one report a line.
parts_of_all() {
    for report do
        parts_of "$report" || refuse_report "$report"
    done
    # All are read at once, and only if one is refused it is looked for.
    printf '%s\0' "$@" | xargs -0 -n 1 -P "$(nproc)" sh -c "$is_alone" sh || for report do
        sh -c "$is_alone" sh "$report" || refuse_report "$report"
    done
}

# Prints how the run ended and with which status, the worst of all, and the sums of the counts.
sum_of() {
    awk '{
        run = /"run":"memory"/ || run == "memory" ? "memory" : /"run":"failed"/ || run == "failed" ? "failed" : "passed"
        last = split($2, number, /[^0-9]+/) - 1
        if (number[2] + 0 > status)
            status = number[2] + 0
        for (place = 3; place <= last; place++)
            sum[place] += number[place]
    }
    END {
        printf "%s %d", run, status
        for (place = 3; place <= last; place++)
            printf " %.0f", sum[place]
    }'
}

# Prints the features of each report with commas between them. Reads their bytes.
features_of() {
    comma=
    for report do
        read -r length ended
        [ "$length" -gt 0 ] || continue
        { printf '%s' "$comma" && head -c "${#start}" > /dev/null && head -c "$length"; } < "$report" || return 1
        comma=,
    done
}

[ $# -ge 1 ] || {
    echo "usage: examples/add_reports.sh REPORT.." >&2 || true
    exit 2
}
parts=$(parts_of_all "$@") || exit 3
sum=$(printf '%s\n' "$parts" | sum_of) || exit 3
status=${sum#* }
# The words of the sum are those of the end. $end is a format of printf.
{ printf '%s' "$start" && printf '%s\n' "$parts" | features_of "$@" && printf "$end\n" $sum; } || refuse "cannot write" 3
exit "${status%% *}"
