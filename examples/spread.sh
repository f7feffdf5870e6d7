#!/usr/bin/env bash
# Runs a suite in parts, several at a time, and prints the JSON report of one run over all its files:
# examples/spread.sh [--jobs N] [--sshlogin MACHINES].. [--files N] PROGRAM [OPTION].. -- [FILE]..
#
# GNU parallel runs a job for each part: as many at a time as there are processors, or N with --jobs, on this machine or on those of
# --sshlogin. These have the program and the files under the same paths, and base64 and xargs. MACHINES is a list with commas of
# HOST, USER@HOST, HOST:PORT or `:` for this machine, each after `N/` to run N jobs at a time there. A part has N files with --files;
# otherwise the parts have about the same number of bytes. A part whose names are long has fewer files. Without a FILE, the names
# are read from standard input, one a line.
#
# A scenario's verdict is the same alone and in a suite. So the reports of the parts, added up in their order, are the one report,
# byte for byte, and the script exits with its status. A job that is lost is run again, three times in all. A part's report
# counts once: it is that of the last try, which has to say how it ended. If a part stays lost, the script prints no report and exits
# with 3, and so if it can't write. If a part has a fault, one run over all files finds the first fault. A run with --stop isn't the sum
# of its parts, so it is refused, and so are other reports. With one job at a time on this machine there is one part,
# run as it is, unless --files is given or the names are too many for one command. Otherwise the script needs GNU parallel.
set -euo pipefail

here=$(dirname -- "$(readlink -f -- "$0")")
room=$(mktemp -d) && room=$(CDPATH='' cd -- "$room" && pwd) || exit 3
trap 'rm -rf -- "$room"' EXIT
trap 'stop 129' HUP
trap 'stop 130' INT
trap 'stop 143' TERM
# GNU parallel takes options, shells, ssh commands and folders from these.
unset "${!PARALLEL@}" parallel_bash_environment

# A job is these fixed texts and one word, in base64, so that nothing of the user's can be read as a replacement string or by a shell.
# The first turns the word into words; $0 is the second.
unpack='printf %s "$1" | base64 -d | xargs -0 sh -c "$0" sh'
# $1 is the number of the other words, $2 the folder, and the rest is the run. The last line says how the program ended. Memory may be
# free the next time, so at status 4 the job fails, and is run again.
job='
    [ "$(($# - 1))" -eq "$1" ] && cd -- "$2" || exit 1
    shift 2
    export TMPDIR="${USERS_TMPDIR-${TMPDIR-/tmp}}"
    unset USERS_TMPDIR PARALLEL_HOME PARALLEL_SHELL
    status=0
    "$@" || status=$?
    printf "\nstatus %s\n" "$status"
    [ "$status" -le 3 ] || exit "$status"'
# The most bytes of file names in a part: in base64 they have to fit into one word of a command, with the options.
most=30000

refuse() {
    "$here/recipes/visible.sh" "spread: $1" >&2 || true
    exit "$2"
}

# Runs a command that a signal to this script ends, too.
run() {
    "$@" &
    wait "$!"
}

# GNU parallel forgets a job that it is just starting when TERM comes, so HUP first keeps it from starting more.
stop() {
    trap '' HUP INT TERM
    local child
    for child in $(jobs -p); do
        kill -HUP "$child" 2> /dev/null || true
        sleep 0.5
        kill -TERM "$child" 2> /dev/null || true
    done
    wait
    exit "$1"
}

check_number() {
    [[ $2 =~ ^[1-9][0-9]*$ ]] || refuse "$1 is a number from 1 on" 2
}

check_machines() {
    local LC_ALL=C name='[A-Za-z0-9_][A-Za-z0-9_.-]*'
    local machine="([1-9][0-9]*/)?(:|($name@)?$name(:[0-9]+)?)"
    [[ $1 =~ ^$machine(,$machine)*$ ]] || refuse "--sshlogin is a list of machines, such as :,8/anna,8/tester@otto:22" 2
}

# Takes the options of this script, and leaves the other words in `rest`.
take_own_options() {
    engine=(--retries 3)
    each='' jobs=$(nproc) machines=()
    local own
    while [[ ${1:-} == --* && $1 != -- ]]; do
        [ "$#" -ge 2 ] || refuse "$1 has no value" 2
        case $1 in
        --jobs)
            check_number "$1" "$2"
            engine+=(--jobs "$2")
            jobs=$2
            ;;
        --sshlogin)
            check_machines "$2"
            engine+=(--sshlogin "$2")
            IFS=, read -r -a own <<< "$2"
            machines+=("${own[@]}")
            ;;
        --files)
            check_number "$1" "$2"
            each=$2
            ;;
        *) refuse "$1 isn't known" 2 ;;
        esac
        shift 2
    done
    rest=("$@")
}

# Takes the program with its options, and the files.
take_run() {
    program=()
    while [ "$#" -gt 0 ] && [ "$1" != -- ]; do
        case $1 in
        --stop | --format | --format=* | --explain | --lint | --help | --version | -[hV]*) refuse "$1 isn't for a suite in parts" 2 ;;
        esac
        program+=("$1")
        shift
    done
    [ "${#program[@]}" -gt 0 ] && [ "${1:-}" = -- ] || refuse "write PROGRAM [OPTION].. -- [FILE].." 2
    shift
    files=("$@")
    [ "$#" -gt 0 ] || mapfile -t files
    [ "${#files[@]}" -gt 0 ] || refuse "no file is given" 2
}

# With one job at a time on this machine, exits as one run over all files does, if their names fit into one command.
run_alone() {
    local LC_ALL=C names="${files[*]}" status=0
    [ "$jobs" -eq 1 ] && [ -z "$each" ] && [ "${#machines[@]}" -eq 0 ] || return 0
    ((${#names} + 10 * ${#files[@]} < 1000000)) || return 0
    run "${program[@]}" --format json -- "${files[@]}" || status=$?
    exit "$status"
}

# Sets `weights` to what each file adds to its part, and `share` to what a part has. Without --files that are bytes, and one more
# for each file, also if it isn't found here. There are two parts for each job that all machines together run at a time.
weigh() {
    local file found at=0 all=0 size machine slots=0
    for machine in "${machines[@]:-:}"; do
        [[ $machine == */* ]] || machine=$jobs/
        machine=${machine%%/*}
        slots=$((slots + (${#machine} < 7 ? machine : 1000000)))
    done
    weights=()
    mapfile -d '' -t found < <(printf '%s\0' "${files[@]}" | xargs -0 stat -L --printf '%s %n\0' -- 2> /dev/null)
    found+=('0 ')
    for file in "${files[@]}"; do
        size=0
        if [[ -z $each && ${found[at]#* } == "$file" ]]; then
            size=${found[at]%% *}
            at=$((at + 1))
        fi
        weights+=("$((size + 1))")
        all=$((all + size + 1))
    done
    share=${each:-$((all / (2 * slots) + 1))}
}

# Writes the word of each job to $room/words, one a line.
write_parts() {
    local LC_ALL=C file at=0 bytes=0 weight=0
    part=()
    firsts=()
    for file in "${files[@]}"; do
        if ((weight >= share || bytes + ${#file} > most)); then
            write_part
            bytes=0 weight=0
        fi
        part+=("$file")
        bytes=$((bytes + ${#file} + 1))
        weight=$((weight + weights[at++]))
    done
    write_part
}

# Writes the word of the job for the files in `part`, unless there is none.
write_part() {
    [ "${#part[@]}" -gt 0 ] || return 0
    local words=("$PWD" "${program[@]}" --format json -- "${part[@]}")
    {
        printf '%s\0' "${#words[@]}" "${words[@]}" | base64 | tr -d '\n' && echo
    } >> "$room/words" || refuse "cannot write" 3
    firsts+=("${part[0]}")
    part=()
}

# Runs all jobs. What part N prints is in $room/parts/N, and its faults in $room/parts/N.err; the engine prints only the names of
# these files. All paths here are below the folder.
run_engine() {
    cd -- "$room"
    export USERS_TMPDIR="${TMPDIR-/tmp}" TMPDIR=. PARALLEL_HOME=. PARALLEL_SHELL=/bin/sh
    exec parallel --plain "${engine[@]}" --files --results 'parts/{#}' "sh -c '$unpack' '$job' {}" < words > engine 2>&1
}

# Prints the last line of a part's faults, or the engine's if there is none, without zero bytes, of which bash would warn.
said_last() {
    { grep -a . "$room/parts/$number.err" 2> /dev/null || grep -a . "$room/engine"; } | tail -n 1 | tr -d '\0'
}

# Ends the script, since a part is lost. It may be lost because another program is called parallel.
end_lost() {
    [[ $(parallel --version 2> /dev/null) == "GNU parallel"* ]] || refuse "GNU parallel is needed, and isn't installed" 2
    refuse "part $number is lost, which begins with ${firsts[number - 1]}: $(said_last)" 3
}

# Makes the report of each part, by cutting off how it ended. Ends the script if a part is lost or has a fault. A report is one
# line, with its end.
take_reports() {
    local last
    reports=()
    for ((number = 1; number <= ${#firsts[@]}; number++)); do
        last=$(tail -c 11 "$room/parts/$number" 2> /dev/null) || true
        [[ $last =~ $'\n'status\ ([0-4])$ ]] || end_lost
        [[ $last == $'\n\n'* ]] || end_with_fault "${BASH_REMATCH[1]}"
        reports+=("$room/parts/$number")
    done
    printf '%s\0' "${reports[@]}" | xargs -0 truncate -s -10 || refuse "cannot write" 3
}

# Exits as one run over all files does, which has a fault. If memory ran out, or there are too many files for one command,
# exits as the part did.
end_with_fault() {
    local status=0
    if [ "$1" -ne 4 ]; then
        run "${program[@]}" --format json -- "${files[@]}" || status=$?
        [ "$status" -eq 126 ] || exit "$status"
    fi
    cat "$room/parts/$number.err" >&2 || true
    exit "$1"
}

take_own_options "$@"
take_run "${rest[@]}"
run_alone
command -v parallel > /dev/null || refuse "GNU parallel is needed, and isn't installed" 2
weigh
write_parts
run run_engine || true
take_reports
run "$here/add_reports.sh" "${reports[@]}"
