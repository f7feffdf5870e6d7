# Completion of gherkin_run for bash, in a folder where bash-completion looks for it, or read with `.`.

_gherkin_run() {
    local word=${COMP_WORDS[COMP_CWORD]} before= earlier
    # tools/tables.py: options
    local formats='plain progress json'
    local texts=' --tags --line --env --file '
    local files=' --library --hooks '
    local options='--tags --line --library --hooks --env --file --dry-run --stop --format --no-skipped --explain --lint --no-steps --help -h --version -V'
    # tools/tables.py: end
    COMPREPLY=()
    # After -- every argument is a file.
    for earlier in "${COMP_WORDS[@]:0:COMP_CWORD}"; do
        [[ $earlier != -- ]] || return 0
    done
    ((COMP_CWORD == 0)) || before=${COMP_WORDS[COMP_CWORD - 1]}
    # bash cuts --format=json into three words.
    if [[ $word == = ]]; then
        word=
    elif [[ $before == = ]]; then
        ((COMP_CWORD < 2)) || before=${COMP_WORDS[COMP_CWORD - 2]}
    fi
    if [[ $before == --format ]]; then
        compopt +o default
        mapfile -t COMPREPLY < <(compgen -W "$formats" -- "$word")
    elif [[ $texts == *" $before "* ]]; then
        compopt +o default
    elif [[ $word == -* && $files != *" $before "* ]]; then
        compopt +o default
        mapfile -t COMPREPLY < <(compgen -W "$options" -- "$word")
    fi
}

# Where the function names nothing, bash completes a file.
complete -o default -F _gherkin_run gherkin_run
