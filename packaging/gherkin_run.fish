# Completion of gherkin_run for fish, in a folder of $fish_complete_path.

# tools/tables.py: options
complete -c gherkin_run -l tags -x -d 'Run only scenarios whose tags fit T, as @a,~@b or \'@a or not @b\''
complete -c gherkin_run -l line -x -d 'Run only the scenarios at line N of a file'
complete -c gherkin_run -l library -r -F -d 'Take the steps from FILE in place of the built-in steps'
complete -c gherkin_run -l hooks -r -F -d 'Run the hooks in FILE around the run, its features, rules and scenarios'
complete -c gherkin_run -l env -x -d 'Set a variable before the run'
complete -c gherkin_run -l file -x -d 'Give steps the text of PATH as file NAME'
complete -c gherkin_run -l dry-run -d 'Look up the steps in the library, and run no step, hook or cleanup'
complete -c gherkin_run -l stop -d 'Stop at the first failure, and leave later scenarios untested'
complete -c gherkin_run -l format -x -a 'plain progress json' -d 'Write the report as plain, progress or json'
complete -c gherkin_run -l no-skipped -d 'Leave skipped features and scenarios out of the report'
complete -c gherkin_run -l explain -d 'In place of the report, say what happened in each scenario that failed'
complete -c gherkin_run -l lint -d 'In place of a run, list ignored lines, steps that can\'t work and unused entries'
complete -c gherkin_run -l no-steps -d 'With --lint: look no step up, for a suite of another runner'
# tools/tables.py: end
complete -c gherkin_run -s h -l help -d 'Print the help'
complete -c gherkin_run -s V -l version -d 'Print the version'
