" The program's findings as Vim's compiler: put this file into ~/.vim/compiler/, and say
"     :compiler! gherkin_lint
"     :make -- %:S
" Each fault and each line that is found is then a line of the quickfix list. %:S quotes the name of
" the edited file, and after -- no name is an option.
if exists('current_compiler')
  finish
endif
let current_compiler = 'gherkin_lint'

if exists(':CompilerSet') != 2
  command -nargs=* CompilerSet setlocal <args>
endif

CompilerSet makeprg=gherkin_run\ --lint
" What is said below a fault names no place; a fault; then what is found; a tag of --tags or a --line says nothing of a place.
CompilerSet errorformat=%-G\ \ \ \ %.%#,%-G--tags\ %.%#,gherkin_run:\ %f:%l:\ %m,%f:%l:\ %m,%-G%.%#
