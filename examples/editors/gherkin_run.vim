" The program as Vim's compiler: put this file into ~/.vim/compiler/, and say
"     :compiler! gherkin_run
"     :make --explain -- %:S
" Each fault, each explained scenario and each event that failed is then a line of the quickfix list. %:S quotes the name of
" the edited file, and after -- no name is an option.
if exists('current_compiler')
  finish
endif
let current_compiler = 'gherkin_run'

if exists(':CompilerSet') != 2
  command -nargs=* CompilerSet setlocal <args>
endif

CompilerSet makeprg=gherkin_run
" A fault; then what failed, is undefined or ran out of memory; all other lines say nothing of a place.
CompilerSet errorformat=gherkin_run:\ %f:%l:\ %m
CompilerSet errorformat+=\ \ %f:%l:\ %m\ ...\ failed,\ \ %f:%l:\ %m\ ...\ failed:\ %.%#
CompilerSet errorformat+=\ \ %f:%l:\ %m\ ...\ undefined,\ \ %f:%l:\ %m\ ...\ memory
CompilerSet errorformat+=%-G\ %.%#
CompilerSet errorformat+=%f:%l:\ %m\ ...\ failed,%f:%l:\ %m\ ...\ memory
CompilerSet errorformat+=%-G%.%#
