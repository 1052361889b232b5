" Vim compiler file for symboleo: `:make` compiles the contract, and goes to the place of a refusal.

if exists('g:current_compiler')
  finish
endif
let g:current_compiler = 'symboleo'

let s:cpo_save = &cpo
set cpo&vim

CompilerSet makeprg=symboleo\ compile\ %:p:S
" The line names no file, so the place is one of the file that is open. All other lines are the
" contract as the program writes it.
CompilerSet errorformat=refused\ spec\ %l:%c\ %m,%-G%.%#

let &cpo = s:cpo_save
unlet s:cpo_save
