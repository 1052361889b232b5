" Vim syntax file for symboleo: specifications, bindings, logs and property files.

if exists('b:current_syntax')
  finish
endif

" Lines that begin with a backslash go on, in compatible mode too.
let s:cpo_save = &cpo
set cpo&vim

" A run of letters, digits and `_` that begins with a letter is one word. A digit may stand right
" before a word, as in `10Days`, and so the words below are matches and no keywords of Vim.
syntax case match

" Of several matches that begin at one place, Vim takes the one that is defined last.
syntax match symboleoStray /[^ \t\r]/
syntax match symboleoName /[A-Za-z][A-Za-z0-9_]*/

syntax match symboleoSign /[:;,.()[\]{}=<>+*-]/
syntax match symboleoSign /:=\|->\|!=\|<=\|>=/

syntax match symboleoNumber /[0-9]\+/
syntax match symboleoDate /[0-9]\{4}-[0-9]\{2}-[0-9]\{2}\%(T[0-9]\{2}\%(:[0-9]\{2}\)\?\)\?/

syntax match symboleoBadEscape /\\/ contained
syntax match symboleoEscape /\\["\\]/ contained
syntax region symboleoString start=/"/ end=/"\|$/ contains=symboleoEscape,symboleoBadEscape

syntax keyword symboleoTodo TODO FIXME XXX contained
syntax match symboleoComment /\/\/.*$/ contains=symboleoTodo,@Spell

syntax match symboleoBasicType /\%(Number\|Text\|Boolean\|Date\)[A-Za-z0-9_]\@!/

" The reserved words, by what they are.
let s:reserved = {}
let s:reserved.Section = 'Domain endDomain Contract endContract unit Declarations Preconditions'
      \ . ' Postconditions Obligations Surviving Powers Constraints'
let s:reserved.Type = 'Role Asset Event Enumeration O P'
let s:reserved.Modifier = 'isA isAn with Env'
let s:reserved.Measure = 'Minute Minutes Hour Hours Day Days Week Weeks Month Months Year Years'
let s:reserved.Boolean = 'true false'
let s:reserved.Operator = 'and or not'
let s:reserved.Proposition = 'happens happensBefore happensAfter happensWithin occurs holds time'
      \ . ' state'
let s:reserved.Contract = 'contract'
let s:reserved.Act = 'suspends resumes discharges terminates triggers rescinds'
let s:reserved.Event = 'exerted triggered activated resumed suspended fulfilled violated expired'
      \ . ' discharged terminated completed rescinded'
let s:reserved.Log = 'start at exert report end'
let s:reserved.Property = 'values in assume property never always whenever within precedes possible'
      \ . ' to before once since'

for s:group in keys(s:reserved)
  execute 'syntax match symboleo' . s:group
        \ . ' /\%(' . join(split(s:reserved[s:group]), '\|') . '\)[A-Za-z0-9_]\@!/'
endfor
unlet s:group s:reserved

highlight default link symboleoComment Comment
highlight default link symboleoTodo Todo
highlight default link symboleoString String
highlight default link symboleoEscape SpecialChar
highlight default link symboleoBadEscape Error
highlight default link symboleoDate Constant
highlight default link symboleoNumber Number
highlight default link symboleoName Identifier
highlight default link symboleoSign Delimiter
highlight default link symboleoStray Error
highlight default link symboleoBasicType Type
highlight default link symboleoSection Structure
highlight default link symboleoType Type
highlight default link symboleoModifier StorageClass
highlight default link symboleoMeasure Type
highlight default link symboleoBoolean Boolean
highlight default link symboleoOperator Operator
highlight default link symboleoProposition Function
highlight default link symboleoContract Special
highlight default link symboleoAct Function
highlight default link symboleoEvent Function
highlight default link symboleoLog Keyword
highlight default link symboleoProperty Keyword

let b:current_syntax = 'symboleo'

let &cpo = s:cpo_save
unlet s:cpo_save
