" Colours of the procedure language in Vim: copy this file to ~/.vim/syntax/tdb.vim, and put the line
"     autocmd BufRead,BufNewFile *.tdb set filetype=tdb
" into ~/.vimrc.
if exists("b:current_syntax")
  finish
endif

syntax keyword tdbDeclaration field const proc let
syntax keyword tdbLock lock free descend node child kids
syntax keyword tdbChoice if else try repeat for
syntax keyword tdbLeave break return fail require
syntax keyword tdbOutput emit
syntax keyword tdbWord and or not
syntax match tdbSoft /\<\(each\|of\|at most\|to\)\>/
syntax match tdbChoice /}\s*\zs\<found\ze\s*(/
syntax match tdbLeave /\<break\s\+with\>/
syntax match tdbChoice /\<while\>\(\s*\([+-]\?=\|\.\)\)\@!/
syntax match tdbDeclaration /\<atomic\ze\s\+proc\>/
syntax match tdbDeclaration /\<part\ze\s\+\h\w*\s*(/
syntax match tdbDeclaration /[(,]\s*\zsvar\ze\s\+\h/
syntax match tdbNumber /\<\d\+\(_\d\+\)*\>/
syntax match tdbName /\<\(proc\|part\)\s\+\zs\h\w*/
syntax match tdbField /\.\zs\h\w*/
syntax match tdbComment "//.*$" contains=@Spell

highlight default link tdbDeclaration Type
highlight default link tdbLock Keyword
highlight default link tdbChoice Conditional
highlight default link tdbLeave Exception
highlight default link tdbOutput Statement
highlight default link tdbWord Operator
highlight default link tdbSoft Keyword
highlight default link tdbNumber Number
highlight default link tdbName Function
highlight default link tdbField Identifier
highlight default link tdbComment Comment

let b:current_syntax = "tdb"
