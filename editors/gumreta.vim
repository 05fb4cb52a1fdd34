" Highlighting of a Gumreta job's text (docs/JOBS.md) for Vim. Copy this file to ~/.vim/syntax/gumreta.vim, and into ~/.vimrc put
"     autocmd BufRead,BufNewFile *.text if getline(1) =~ '^\(#\|type\|procedure\)' | set filetype=gumreta commentstring=#%s | endif
if exists("b:current_syntax")
  finish
endif

syntax case match
syntax match   gumretaVariable    "\<[A-Z]\w*\>"
syntax match   gumretaFunctor     "\<[a-z]\w*\ze\s*\%([.(]\)"
syntax match   gumretaNumber      "-\?\<[0-9]\+\>"
syntax match   gumretaOperator    "->\|[=<+|]\|-\ze\s"
syntax match   gumretaName        "\%(^\s*\%(procedure\|type\)\s\+\)\@<=[a-z]\w*"
syntax match   gumretaName        "\%(\<call\s\+\)\@<=[a-z]\w*"
syntax keyword gumretaStructure   type procedure end
syntax keyword gumretaStorage     in out local region at
syntax keyword gumretaClass       born dead
syntax keyword gumretaConditional switch arm if try then else
syntax keyword gumretaStatement   call print test
syntax keyword gumretaInserted    create remove
syntax keyword gumretaType        int
syntax match   gumretaComment     "#.*$" contains=@Spell

highlight default link gumretaVariable    Identifier
highlight default link gumretaFunctor     Constant
highlight default link gumretaNumber      Number
highlight default link gumretaOperator    Operator
highlight default link gumretaName        Function
highlight default link gumretaStructure   Structure
highlight default link gumretaStorage     StorageClass
highlight default link gumretaClass       Special
highlight default link gumretaConditional Conditional
highlight default link gumretaStatement   Statement
highlight default link gumretaInserted    PreProc
highlight default link gumretaType        Type
highlight default link gumretaComment     Comment

let b:current_syntax = "gumreta"
