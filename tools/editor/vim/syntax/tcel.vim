" Programs of tcel: tokens and reserved words as docs/language.md has them.
if exists("b:current_syntax")
  finish
endif

syntax case match
syntax keyword tcelStructure task priority input output
syntax keyword tcelStorage state local int bool
syntax keyword tcelTiming every finish within start after before do
syntax keyword tcelStatement receive from send to if else for while limit
syntax keyword tcelOperatorWord and or not
syntax keyword tcelTruth true false
syntax match tcelName "\<[A-Za-z_][A-Za-z0-9_]*\>"
syntax match tcelNumber "\<[0-9]\+"
syntax match tcelOperator ":=\|==\|!=\|<=\|>=\|[=<>+*/%-]"
syntax match tcelComment "//.*$"

highlight default link tcelStructure Structure
highlight default link tcelStorage Type
highlight default link tcelTiming Keyword
highlight default link tcelStatement Statement
highlight default link tcelOperatorWord Operator
highlight default link tcelTruth Boolean
highlight default link tcelName Identifier
highlight default link tcelNumber Number
highlight default link tcelOperator Operator
highlight default link tcelComment Comment

let b:current_syntax = "tcel"
