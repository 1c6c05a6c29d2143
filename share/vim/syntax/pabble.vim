" Vim syntax file of Pabble protocols (*.pbl), with subprotocols (*.calls) and with strips (*.strips)
if exists("b:current_syntax")
  finish
endif

syntax case match
syntax keyword pabbleDeclaration const global protocol role
syntax keyword pabbleStatement foreach rec continue choice or compute barrier broadcast reduce allreduce do
syntax keyword pabbleWord from to at with
syntax keyword pabbleType int32 uint32
syntax keyword pabbleConstant max min sum
syntax match pabbleNumber "\<\d\+\>"
syntax match pabbleRange "\.\."
syntax match pabbleLabel "\<\h\w*\ze\s*("
" a keyword with strips alone, and a name elsewhere
syntax match pabbleStatement "\<columns\ze\s*(\s*\h\w*\s*:"
syntax match pabbleLine "//.*$" contains=pabbleTodo,@Spell
syntax region pabbleComment start="/\*" end="\*/" contains=pabbleTodo,@Spell
syntax keyword pabbleTodo TODO FIXME contained

highlight default link pabbleDeclaration Keyword
highlight default link pabbleStatement Statement
highlight default link pabbleWord Keyword
highlight default link pabbleType Type
highlight default link pabbleConstant Constant
highlight default link pabbleNumber Number
highlight default link pabbleRange Operator
highlight default link pabbleLabel Function
highlight default link pabbleLine Comment
highlight default link pabbleComment Comment
highlight default link pabbleTodo Todo

syntax sync ccomment pabbleComment
let b:current_syntax = "pabble"
