" Highlighting for source texts of brc. Words of a form count only right after its parenthesis, since
" position decides what a name means and no name is reserved.
if exists('b:current_syntax')
  finish
endif

syntax case match
setlocal iskeyword=@,48-57,_
setlocal commentstring=;%s

syntax match brComment /;.*/ contains=brTodo
syntax keyword brTodo TODO NOTE contained

syntax match brFunction /\<\h\w*/ contained
syntax match brDefine /(\@1<=fn\>/ nextgroup=brFunction skipwhite skipempty
syntax match brControl /(\@1<=\%(if\|then\|else\|while\|seq\|call\|interact\|skip\)\>/
syntax match brCommand /(\@1<=\%(set\|unset\|store[124]\|stackalloc\)\>/
syntax match brOperation /(\@1<=\%(add\|sub\|mul\|mulhuu\|divu\|remu\|and\|or\|xor\)\>/
syntax match brOperation /(\@1<=\%(slu\|sru\|srs\|lts\|ltu\|eq\|ite\|load[124]\|table[124]\)\>/
syntax match brAction /\<MMIO\%(READ\|WRITE\)\>/

syntax match brBadNumber /\<\d\w*\>/
syntax match brNumber /\<\%(0\|[1-9]\d*\|0x\x\{1,8}\)\>/
syntax match brBadByte /[^ \t\r()A-Za-z0-9_;]/

highlight default link brComment Comment
highlight default link brTodo Todo
highlight default link brDefine Define
highlight default link brFunction Function
highlight default link brControl Statement
highlight default link brCommand Statement
highlight default link brOperation Operator
highlight default link brAction Special
highlight default link brNumber Number
highlight default link brBadNumber Error
highlight default link brBadByte Error

let b:current_syntax = 'br'
