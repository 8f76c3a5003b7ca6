" Syntax of the litmus texts and sheets of px86 for Vim (docs/FORMATS.md).
if exists("b:current_syntax")
  finish
endif

syntax case match
" In a sheet `$` is a part of names and numbers.
syntax iskeyword @,48-57,_,$
" Of two that begin at one place the later counts, and a keyword before both.
syntax match px86Operation /->\|[=!<>]=\|[=<>+-]/
syntax match px86Word /\<[a-z][a-z0-9_$]*\>/
syntax match px86Number /-\=\<[0-9$]\+\>/
syntax match px86Number /\<0x[0-9A-Fa-f$]\+\>/
syntax match px86Constant /\<[A-Z][A-Z0-9_$]*\>/
syntax match px86Address /&[a-z][a-z0-9_$]*\>/
syntax match px86Copies /\*/
syntax match px86Section /^\s*\zs\%(cpu\|recover\|end\)\>/
syntax match px86Memory /^\s*\zs\%(line\|init\|const\)\>/
syntax match px86Header /^\s*\zs\%(litmus\|sheet\)\s\+1\>/
syntax match px86Instruction /^\s*\zs\%(mov\|add\|cmp\|xchg\|nop\)\>/
syntax match px86Locked /^\s*\zslock\s\+\%(xadd\|cmpxchg\)\>/
syntax match px86Order /^\s*\zs\%(mfence\|sfence\|clflush\|clflushopt\|clwb\)\>/
syntax match px86Jump /^\s*\zs\%(jmp\|jz\|jnz\)\>/ nextgroup=px86Target skipwhite
syntax match px86Target /[a-z][a-z0-9_$]*/ contained
syntax match px86Label /^\s*\zs[a-z][a-z0-9_$]*\ze\s*:/
syntax match px86Question /^\s*\zs\%(every\|some\)\>/ nextgroup=px86Place skipwhite
syntax match px86Question /^\s*\zslet\>/
syntax match px86Place /\%(crash\|end\|recovery\)\>/ contained
syntax match px86Label /^\s*\zs\%(let\|every\|some\)\ze\s*:/
syntax keyword px86Asked persisted coherent reg not and or
syntax keyword px86Register rax rcx rdx rbx rsi rdi r8 r9
syntax match px86Comment /#.*/ contains=@Spell

highlight default link px86Word Identifier
highlight default link px86Number Number
highlight default link px86Constant Number
highlight default link px86Address Number
highlight default link px86Copies Operator
highlight default link px86Operation Operator
highlight default link px86Question Structure
highlight default link px86Place Type
highlight default link px86Asked Keyword
highlight default link px86Section Structure
highlight default link px86Memory Type
highlight default link px86Header PreProc
highlight default link px86Instruction Statement
highlight default link px86Locked Special
highlight default link px86Order Special
highlight default link px86Jump Conditional
highlight default link px86Target Label
highlight default link px86Label Label
highlight default link px86Register Constant
highlight default link px86Comment Comment

let b:current_syntax = "px86"
