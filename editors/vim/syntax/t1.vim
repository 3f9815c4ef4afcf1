" Vim syntax file
" Language: sources of Type 1 fonts, as t1edit and t1disasm write them

if exists('b:current_syntax')
  finish
endif
let s:keep = &cpoptions
set cpoptions&vim

syntax case match
syntax match t1Comment /%.*/ contains=@Spell
syntax region t1Text start=/(/ end=/)/ oneline contains=t1Text
syntax match t1Number /\v(^|[ \t\[{])@1<=-?\d+(\.\d+)?([ \t\]}]|$)@=/
syntax match t1Key /\v\/[^ \t()<>\[\]{}\/%]+/
syntax match t1Section /\v\/(Subrs[ \t]+\d{1,9}[ \t]+array|CharStrings[ \t]+\d{1,9}[ \t]+dict)>/
syntax match t1Border /\v<(currentfile eexec|mark currentfile closefile)[ \t]*$/

" A head of an entry, whose brace ends the line or stands before a number, a comment or a command of a Subr; and its body.
syntax match t1Name /\v^[ \t]*\/[^ \t()<>\[\]{}\/%;]+[ \t]*(\{[ \t]*([%].*|-?\d.*|endchar.*)?$)@=/ nextgroup=t1Body
syntax match t1Name /\v^[ \t]*dup[ \t]+\d+[ \t]*(\{)@=/ nextgroup=t1Body
syntax region t1Body contained matchgroup=t1Brace start=/{/ end=/}/ contains=t1Unknown,t1Value,t1Command,t1Call,t1Comment
syntax match t1Unknown contained /[^ \t{}%]\+/
syntax match t1Value contained /\v[^ \t{}%]@1<!-?\d+([ \t{}%]|$)@=/
syntax match t1Command contained /\v[^ \t{}%]@1<!(hsbw|sbw|[rhv]moveto|[rhv]lineto|(rr|vh|hv)curveto|closepath|[hv]stem3?|dotsection|setcurrentpoint|div|pop|return|endchar|seac)([ \t{}%]|$)@=/
syntax match t1Call contained /\v[^ \t{}%]@1<!(callsubr|callothersubr)([ \t{}%]|$)@=/

syntax sync minlines=300

highlight default link t1Comment Comment
highlight default link t1Text String
highlight default link t1Number Number
highlight default link t1Value Number
highlight default link t1Key Identifier
highlight default link t1Section PreProc
highlight default link t1Border PreProc
highlight default link t1Name Function
highlight default link t1Brace Delimiter
highlight default link t1Command Statement
highlight default link t1Call Special
highlight default link t1Unknown Error

let b:current_syntax = 't1'
let &cpoptions = s:keep
unlet s:keep
