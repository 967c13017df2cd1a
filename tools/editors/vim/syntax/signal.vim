" Vim syntax of the programs that sigc compiles. docs/language.md has the language.
if exists("b:current_syntax")
  finish
endif

syntax keyword signalStructure process where end pragmas RunOn
syntax keyword signalType integer boolean event
syntax keyword signalClock when default cell init
syntax keyword signalOperator not and or xor modulo
syntax keyword signalConstant true false
syntax match signalNumber "\<\d\+"
syntax match signalMark ":=\|\^=\|\^+\|\^\*\|\^-\|\^\|\$"
syntax match signalBracket "(|\||)\||"
syntax region signalComment start="%" end="%"
syntax region signalLabel start=+"+ end=+"+ oneline

highlight default link signalStructure Structure
highlight default link signalType Type
highlight default link signalClock Keyword
highlight default link signalOperator Operator
highlight default link signalConstant Boolean
highlight default link signalNumber Number
highlight default link signalMark Special
highlight default link signalBracket Delimiter
highlight default link signalComment Comment
highlight default link signalLabel String

let b:current_syntax = "signal"
