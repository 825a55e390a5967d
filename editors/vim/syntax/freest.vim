" The tokens of FreeST, as docs/LANGUAGE.md has them. Of two matches that begin at one place, Vim takes the later rule.
if exists("b:current_syntax")
  finish
endif
syntax case match
syntax iskeyword @,48-57,_,192-255,39

syntax match freestSeparator "\V;\|,\|:\|."
syntax match freestBracket "\V{\|}\|(\|)"
syntax match freestOperator "\V+\|-\|*\|&\||\|=\|~\|@"
syntax match freestMessage "\V!\|?"
syntax match freestOperator "\V&&\|||"
syntax match freestOperator "\V==\|/=\|<=\|>=\|<\|>"
syntax match freestArrow "\V\\"
syntax match freestArrow "\V->"

syntax match freestNumber "\v[0-9]+"
syntax match freestArrow "\v0*1\s*-\>"
syntax match freestKind "\v(:\s*)@<=(\*|0*1)\s*[ST]\k@!"

syntax match freestName "\v[0-9'A-Z]@!\k+"
syntax match freestDeclared "\v^[0-9'A-Z]@!\k+"
syntax match freestUpper "\v[A-Z]\k*"
syntax match freestLabel "\v[A-Z]\k*\ze\s*:"

syntax match freestDeclaration "\v%(data|type|forall|rec)\k@!"
syntax match freestControl "\v%(match|with|case|of|let|in|if|then|else)\k@!"
syntax match freestChannel "\v%(new|send|receive|select|fork|close|wait)\k@!"
syntax match freestOperator "\v%(not)\k@!"
syntax match freestBoolean "\v%(True|False)\k@!"
syntax match freestType "\v%(Int|Bool|Char|Skip|Close|Wait)\k@!"

syntax match freestEscape "\\[nt\\']" contained
syntax match freestCharacter "'\%(\\[nt\\']\|[^'\\\t]\)'" contains=freestEscape
syntax match freestComment "--.*$" contains=@Spell

highlight default link freestArrow Operator
highlight default link freestBoolean Boolean
highlight default link freestBracket Delimiter
highlight default link freestChannel Statement
highlight default link freestCharacter Character
highlight default link freestComment Comment
highlight default link freestControl Conditional
highlight default link freestDeclaration Keyword
highlight default link freestDeclared Function
highlight default link freestEscape SpecialChar
highlight default link freestKind StorageClass
highlight default link freestLabel Label
highlight default link freestMessage Operator
highlight default link freestNumber Number
highlight default link freestOperator Operator
highlight default link freestSeparator Delimiter
highlight default link freestType Type
highlight default link freestUpper Structure

let b:current_syntax = "freest"
