" Fluent: https://projectfluent.org
if exists("b:current_syntax")
  finish
endif

" What begins a line: a comment, a message, a term, an attribute.
syntax match fluentComment /^#\{1,3}\%( .*\)\?$/
syntax match fluentMessage /^\a[[:alnum:]_-]*\ze *=/
syntax match fluentTerm /^-\a[[:alnum:]_-]*\ze *=/
syntax match fluentAttribute /^ *\.\a[[:alnum:]_-]*\ze *=/

" What stands in braces.
syntax region fluentPlaceable matchgroup=fluentBrace start=/{/ end=/}/ contains=@fluentInline
syntax cluster fluentInline contains=fluentPlaceable,fluentString,fluentNumber,fluentVariable,fluentFunction,fluentName,fluentReference,fluentArrow,fluentVariant
syntax match fluentReference /-\?\a[[:alnum:]_-]*\%(\.\a[[:alnum:]_-]*\)\?/ contained
syntax match fluentFunction /\u[[:upper:][:digit:]_-]*\ze\s*(/ contained
syntax match fluentName /\a[[:alnum:]_-]*\ze\s*:/ contained
syntax match fluentVariable /\$\a[[:alnum:]_-]*/ contained
syntax match fluentNumber /-\?\d\+\%(\.\d\+\)\?/ contained
syntax match fluentArrow /->/ contained

" A variant is its key and the text up to the next key or the brace.
syntax region fluentVariant matchgroup=fluentKey start=/^\s*\zs\*\?\[[^]]*\]/ end=/^\ze\s*\*\?\[/ end=/\ze}/ contained contains=fluentPlaceable

syntax region fluentString start=/"/ end=/"/ oneline contained contains=fluentEscape,fluentWrongEscape skip=/\\["\\]/
syntax match fluentWrongEscape /\\./ contained
syntax match fluentEscape /\\["\\]\|\\u\x\{4}\|\\U\x\{6}/ contained

highlight default link fluentComment Comment
highlight default link fluentMessage Identifier
highlight default link fluentTerm Identifier
highlight default link fluentAttribute Type
highlight default link fluentKey Label
highlight default link fluentBrace Delimiter
highlight default link fluentReference Identifier
highlight default link fluentFunction Function
highlight default link fluentName Type
highlight default link fluentVariable Special
highlight default link fluentNumber Number
highlight default link fluentArrow Operator
highlight default link fluentString String
highlight default link fluentEscape SpecialChar
highlight default link fluentWrongEscape Error

let b:current_syntax = "fluent"
