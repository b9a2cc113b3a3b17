" Vim syntax of the structured language for routines.
if exists("b:current_syntax")
  finish
endif
syntax keyword tkvDeclaration pub inline fn const struct use let
syntax match tkvDeclaration /^test\>\ze\s*"/
syntax keyword tkvStatement if else while loop for in step max try as out dirty assert
syntax keyword tkvLeave fail return break continue
syntax keyword tkvWhy why same differ
syntax keyword tkvType word byte mem vm group
syntax keyword tkvLock mlock vlock ilock mnew vnew
syntax match tkvCall /\<[a-z][A-Za-z0-9_]*\ze(/
syntax match tkvNumber /\<\(0x[0-9A-Fa-f_]\+\|0b[01_]\+\|[0-9][0-9_]*\)\>/
syntax match tkvCharacter /'\(\\[nt\\'"]\|[^']\)'/
syntax match tkvString /"\(\\[nt\\'"]\|[^"\\]\)*"/
syntax match tkvRefusal /?/
syntax match tkvComment /\/\/.*$/
highlight default link tkvDeclaration Keyword
highlight default link tkvStatement Statement
highlight default link tkvLeave Exception
highlight default link tkvWhy Special
highlight default link tkvType Type
highlight default link tkvLock Keyword
highlight default link tkvCall Function
highlight default link tkvNumber Number
highlight default link tkvCharacter Character
highlight default link tkvString String
highlight default link tkvRefusal Exception
highlight default link tkvComment Comment
let b:current_syntax = "takhvoi"
