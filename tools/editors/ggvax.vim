" Colours of machine descriptions for Vim. Copy it to ~/.vim/syntax, and have `autocmd BufRead *.gg set filetype=ggvax` in ~/.vimrc.
if exists("b:current_syntax")
  finish
endif

syn match ggvaxComment "^\s*#.*$"
syn match ggvaxHead "^\s*\(version\|target\|pool\|class\|spill\|reload\)\>"
syn match ggvaxRule "^\s*\(rule\|each\)\>"
syn match ggvaxLine "^\s*\(if\|do\|give\)\>"
syn match ggvaxHole "%\d\+"
syn match ggvaxHole "%[LFN]\>"
syn match ggvaxLetter "[@^~]"
syn match ggvaxToken "\<[A-Z][A-Za-z]*\>"
syn match ggvaxNumber "\$-\?\d\+"
syn match ggvaxKind "\(^\s*class\s\+\S\+\s\+\)\@<=\(Reg\|Value\|Place\|Con\|Ea\|Nothing\)\>"
syn match ggvaxRestriction "\(^\s*if\s\+\)\@<=\(same\|range\|signed\)\>"
syn match ggvaxGift "\(^\s*give\s\+\)\@<=\(fresh\|reuse\|scratch\|nothing\)\>"

hi def link ggvaxComment Comment
hi def link ggvaxHead PreProc
hi def link ggvaxRule Keyword
hi def link ggvaxLine Statement
hi def link ggvaxHole Identifier
hi def link ggvaxLetter Special
hi def link ggvaxToken Type
hi def link ggvaxNumber Number
hi def link ggvaxKind StorageClass
hi def link ggvaxRestriction Conditional
hi def link ggvaxGift Constant

let b:current_syntax = "ggvax"
