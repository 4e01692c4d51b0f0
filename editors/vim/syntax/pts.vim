" Syntax of ptsrun's scripts.
if exists("b:current_syntax")
  finish
endif

syntax case match
syntax iskeyword @,48-57,_

syntax match ptsComment "#.*$" contains=ptsTodo,@Spell
syntax keyword ptsTodo TODO FIXME XXX contained

syntax match ptsName "\<\h\w*\>"
syntax match ptsNumber "\d\+"
syntax match ptsOperator "->\|\.\.\|\~=\|[-+*&|^]=\|[=!<>]=\|&&\|||\|[-+*/%&|^!<>=]"

syntax keyword ptsHeader pts
syntax keyword ptsDeclaration const array fn
syntax keyword ptsStart list fill iota step mix
syntax keyword ptsKind i64 u64 bool
syntax keyword ptsTruth true false
syntax keyword ptsBranch if then else
syntax keyword ptsThrow throw
syntax keyword ptsPolicy seq par par_unseq unseq vec
syntax keyword ptsCall for_each transform find_if count_if reduce transform_reduce inclusive_scan exclusive_scan
syntax keyword ptsCall transform_inclusive_scan transform_exclusive_scan print
syntax keyword ptsLoop for_loop task_block run wait vec_off ordered
syntax keyword ptsClause init into to as induct identity let
syntax keyword ptsOperation plus multiplies bit_and bit_or bit_xor min max

highlight default link ptsComment Comment
highlight default link ptsTodo Todo
highlight default link ptsNumber Number
highlight default link ptsOperator Operator
highlight default link ptsHeader PreProc
highlight default link ptsDeclaration Structure
highlight default link ptsStart Keyword
highlight default link ptsKind Type
highlight default link ptsTruth Boolean
highlight default link ptsBranch Conditional
highlight default link ptsThrow Exception
highlight default link ptsPolicy StorageClass
highlight default link ptsCall Statement
highlight default link ptsLoop Repeat
highlight default link ptsClause Keyword
highlight default link ptsOperation Function

let b:current_syntax = "pts"
