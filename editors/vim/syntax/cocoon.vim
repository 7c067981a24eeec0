" Designs and definitions of cocoon.
if exists('b:current_syntax')
  finish
endif

syntax keyword cocoonDeclaration packet header function assume role host switch refine within ports default define
syntax keyword cocoonStatement let filter havoc fork send
syntax keyword cocoonConditional if else
syntax keyword cocoonOperator and or not
syntax keyword cocoonType bit bool
syntax keyword cocoonConstant true false
syntax keyword cocoonPacket pkt
syntax match cocoonNumber /\<\d\+\(w\(0x\x\+\|\d\+\)\)\?\>/
syntax match cocoonMark /&&&\|\<_\>/
syntax match cocoonComment /\/\/.*$/
syntax region cocoonComment start=/\/\*/ end=/\*\//

highlight default link cocoonDeclaration Keyword
highlight default link cocoonStatement Statement
highlight default link cocoonConditional Conditional
highlight default link cocoonOperator Operator
highlight default link cocoonType Type
highlight default link cocoonConstant Boolean
highlight default link cocoonPacket Identifier
highlight default link cocoonNumber Number
highlight default link cocoonMark Special
highlight default link cocoonComment Comment

let b:current_syntax = 'cocoon'
