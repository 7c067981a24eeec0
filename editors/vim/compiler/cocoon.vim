" `:compiler cocoon`, then `:make` compiles the design NAME.ccn and NAME.defs to the bundle NAME and goes to the fault.
if exists('current_compiler')
  finish
endif
let current_compiler = 'cocoon'

CompilerSet makeprg=cocoon\ compile\ %<.ccn\ %<.defs\ %<
CompilerSet errorformat=language\ %f\ %l:%c\ %m,definitions\ %f\ %l:%c\ %m,definitions\ %f\ %m,line\ %f\ %l\ %m,%-G%.%#
