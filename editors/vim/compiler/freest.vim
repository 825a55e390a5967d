" After `:compiler freest`, `:make` checks the file of this buffer by the command `freest`, and lists what is refused with its place.
" The answers name no file, so a line with it stands in front of them.
if exists("current_compiler")
  finish
endif
let current_compiler = "freest"

CompilerSet makeprg=(echo\ file\ %:S;\ freest\ check\ <\ %:S)
CompilerSet errorformat=%-Pfile\ %f,%+Erefused\ %l:%c\ %m,%+Elimit\ %l:%c\ %m,%+Wundecided\ %l:%c\ %m,%-Gaccepted
