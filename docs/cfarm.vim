" A compiler file for Vim: put it into a folder `compiler` of 'runtimepath' and say `:compiler cfarm`. `:make` then checks the file in the
" buffer, and the quickfix list holds its fault.
if exists("current_compiler")
  finish
endif
let current_compiler = "cfarm"

CompilerSet makeprg=cfarm\ check\ --format\ gcc\ %:S
CompilerSet errorformat=%f:%l:%c:\ %t%*[^:]:\ %m,%f:%l:\ %t%*[^:]:\ %m
