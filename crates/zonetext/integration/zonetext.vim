" Vim compiler file for zone files (RFC 1035 section 5)
" Usage:     :compiler zonetext, then :make for a list of findings, and gg=G to format the file.
"            :make takes options of `zonetext check`. A range that = formats begins and ends with entries.
"            For all zone files, in vimrc: autocmd BufRead,BufNewFile *.zone compiler zonetext

if exists('current_compiler')
  finish
endif
let current_compiler = 'zonetext'

let s:cpo_save = &cpo
set cpo&vim

CompilerSet makeprg=zonetext\ check\ --quiet\ --max\ 0\ --zone-from-name\ $*\ --\ %:S
CompilerSet errorformat=%E%f:%l:%c:\ error:\ %m,%W%f:%l:%c:\ warning:\ %m
CompilerSet errorformat+=%Chelp:\ %m,%Cnote:\ %m,%Ezonetext:\ %m,%-G%.%#
CompilerSet equalprg=zonetext\ fmt

let &cpo = s:cpo_save
unlet s:cpo_save
