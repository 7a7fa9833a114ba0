" Ciderlater's files of declarations: comments, and :make, which calls `ciderlater check`.

if exists('b:did_ftplugin')
  finish
endif
let b:did_ftplugin = 1
let s:cpo = &cpo
set cpo&vim

setlocal comments=:///,:// commentstring=//\ %s
setlocal formatoptions-=t formatoptions+=croql
setlocal makeprg=ciderlater\ check\ %:S
" FILE:LINE:COLUMN: LEVEL: WHY, of which the column and the level may be missing. Without a level it is an error.
setlocal errorformat=%f:%l:%c:\ %trror:\ %m,%f:%l:%c:\ %tarning:\ %m,%f:%l:%c:\ %tote:\ %m,%f:%l:%c:\ %m
setlocal errorformat+=%f:%l:\ %trror:\ %m,%f:%l:\ %tarning:\ %m,%f:%l:\ %tote:\ %m,%f:%l:\ %m

let b:undo_ftplugin = 'setlocal comments< commentstring< formatoptions< makeprg< errorformat<'

let &cpo = s:cpo
unlet s:cpo
