" Writes as JSON, into the file $OUT, the group of each character of each file that Vim was started with; the options for comments and :make;
" and what 'errorformat' makes of the lines of the file $MESSAGES.
" With $FROM_END it begins with the last line, so that Vim has to find out by itself what goes on there.

function! s:Groups(line) abort
  return map(range(strchars(getline(a:line))), 'synIDattr(synID(' . a:line . ', byteidx(getline(' . a:line . '), v:val) + 1, 1), "name")')
endfunction

let s:all = {'files': []}
for s:file in argv()
  execute 'edit' fnameescape(s:file)
  let s:lines = range(1, line('$'))
  if !empty($FROM_END)
    call reverse(s:lines)
  endif
  let s:groups = map(s:lines, 's:Groups(v:val)')
  call add(s:all.files, empty($FROM_END) ? s:groups : reverse(s:groups))
endfor
let s:all.options = [&filetype, &commentstring, &makeprg]
let s:messages = getqflist({'lines': readfile($MESSAGES), 'efm': &errorformat}).items
let s:all.messages = map(s:messages, '[v:val.valid, bufname(v:val.bufnr), v:val.lnum, v:val.col, v:val.type, v:val.text]')
call writefile([json_encode(s:all)], $OUT)
qall!
