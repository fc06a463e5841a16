" The steps in vim with ALE, after the lines of docs/EDITORS.md: `vim -N -u LINES -S ale.vim`.
" The folder PLACE of the environment has `steps`, and a.proto and b.proto below `work`; the file `shown` gets a line for each step.
" ALE shows the diagnostics of a file in the location list of its window.
let s:wanted = json_decode(join(readfile($PLACE . '/steps'), "\n"))

" The diagnostics of a.proto: a list of lines and columns from 0, and texts.
function! s:Shown() abort
  " ALE writes the code before the text of the server, and sorts the list by places.
  return map(getloclist(bufwinid('a.proto')), '[v:val.lnum - 1, v:val.col - 1, substitute(v:val.text, ''^P\d*: '', "", "")]')
endfunction

function! s:Step(name, ...) abort
  for l:act in a:000
    execute l:act
    " What is done to a text in a script is no event for ALE; a key of the user is.
    doautocmd <nomodeline> TextChanged
  endfor
  let l:end = reltime()
  while s:Shown() != s:wanted[a:name] && reltimefloat(reltime(l:end)) < 10
    sleep 50m
  endwhile
  call writefile([json_encode([a:name, s:Shown()])], $PLACE . '/shown', 'a')
endfunction

call s:Step('open', 'edit a.proto', 'split b.proto')
call s:Step('break', '%s/Item/Itm/')
call s:Step('mend', 'undo')
call s:Step('empty', '%d')
call s:Step('fill', 'undo')
call s:Step('rename in b', '%s/Item/Part/')
call s:Step('rename in a', 'wincmd w', '%s/Item/Part/')
call s:Step('close b', 'bdelete! b.proto')
call s:Step('save b', 'split b.proto', '%s/Item/Part/', 'write', 'bdelete')
qall!
