" Sources of Type 1 fonts. A font's file is shown as its source, and is made of it when it is written.
autocmd BufNewFile,BufRead *.t1 set filetype=t1
autocmd BufReadCmd *.pfb,*.pfa call s:read(expand('<amatch>'))
autocmd BufWriteCmd *.pfb,*.pfa call s:write(expand('<amatch>'))

function s:read(file)
  setlocal binary
  silent execute '0read ++enc=latin1 !t1edit disassemble ' .. shellescape(a:file, 1)
  $delete _
  setlocal nobinary fileencoding=latin1 filetype=t1 nomodified
  1
endfunction

" A source with a fault leaves the file as it was, and the buffer as one that isn't saved.
function s:write(file)
  let form = a:file =~? '\.pfa$' ? '--pfa ' : ''
  execute 'write ++enc=latin1 !t1edit assemble ' .. form .. '-o ' .. shellescape(a:file, 1) .. ' -'
  if !v:shell_error
    setlocal nomodified
  endif
endfunction
