" Scripts and traces of geomrun. Other files are named *.geom too, as shaders, so the first line that is no comment
" has to be a disk or an actor.
function! s:Detect() abort
  for line in getline(1, 200)
    if line !=# '' && line !~# '^#'
      if line =~# '^\(ram\|disk\) [A-Za-z0-9_-]\{1,16} \(512\|4096\)\( \|$\)' || line =~# '^actor [A-Za-z0-9_-]\{1,16}$'
        set filetype=geomrun
      endif
      return
    endif
  endfor
endfunction

autocmd BufNewFile,BufRead *.geom,*.trace call s:Detect()
