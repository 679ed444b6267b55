" Scripts and traces of geomrun: comments, and :make, which tells each fault of the script (geom lint).
if exists('b:did_ftplugin')
  finish
endif
let b:did_ftplugin = 1

setlocal comments=:# commentstring=#\ %s
setlocal makeprg=geom\ lint\ %:S
setlocal errorformat=%f:%l:%c:\ %m,%-G%.%#
let b:undo_ftplugin = 'setlocal comments< commentstring< makeprg< errorformat<'
