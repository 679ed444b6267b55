" Scripts and traces of geomrun, and scripts that have what they expect behind their commands (geom expect).
if exists('b:current_syntax')
  finish
endif

syntax case match
syntax match geomrunError '\s\+$'
syntax match geomrunNumber '\<\d\+\>'
syntax match geomrunCounts '\<r\dw\de\d\>'
syntax match geomrunRun '\<\x\x\*\d\+\>'
syntax match geomrunLater '\<later$'
syntax match geomrunHeader '^\(ram\|disk\|actor\)\ze '
syntax match geomrunCommand contains=geomrunActor
      \ '^[A-Za-z0-9_-]\{1,16} \(open\|close\|read\|write\|delete\|flush\|label\|relabel\|mark\)\>'
syntax match geomrunCommand contains=geomrunActor
      \ '^[A-Za-z0-9_-]\{1,16} \(sync\|settle\|insert\|pull\|nop\|concat\|stripe\|append\|destroy\|mesh\)\>'
syntax match geomrunActor '^[A-Za-z0-9_-]\{1,16}\ze ' contained
syntax match geomrunExpected ' \+= .*$'
syntax match geomrunComment '^#.*$'
syntax match geomrunStep contains=geomrunNumber
      \ '^% \(disk\>\|report$\|\d\+ \(go\|start\|take\|deliver\|up\|event\|judge\|reap\|wash\)\>\)'
syntax match geomrunErrno '\<E[A-Z]\{3,\}\>'

highlight default link geomrunActor Identifier
highlight default link geomrunCommand Statement
highlight default link geomrunComment Comment
highlight default link geomrunCounts Type
highlight default link geomrunErrno Exception
highlight default link geomrunError Error
highlight default link geomrunExpected Special
highlight default link geomrunHeader PreProc
highlight default link geomrunLater PreProc
highlight default link geomrunNumber Number
highlight default link geomrunRun String
highlight default link geomrunStep Statement

let b:current_syntax = 'geomrun'
