" Vim syntax: transcripts of avsim, replies with the notes and rows that stand below them.
if exists("b:current_syntax")
  finish
endif
syntax case match

syntax match avsimDone /^\(ok\|map\|data\|on\|none\|empty\|zero\|frame\|slot\|stat\|runs\|areas\)\>.*$/
syntax match avsimRefused /^\(err\|segv\|oom\|bus\)\>.*$/
syntax match avsimRow /^ .*$/ contains=avsimNote
syntax match avsimNote /^ \zs\(zero\|new\|copy\|load\|map\|put\|unmap\|start\|done\|fail\|drop\|keep\|age\|share\|join\|move\)\>/ contained

highlight default link avsimDone Statement
highlight default link avsimRefused WarningMsg
highlight default link avsimRow Normal
highlight default link avsimNote Type
let b:current_syntax = "avsimtranscript"
