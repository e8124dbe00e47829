" Vim syntax: traces of avsim. A line that has the look of no command is marked as an error; whether
" it is one is for the program to say (./avsim why).
"
"     mkdir -p ~/.vim/pack/avsim/start && ln -s "$PWD/tools/editor/vim" ~/.vim/pack/avsim/start/avsim
if exists("b:current_syntax")
  finish
endif
syntax case match

syntax match avsimBad /^.\+$/
syntax match avsimComment /^#.*$/ contains=@Spell
" words with one space between them, of which the first is a command
syntax match avsimLine /^[a-z]\+\( [^ \t\r]\+\)*$/ contains=avsimName,avsimNumber,avsimProt,avsimWay,avsimAdvice
syntax match avsimName /^[a-z]\+/ contained contains=avsimCommand
syntax keyword avsimCommand contained spawn fork exit mmap munmap mprotect mremap madvise mlock munlock
syntax keyword avsimCommand contained read write maps areas rmap entry stat
syntax keyword avsimCommand contained swapon swapoff slot reclaim age complete merge compact
syntax match avsimNumber / \zs[0-9a-f]\+\ze\( \|$\)/ contained
syntax match avsimProt / \zs[r-][w-][x-]\ze\( \|$\)/ contained
syntax keyword avsimWay contained at fixed noreplace maymove dontunmap prio
syntax keyword avsimAdvice contained dontneed dontfork dofork wipeonfork keeponfork mergeable unmergeable

highlight default link avsimBad Error
highlight default link avsimName Error
highlight default link avsimComment Comment
highlight default link avsimCommand Statement
highlight default link avsimNumber Number
highlight default link avsimProt Type
highlight default link avsimWay Special
highlight default link avsimAdvice Special
let b:current_syntax = "avsim"
