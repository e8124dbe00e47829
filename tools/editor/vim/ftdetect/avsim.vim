" Traces of avsim, and their transcripts.
autocmd BufNewFile,BufRead *.trace setfiletype avsim
autocmd BufNewFile,BufRead *.transcript setfiletype avsimtranscript
