autocmd BufNewFile,BufRead *.pbl,*.calls,*.strips setfiletype pabble
