autocmd BufNewFile,BufRead *.fst set filetype=freest
